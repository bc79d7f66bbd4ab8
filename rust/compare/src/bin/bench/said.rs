//! What the figures say, in sentences.
use crate::longest::{TAKE_HANDLE, WRITE};
use crate::measure::{median, timed, RUNS};
use crate::section::Section;
use compare::states::SHAPE;
use model::Tables;
use std::hint::black_box;

/// What the check of the shape is of a call, and how the stages stand to each other.
fn stages(hundred: &Section) {
    let [Some(shape), Some(up), Some(off), Some(fill)] = [SHAPE, "22", "23 scan down, one off", "23 scan down, a fill"].map(|name| hundred.count(name)) else {
        return;
    };
    println!("The check of the shape is nearly all of a call: {:.0} of {:.0} instructions of a scan's step at 100 keys. So the stages cost nearly the same, save stage 8, which costs a pass over the used entries more, and they grow with the used entries and the live chunks as the check does. Rattle's check also tests what Rust's types rule out: 560 marks, every status, stage and flag.\n", shape.linked, up.linked);
    println!("A full scan down takes one call more than one upward, and its steps cost the same: {:.0} instructions where it takes an entry off and {:.0} where it fills its stack, beside {:.0} of an upward step. Document 000 finds descending scans to be where other designs lose most.\n", off.linked, fill.linked, up.linked);
}

/// What a Rust program that is lent the words has to do before it has typed structs.
fn lent(hundred: &Section, longest: &Section) {
    let [first, second] = [hundred, longest].map(|section| {
        let words = &section.cases[0].words;
        let checks = || assert!(black_box(Tables::from_words(words)).is_some_and(|t| t.has_shape()));
        median((0..RUNS).map(|_| timed(100, |_| (), checks)).collect())
    });
    println!("A Rust program that is lent the same words has to test that too: `Tables::from_words` and then the shape take {first:.0} ns at 100 keys and {second:.0} ns in the longest state, Rattle's whole check {:.0} and {:.0}.\n", hundred.time(SHAPE).linked, longest.time(SHAPE).linked);
}

/// What stage 8 takes beyond stage 9.
fn take_handle(hundred: &Section, longest: &Section) {
    let more = |section: &Section| Some(section.count(TAKE_HANDLE)?.beyond(section.count(WRITE)?));
    if let (Some(first), Some(second)) = (more(hundred), more(longest)) {
        let ns = longest.time(TAKE_HANDLE).beyond(longest.time(WRITE));
        println!("Stage 8 goes over the used entries and the tasks once, strikes off every handle that one of them names, and takes the lowest left. Beyond stage 9, which comes after it and only writes a value, that takes {:.0} instructions at 100 keys and {:.0} in the longest state, there {:.0} ns; Rust's, which does the same, takes {:.0}, {:.0} and {:.0} ns.", first.linked, second.linked, ns.linked, first.model, second.model, ns.model);
    }
}

pub fn page(hundred: &Section, longest: &Section) {
    println!("\n## What they say\n");
    stages(hundred);
    lent(hundred, longest);
    take_handle(hundred, longest);
}
