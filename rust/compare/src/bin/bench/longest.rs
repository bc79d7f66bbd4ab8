//! The longest masked time: its states, its table, and what the page's figures come to.
use crate::measure::{to_words, Figures};
use crate::section::Section;
use compare::spread::spread;
use compare::states::{all_stages, alone, at_stage, busy, busy_down, case, filled, heavy, long_lists, Case, SHAPE, STAGES};
use compare::Call;
use model::{Stage, Tables, CHUNKS, ENTRIES};

pub const TAKE_HANDLE: &str = STAGES[Stage::TakeHandle as usize];
pub const WRITE: &str = STAGES[Stage::Write as usize];
/// How many states are drawn.
const DRAWN: u64 = 25;

/// The shape alone and then steps at the stages, on one state.
fn variant(more: &str, t: &Tables, stages: &[Stage]) -> Vec<Case> {
    let step = |&stage: &Stage| {
        let name = format!("{}, {more}", STAGES[stage as usize]);
        case(&name, at_stage(t, stage), Call::Step(0))
    };
    std::iter::once(alone(&format!(", {more}"), t)).chain(stages.iter().map(step)).collect()
}

/// The shape alone and stage 8, each time on another state in which the entries that name a handle are drawn at random.
fn drawn() -> Vec<Case> {
    let states: Vec<Tables> = (0..DRAWN).map(spread).collect();
    let more = |c: Case, of: &dyn Fn(&Tables) -> Tables| c.with_more(states[1..].iter().map(of));
    let name = "named at random, each time anew";
    let taking = |t: &Tables| at_stage(t, Stage::TakeHandle);
    vec![
        more(alone(&format!(", {name}"), &states[0]), &Tables::clone),
        more(case(&format!("{TAKE_HANDLE}, {name}"), taking(&states[0]), Call::Step(0)), &taking),
    ]
}

/// Every stage in the longest state, and stage 8 in others; the shape alone stands above the calls of each state.
pub fn cases() -> Vec<Case> {
    let rebalances = busy(long_lists(30, 559));
    let mut cases = all_stages(&busy(heavy()), &rebalances);
    assert_eq!(filled(&cases), 32);
    let begin = cases.iter().position(|c| c.name == "begin").expect("begin");
    cases.insert(begin, alone(", 30 live chunks", &rebalances));
    let take = [Stage::TakeHandle];
    cases.extend(variant("seven stacks of 32", &busy_down(heavy()), &[Stage::TakeHandle, Stage::ScanDown]));
    cases.extend(drawn());
    cases.extend(variant("31 live and none retired", &busy(long_lists(31, 559)), &take));
    let none_free = busy(long_lists(31, 560));
    cases.push(alone(", the same, none free", &none_free));
    let name = format!("{TAKE_HANDLE}, the same, none free (refused by 9)");
    cases.push(case(&name, at_stage(&none_free, Stage::TakeHandle), Call::Step(0)));
    cases
}

/// The row of the largest figure.
fn largest(all: &[Section], figure: impl Fn(&Section, usize) -> Option<f64>) -> Option<(f64, &Section, usize)> {
    let rows = all.iter().flat_map(|section| (0..section.cases.len()).map(move |row| (section, row)));
    let figures = rows.filter_map(|(section, row)| Some((figure(section, row)?, section, row)));
    figures.max_by(|a, b| a.0.total_cmp(&b.0))
}

/// The longest call and how it stands to the shape alone on its state, by time and by instructions.
fn longest_call(all: &[Section]) {
    let said = |by: &str, unit: &str, (most, section, row): (f64, &Section, usize), to: f64| {
        let name = section.named(row);
        println!("- The longest masked call of all by {by} is {name}: {most:.0} {unit}, {to:.2} times the shape alone on that state.");
    };
    if let Some(found) = largest(all, |section, row| Some(section.times[row].linked)) {
        let (_, section, row) = found;
        said("Rattle's time", "ns", found, section.runs[row].to(&section.runs[section.alone(row)]));
    }
    if let Some(found) = largest(all, |section, row| Some(section.counts[row]?.linked)) {
        let (most, section, row) = found;
        let shape = section.counts[section.alone(row)].map_or(f64::NAN, |n| n.linked);
        said("Rattle's instructions", "instructions", found, most / shape);
    }
    let to_alone = |section: &Section, row: usize| Some(section.runs[row].to(&section.runs[section.alone(row)]));
    if let Some((most, section, row)) = largest(all, to_alone) {
        println!(
            "- No call takes more than {most:.2} times the shape alone on its state, by time: {}. The goal is at most 1.5.",
            section.named(row)
        );
    }
}

/// How the check of the shape stands to the pass.
fn to_the_pass(all: &[Section]) {
    let said = |section: &Section| {
        let counted = section
            .count(SHAPE)
            .map_or(String::new(), |n| format!(" and {:.2} times its instructions", n.to_the_pass()));
        format!(
            "{:.2} times its time{counted} {}",
            section.runs(SHAPE).ratio(Figures::to_the_pass),
            section.place
        )
    };
    println!("- The whole check of the shape to the pass: {}, {}.", said(&all[0]), said(&all[1]));
    let [first, second] = [&all[0], &all[1]].map(|section| to_words(&section.cases[0]));
    println!("- To a pass that takes one word at a time, the same loop without vectors: {first:.2} times its time at 100 keys, {second:.2} times in the longest state.");
}

/// What the figures of the sections by stage come to.
fn lines(all: &[Section]) {
    longest_call(all);
    let longest = &all[1];
    if let (Some(take), Some(write)) = (longest.count(TAKE_HANDLE), longest.count(WRITE)) {
        println!(
            "- Stage 8 takes {:.0} instructions {}, {:.2} times stage 9's {:.0}. The goal is at most 1.5.",
            take.linked,
            longest.place,
            take.linked / write.linked,
            write.linked
        );
    }
    let takes = |section: &Section, row: usize| {
        section.cases[row]
            .name
            .starts_with(TAKE_HANDLE)
            .then(|| section.runs[row].ratio(Figures::ratio))
    };
    if let Some((ratio, section, row)) = largest(all, takes) {
        println!(
            "- The largest ratio of Rattle to Rust, by time, of any call at stage 8 is {ratio:.2}: {}.",
            section.named(row)
        );
    }
    to_the_pass(all);
}

/// The section; all sections by stage, for what they come to.
pub fn page(all: &[Section]) {
    println!("\n## The longest masked time\n\nOne call is one masked time. Every part of a call's cost grows with the used entries, the linked ones, the live chunks, the tasks at work and the place of what is sought, so the state has them all at their most: 31 live chunks and a retired one that waits for its release, each list of 32 linked entries and the last chunk's of 31; 559 keys present, in the chunks of the highest numbers, the other entries naming none after a remove; seven tasks at stage 5, each at the end of a list of 32; task 0 works at the end of the last chunk, and its downward scan's fill takes 32 entries. For the rebalance 30 chunks are live, and it takes the last. Three lines more have the seven tasks at stage 23 instead, each with a list of 32 on its stack. Then stage 8 with the entries that name a handle drawn at random over all {} rows, all handles but one named as before and the rest as full, each call on the next of {DRAWN} such states, so that no branch can be foreseen (the instructions are of the first); and with no retired chunk, 559 and 560 keys present. The shape alone of each state stands above its lines. The states are reached by puts in ascending order with a rebalance of each full chunk, then removes, and puts and removes of keys between them.\n", CHUNKS * ENTRIES);
    all[1].table();
    println!();
    lines(all);
}
