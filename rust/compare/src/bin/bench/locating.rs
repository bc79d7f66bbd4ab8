//! What the index brings and costs: locating by it beside the plain walk, and the rebalance's index step.
use crate::measure::Figures;
use crate::section::Section;
use crate::CHUNKS;
use compare::states::{alone, case, operate, with_chunks, Case};
use compare::Call;
use model::{Index, Report, Tables};

/// The calls that locate: a stage of a task, or 0 for begin.
const LOCATES: [(u64, &str); 4] = [(1, "1 locate"), (16, "16 locate again"), (22, "22 scan"), (0, "begin")];
/// Live chunks when the measured rebalances begin.
const BEGUN: [usize; 2] = [2, 30];
const STEPS: [&str; 3] = ["swap in", "index", "release"];
const TOP: u64 = u64::MAX;

/// So many live chunks of 16 keys each, the last of 18, the largest key of all among them.
fn to_the_top(count: usize) -> Tables {
    let mut t = with_chunks(count);
    if count == 1 {
        operate(&mut t, 2, 17_000, 17);
    }
    operate(&mut t, 2, TOP, 1);
    assert_eq!((t.chain().count(), t.chunks[t.locate(TOP)].linked().count()), (count, 18));
    t
}

/// A call that locates the largest key, and its tables.
fn locating(stage: u64, count: usize) -> (Tables, Call) {
    let mut t = to_the_top(count);
    let told = match stage {
        1 => t.start(0, 1, TOP, 0, 0),
        16 => t.start(0, 6, TOP, 0, 0),
        22 => t.start(0, 7, TOP, TOP, 0),
        _ => return (t, Call::Begin(TOP)),
    };
    assert_eq!(told, Report::MovedOn);
    while t.tasks[0].is_some_and(|task| task.stage.number() != stage) {
        assert_eq!(t.step(0), Report::MovedOn);
    }
    (t, Call::Step(0))
}

/// The call and the shape alone, on one state.
fn with_alone(name: &str, t: &Tables, call: Call) -> [Case; 2] {
    assert!(t.has_shape());
    [case(name, t.clone(), call), alone("", t)]
}

/// Each call at each number of live chunks: with no row in the index, and with every live chunk's.
pub fn calls() -> Vec<Case> {
    let mut cases = vec![];
    for (stage, name) in LOCATES {
        for count in CHUNKS {
            let (indexed, call) = locating(stage, count);
            assert_eq!(indexed.index, indexed.live_rows());
            let plain = Tables {
                index: Index::default(),
                ..indexed.clone()
            };
            cases.extend(with_alone(name, &plain, call));
            cases.extend(with_alone(name, &indexed, call));
        }
    }
    cases
}

/// A rebalance of the last chunk from swap in on, from either number of live chunks.
pub fn steps() -> Vec<Case> {
    let mut cases = vec![];
    for count in BEGUN {
        let mut t = to_the_top(count);
        let told = [t.begin(TOP), t.rebalance(), t.rebalance()];
        assert_eq!(told, [Report::MovedOn; 3]);
        for name in STEPS {
            cases.extend(with_alone(name, &t, Call::Rebalance));
            assert_ne!(t.rebalance(), Report::Waiting);
        }
    }
    cases
}

// ---- the page

fn calls_table(unit: &str, figures: &[Figures]) {
    println!("| Call | live chunks | plain {unit} | index {unit} | Rust {unit} | plain, beyond the shape | index, beyond | Rust, beyond |");
    println!("|---|---|---|---|---|---|---|---|");
    let rows = LOCATES.iter().flat_map(|(_, name)| CHUNKS.map(|count| (name, count)));
    for ((name, count), f) in rows.zip(figures.chunks_exact(4)) {
        let (plain, index) = (f[0].beyond(f[1]), f[2].beyond(f[3]));
        print!("| {name} | {count} | {:.0} | {:.0} | {:.0} |", f[0].linked, f[2].linked, f[2].model);
        println!(" {:.0} | {:.0} | {:.0} |", plain.linked, index.linked, index.model);
    }
}

/// Beyond the shape, the largest number of live chunks to one.
fn ratios(counts: &[Figures]) {
    println!("| Call | plain, 30 live chunks to 1 | more | index, 30 to 1 | more | Rust, 30 to 1 | more |");
    println!("|---|---|---|---|---|---|---|");
    for ((_, name), f) in LOCATES.iter().zip(counts.chunks_exact(4 * CHUNKS.len())) {
        let last = f.len() - 4;
        let [one, most] = [0, last].map(|i| (f[i].beyond(f[i + 1]), f[i + 2].beyond(f[i + 3])));
        print!("| {name} |");
        for (one, most) in [(one.0.linked, most.0.linked), (one.1.linked, most.1.linked), (one.1.model, most.1.model)] {
            print!(" {:.2} | {:.0} |", most / one, most - one);
        }
        println!();
    }
}

/// What a whole call at stage 1 has of it, at the largest number of live chunks.
fn whole(counts: &[Figures]) {
    let f = &counts[4 * (CHUNKS.len() - 1)..];
    let (plain, index) = (f[0].beyond(f[1]), f[2].beyond(f[3]));
    println!(
        "\nOf a whole call the index changes less: stage 1 at 30 live chunks takes {:.0} instructions with no row and {:.0} with 30. The way to the chunk is shorter by {:.0}, and the check of 30 rows is dearer by {:.0} than that of none.",
        f[0].linked,
        f[2].linked,
        plain.linked - index.linked,
        f[3].linked - f[1].linked
    );
}

pub fn calls_page(section: &Section) {
    println!("\n## Locating\n\nCalls that locate a key: stages 1, 16 and 22, and begin; a fill at stage 23 locates as they do. The key is the largest of all, present in the last chunk of the chain; chunks of 16 keys, the last of 18; the other tasks are idle. The plain walk is the same code on the same tables with no row in the index: such tables have the shape, no row is at or under the key, and so the walk goes from the first live chunk along the whole chain. The index has the rows of all live chunks. The columns are of one run, in turn. Beyond the shape is a call's figure less that of the shape alone (a start refused by 1) on the same tables. The scan is of that key alone, and its step goes on through the 18 entries of the chunk found to the pair. Rust walks the chain with any index; its column is of the tables with all rows.\n");
    calls_table("ns", &section.times);
    let Some(counts) = section.counts.iter().copied().collect::<Option<Vec<Figures>>>() else {
        return;
    };
    println!();
    calls_table("instructions", &counts);
    println!("\nInstructions beyond the shape, at 30 live chunks as a multiple of those at 1, and how many more. The goal is at most 2 by the index.\n");
    ratios(&counts);
    whole(&counts);
}

pub fn steps_page(section: &Section) {
    println!("\n## The index step\n\nBeside swap in and release, of a rebalance of the last chunk, whose 18 keys become two chunks: 2 live chunks become 3, and 30 become 31. Beyond the shape as above.\n");
    println!("| Call | live chunks at begin | Rattle ns | Rust ns | ratio | Rattle instructions | Rust instructions | ratio | Rattle, beyond the shape | Rust, beyond |");
    println!("|---|---|---|---|---|---|---|---|---|---|");
    let rows = BEGUN.iter().flat_map(|count| STEPS.map(|name| (name, count)));
    let figures = section.times.chunks_exact(2).zip(section.counts.chunks_exact(2));
    for ((name, count), (t, c)) in rows.zip(figures) {
        print!("| {name} | {count} | {:.0} | {:.0} | {:.2} |", t[0].linked, t[0].model, t[0].ratio());
        match (c[0], c[1]) {
            (Some(call), Some(alone)) => {
                let more = call.beyond(alone);
                print!(" {:.0} | {:.0} | {:.2} |", call.linked, call.model, call.ratio());
                println!(" {:.0} | {:.0} |", more.linked, more.model);
            }
            _ => println!(" | | | | |"),
        }
    }
}
