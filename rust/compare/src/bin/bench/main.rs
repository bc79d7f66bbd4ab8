//! Measures the linked calls beside the second implementation and one pass over the words, and prints docs/BENCHMARKS.md.
//! `bench` measures times, and instructions by running itself once under callgrind; `bench --once` makes each measured call once.
mod locating;
mod longest;
mod measure;
mod said;
mod section;

use compare::states::{all_stages, filled, operate, with_chunks, with_keys, Case};
use compare::Call;
use measure::{instructions, measure, measure_beside, once, Figures, Runs, RUNS};
use model::words::{blank, LENGTHS};
use model::Report;
use section::Section;

const CHUNKS: [usize; 6] = [1, 2, 4, 8, 16, 30];
/// The sections by stage, the first of all: at 100 keys, the longest state, and by the number of live chunks.
const BY_STAGE: usize = 2 + CHUNKS.len();

/// Every section's place and cases.
fn sections() -> Vec<(String, Vec<Case>)> {
    let (hundred, _) = with_keys(100);
    let mut all = vec![
        ("at 100 keys".to_string(), all_stages(&hundred, &hundred)),
        ("in the longest state".to_string(), longest::cases()),
    ];
    for n in CHUNKS {
        let t = with_chunks(n);
        let live = if n == 1 { "live chunk" } else { "live chunks" };
        all.push((format!("at {n} {live}"), all_stages(&t, &t)));
    }
    all.push(("locating".to_string(), locating::calls()));
    all.push(("in a rebalance".to_string(), locating::steps()));
    all
}

/// The instructions of all cases by one run, then the times of each section.
fn measured(all: Vec<(String, Vec<Case>)>) -> Vec<Section> {
    let count = all.iter().map(|(_, cases)| cases.len()).sum();
    let mut counted = instructions(count).unwrap_or_default().into_iter();
    let figures = |(place, cases): (String, Vec<Case>)| {
        let runs = measure_beside(&cases, 100);
        Section {
            place,
            times: runs.iter().map(Runs::medians).collect(),
            runs,
            counts: cases.iter().map(|_| counted.next()).collect(),
            cases,
        }
    };
    all.into_iter().map(figures).collect()
}

fn head() {
    println!("# Figures\n");
    println!("Made by `tests/bench.sh` in one run, on {} with two cores. Rattle is the archive of `crates/host_c` that `tests/archive.sh` makes (LLVM at -O3), called through the C boundary; Rust is `rust/model`, the second implementation, built for release (opt-level 3). Both check the shape in every call, that each number lies in its table included; that a mark, a status or a stage is one of its kind is part of Rattle's check, and Rust's typed structs have it for nothing. It is the same program in the rules that it follows, not line for line: an earlier second implementation, with numbers that its types kept in their tables, walked fuller tables with fewer instructions (Rattle 1.17 times as many in the longest state, in 0.71 of its time). The pass is `tests/pass.c`, a loop in C at -O3 that goes over the same {} words of the six tables once and only sums them: a limit for a call that looks at every word. A time is the median of {RUNS} runs, the calls of a section and the sides in turn within each, and a run's is the median of 100 calls, each on the same state restored before it; a ratio is Rattle to Rust, below 1 where Rattle is faster, and is the median of the runs' own. Instructions are callgrind's, of one call.\n", std::env::consts::ARCH, LENGTHS.iter().sum::<usize>());
}

fn hundred(section: &Section) {
    println!("## A call of each stage\n\n100 keys present, put in random order; the other tasks are idle; the task works on the last key of the last chunk. The downward scan's fill takes the {} entries of the longest list.\n", filled(&section.cases));
    section.table();
}

/// Their names, numbers and arguments.
const OPERATIONS: [(&str, u64, u64); 5] = [
    ("get", 1, 0),
    ("put", 2, 1),
    ("remove", 6, 0),
    ("full scan", 7, u64::MAX),
    ("full scan down", 8, u64::MAX),
];

/// Whole operations at so many present keys: the start and every step to the end, over some keys.
fn operations() {
    println!("\n## Whole operations\n\nThe start and every step to the end, nobody else at work, over nine present keys (10, 100 and 500 keys put in random order). Put finds its key. A full scan is of all keys, upward and downward.\n");
    println!("| Operation | present keys | calls | Rattle ns | Rust ns | ratio |");
    println!("|---|---|---|---|---|---|");
    for count in [10, 100, 500] {
        let (tables, keys) = with_keys(count);
        let mut words = blank();
        tables.to_words(&mut words);
        for (name, op, argument) in OPERATIONS {
            let sample: Vec<u64> = if op >= 7 { vec![0] } else { keys.iter().copied().take(9).collect() };
            let calls: u64 = sample.iter().map(|&k| operate(&mut tables.clone(), op, k, argument)).sum::<u64>() / sample.len() as u64;
            let mut at = 0;
            let runs = measure(&tables, &words, if op >= 7 { 18 } else { 90 }, |call| {
                let key = sample[at % sample.len()];
                at += 1;
                call(Call::Start(0, op, key, argument, 1));
                while call(Call::Step(0)) == Report::MovedOn {}
            });
            print!("| {name} | {count} | {calls} |");
            let figures = runs.medians();
            println!(" {:.0} | {:.0} | {:.2} |", figures.linked, figures.model, runs.ratio(Figures::ratio));
        }
    }
}

fn growth(all: &[Section]) {
    println!("\n## With the number of live chunks\n\nChunks of 16 keys, put in ascending order; the other tasks are idle. Rattle's nanoseconds (ratio to Rust); its thousands of instructions (ratio).\n");
    println!("| Call | {} |", CHUNKS.map(|n| format!("{n}")).join(" | "));
    println!("|---|{}", "---|".repeat(CHUNKS.len()));
    for (row, c) in all[0].cases.iter().enumerate() {
        print!("| {} |", c.name);
        for section in all {
            let t = section.times[row];
            print!(" {:.0} ({:.2})", t.linked, section.runs[row].ratio(Figures::ratio));
            match section.counts[row] {
                Some(n) => print!("; {:.1}k ({:.2}) |", n.linked / 1000.0, n.ratio()),
                None => print!(" |"),
            }
        }
        println!();
    }
}

fn main() {
    let all = sections();
    if std::env::args().any(|a| a == "--once") {
        return once(all.iter().flat_map(|(_, cases)| cases));
    }
    let all = measured(all);
    head();
    hundred(&all[0]);
    operations();
    longest::page(&all[..BY_STAGE]);
    growth(&all[2..BY_STAGE]);
    locating::calls_page(&all[BY_STAGE]);
    locating::steps_page(&all[BY_STAGE + 1]);
    said::page(&all[0], &all[1]);
}
