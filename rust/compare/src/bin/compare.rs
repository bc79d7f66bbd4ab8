//! Compares the proved calls, through the C boundary, with the second implementation: every report and every word of every table
//! after every call, on random runs from fresh, on damaged tables, on damaged stacks, on damaged indexes and on odd ends of scans.
//! `compare [SEED [CALLS]]`: CALLS of each kind, of the last a quarter, of the archive that is linked or of the program that
//! KAMRDUCH_LEND names.
use compare::damage::{any_call, damage, gentle, place};
use compare::indexes::{self, has_retired, located, locating_call, of_retired, stood, to_locate, STOOD};
use compare::runs::{filling, habit, next_call, odd_call, run_keys};
use compare::stacks::{change, scan_down, WAYS};
use compare::states::{amid_rebalances, scans_down};
use compare::{ends, model_call, Call, Chance, Host};
use model::words::{blank, Words, INDEX, INDEX_WORDS, LENGTHS, NONE, TASK_ROWS};
use model::{Report, Tables, ENTRIES, TASKS};

/// How often each thing was met.
#[derive(Default)]
struct Met {
    calls: u64,
    reports: [u64; 13],
    refusals: [u64; 11],
    stages: [u64; 24],
    /// puts and removes that answered a value, and absent
    former: [[u64; 2]; 2],
    /// calls that located, by how the index stood to their key
    located: [u64; STOOD.len()],
    ends: ends::Met,
}

impl Met {
    fn count(&mut self, [stage, operation]: [u64; 2], told: (u64, u64, u64)) {
        self.calls += 1;
        self.reports[told.0 as usize] += 1;
        if told.0 == 0 {
            self.refusals[told.1 as usize] += 1;
        }
        if stage < 24 {
            self.stages[stage as usize] += 1;
        }
        if matches!((operation, told.0), (2 | 6, 6 | 7)) {
            self.former[(operation == 6) as usize][told.0 as usize - 6] += 1;
        }
    }

    fn print(&self, what: &str) {
        println!("{what}: {} calls, all the same", self.calls);
        println!("  by report 0 to 12: {:?}", self.reports);
        println!("  by refusal 1 to 10: {:?}", &self.refusals[1..]);
        println!("  steps by stage 1 to 23: {:?}", &self.stages[1..]);
        for (what, [value, absent]) in ["puts", "removes"].iter().zip(self.former) {
            println!("  {what}: {value} answered a value, {absent} absent");
        }
        self.ends.print();
        for (how, count) in STOOD.iter().zip(self.located) {
            println!("  located through an index that was {how}: {count}");
        }
    }
}

const UNTOLD: u64 = 0xdead_beef;

/// Both sides of one call: the linked one's words, and the second implementation's tables where the words are tables.
struct Pair {
    words: Words,
    tables: Option<Tables>,
    before: Words,
    theirs: Words,
}

fn differ(seed: u64, call: Call, what: &str, pair: &Pair) -> ! {
    eprintln!("differ: seed {seed}, {call:?}: {what}");
    for (t, name) in ["directory", "tasks", "chunks", "entries", "values", "marks"].iter().enumerate() {
        let (before, linked, model) = (&pair.before[t], &pair.words[t], &pair.theirs[t]);
        for i in 0..before.len() {
            if linked[i] != model[i] {
                eprintln!("  {name}[{i}]: before {}, linked {}, model {}", before[i], linked[i], model[i]);
            }
        }
    }
    let (row, index) = pair.before[0].split_at(INDEX.min(pair.before[0].len()));
    eprintln!("  directory {row:?}");
    for row in index.chunks(INDEX_WORDS) {
        eprintln!("  index {row:?}");
    }
    let (rows, stacks) = pair.before[1].split_at(TASK_ROWS.min(pair.before[1].len()));
    for row in rows.chunks(11) {
        eprintln!("  task {row:?}");
    }
    for stack in stacks.chunks(ENTRIES) {
        eprintln!("  stack {stack:?}");
    }
    for row in pair.before[2].chunks(6) {
        eprintln!("  chunk {row:?}");
    }
    std::process::exit(1)
}

fn copy(to: &mut Words, from: &Words) {
    for (t, f) in to.iter_mut().zip(from) {
        t.clone_from(f);
    }
}

impl Pair {
    fn of(words: &Words) -> Pair {
        Pair {
            words: words.clone(),
            tables: Tables::from_words(words),
            before: words.clone(),
            theirs: words.clone(),
        }
    }

    /// One call on both sides; stops the program where they differ.
    fn call(&mut self, host: &mut Host, seed: u64, call: Call, met: &mut Met) -> Report {
        copy(&mut self.before, &self.words);
        let work = match call {
            Call::Step(n) if n < TASKS as u64 && self.words[1].len() == LENGTHS[1] => [0, 1].map(|i| self.words[1][n as usize * 11 + i]),
            _ => [NONE; 2],
        };
        let mut answer = [UNTOLD; 2];
        let number = host.call(&mut self.words, call, &mut answer);
        let lent = self.words.iter().zip(LENGTHS).all(|(t, n)| t.len() == n);
        let report = match (call, &mut self.tables) {
            (Call::Fresh, tables) if lent => model_call(tables.insert(Tables::fresh()), call),
            (_, Some(tables)) => model_call(tables, call),
            (_, None) => Report::Refused(10),
        };
        match &self.tables {
            Some(tables) => tables.to_words(&mut self.theirs),
            None => copy(&mut self.theirs, &self.before),
        }
        let told = report.told();
        if (number, answer[0], answer[1]) != told {
            differ(
                seed,
                call,
                &format!("reports: linked {:?}, model {told:?}", (number, answer[0], answer[1])),
                self,
            );
        }
        if self.words != self.theirs {
            differ(seed, call, "tables", self);
        }
        self.left_alone(seed, call, report);
        met.count(work, told);
        met.ends.count(&self.before, call, told);
        if let Some(key) = located(&self.before, call, report) {
            met.located[stood(&self.before, key)] += 1;
        }
        report
    }

    /// A refused call leaves every word as found, save 9, which clears its task's row.
    fn left_alone(&self, seed: u64, call: Call, report: Report) {
        let Report::Refused(n) = report else { return };
        let mut left = self.before.clone();
        if let (9, Call::Step(n)) = (n, call) {
            left[1][n as usize * 11..n as usize * 11 + 11].copy_from_slice(&[0, 0, 0, 0, 0, NONE, NONE, NONE, NONE, 0, 0]);
        }
        if left != self.words {
            differ(seed, call, "a refused call changed a word", self);
        }
    }

    /// An answer that is not of two words: 0, and nothing changes.
    fn untold(&mut self, host: &mut Host, seed: u64, call: Call, length: usize) {
        copy(&mut self.before, &self.words);
        copy(&mut self.theirs, &self.words);
        let mut answer = vec![UNTOLD; length];
        let number = host.call(&mut self.words, call, &mut answer);
        if number != 0 || self.words != self.before || answer.iter().any(|&w| w != UNTOLD) {
            differ(seed, call, "an answer of another length", self);
        }
    }
}

/// Random runs from fresh; some of the states that they reach are kept.
fn fresh_runs(host: &mut Host, seed: u64, calls: u64, met: &mut Met) -> Vec<Words> {
    let mut reached = Vec::new();
    let mut r = Chance::new(seed);
    let mut runs = 0;
    while met.calls < calls {
        let mut pair = Pair::of(&blank());
        pair.call(host, seed, Call::Fresh, met);
        let (mut keys, odd) = (run_keys(&mut r), if r.once_in(2) { 50 } else { usize::MAX });
        let (mut habit_now, mut full) = (habit(&mut r), None);
        let fills = runs % 4 == 1;
        runs += 1;
        if fills {
            keys = (0..620).map(|_| r.word()).collect();
            habit_now = filling();
            if runs % 8 == 2 {
                keys.sort();
            }
        }
        for n in 0..if fills { 14000 } else { r.of(&[500, 4000, 12000]) } {
            if n % 250 == 0 && !(fills && n < 10000) {
                habit_now = habit(&mut r);
            }
            let call = if r.once_in(odd) {
                odd_call(&mut r, &keys)
            } else {
                next_call(&mut r, &pair.words, &keys, &mut habit_now, full.take())
            };
            let key = if let Call::Step(t @ 0..=7) = call {
                pair.words[1][t as usize * 11 + 3]
            } else {
                0
            };
            let report = pair.call(host, seed, call, met);
            if report == Report::Restarted(model::Restart::Full) && (fills || r.once_in(3)) {
                full = Some(key);
            }
            if report == Report::Refused(10) {
                differ(seed, call, "refused by 10 in a run from fresh", &pair);
            }
            if r.once_in(400) {
                assert_eq!(Tables::from_words(&pair.words), pair.tables, "the words are the tables");
                reached.push(pair.words.clone());
                pair.untold(host, seed, call, r.of(&[0, 1, 3, 4]));
            }
        }
    }
    reached
}

/// Damaged states: one to twenty words of a reached state set anew, or a slice of another length; then up to eight calls.
fn damaged(host: &mut Host, seed: u64, calls: u64, reached: &[Words], met: &mut Met) -> u64 {
    let mut r = Chance::new(seed ^ 0x5eed);
    let mut passed = 0;
    while met.calls < calls {
        let mut w = reached[r.below(reached.len())].clone();
        for _ in 0..r.of(&[1, 1, 1, 2, 3, 5, 20]) {
            if r.once_in(2) {
                gentle(&mut r, &mut w);
            } else {
                let (t, i) = place(&mut r, &w);
                w[t][i] = damage(&mut r, w[t][i]);
            }
        }
        if r.once_in(12) {
            let t = r.below(6);
            let n = r.of(&[0, 1, LENGTHS[t] - 1, LENGTHS[t] + 1, LENGTHS[t] * 2, LENGTHS[(t + 1) % 6], TASK_ROWS, INDEX]);
            w[t].resize(n, 0);
        }
        passed += calls_on(host, seed, &mut r, &w, any_call, met);
    }
    passed
}

/// Up to eight calls on the words, fewer where one is refused by 10; how many were not.
fn calls_on(host: &mut Host, seed: u64, r: &mut Chance, w: &Words, next: fn(&mut Chance, &Words) -> Call, met: &mut Met) -> u64 {
    let (mut pair, mut passed) = (Pair::of(w), 0);
    for _ in 0..1 + r.below(8) {
        let call = next(r, &pair.words);
        if r.once_in(50) {
            pair.untold(host, seed, call, r.of(&[0, 1, 3, 1000]));
        }
        let report = pair.call(host, seed, call, met);
        passed += (report != Report::Refused(10)) as u64;
        if report == Report::Refused(10) && call != Call::Fresh {
            break;
        }
    }
    passed
}

/// Stacks, as they are reached and damaged: a state with tasks that scan down, one of their stacks changed in one way or in none; then up
/// to eight calls. How many states of each way there were, and how many had the shape.
fn stacked(host: &mut Host, seed: u64, calls: u64, reached: &[Words], met: &mut Met) -> [(u64, u64); WAYS + 1] {
    let mut r = Chance::new(seed ^ 0x57ac);
    let mut ways = [(0, 0); WAYS + 1];
    let scans = scans_down().map(|t| {
        let mut words = blank();
        t.to_words(&mut words);
        words
    });
    while met.calls < calls {
        let (mut w, mut n) = (scans[r.below(scans.len())].clone(), 1 + r.below(TASKS - 1));
        if r.once_in(2) {
            w = reached[r.below(reached.len())].clone();
            n = scan_down(&mut r, &mut w);
            scan_down(&mut r, &mut w);
        }
        let way = r.below(WAYS + 1);
        change(&mut r, &mut w, n, way);
        let passed = calls_on(host, seed, &mut r, &w, any_call, met);
        ways[way].0 += 1;
        ways[way].1 += (passed > 0) as u64;
    }
    ways
}

/// Indexes, as they are reached and damaged: a state with tasks that come to locate, its index changed in one way or in none; then up to
/// eight calls. How many states of each way there were, and how many had the shape.
fn indexed(host: &mut Host, seed: u64, calls: u64, reached: &[Words], met: &mut Met) -> Vec<(u64, u64)> {
    let mut r = Chance::new(seed ^ 0x1dec);
    let mut ways = vec![(0, 0); indexes::WAYS.len() + 1];
    let chosen: Vec<Words> = amid_rebalances()
        .iter()
        .map(|t| {
            let mut words = blank();
            t.to_words(&mut words);
            words
        })
        .collect();
    while met.calls < calls {
        let way = r.below(ways.len());
        let from = if r.once_in(2) { reached } else { &chosen };
        let mut w = from[r.below(from.len())].clone();
        if of_retired(way) && !has_retired(&w) {
            continue;
        }
        for _ in 0..1 + r.below(4) {
            to_locate(&mut r, &mut w);
        }
        indexes::change(&mut r, &mut w, way);
        let passed = calls_on(host, seed, &mut r, &w, locating_call, met);
        ways[way].0 += 1;
        ways[way].1 += (passed > 0) as u64;
    }
    ways
}

/// Ends of scans, such as a start is given and such as none is: a state with tasks that scan so; then up to eight calls. How many states
/// there were, and how many had the shape.
fn ended(host: &mut Host, seed: u64, calls: u64, reached: &[Words], met: &mut Met) -> (u64, u64) {
    let mut r = Chance::new(seed ^ 0xe2d5);
    let (mut states, mut shaped) = (0, 0);
    while met.calls < calls {
        let mut w = reached[r.below(reached.len())].clone();
        ends::to_scan(&mut r, &mut w);
        states += 1;
        shaped += (calls_on(host, seed, &mut r, &w, ends::scanning_call, met) > 0) as u64;
    }
    (states, shaped)
}

fn main() {
    let mut args = std::env::args().skip(1).map(|a| a.parse::<u64>().expect("compare [SEED [CALLS]]"));
    let (seed, calls) = (args.next().unwrap_or(1), args.next().unwrap_or(220_000));
    let (mut host, mut met) = (Host::from_env(), Met::default());
    let reached = fresh_runs(&mut host, seed, calls, &mut met);
    met.print("random runs from fresh");
    println!("  states kept: {}", reached.len());
    let mut met = Met::default();
    let passed = damaged(&mut host, seed, calls, &reached, &mut met);
    met.print("damaged tables");
    println!("  with the shape: {passed}");
    let mut met = Met::default();
    let ways = stacked(&mut host, seed, calls, &reached, &mut met);
    met.print("stacks, damaged in each way and in none");
    println!("  states of each way, and with the shape: {ways:?}");
    let mut met = Met::default();
    let ways = indexed(&mut host, seed, calls, &reached, &mut met);
    met.print("indexes, damaged in each way and in none");
    for (what, (states, shaped)) in indexes::WAYS.iter().chain(&["as it was"]).zip(ways) {
        println!("  {what}: {states} states, {shaped} with the shape");
    }
    let mut met = Met::default();
    let (states, shaped) = ended(&mut host, seed, calls / 4, &reached, &mut met);
    met.print("odd ends of scans");
    println!("  {states} states, {shaped} with the shape");
}
