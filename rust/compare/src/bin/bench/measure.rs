//! Measuring: nanoseconds of the sides in turn, and instructions by callgrind.
use compare::states::Case;
use compare::{linked_call, model_call, Call};
use model::words::Words;
use model::{Report, Tables};
use std::hint::black_box;
use std::process::Command;
use std::time::Instant;

pub const RUNS: usize = 11;

/// Of Rattle's call, of Rust's, and of one pass over the words.
#[derive(Clone, Copy)]
pub struct Figures {
    pub linked: f64,
    pub model: f64,
    pub pass: f64,
}

impl Figures {
    /// The same made of each side.
    pub fn each(of: impl Fn(fn(&Figures) -> f64) -> f64) -> Figures {
        Figures {
            linked: of(|f| f.linked),
            model: of(|f| f.model),
            pass: of(|f| f.pass),
        }
    }

    /// What a call takes beyond another.
    pub fn beyond(self, other: Figures) -> Figures {
        Figures::each(|side| side(&self) - side(&other))
    }

    /// Rattle to Rust.
    pub fn ratio(&self) -> f64 {
        self.linked / self.model
    }

    /// Rattle to the pass.
    pub fn to_the_pass(&self) -> f64 {
        self.linked / self.pass
    }
}

type Pass = unsafe extern "C" fn(*const *const u64, *const usize) -> u64;

extern "C" {
    /// `tests/pass.c`: the sum of all words.
    fn pass_over(tables: *const *const u64, lengths: *const usize) -> u64;
    /// The same, compiled so that it takes one word at a time.
    fn pass_by_words(tables: *const *const u64, lengths: *const usize) -> u64;
}

fn sum(w: &Words, by: Pass) -> u64 {
    let (tables, lengths) = (w.each_ref().map(|table| table.as_ptr()), w.each_ref().map(|table| table.len()));
    // each pointer comes from a Vec of its length
    black_box(unsafe { by(tables.as_ptr(), lengths.as_ptr()) })
}

#[no_mangle]
#[inline(never)]
pub extern "C" fn measured_linked(w: &mut Words, call: &Call, answer: &mut [u64; 2]) -> u64 {
    let number = linked_call(w, *call, answer);
    black_box(answer);
    number
}

#[no_mangle]
#[inline(never)]
pub extern "C" fn measured_model(t: &mut Tables, call: &Call, answer: &mut [u64; 2]) -> u64 {
    let (number, first, second) = model_call(t, *call).told();
    *answer = [first, second];
    black_box(answer);
    number
}

#[no_mangle]
#[inline(never)]
pub extern "C" fn measured_pass(w: &Words) -> u64 {
    sum(w, pass_over)
}

/// Under callgrind, writes the counts since the last mark to a file of their own (valgrind's client request for it); else does nothing.
fn mark() {
    const DUMP_STATS: u64 = 0x4354_0000;
    let ask = [DUMP_STATS, 0, 0, 0, 0, 0];
    // the sequence does nothing on the machine itself
    #[cfg(target_arch = "aarch64")]
    unsafe {
        std::arch::asm!(
            "ror x12, x12, #3", "ror x12, x12, #13", "ror x12, x12, #51", "ror x12, x12, #61", "orr x10, x10, x10",
            in("x4") ask.as_ptr(), inout("x3") 0u64 => _,
        );
    }
    #[cfg(target_arch = "x86_64")]
    unsafe {
        std::arch::asm!(
            "rol rdi, 3", "rol rdi, 13", "rol rdi, 61", "rol rdi, 51", "xchg rbx, rbx",
            in("rax") ask.as_ptr(), inout("rdx") 0u64 => _,
        );
    }
}

pub fn median(mut xs: Vec<f64>) -> f64 {
    xs.sort_by(f64::total_cmp);
    xs[xs.len() / 2]
}

/// Nanoseconds of what is timed, the median of so many times, a clock's reading taken off; `ready` comes before each, with its number.
pub fn timed(times: usize, mut ready: impl FnMut(usize), mut run: impl FnMut()) -> f64 {
    let (mut spent, mut clock) = (vec![], vec![]);
    for i in 0..times {
        let at = Instant::now();
        clock.push(black_box(at).elapsed().as_nanos() as f64);
        ready(i);
        let at = Instant::now();
        run();
        spent.push(at.elapsed().as_nanos() as f64);
    }
    median(spent) - median(clock)
}

/// One run of the sides, one after the other, each time on the next state; the pass goes once over the words that Rattle's call is made on.
fn run(states: &[(&Tables, &Words)], times: usize, by: &mut dyn FnMut(&mut dyn FnMut(Call) -> Report)) -> Figures {
    let by = std::cell::RefCell::new(by);
    let w = std::cell::RefCell::new(states[0].1.clone());
    let t = std::cell::RefCell::new(states[0].0.clone());
    let mut answer = [0; 2];
    let restore = |i: usize| {
        w.borrow_mut()
            .iter_mut()
            .zip(states[i % states.len()].1)
            .for_each(|(a, b)| a.copy_from_slice(b))
    };
    let linked = timed(times, restore, || {
        by.borrow_mut()(&mut |call| report(measured_linked(&mut w.borrow_mut(), &call, &mut answer)))
    });
    let model = timed(
        times,
        |i| t.borrow_mut().clone_from(states[i % states.len()].0),
        || by.borrow_mut()(&mut |call| report(measured_model(&mut t.borrow_mut(), &call, &mut answer))),
    );
    let pass = timed(times, restore, || {
        measured_pass(&w.borrow());
    });
    Figures { linked, model, pass }
}

/// The figures of each run.
#[derive(Clone, Default)]
pub struct Runs(Vec<Figures>);

impl Runs {
    pub fn medians(&self) -> Figures {
        Figures::each(|side| median(self.0.iter().map(side).collect()))
    }

    /// The median of what the runs come to, each by itself.
    pub fn ratio(&self, of: impl Fn(&Figures) -> f64) -> f64 {
        median(self.0.iter().map(of).collect())
    }

    /// Rattle's to another call's, run by run.
    pub fn to(&self, other: &Runs) -> f64 {
        median(self.0.iter().zip(&other.0).map(|(a, b)| a.linked / b.linked).collect())
    }
}

/// A case's call to a pass that takes one word at a time, the two in turn: the median of the runs' own ratios.
pub fn to_words(c: &Case) -> f64 {
    let w = std::cell::RefCell::new(c.words.clone());
    let ratio = |_| {
        let call = run(&c.states(), 100, &mut |call| {
            black_box(call(c.call));
        });
        let restore = |_| w.borrow_mut().iter_mut().zip(&c.words).for_each(|(a, b)| a.copy_from_slice(b));
        let pass = timed(100, restore, || {
            sum(&w.borrow(), pass_by_words);
        });
        call.linked / pass
    };
    median((0..RUNS).map(ratio).collect())
}

/// The sides in turn within each run.
pub fn measure(tables: &Tables, words: &Words, times: usize, mut by: impl FnMut(&mut dyn FnMut(Call) -> Report)) -> Runs {
    Runs((0..RUNS).map(|_| run(&[(tables, words)], times, &mut by)).collect())
}

/// Enough of a report to go on by.
fn report(number: u64) -> Report {
    match number {
        0 => Report::Refused(0),
        1..=5 => Report::MovedOn,
        _ => Report::Released,
    }
}

/// Each case's call, the cases in turn within each run.
pub fn measure_beside(cases: &[Case], times: usize) -> Vec<Runs> {
    let mut all = vec![Runs::default(); cases.len()];
    for _ in 0..RUNS {
        for (c, runs) in cases.iter().zip(&mut all) {
            runs.0.push(run(&c.states(), times, &mut |call| {
                black_box(call(c.call));
            }));
        }
    }
    all
}

/// Makes each case's call once on either side and the pass over its words once, a mark before and after each.
pub fn once<'a>(cases: impl Iterator<Item = &'a Case>) {
    let mut answer = [0; 2];
    for c in cases {
        let (mut words, mut tables) = (c.words.clone(), c.tables.clone());
        mark();
        let told = measured_linked(&mut words, &c.call, &mut answer);
        mark();
        let also = measured_model(&mut tables, &c.call, &mut answer);
        mark();
        let sum = measured_pass(&c.words);
        mark();
        assert_eq!(told, also);
        assert_eq!(sum, c.words.iter().flatten().fold(0, |sum: u64, word| sum.wrapping_add(*word)));
    }
}

/// The instructions of each case's call, in order: this program once under callgrind, which writes a file for each measured call.
pub fn instructions(count: usize) -> Option<Vec<Figures>> {
    let dir = std::env::temp_dir().join(format!("kamrduch-bench-{}", std::process::id()));
    std::fs::create_dir_all(&dir).ok()?;
    let out = dir.join("counts");
    let done = Command::new("valgrind")
        .args(["-q", "--tool=callgrind"])
        .arg(format!("--callgrind-out-file={}", out.display()))
        .arg(std::env::current_exe().ok()?)
        .arg("--once")
        .status()
        .ok()?;
    let total = |i: usize| {
        let text = std::fs::read_to_string(dir.join(format!("counts.{i}"))).ok()?;
        let line = text.lines().find_map(|l| l.strip_prefix("totals: ").or(l.strip_prefix("summary: ")))?;
        line.trim().parse::<f64>().ok()
    };
    let counts = (0..count)
        .map(|i| {
            Some(Figures {
                linked: total(4 * i + 2)?,
                model: total(4 * i + 3)?,
                pass: total(4 * i + 4)?,
            })
        })
        .collect();
    std::fs::remove_dir_all(&dir).ok()?;
    done.success().then_some(counts)?
}
