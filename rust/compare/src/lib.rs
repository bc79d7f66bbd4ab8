//! The proved calls through the C boundary, over lent words, and what the tests share.
use model::words::Words;
use model::{Report, Tables};
use std::io::{Read, Write};
use std::process::{Child, Command, Stdio};

pub mod damage;
pub mod ends;
pub mod indexes;
pub mod runs;
pub mod spread;
pub mod stacks;
pub mod states;

mod linked {
    extern "C" {
        pub fn kamrduch_fresh(
            d: *mut u64,
            dn: usize,
            t: *mut u64,
            tn: usize,
            c: *mut u64,
            cn: usize,
            e: *mut u64,
            en: usize,
            v: *mut u64,
            vn: usize,
            m: *mut u64,
            mn: usize,
            a: *mut u64,
            an: usize,
        ) -> u64;
        pub fn kamrduch_start(
            d: *const u64,
            dn: usize,
            t: *mut u64,
            tn: usize,
            c: *const u64,
            cn: usize,
            e: *const u64,
            en: usize,
            v: *const u64,
            vn: usize,
            m: *const u64,
            mn: usize,
            n: u64,
            op: u64,
            k: u64,
            arg: u64,
            f: u64,
            a: *mut u64,
            an: usize,
        ) -> u64;
        pub fn kamrduch_step(
            d: *const u64,
            dn: usize,
            t: *mut u64,
            tn: usize,
            c: *mut u64,
            cn: usize,
            e: *mut u64,
            en: usize,
            v: *mut u64,
            vn: usize,
            m: *mut u64,
            mn: usize,
            n: u64,
            a: *mut u64,
            an: usize,
        ) -> u64;
        pub fn kamrduch_begin(
            d: *mut u64,
            dn: usize,
            t: *const u64,
            tn: usize,
            c: *mut u64,
            cn: usize,
            e: *const u64,
            en: usize,
            v: *const u64,
            vn: usize,
            m: *const u64,
            mn: usize,
            k: u64,
            a: *mut u64,
            an: usize,
        ) -> u64;
        pub fn kamrduch_rebalance(
            d: *mut u64,
            dn: usize,
            t: *const u64,
            tn: usize,
            c: *mut u64,
            cn: usize,
            e: *mut u64,
            en: usize,
            v: *const u64,
            vn: usize,
            m: *const u64,
            mn: usize,
            a: *mut u64,
            an: usize,
        ) -> u64;
    }
}

#[derive(Clone, Copy, Debug, PartialEq, Eq)]
pub enum Call {
    Fresh,
    Start(u64, u64, u64, u64, u64),
    Step(u64),
    Begin(u64),
    Rebalance,
}

/// The call as a host makes it: the number returned; the answer is written.
pub fn linked_call(w: &mut Words, call: Call, answer: &mut [u64]) -> u64 {
    let [d, t, c, e, v, m] = w;
    let (dn, tn, cn, en, vn, mn) = (d.len(), t.len(), c.len(), e.len(), v.len(), m.len());
    let (d, t, c, e, v, m) = (d.as_mut_ptr(), t.as_mut_ptr(), c.as_mut_ptr(), e.as_mut_ptr(), v.as_mut_ptr(), m.as_mut_ptr());
    let (a, an) = (answer.as_mut_ptr(), answer.len());
    // each pointer comes from a Vec or a slice of its length, and no two overlap
    unsafe {
        match call {
            Call::Fresh => linked::kamrduch_fresh(d, dn, t, tn, c, cn, e, en, v, vn, m, mn, a, an),
            Call::Start(n, op, k, arg, f) => linked::kamrduch_start(d, dn, t, tn, c, cn, e, en, v, vn, m, mn, n, op, k, arg, f, a, an),
            Call::Step(n) => linked::kamrduch_step(d, dn, t, tn, c, cn, e, en, v, vn, m, mn, n, a, an),
            Call::Begin(k) => linked::kamrduch_begin(d, dn, t, tn, c, cn, e, en, v, vn, m, mn, k, a, an),
            Call::Rebalance => linked::kamrduch_rebalance(d, dn, t, tn, c, cn, e, en, v, vn, m, mn, a, an),
        }
    }
}

/// Who makes the calls: the archive linked here, or a program (`tests/lend.c`) with an archive for another machine.
pub enum Host {
    Linked,
    Lent(Box<Child>),
}

impl Host {
    /// The program is KAMRDUCH_LEND's, where that is set.
    pub fn from_env() -> Host {
        let Ok(command) = std::env::var("KAMRDUCH_LEND") else { return Host::Linked };
        let mut words = command.split_whitespace();
        let mut command = Command::new(words.next().expect("KAMRDUCH_LEND names a program"));
        let child = command
            .args(words)
            .stdin(Stdio::piped())
            .stdout(Stdio::piped())
            .spawn()
            .expect("the program of KAMRDUCH_LEND runs");
        Host::Lent(Box::new(child))
    }

    pub fn call(&mut self, w: &mut Words, call: Call, answer: &mut [u64]) -> u64 {
        match self {
            Host::Linked => linked_call(w, call, answer),
            Host::Lent(child) => lent_call(child, w, call, answer).expect("the program of KAMRDUCH_LEND answers"),
        }
    }
}

fn lent_call(child: &mut Child, w: &mut Words, call: Call, answer: &mut [u64]) -> std::io::Result<u64> {
    let mut ask = match call {
        Call::Fresh => vec![0, 0, 0, 0, 0, 0],
        Call::Start(n, op, k, a, f) => vec![1, n, op, k, a, f],
        Call::Step(n) => vec![2, n, 0, 0, 0, 0],
        Call::Begin(k) => vec![3, k, 0, 0, 0, 0],
        Call::Rebalance => vec![4, 0, 0, 0, 0, 0],
    };
    ask.extend(w.iter().map(|t| t.len() as u64));
    ask.push(answer.len() as u64);
    w.iter().for_each(|t| ask.extend(t));
    ask.extend(answer.iter());
    let bytes: Vec<u8> = ask.iter().flat_map(|x| x.to_le_bytes()).collect();
    child.stdin.as_mut().unwrap().write_all(&bytes)?;
    child.stdin.as_mut().unwrap().flush()?;
    let mut got = vec![0; (ask.len() - 12) * 8];
    child.stdout.as_mut().unwrap().read_exact(&mut got)?;
    let mut got = got.chunks(8).map(|b| u64::from_le_bytes(b.try_into().unwrap()));
    let told = got.next().unwrap();
    w.iter_mut().flatten().chain(answer).for_each(|x| *x = got.next().unwrap());
    Ok(told)
}

/// The same call of the second implementation.
pub fn model_call(t: &mut Tables, call: Call) -> Report {
    match call {
        Call::Fresh => {
            *t = Tables::fresh();
            Report::Finished(model::Answer::Done)
        }
        Call::Start(n, op, k, a, f) => t.start(n, op, k, a, f),
        Call::Step(n) => t.step(n),
        Call::Begin(k) => t.begin(k),
        Call::Rebalance => t.rebalance(),
    }
}

/// A fixed seed gives a fixed run.
pub struct Chance(u64);

impl Chance {
    pub fn new(seed: u64) -> Chance {
        Chance(seed)
    }

    pub fn word(&mut self) -> u64 {
        self.0 = self.0.wrapping_add(0x9e37_79b9_7f4a_7c15);
        let mut x = self.0;
        x = (x ^ (x >> 30)).wrapping_mul(0xbf58_476d_1ce4_e5b9);
        x = (x ^ (x >> 27)).wrapping_mul(0x94d0_49bb_1331_11eb);
        x ^ (x >> 31)
    }

    pub fn below(&mut self, n: usize) -> usize {
        (self.word() % n as u64) as usize
    }

    /// Once in n times.
    pub fn once_in(&mut self, n: usize) -> bool {
        self.below(n) == 0
    }

    pub fn of<T: Copy>(&mut self, from: &[T]) -> T {
        from[self.below(from.len())]
    }

    /// Puts all in random order.
    pub fn shuffle<T>(&mut self, all: &mut [T]) {
        for i in (1..all.len()).rev() {
            let j = self.below(i + 1);
            all.swap(i, j);
        }
    }
}
