//! The mark of a claim with 16 steps in 16 unknowns by milebadger_mark, and its reason by milebadger_reason: where it passes, is long, and
//! fails. The script ./bench runs it:
//!     long list             the names of the cases, each with its call's name in front
//!     long time CASE        microseconds per call: the median of 9 runs
//!     long run CASE COUNT   that many calls, for an instruction counter
mod claims;
mod clock;
#[path = "../tests/random.rs"]
mod random;
mod sheet;

use random::Random;
use sheet::{milebadger_mark, milebadger_reason, Sheet};

extern "C" {
    fn milebadger_version() -> u32;
}

const N: usize = 16;

/// What the claims are.
#[derive(Clone, Copy)]
enum Kind {
    /// 16 steps that lead everywhere, on a sheet without lines.
    Pass,
    /// The same with zeros in the place of the last one: it fails, since something is missed.
    Fail,
    /// 14 steps that lead to all solutions of two lines, and then two multiples of the first.
    LongFirst,
    /// The same with two multiples of the 14th: each step before it is needed.
    LongLate,
}

impl Kind {
    /// The mark, the reason, and its step. A library before version 3 lets a long claim pass.
    fn expected(self) -> (i64, i64, u32) {
        let knows = unsafe { milebadger_version() } >= 30_000;
        match self {
            Kind::Fail => (0, 5, 0),
            Kind::LongFirst if knows => (2, 6, 1),
            Kind::LongLate if knows => (2, 6, 14),
            _ => (1, 0, 0),
        }
    }
}

#[derive(Clone, Copy)]
struct Case {
    reason: bool,
    kind: Kind,
    m: u64,
}

impl Case {
    fn name(&self) -> String {
        let kind = match self.kind {
            Kind::Pass => "pass",
            Kind::Fail => "fail",
            Kind::LongFirst => "long-first",
            Kind::LongLate => "long-late",
        };
        format!("{}-{kind}-16-steps-mod-{}", if self.reason { "reason" } else { "mark" }, self.m)
    }
}

fn cases() -> Vec<Case> {
    let mut cases = vec![];
    for reason in [false, true] {
        for m in [65_520, 65_521] {
            cases.extend([Kind::Pass, Kind::Fail, Kind::LongFirst, Kind::LongLate].map(|kind| Case { reason, kind, m }));
        }
    }
    cases
}

/// A residue that has an inverse mod m.
fn unit(m: u64, random: &mut Random) -> u64 {
    (0..).map(|_| 2 + random.below(m - 2)).find(|&unit| claims::divisor(unit, m) == 1).unwrap()
}

/// A sheet, and a claim about it. `rows` and `columns` are inverse to each other: so the lines of two rows leave the other columns for
/// steps, and none of these follows from the others.
fn work(case: Case, random: &mut Random) -> (Sheet, Vec<u32>) {
    let m = case.m;
    let units: Vec<Vec<u64>> = (0..N).map(|j| (0..N).map(|i| (i == j) as u64).collect()).collect();
    let (mut rows, mut columns) = (units.clone(), units);
    for _ in 0..4 * N {
        let (i, j, t) = (random.below(N as u64) as usize, random.below(N as u64) as usize, random.below(m));
        if i != j {
            columns[i] = claims::plus(m, &columns[i], t, &columns[j]);
            rows[j] = claims::plus(m, &rows[j], m - t, &rows[i]);
        }
    }
    let start: Vec<u64> = (0..N).map(|_| random.below(m)).collect();
    let again = match case.kind {
        Kind::Pass => None,
        Kind::Fail => {
            columns[N - 1] = vec![0; N];
            None
        }
        Kind::LongFirst => Some(0),
        Kind::LongLate => Some(N - 3),
    };
    let mut lines = vec![];
    if let Some(place) = again {
        for at in [N - 2, N - 1] {
            let right = rows[at].iter().zip(&start).map(|(a, x)| a * x).sum::<u64>() % m;
            lines.push(sheet::line(&[&rows[at][..], &[right]].concat()));
            columns[at] = claims::plus(m, &[0; N], unit(m, random), &columns[place]);
        }
    }
    (sheet::filled(&sheet::opening(m, N), &lines), claims::words(&[vec![start], columns].concat()))
}

/// 64 sheets with a claim each, so that no branch is learnt by heart.
struct Calls {
    case: Case,
    works: Vec<(Sheet, Vec<u32>)>,
    at: [u32; 3],
    out: [u32; 32],
}

impl Calls {
    fn new(case: Case) -> Calls {
        let mut random = Random::new();
        let works = (0..64).map(|_| work(case, &mut random)).collect();
        let mut calls = Calls { case, works, at: [0; 3], out: [0; 32] };
        let (mark, reason, step) = case.kind.expected();
        for i in 0..64 {
            let result = calls.call(i);
            let good = if case.reason { result == reason && calls.at[0] == step } else { result == mark };
            assert!(good, "{}: result {result}, {:?}", case.name(), calls.at);
        }
        calls
    }

    fn call(&mut self, i: usize) -> i64 {
        let (sheet, claim) = &self.works[i % 64];
        let (words, length) = (claim.as_ptr(), claim.len());
        unsafe {
            if self.case.reason {
                milebadger_reason(sheet, words, length, self.at.as_mut_ptr(), 3, self.out.as_mut_ptr(), 32)
            } else {
                milebadger_mark(sheet, words, length)
            }
        }
    }
}

fn main() {
    let arguments: Vec<String> = std::env::args().skip(1).collect();
    let calls = |name: &str| Calls::new(cases().into_iter().find(|case| case.name() == name).expect("no such case"));
    match arguments.iter().map(String::as_str).collect::<Vec<_>>()[..] {
        ["list"] => cases().iter().for_each(|case| println!("{}", case.name())),
        ["time", name] => {
            let mut calls = calls(name);
            // the clock wants results above 0, and some of these are 0
            println!("{:.3}", clock::per_call(|i| 1 + calls.call(i)));
        }
        ["run", name, count] => {
            let mut calls = calls(name);
            for i in 0..count.parse().expect("no count") {
                calls.call(i);
            }
        }
        _ => panic!("long list, long time CASE, or long run CASE COUNT"),
    }
}
