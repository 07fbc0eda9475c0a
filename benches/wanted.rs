//! milebadger_sheet_for: the equations for a claim of a start and half as many dense steps as there are unknowns. The script ./bench
//! runs it:
//!     wanted list             the names of the cases, each with its call's name in front
//!     wanted time CASE        microseconds per call: the median of 9 runs
//!     wanted run CASE COUNT   that many calls, for an instruction counter
mod clock;
#[path = "../tests/random.rs"]
mod random;
mod sheet;

use random::Random;
use sheet::{filled, line, milebadger_mark, opening, word, written};

extern "C" {
    fn milebadger_sheet_for(m: u32, n: u32, claim: *const u32, claim_len: usize, out: *mut u32, out_len: usize) -> i64;
}

#[derive(Clone, Copy)]
struct Case {
    n: usize,
    m: u64,
}

impl Case {
    fn name(&self) -> String {
        format!("sheet_for-{}-unknowns-mod-{}", self.n, self.m)
    }
}

/// Two small moduli, of which one is a prime, and two of 32 bits.
fn cases() -> Vec<Case> {
    let moduli = [12, 65_521, 4_294_967_291, 4_294_967_295];
    moduli.iter().flat_map(|&m| [2, 4, 8, 16].map(|n| Case { n, m })).collect()
}

/// The sum of coefficient times entry, mod m.
fn product(m: u64, coefficients: &[u64], vector: &[u64]) -> u64 {
    (coefficients.iter().zip(vector).map(|(&a, &x)| a as u128 * x as u128).sum::<u128>() % m as u128) as u64
}

/// The first so many numbers of words, each with the top bits of the word of kind 13 before it, if there is one.
fn numbers(words: &[u32], count: usize) -> Vec<u64> {
    let (mut numbers, mut top) = (vec![], 0);
    for &word in words {
        match word >> 28 {
            _ if numbers.len() == count => break,
            13 => top = (word & 15) as u64,
            _ => numbers.push(std::mem::take(&mut top) << 28 | (word & 0x0FFF_FFFF) as u64),
        }
    }
    numbers
}

/// The vectors of a claim, and its words.
struct Work {
    vectors: Vec<Vec<u64>>,
    claim: Vec<u32>,
}

impl Work {
    fn new(case: Case, random: &mut Random) -> Work {
        let mut vector = || -> Vec<u64> { (0..case.n).map(|_| random.below(case.m)).collect() };
        let vectors: Vec<Vec<u64>> = (0..=case.n / 2).map(|_| vector()).collect();
        let entries = vectors.iter().flatten().flat_map(|&x| written(6, x));
        let claim = [word(5, vectors.len() as u64)].into_iter().chain(entries).collect();
        Work { vectors, claim }
    }

    /// So many equations, which the start solves, and the steps with right sides 0; and on a sheet with these the claim is right.
    fn check(&self, case: Case, result: i64, out: &[u32]) {
        let count = usize::try_from(result).expect("a refusal");
        assert!(count <= case.n, "{}: {count} equations", case.name());
        let found = numbers(out, count * (case.n + 1));
        let equations: Vec<&[u64]> = found.chunks(case.n + 1).collect();
        for equation in &equations {
            for (place, vector) in self.vectors.iter().enumerate() {
                let right = if place == 0 { equation[case.n] } else { 0 };
                assert_eq!(product(case.m, equation, vector), right, "{}: no solution", case.name());
            }
        }
        let lines: Vec<Vec<u32>> = equations.iter().map(|equation| line(equation)).collect();
        let sheet = filled(&opening(case.m, case.n), &lines);
        let mark = unsafe { milebadger_mark(&sheet, self.claim.as_ptr(), self.claim.len()) };
        assert!(mark > 0, "{}: the mark {mark}", case.name());
    }
}

/// 64 claims, so that no branch is learnt by heart.
struct Calls {
    case: Case,
    works: Vec<Work>,
    out: Vec<u32>,
}

impl Calls {
    fn new(case: Case) -> Calls {
        let mut random = Random::new();
        let works = (0..64).map(|_| Work::new(case, &mut random)).collect();
        let mut calls = Calls { case, works, out: vec![0; 2 * case.n * (case.n + 1)] };
        for i in 0..64 {
            let result = calls.call(i);
            calls.works[i].check(case, result, &calls.out);
        }
        calls
    }

    fn call(&mut self, i: usize) -> i64 {
        let (claim, out) = (&self.works[i % 64].claim, &mut self.out);
        let (m, n) = (self.case.m as u32, self.case.n as u32);
        unsafe { milebadger_sheet_for(m, n, claim.as_ptr(), claim.len(), out.as_mut_ptr(), out.len()) }
    }
}

fn main() {
    let arguments: Vec<String> = std::env::args().skip(1).collect();
    let calls = |name: &str| Calls::new(cases().into_iter().find(|case| case.name() == name).expect("no such case"));
    match arguments.iter().map(String::as_str).collect::<Vec<_>>()[..] {
        ["list"] => cases().iter().for_each(|case| println!("{}", case.name())),
        ["time", name] => {
            let mut calls = calls(name);
            println!("{:.3}", clock::per_call(|i| calls.call(i)));
        }
        ["run", name, count] => {
            let mut calls = calls(name);
            for i in 0..count.parse().expect("no count") {
                calls.call(i);
            }
        }
        _ => panic!("wanted list, wanted time CASE, or wanted run CASE COUNT"),
    }
}
