//! Calls on a sheet with 16 unknowns mod a prime of 16 bits and mod one of 32, whose numbers take two words: a line that is added, the
//! answer, and the mark of its block. The script ./bench runs it:
//!     wide list             the names of the cases, each with its call's name in front
//!     wide time CASE        microseconds per call: the median of 9 runs
//!     wide run CASE COUNT   that many calls, for an instruction counter
mod clock;
#[path = "../tests/random.rs"]
mod random;
mod sheet;

use random::Random;
use sheet::{block, filled, line, milebadger_add, milebadger_answer, milebadger_mark, opening, Sheet};

const N: usize = 16;

/// Half as many lines as unknowns, so that the answer has as many steps, dense in the unknowns behind them.
const LINES: usize = 8;

#[derive(Clone, Copy)]
enum Call {
    Add,
    Answer,
    /// Of the block that the answer writes. Mod a prime no step follows from the others, so that it passes.
    Mark,
}

#[derive(Clone, Copy)]
struct Case {
    call: Call,
    m: u64,
}

impl Case {
    fn name(&self) -> String {
        let call = match self.call {
            Call::Add => "add",
            Call::Answer => "answer",
            Call::Mark => "mark",
        };
        format!("{call}-16-unknowns-mod-{}", self.m)
    }
}

fn cases() -> Vec<Case> {
    let calls = [Call::Add, Call::Answer, Call::Mark];
    calls.iter().flat_map(|&call| [65_521, 4_294_967_291].map(|m| Case { call, m })).collect()
}

/// The sum of coefficient times entry, mod m.
fn product(m: u64, coefficients: &[u64], vector: &[u64]) -> u64 {
    (coefficients.iter().zip(vector).map(|(&a, &x)| a as u128 * x as u128).sum::<u128>() % m as u128) as u64
}

/// The numbers of words, each with the top bits of the word of kind 13 before it, if there is one.
fn numbers(words: &[u32]) -> Vec<u64> {
    let (mut numbers, mut top) = (vec![], 0);
    for &word in words {
        match word >> 28 {
            13 => top = (word & 15) as u64,
            _ => numbers.push(std::mem::take(&mut top) << 28 | (word & 0x0FFF_FFFF) as u64),
        }
    }
    numbers
}

/// A sheet, the words of one more line, and the block that the answer writes.
struct Work {
    sheet: Sheet,
    line: Vec<u32>,
    block: Vec<u32>,
}

impl Work {
    /// Its start solves the lines, and its steps those with right sides 0.
    fn new(m: u64, random: &mut Random) -> Work {
        let solution: Vec<u64> = (0..N).map(|_| random.below(m)).collect();
        let some = |random: &mut Random| -> Vec<u64> {
            let mut numbers: Vec<u64> = (0..N).map(|_| random.below(m)).collect();
            numbers.push(product(m, &numbers, &solution));
            numbers
        };
        let lines: Vec<Vec<u64>> = (0..LINES).map(|_| some(random)).collect();
        let sheet = filled(&opening(m, N), &lines.iter().map(|numbers| line(numbers)).collect::<Vec<Vec<u32>>>());
        let block = block(&sheet);
        let found = numbers(&block);
        assert_eq!((found[0], found.len()), ((N - LINES + 1) as u64, 1 + (N - LINES + 1) * N), "another number of vectors");
        for (place, vector) in found[1..].chunks(N).enumerate() {
            for numbers in &lines {
                assert_eq!(product(m, numbers, vector), if place == 0 { numbers[N] } else { 0 }, "no solution");
            }
        }
        Work { sheet, line: line(&some(random)), block }
    }
}

/// 64 sheets, so that no branch is learnt by heart.
struct Calls {
    case: Case,
    works: Vec<Work>,
    out: Vec<u32>,
}

impl Calls {
    fn new(case: Case) -> Calls {
        let mut random = Random::new();
        let works = (0..64).map(|_| Work::new(case.m, &mut random)).collect();
        let mut calls = Calls { case, works, out: vec![0; 545] };
        for i in 0..64 {
            let result = calls.call(i);
            let length = calls.works[i].block.len();
            let good = match case.call {
                Call::Add => result == LINES as i64 + 1,
                Call::Answer => result == length as i64 && calls.out[..length] == calls.works[i].block,
                Call::Mark => result == 1,
            };
            assert!(good, "{}: result {result}", case.name());
        }
        calls
    }

    /// A line is added to a copy of the sheet.
    fn call(&mut self, i: usize) -> i64 {
        let work = &self.works[i % 64];
        let mut sheet = work.sheet;
        unsafe {
            match self.case.call {
                Call::Add => milebadger_add(&mut sheet, work.line.as_ptr(), work.line.len()),
                Call::Answer => milebadger_answer(&work.sheet, self.out.as_mut_ptr(), self.out.len()),
                Call::Mark => milebadger_mark(&work.sheet, work.block.as_ptr(), work.block.len()),
            }
        }
    }
}

fn main() {
    let arguments: Vec<String> = std::env::args().skip(1).collect();
    let calls = |name: &str| Calls::new(cases().into_iter().find(|case| case.name() == name).expect("no such case"));
    match arguments.iter().map(String::as_str).collect::<Vec<_>>()[..] {
        ["list"] => cases().iter().for_each(|case| println!("{}", case.name())),
        ["time", name] => {
            let mut calls = calls(name);
            println!("{:.3}", clock::per_call(|i| calls.call(i)));
        }
        ["run", name, count] => {
            let mut calls = calls(name);
            for i in 0..count.parse().expect("no count") {
                calls.call(i);
            }
        }
        _ => panic!("wide list, wide time CASE, or wide run CASE COUNT"),
    }
}
