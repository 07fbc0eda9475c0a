//! One call on a sheet, and what it takes to get the same from milebadger_tape, which keeps no sheet: a tape that opens one, adds
//! all its lines and then asks, or strikes one. The script ./bench runs it:
//!     sheets list                 the names of the cases, each with its call's name in front
//!     sheets time HOW CASE        microseconds per call, or per tape: the median of 9 runs; HOW is sheet or tape
//!     sheets run HOW CASE COUNT   that many calls, or tapes, for an instruction counter
#[path = "../tests/random.rs"]
mod random;
mod sheet;

use random::Random;
use sheet::{block, filled, milebadger_add, milebadger_answer, milebadger_mark, opening, word, Sheet};
use std::time::{Duration, Instant};

extern "C" {
    fn milebadger_add_text(sheet: *mut Sheet, text: *const u8, text_len: usize) -> i64;
    fn milebadger_strike(sheet: *mut Sheet, place: u32) -> i64;
    fn milebadger_tape(tape: *const u8, tape_len: usize, out: *mut u8, out_len: usize) -> i64;
}

#[derive(Clone, Copy, PartialEq)]
enum Call {
    /// The last of n lines, to a sheet that holds the others.
    Add,
    /// The same line, typed.
    AddText,
    /// Of n lines the last, and the first, behind which all others close up.
    StrikeLast,
    StrikeFirst,
    Answer,
    /// Of the block that the answer writes, which passes or is long.
    Mark,
}

#[derive(Clone, Copy)]
struct Case {
    call: Call,
    m: u64,
    n: usize,
}

impl Case {
    fn name(&self) -> String {
        let call = match self.call {
            Call::Add => "add",
            Call::AddText => "add_text",
            Call::StrikeLast => "strike-last",
            Call::StrikeFirst => "strike-first",
            Call::Answer => "answer",
            Call::Mark => "mark",
        };
        format!("{call}-{n}x{n}-mod-{m}", n = self.n, m = self.m)
    }
}

fn cases() -> Vec<Case> {
    let mut cases = vec![];
    for call in [Call::Add, Call::AddText, Call::StrikeLast, Call::StrikeFirst, Call::Answer, Call::Mark] {
        for m in [12, 65_521] {
            cases.extend([2, 4, 8, 16].map(|n| Case { call, m, n }));
        }
    }
    cases
}

/// A line of random coefficients with the right side that this solution gives it, as words.
fn line(m: u64, solution: &[u64], random: &mut Random) -> Vec<u32> {
    let mut numbers: Vec<u64> = solution.iter().map(|_| random.below(m)).collect();
    numbers.push(numbers.iter().zip(solution).map(|(a, x)| a * x).sum::<u64>() % m);
    sheet::line(&numbers)
}

/// The line of these words as it is typed: 12*x1 + 7*x2 = 5.
fn typed(line: &[u32]) -> String {
    let (right, coefficients) = line.split_last().unwrap();
    let terms: Vec<String> = coefficients.iter().zip(1..).map(|(a, j)| format!("{}*x{j}", a & 0x0FFF_FFFF)).collect();
    format!("{} = {}", terms.join(" + "), right & 0x0FFF_FFFF)
}

/// A sheet before the call and after it, the words or the text of the call, and the tape that comes to the same.
struct Work {
    sheet: Sheet,
    after: Sheet,
    words: Vec<u32>,
    text: String,
    tape: Vec<u8>,
}

impl Work {
    /// Its calls on the way are accepted.
    fn new(case: Case, random: &mut Random) -> Work {
        let solution: Vec<u64> = (0..case.n).map(|_| random.below(case.m)).collect();
        let opening = opening(case.m, case.n);
        let lines: Vec<Vec<u32>> = (0..case.n).map(|_| line(case.m, &solution, random)).collect();
        let (last, others) = lines.split_last().unwrap();
        let (sheet, full) = (filled(&opening, others), filled(&opening, &lines));
        let block = block(&full);
        let (before, after, words, asked) = match case.call {
            Call::Add | Call::AddText => (sheet, full, last.clone(), vec![]),
            Call::StrikeLast => (full, sheet, vec![], vec![word(8, 0)]),
            Call::StrikeFirst => (full, filled(&opening, &lines[1..]), vec![], vec![word(8, 1)]),
            Call::Answer => (full, full, vec![], vec![word(9, 0)]),
            Call::Mark => (full, full, block.clone(), block),
        };
        let tape = [opening, lines.concat(), asked].concat().iter().flat_map(|word| word.to_le_bytes()).collect();
        Work { sheet: before, after, words, text: typed(last), tape }
    }
}

/// 64 pieces of work of a case, so that no branch is learnt by heart, and the memory that is lent for them.
struct Calls {
    case: Case,
    tapes: bool,
    works: Vec<Work>,
    sheets: Vec<Sheet>,
    block: Vec<u32>,
    lines: Vec<u8>,
}

impl Calls {
    fn new(case: Case, tapes: bool) -> Calls {
        let mut random = Random::new();
        let works: Vec<Work> = (0..64).map(|_| Work::new(case, &mut random)).collect();
        let mut calls = Calls { case, tapes, works, sheets: vec![], block: vec![0; 273], lines: vec![0; 4_096] };
        calls.put_back();
        for i in 0..64 {
            let result = calls.call(i);
            assert!(calls.accepted(result), "{}: result {result}", case.name());
            assert!(tapes || calls.is_after(i), "{}: another sheet", case.name());
        }
        calls
    }

    /// Whether this is the result of a call that was accepted, or of a tape whose calls all were.
    fn accepted(&self, result: i64) -> bool {
        let lines = if self.tapes { std::str::from_utf8(&self.lines[..result as usize]).unwrap() } else { "" };
        match (self.tapes, self.case.call) {
            (false, Call::Add | Call::AddText) => result == self.case.n as i64,
            (false, Call::StrikeLast | Call::StrikeFirst) => result == self.case.n as i64 - 1,
            (false, Call::Answer) => result > self.case.n as i64,
            (false, Call::Mark) => result == 1 || result == 2,
            (true, Call::Add | Call::AddText) => lines.ends_with(&format!("added {}\n", self.case.n)),
            (true, Call::StrikeLast | Call::StrikeFirst) => lines.ends_with(&format!("struck {}\n", self.case.n - 1)),
            (true, Call::Answer) => lines.contains("\nfrom "),
            (true, Call::Mark) => lines.ends_with("\npass\n") || lines.ends_with("\nlong\n"),
        }
    }

    /// Whether the sheet is that after the call. A strike leaves numbers behind its lines, so there the answers are compared.
    fn is_after(&self, i: usize) -> bool {
        let (sheet, after) = (&self.sheets[i], &self.works[i].after);
        match self.case.call {
            Call::StrikeLast | Call::StrikeFirst => block(sheet) == block(after),
            _ => sheet == after,
        }
    }

    /// The sheets are as before the calls.
    fn put_back(&mut self) {
        self.sheets = self.works.iter().map(|work| work.sheet).collect();
    }

    fn call(&mut self, i: usize) -> i64 {
        let (work, sheet) = (&self.works[i], &mut self.sheets[i]);
        let (words, len) = (work.words.as_ptr(), work.words.len());
        unsafe {
            match self.case.call {
                _ if self.tapes => {
                    milebadger_tape(work.tape.as_ptr(), work.tape.len(), self.lines.as_mut_ptr(), self.lines.len())
                }
                Call::Add => milebadger_add(sheet, words, len),
                Call::AddText => milebadger_add_text(sheet, work.text.as_ptr(), work.text.len()),
                Call::StrikeLast => milebadger_strike(sheet, 0),
                Call::StrikeFirst => milebadger_strike(sheet, 1),
                Call::Answer => milebadger_answer(sheet, self.block.as_mut_ptr(), self.block.len()),
                Call::Mark => milebadger_mark(sheet, words, len),
            }
        }
    }

    /// Microseconds for each call in so many rounds of 64. The sheets are put back while the clock stands.
    fn time(&mut self, rounds: usize) -> f64 {
        let (mut spent, mut results) = (Duration::ZERO, 0);
        for _ in 0..rounds {
            self.put_back();
            let start = Instant::now();
            for i in 0..64 {
                results += self.call(i);
            }
            spent += start.elapsed();
        }
        assert!(results > 0);
        spent.as_secs_f64() * 1e6 / (64 * rounds) as f64
    }
}

fn main() {
    let arguments: Vec<String> = std::env::args().skip(1).collect();
    let calls = |how: &str, name: &str| {
        assert!(how == "sheet" || how == "tape", "{how} is neither sheet nor tape");
        Calls::new(cases().into_iter().find(|case| case.name() == name).expect("no such case"), how == "tape")
    };
    match arguments.iter().map(String::as_str).collect::<Vec<_>>()[..] {
        ["list"] => cases().iter().for_each(|case| println!("{}", case.name())),
        ["time", how, name] => {
            let mut calls = calls(how, name);
            let rounds = (20_000.0 / (64.0 * calls.time(1))) as usize + 1;
            let mut runs: Vec<f64> = (0..9).map(|_| calls.time(rounds)).collect();
            runs.sort_by(f64::total_cmp);
            println!("{:.3}", runs[4]);
        }
        ["run", how, name, count] => {
            let (mut calls, count) = (calls(how, name), count.parse().expect("no count"));
            for i in 0..count {
                if i % 64 == 0 {
                    calls.put_back();
                }
                calls.call(i % 64);
            }
        }
        _ => panic!("sheets list, sheets time HOW CASE, or sheets run HOW CASE COUNT"),
    }
}
