//! The claims of a class, marked in one call by milebadger_class, and the same claims singly by milebadger_mark. The script ./bench
//! runs it:
//!     class list                 the names of the cases
//!     class time CASE            microseconds per claim, in one call and singly, by turns: the medians of 9 runs
//!     class run HOW CASE COUNT   the marks of that many claims, for an instruction counter; HOW is class or singly
mod claims;
#[path = "../tests/random.rs"]
mod random;
mod sheet;

use claims::{Shape, CLAIMS, SHEETS};
use random::Random;
use sheet::{milebadger_mark, Sheet};

extern "C" {
    fn milebadger_class(sheet: *const Sheet, words: *const u32, words_len: usize, marks: *mut u8, marks_len: usize) -> i64;
}

/// What the claims of a class are.
#[derive(Clone, Copy)]
enum Kind {
    /// Right, in forms of their own.
    Pass,
    /// The same, with half of the steps superfluous.
    Long,
    /// A step is missing, which only the last question shows.
    Late,
    /// Another start, which a first equation shows.
    Early,
}

#[derive(Clone, Copy)]
struct Case {
    kind: Kind,
    shape: Shape,
    claims: usize,
}

impl Case {
    fn name(&self) -> String {
        let kind = match self.kind {
            Kind::Pass => "pass",
            Kind::Long => "long-half-rank",
            Kind::Late => "late-fail",
            Kind::Early => "early-fail",
        };
        format!("{kind}-{n}x{n}-mod-{m}-claims-{claims}", n = self.shape.n, m = self.shape.m, claims = self.claims)
    }
}

fn cases() -> Vec<Case> {
    let mut cases = vec![];
    let mut of = |kind, m, factor, n, sizes: &[usize]| {
        cases.extend(sizes.iter().map(|&claims| Case { kind, shape: Shape { m, factor, n }, claims }));
    };
    of(Kind::Pass, 65_520, 12, 16, &[1, 8, 64]);
    of(Kind::Pass, 32_768, 256, 16, &[1, 8, 64]);
    of(Kind::Pass, 30_030, 30, 16, &[1, 8, 64]);
    of(Kind::Long, 65_521, 0, 16, &[1, 8, 64]);
    of(Kind::Late, 65_520, 12, 16, &[1, 8, 64]);
    of(Kind::Early, 65_520, 12, 16, &[1, 8, 64]);
    of(Kind::Pass, 12, 2, 4, &[1, 8, 64]);
    cases
}

/// The words of a claim: a right one, or what the case makes of it.
fn claim(case: Case, answer: &[Vec<u64>], random: &mut Random) -> Vec<u32> {
    let Shape { m, n, .. } = case.shape;
    let mut vectors = case.shape.right_claim(answer, random);
    match case.kind {
        Kind::Pass | Kind::Long => {}
        Kind::Late => vectors[n] = vec![0; n],
        Kind::Early => vectors[0][0] = (vectors[0][0] + 1) % m,
    }
    claims::words(&vectors)
}

/// A sheet with its claims, one behind the other; a class has some of them.
struct Work {
    sheet: Sheet,
    claims: Vec<u32>,
}

struct Classes {
    case: Case,
    works: Vec<Work>,
    marks: [u8; CLAIMS],
}

impl Classes {
    fn new(case: Case) -> Classes {
        let mut random = Random::new();
        let mut works = vec![];
        for _ in 0..SHEETS {
            let sheet = case.shape.sheet(&case.shape.lines(&mut random));
            let answer = case.shape.answer(&sheet);
            let claims = (0..CLAIMS).flat_map(|_| claim(case, &answer, &mut random)).collect();
            works.push(Work { sheet, claims });
        }
        let mut classes = Classes { case, works, marks: [0; CLAIMS] };
        // one round each way, and each mark is that of the case
        let right = match case.kind {
            Kind::Pass => 1,
            Kind::Long => 2,
            Kind::Late | Kind::Early => 0,
        };
        for first in (0..SHEETS * CLAIMS).step_by(case.claims) {
            for singly in [false, true] {
                classes.marks.fill(0xC0);
                classes.mark(singly, first);
                assert!(classes.marks[..case.claims].iter().all(|&mark| mark == right), "{}", case.name());
            }
        }
        classes
    }

    /// The marks of the class that begins with this claim of all.
    fn mark(&mut self, singly: bool, first: usize) {
        let (count, length) = (self.case.claims, 1 + (self.case.shape.n + 1) * self.case.shape.n);
        let Work { sheet, claims } = &self.works[first / CLAIMS % SHEETS];
        let words = &claims[first % CLAIMS * length..(first % CLAIMS + count) * length];
        if singly {
            for (mark, claim) in self.marks.iter_mut().zip(words.chunks(length)) {
                *mark = unsafe { milebadger_mark(sheet, claim.as_ptr(), length) } as u8;
            }
        } else {
            let result = unsafe { milebadger_class(sheet, words.as_ptr(), words.len(), self.marks.as_mut_ptr(), CLAIMS) };
            assert!(result == count as i64);
        }
    }
}

fn main() {
    let arguments: Vec<String> = std::env::args().skip(1).collect();
    let classes = |name: &str| Classes::new(cases().into_iter().find(|case| case.name() == name).expect("no such case"));
    match arguments.iter().map(String::as_str).collect::<Vec<_>>()[..] {
        ["list"] => cases().iter().for_each(|case| println!("{}", case.name())),
        ["time", name] => {
            let mut classes = classes(name);
            let [together, singly] =
                claims::by_turns([false, true], classes.case.claims, |singly, first| classes.mark(singly, first));
            println!("{together:.3} {singly:.3}");
        }
        ["run", how, name, count] => {
            assert!(how == "class" || how == "singly", "{how} is neither class nor singly");
            let (mut classes, count) = (classes(name), count.parse().expect("no count"));
            for first in (0..count).step_by(classes.case.claims) {
                classes.mark(how == "singly", first);
            }
        }
        _ => panic!("class list, class time CASE, or class run HOW CASE COUNT"),
    }
}
