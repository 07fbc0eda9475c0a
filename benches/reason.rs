//! The reason for a claim by milebadger_reason, and the mark of the same claim by milebadger_mark. The script ./bench runs it:
//!     reason list                 the names of the cases
//!     reason time CASE            microseconds per call, of a reason and of a mark, by turns: the medians of 9 runs
//!     reason run HOW CASE COUNT   so many calls, for an instruction counter; HOW is reason or mark
mod claims;
#[path = "../tests/random.rs"]
mod random;
mod sheet;

use claims::{Shape, CLAIMS, SHEETS};
use random::Random;
use sheet::{milebadger_mark, milebadger_reason, Sheet};

/// What the claims are.
#[derive(Clone, Copy, PartialEq)]
enum Kind {
    /// Right, in forms of their own.
    Pass,
    /// "No solution", where there are some.
    None,
    /// Any vectors, where nothing solves the equations.
    Unsolvable,
    /// Another start, which a first equation shows.
    Start,
    /// Another last step, behind all that are right.
    Step,
    /// A step is missing, which only a look at all steps shows.
    Missed,
}

impl Kind {
    /// The number of the reason.
    fn reason(self) -> i64 {
        match self {
            Kind::Pass => 0,
            Kind::None => 1,
            Kind::Unsolvable => 2,
            Kind::Start => 3,
            Kind::Step => 4,
            Kind::Missed => 5,
        }
    }
}

#[derive(Clone, Copy)]
struct Case {
    kind: Kind,
    shape: Shape,
}

impl Case {
    fn name(&self) -> String {
        let kind = match self.kind {
            Kind::Pass => "pass",
            Kind::None => "none-claimed",
            Kind::Unsolvable => "unsolvable",
            Kind::Start => "wrong-start",
            Kind::Step => "wrong-last-step",
            Kind::Missed => "missing-step",
        };
        format!("{kind}-{n}x{n}-mod-{m}", n = self.shape.n, m = self.shape.m)
    }
}

fn cases() -> Vec<Case> {
    let kinds = [Kind::Pass, Kind::None, Kind::Unsolvable, Kind::Start, Kind::Step, Kind::Missed];
    let shapes = [(12, 2, 4), (65_520, 12, 16), (32_768, 256, 16)].map(|(m, factor, n)| Shape { m, factor, n });
    shapes.iter().flat_map(|&shape| kinds.map(|kind| Case { kind, shape })).collect()
}

/// The words of a claim: a right one, or what the case makes of it.
fn claim(case: Case, answer: &[Vec<u64>], random: &mut Random) -> Vec<u32> {
    let Shape { m, n, .. } = case.shape;
    let mut vectors = case.shape.right_claim(answer, random);
    match case.kind {
        Kind::Pass | Kind::Unsolvable => {}
        Kind::None => vectors.clear(),
        Kind::Start => vectors[0][0] = (vectors[0][0] + 1) % m,
        Kind::Step => vectors[n][0] = (vectors[n][0] + 1) % m,
        Kind::Missed => vectors[n] = vec![0; n],
    }
    claims::words(&vectors)
}

struct Reasons {
    works: Vec<(Sheet, Vec<Vec<u32>>)>,
    at: [u32; 3],
    out: [u32; 16],
}

impl Reasons {
    fn new(case: Case) -> Reasons {
        let mut random = Random::new();
        let mut works = vec![];
        for _ in 0..SHEETS {
            let mut lines = case.shape.lines(&mut random);
            let answer = case.shape.answer(&case.shape.sheet(&lines));
            if case.kind == Kind::Unsolvable {
                // the other numbers of the line, and m, are multiples of the factor
                lines[case.shape.n - 1][case.shape.n] += 1;
            }
            works.push((case.shape.sheet(&lines), (0..CLAIMS).map(|_| claim(case, &answer, &mut random)).collect()));
        }
        let mut reasons = Reasons { works, at: [0; 3], out: [0; 16] };
        // one round each way, with the reason of the case, and its mark
        for place in 0..SHEETS * CLAIMS {
            let (reason, mark) = (reasons.call("reason", place), reasons.call("mark", place));
            assert!(reason == case.kind.reason() && (mark == 1) == (reason == 0), "{}: {reason}, {mark}", case.name());
        }
        reasons
    }

    /// The call for this claim of all.
    fn call(&mut self, how: &str, place: usize) -> i64 {
        let (sheet, claims) = &self.works[place / CLAIMS % SHEETS];
        let claim = &claims[place % CLAIMS];
        let (words, length, at, out) = (claim.as_ptr(), claim.len(), self.at.as_mut_ptr(), self.out.as_mut_ptr());
        match how {
            "reason" => unsafe { milebadger_reason(sheet, words, length, at, 3, out, 16) },
            "mark" => unsafe { milebadger_mark(sheet, words, length) },
            _ => panic!("{how} is neither reason nor mark"),
        }
    }
}

fn main() {
    let arguments: Vec<String> = std::env::args().skip(1).collect();
    let reasons = |name: &str| Reasons::new(cases().into_iter().find(|case| case.name() == name).expect("no such case"));
    match arguments.iter().map(String::as_str).collect::<Vec<_>>()[..] {
        ["list"] => cases().iter().for_each(|case| println!("{}", case.name())),
        ["time", name] => {
            let mut reasons = reasons(name);
            let [reason, mark] = claims::by_turns(["reason", "mark"], 1, |how, place| {
                reasons.call(how, place);
            });
            println!("{reason:.3} {mark:.3}");
        }
        ["run", how, name, count] => {
            let (mut reasons, count) = (reasons(name), count.parse().expect("no count"));
            for place in 0..count {
                reasons.call(how, place);
            }
        }
        _ => panic!("reason list, reason time CASE, or reason run HOW CASE COUNT"),
    }
}
