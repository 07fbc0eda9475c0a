//! The reason beside a mark other than a pass: of those that hold the first, true as it is stated, and none exactly where the claim
//! passes; what it shows; the questions in their order, and how long the lent memory must be. Small sheets have all their vectors tried.
//! Large ones are made from their solutions, and reasons about them are checked by plugging in.
mod acts;
mod exercises;
mod face;
mod grammar;
mod ledger;
mod planted;
mod random;
mod reference;
mod sheet;
mod shown;
mod spelling;

use acts::{entered, random_solvable, random_unsolvable, reason, replied, WIDE};
use exercises::{chance, pick, plus, Flaw};
use ledger::{claim, word, Reason, ENTRY, MULTIPLIER, OWN_REASONED, REASONED};
use planted::{any_divisor, any_vector, planted, times};
use random::Random;
use reference::{Answer, Line, System};
use sheet::{Act, Desk, Outcome, Reply};
use std::collections::BTreeMap;

/// A sheet with these equations, and a start with steps that lead to all its solutions, where it has any.
struct Posed {
    desk: Desk,
    system: System,
    answer: Option<Answer>,
}

impl Posed {
    fn new(system: System, answer: Option<Answer>) -> Posed {
        Posed { desk: entered(&system), system, answer }
    }

    /// Of six sheets three are small and have a solution, one is small and has none, one is large and has one, and one is large and
    /// has none.
    fn random(random: &mut Random, round: usize) -> Posed {
        match round % 6 {
            0..=2 => {
                let (system, answer) = random_solvable(random);
                Posed::new(system, Some(answer))
            }
            3 => Posed::new(random_unsolvable(random), None),
            place => {
                let wide = pick(random, &WIDE);
                let m = pick(random, &[12, 60, 30_030, 32_768, 65_520, 65_521, 65_535, wide, wide, wide]);
                let divisors: Vec<u32> = (0..pick(random, &[5, 8, 15, 16])).map(|_| any_divisor(random, m)).collect();
                Posed::planted(random, m, &divisors, place == 4)
            }
        }
    }

    fn planted(random: &mut Random, m: u32, divisors: &[u32], solvable: bool) -> Posed {
        let (system, answer) = planted(random, m, divisors, solvable);
        Posed::new(system, solvable.then_some(answer))
    }

    fn is_large(&self) -> bool {
        !ledger::can_try(self.system.m, self.system.n)
    }

    /// The reason, by what is known of the solutions.
    fn known(&self, vectors: &[Vec<u32>]) -> Option<Reason> {
        if self.is_large() {
            shown::reason_given(&self.system, self.answer.as_ref(), vectors)
        } else {
            ledger::reason(&self.system, vectors)
        }
    }

    /// How long a buffer is asked for.
    fn room(&self, vectors: &[Vec<u32>]) -> usize {
        self.known(vectors).map_or(0, |reason| reason.room(&self.system))
    }

    /// The reply to the call, which the reference and a mark confirm. The sheet keeps every number.
    fn reply(&mut self, act: &Act, seed: u64) -> Reply {
        replied(&mut self.desk, &self.system, act, seed)
    }

    /// The reply to a call with room for every reason.
    fn roomy(&mut self, vectors: &[Vec<u32>], seed: u64) -> Reply {
        self.reply(&reason(&claim(vectors), 4, 33), seed)
    }
}

/// What a student hands in that is refused only for what is lent.
#[derive(Clone, Copy, Debug, Eq, Ord, PartialEq, PartialOrd)]
enum Kind {
    /// The solutions, in another form, which may be long.
    Right,
    /// The answer, where there is room with a multiple of one of its steps behind the others, or with zeros.
    Long,
    /// "No solution."
    NoSolution,
    /// Right but for another start.
    Start,
    /// Right but for another step, or some.
    Step,
    /// Right but for a step that is missing, or is a multiple of what it was.
    Short,
    /// All this at once.
    Several,
    /// Any vectors.
    Any,
}

const KINDS: [Kind; 8] =
    [Kind::Right, Kind::Long, Kind::NoSolution, Kind::Start, Kind::Step, Kind::Short, Kind::Several, Kind::Any];

const FLAWS: [Flaw; 8] =
    [Flaw::NotBelow, Flaw::Misfit, Flaw::Top, Flaw::Loose, Flaw::LargeHead, Flaw::Stray, Flaw::Cut, Flaw::Long];

/// One entry of the vector is another.
fn disturb(random: &mut Random, m: u32, v: &mut [u32]) {
    let place = random.below(v.len() as u64) as usize;
    v[place] = ((v[place] as u64 + 1 + random.below(m as u64 - 1)) % m as u64) as u32;
}

/// One of the steps of a claim that has some.
fn pick_step(random: &mut Random, vectors: &[Vec<u32>]) -> Vec<u32> {
    vectors[1 + random.below(vectors.len() as u64 - 1) as usize].clone()
}

/// The vectors of a well-formed claim. Where nothing solves the equations, the right claim has none, and the others have any.
fn vectors(random: &mut Random, posed: &Posed, kind: Kind) -> Vec<Vec<u32>> {
    let (m, n) = (posed.system.m, posed.system.n);
    let mut vectors = match (&posed.answer, kind) {
        (_, Kind::NoSolution) | (None, Kind::Right) => return vec![],
        (None, _) | (_, Kind::Any) => {
            let most = if chance(random, 4) { 17 } else { 3 };
            (0..=random.below(most)).map(|_| any_vector(random, m, n)).collect()
        }
        (Some(answer), Kind::Short) if chance(random, 2) => ledger::vectors_of(answer),
        (Some(answer), Kind::Long) => ledger::vectors_of(answer),
        (Some(answer), _) => exercises::right_claim(random, m, answer),
    };
    if kind == Kind::Long && vectors.len() < 17 {
        let factor = any_divisor(random, m);
        let step = if vectors.len() > 1 { times(m, factor, &pick_step(random, &vectors)) } else { vec![0; n] };
        vectors.push(step);
    }
    if [Kind::Start, Kind::Several].contains(&kind) {
        disturb(random, m, &mut vectors[0]);
    }
    if vectors.len() > 1 && [Kind::Step, Kind::Several].contains(&kind) {
        for _ in 0..=random.below(3) {
            let place = 1 + random.below(vectors.len() as u64 - 1) as usize;
            disturb(random, m, &mut vectors[place]);
        }
    }
    if vectors.len() > 1 && [Kind::Short, Kind::Several].contains(&kind) {
        let place = 1 + random.below(vectors.len() as u64 - 1) as usize;
        vectors[place] = times(m, any_divisor(random, m), &vectors[place]);
        if chance(random, 2) {
            vectors.remove(place);
        }
    }
    vectors
}

/// The words of a claim that is refused for this flaw. Where it breaks off, there may be none.
fn malformed(random: &mut Random, posed: &Posed, flaw: Flaw) -> Vec<u32> {
    let kind = pick(random, &[Kind::Any, Kind::Start, Kind::Short]);
    let vectors = vectors(random, posed, kind);
    let mut words = exercises::flawed(random, &posed.system, &vectors, flaw);
    if flaw == Flaw::Cut && chance(random, 4) {
        words.clear();
    }
    words
}

/// How often something was seen on small sheets, and on large ones.
#[derive(Debug)]
struct Seen<T>(BTreeMap<T, [usize; 2]>);

impl<T: Copy + Ord + std::fmt::Debug> Seen<T> {
    fn new() -> Seen<T> {
        Seen(BTreeMap::new())
    }

    /// It was looked for, and is there or not.
    fn look(&mut self, large: bool, what: T, there: bool) {
        self.0.entry(what).or_insert([0; 2])[large as usize] += there as usize;
    }

    /// All that was looked for was there at least so often, on small sheets and on large ones.
    fn expect(&self, least: usize) {
        assert!(self.0.values().flatten().all(|&times| times >= least), "{self:?}");
    }
}

/// What tells the reason for a claim of some vectors from one that is nearly right.
fn tellings(posed: &Posed, vectors: &[Vec<u32>], known: Option<Reason>) -> [(&'static str, bool); 27] {
    let (system, homogeneous) = (&posed.system, posed.system.homogeneous());
    let all = 1..=system.equations.len();
    let broken = all.clone().filter(|&equation| !system.only(equation).solved_by(&vectors[0])).count();
    let changed: Vec<(usize, usize)> = (1..vectors.len())
        .flat_map(|step| all.clone().map(move |equation| (step, equation)))
        .filter(|&(step, equation)| !homogeneous.only(equation).solved_by(&vectors[step]))
        .collect();
    let changes = !changed.is_empty();
    let misses = posed.answer.as_ref().is_some_and(|answer| shown::misses(system.m, answer, vectors));
    let first = shown::solved(system).map(|answer| answer.start);
    let described = first.is_some_and(|first| shown::describes(system.m, vectors, &first));
    let [number, step, equation] = known.map_or([0; 3], Reason::numbers).map(|number| number as usize);
    let own = |equation: usize| system.equations[equation - 1].q < system.m;
    let mixed = all.clone().any(own);
    let changes_mod_m = |step: &Vec<u32>| system.equations.iter().any(|line| line.left(step) % system.m as i128 != 0);
    let long = shown::superfluous(system.m, vectors).is_some();
    let zero = number == 6 && vectors[step].iter().all(|&x| x == 0);
    let from = |from: usize, to: usize| {
        let some = [&vec![vec![0; system.n]][..], &vectors[from..to]].concat();
        number == 6 && shown::describes(system.m, &some, &vectors[step])
    };
    let (by_earlier, by_later) = (from(1, step.max(1)), from(step + 1, vectors.len()));
    let steps = posed.answer.as_ref().map_or(0, |answer| answer.steps.len());
    [
        ("no solution, and a step changes an equation", number == 2 && changes),
        ("no solution, and no step changes an equation", number == 2 && !changes),
        ("no solution, and not as many equations as unknowns", number == 2 && system.equations.len() != system.n),
        ("the start breaks other equations too", number == 3 && broken > 1),
        ("the start breaks another equation than the first", number == 3 && equation > 1),
        ("the start breaks an equation, and a step changes one", number == 3 && changes),
        ("an equation is broken or changed, and a solution is missed", [3, 4].contains(&number) && misses),
        ("another step than the first", number == 4 && step > 1),
        ("another equation than the first", number == 4 && equation > 1),
        ("the step changes other equations too", number == 4 && changed.iter().filter(|pair| pair.0 == step).count() > 1),
        ("other steps change equations too", number == 4 && changed.iter().any(|pair| pair.0 > step)),
        ("a solution is missed, and the answer's start is described", number == 5 && described),
        ("a solution is missed, and the answer's start is not described", number == 5 && !described),
        ("no solution, and an equation has a modulus of its own", number == 2 && mixed),
        ("the start breaks an equation with a modulus of its own", number == 3 && own(equation)),
        ("a step changes an equation with a modulus of its own", number == 4 && own(equation)),
        ("a solution is missed, and an equation has a modulus of its own", number == 5 && mixed),
        ("it passes, and mod m a step would change an equation", number == 0 && vectors[1..].iter().any(changes_mod_m)),
        ("another step than the first is superfluous", number == 6 && step > 1),
        ("a step other than zeros is superfluous", number == 6 && !zero),
        ("a step is superfluous by earlier ones, and not by later ones", number == 6 && by_earlier && !by_later),
        ("a step is superfluous by later ones, and not by earlier ones", number == 6 && by_later && !by_earlier),
        ("a step is superfluous, and an equation has a modulus of its own", number == 6 && mixed),
        ("no solution, and a step is superfluous", number == 2 && long),
        ("an equation is broken or changed, and a step is superfluous", [3, 4].contains(&number) && long),
        ("a solution is missed, and a step is superfluous", number == 5 && long),
        ("it passes with some steps", number == 0 && steps > 1 && vectors.len() > 2),
    ]
}

/// Why a call is refused with 8, if it is.
fn short(number: u32, count: usize, at: usize, out: usize) -> [(&'static str, bool); 5] {
    let (few, fewer) = (at < 3, out < count);
    [
        ("`at` is too short for a claim that passes", few && number == 0),
        ("`at` is too short for a reason without words", few && number > 0 && count == 0),
        ("`at` is too short for a reason with words", few && !fewer && count > 0),
        ("the buffer is too short", !few && fewer),
        ("both are too short", few && fewer),
    ]
}

#[test]
fn each_reason_is_the_first_that_holds_and_true_and_there_is_none_where_the_claim_passes() {
    let mut random = Random::new();
    let (mut numbers, mut kinds, mut telling, mut refused) = (Seen::new(), Seen::new(), Seen::new(), Seen::new());
    let mut heads = BTreeMap::new();
    for round in 0..24_000 {
        let mut posed = Posed::random(&mut random, round);
        let (large, kind) = (posed.is_large(), pick(&mut random, &KINDS));
        let vectors = vectors(&mut random, &posed, kind);
        let (known, count) = (posed.known(&vectors), posed.room(&vectors));
        let [number, ..] = known.map_or([0; 3], Reason::numbers);
        let at = pick(&mut random, &[0, 1, 2, 3, 3, 3, 3, 3, 4, 7]);
        let out = pick(&mut random, &[count.saturating_sub(1), 0, count, count, count, count + 1, count + 3, 40]);
        let reply = posed.reply(&reason(&claim(&vectors), at, out), random.seed);
        let why = short(number, count, at, out);
        let is_short = why.iter().any(|(_, there)| *there);
        let good = if is_short { Outcome::Refused(8) } else { Outcome::Reason(number) };
        assert_eq!(reply.outcome, good, "{:?}: {vectors:?} into {at} and {out} (seed {})", posed.system, random.seed);
        why.into_iter().for_each(|(what, there)| refused.look(large, what, there));
        if !is_short {
            numbers.look(large, number, true);
            let sure: &[u32] = match kind {
                Kind::Right => &[0, 6],
                Kind::Long if posed.answer.is_some() => &[0, 6],
                Kind::NoSolution => &[posed.answer.is_some() as u32],
                _ => &[number],
            };
            assert!(sure.contains(&number), "{kind:?} {vectors:?}, {:?} (seed {})", posed.system, random.seed);
            for made in [
                (Kind::Right, 0),
                (Kind::Right, 6),
                (Kind::Long, 6),
                (Kind::NoSolution, 0),
                (Kind::NoSolution, 1),
                (Kind::Start, 3),
                (Kind::Step, 4),
                (Kind::Short, 5),
            ] {
                kinds.look(large, made, made == (kind, number));
            }
            *heads.entry(vectors.len()).or_insert(0) += 1;
        }
        if !is_short && !vectors.is_empty() {
            tellings(&posed, &vectors, known).into_iter().for_each(|(what, there)| telling.look(large, what, there));
        }
    }
    numbers.expect(100);
    assert_eq!(numbers.0.len(), 7, "{numbers:?}");
    kinds.expect(60);
    refused.expect(100);
    telling.expect(8);
    assert!(heads.len() == 18 && heads.values().all(|&times| times > 20), "{heads:?}");
}

#[test]
fn claims_that_cannot_be_marked_have_no_reason_whatever_is_lent() {
    let mut random = Random::new();
    let mut seen = Seen::new();
    for round in 0..3_000 {
        let mut posed = Posed::random(&mut random, round);
        let flaw = pick(&mut random, &FLAWS);
        let words = malformed(&mut random, &posed, flaw);
        let (at, out) = (pick(&mut random, &[0, 1, 2, 3, 4]), pick(&mut random, &[0, 1, 16, 31, 32, 33]));
        let reply = posed.reply(&reason(&words, at, out), random.seed);
        let number = match flaw {
            Flaw::NotBelow => 6,
            Flaw::Top | Flaw::Loose => 17,
            _ => 1,
        };
        assert_eq!(reply.outcome, Outcome::Refused(number), "{flaw:?} {words:x?} (seed {})", random.seed);
        seen.look(posed.is_large(), flaw, true);
        let unopened = Desk::fresh().act(&reason(&words, at, out)).unwrap().outcome;
        assert_eq!(unopened, Outcome::Refused(4), "{flaw:?} {words:x?} (seed {})", random.seed);
    }
    assert_eq!(seen.0.len(), FLAWS.len(), "{seen:?}");
    seen.expect(50);
}

#[test]
fn every_claim_about_every_tiny_sheet_gets_its_reason() {
    let mut seen = BTreeMap::new();
    // m, n, how many equations, and the most vectors that are claimed
    let shapes = [
        (2, 1, 2, 3),
        (2, 2, 1, 3),
        (2, 2, 2, 3),
        (3, 1, 1, 3),
        (3, 2, 1, 2),
        (4, 1, 1, 3),
        (4, 1, 2, 2),
        (4, 2, 1, 2),
        (6, 1, 1, 3),
    ];
    for (m, n, k, most) in shapes {
        let lines = reference::every_line(m, n);
        for places in reference::vectors(lines.len() as u32, k) {
            let equations = places.iter().map(|&place| lines[place as usize].clone()).collect();
            let mut posed = Posed::new(System { m, n, equations }, None);
            for entries in (0..=most).flat_map(|count| reference::vectors(m, count * n)) {
                let vectors: Vec<Vec<u32>> = entries.chunks(n).map(|v| v.to_vec()).collect();
                let reply = posed.roomy(&vectors, 0);
                let Outcome::Reason(number) = reply.outcome else { panic!("{vectors:?}: {reply:?}") };
                *seen.entry(number).or_insert(0) += 1;
            }
        }
    }
    assert!(seen.len() == 7 && seen.values().all(|&times| times > 200), "{seen:?}");
}

#[test]
fn reasons_that_were_worked_out_by_hand() {
    let plain = REASONED.map(|(m, n, equations, vectors, expected)| (ledger::posed(m, n, equations, vectors), expected));
    let own = OWN_REASONED.map(|(m, n, equations, vectors, expected)| (ledger::posed_own(m, n, equations, vectors), expected));
    for ((system, vectors), expected) in plain.into_iter().chain(own) {
        let reply = Posed::new(system.clone(), None).roomy(&vectors, 0);
        assert_eq!(reply.outcome, Outcome::Reason(expected[0]), "{system:?}: {vectors:?}");
        assert_eq!(reply.at[..2], expected[1..], "{system:?}: {vectors:?}");
    }
    // words of which there are no others to choose, and the answer's starting vector
    let written: [(u32, usize, &[&[i64]], &[&[u32]], u32, &[u32]); 8] = [
        (4, 2, &[&[1, 2, 0]], &[], ENTRY, &[0, 0]),
        (12, 2, &[&[2, 3, 5]], &[], ENTRY, &[1, 1]),
        (4, 2, &[&[2, 0, 1]], &[&[3, 3], &[1, 0]], MULTIPLIER, &[2]),
        (2, 2, &[&[1, 1, 1], &[1, 1, 0]], &[&[0, 1]], MULTIPLIER, &[1, 1]),
        (2, 3, &[&[1, 1, 0, 1], &[0, 1, 1, 1], &[1, 0, 1, 1]], &[&[0, 1, 0]], MULTIPLIER, &[1, 1, 1]),
        (2, 3, &[&[1, 1, 0, 1], &[0, 1, 1, 1]], &[&[0, 1, 0]], ENTRY, &[1, 0, 1]),
        (2, 3, &[&[1, 1, 0, 1], &[0, 1, 1, 1]], &[&[1, 0, 1]], ENTRY, &[0, 1, 0]),
        (65_534, 1, &[&[2, 4]], &[&[2]], ENTRY, &[32_769]),
    ];
    for (m, n, equations, vectors, kind, numbers) in written {
        let (system, vectors) = ledger::posed(m, n, equations, vectors);
        let reply = Posed::new(system.clone(), None).roomy(&vectors, 0);
        let words: Vec<u32> = numbers.iter().map(|&number| word(kind, number)).collect();
        assert_eq!(reply.at[2] as usize, words.len(), "{system:?}: {vectors:?}");
        assert_eq!(reply.buffer[..words.len()], words, "{system:?}: {vectors:?}");
    }
}

#[test]
fn three_numbers_of_at_and_the_words_of_the_reason_are_enough_and_less_is_not() {
    let mut random = Random::new();
    let mut seen = Seen::new();
    for round in 0..180 {
        let mut posed = Posed::random(&mut random, round);
        for kind in KINDS {
            let vectors = vectors(&mut random, &posed, kind);
            let (known, count) = (posed.known(&vectors), posed.room(&vectors));
            let [number, ..] = known.map_or([0; 3], Reason::numbers);
            let whole = posed.roomy(&vectors, random.seed);
            for at in 0..=5 {
                for out in 0..count + 3 {
                    let reply = posed.reply(&reason(&claim(&vectors), at, out), random.seed);
                    let good = if at < 3 || out < count { Outcome::Refused(8) } else { Outcome::Reason(number) };
                    assert_eq!(reply.outcome, good, "{vectors:?} into {at} and {out} (seed {})", random.seed);
                    // the same each time, whatever is lent
                    if good != Outcome::Refused(8) {
                        assert_eq!(reply.buffer[..count], whole.buffer[..count], "{vectors:?} (seed {})", random.seed);
                    }
                }
            }
            seen.look(posed.is_large(), number, true);
        }
    }
    assert_eq!(seen.0.len(), 7, "{seen:?}");
    seen.expect(5);
}

#[test]
fn questions_are_those_of_marking_in_their_order_and_then_8() {
    let mut random = Random::new();
    for round in 0..120 {
        let mut posed = Posed::random(&mut random, round);
        let (m, n) = (posed.system.m, posed.system.n);
        for vectors in [vectors(&mut random, &posed, Kind::Any), vec![any_vector(&mut random, m, n); 17], vec![vec![0; n]]] {
            let (good, count) = (claim(&vectors), posed.room(&vectors));
            let [number, ..] = posed.known(&vectors).map_or([0; 3], Reason::numbers);
            let mut above = vectors.clone();
            above[0][0] = m;
            let large = claim(&above);
            for (words, below) in [(&good, true), (&large, false)] {
                // as it is, a word too few, a word too many, of another kind
                let mut other = words.to_vec();
                let last = other.last_mut().unwrap();
                *last = word(MULTIPLIER, ledger::number(*last));
                let fewer = ledger::front(words, ledger::joined(words).len() - 1);
                let shapes = [words.to_vec(), words[..fewer].to_vec(), [&words[..], &[word(ENTRY, 0)]].concat(), other];
                for (shape, words) in shapes.iter().enumerate() {
                    for (at, out) in [(3, count), (2, count), (3, count.saturating_sub(1)), (0, 0)] {
                        let act = reason(words, at, out);
                        let unopened = Desk::fresh().act(&act).unwrap().outcome;
                        assert_eq!(unopened, Outcome::Refused(4), "{act:x?} (seed {})", random.seed);
                        let expected = match (shape, below, at < 3 || out < count) {
                            (1.., ..) => Outcome::Refused(1),
                            (0, false, _) => Outcome::Refused(6),
                            (0, true, true) => Outcome::Refused(8),
                            (0, true, false) => Outcome::Reason(number),
                        };
                        let reply = posed.reply(&act, random.seed);
                        assert_eq!(reply.outcome, expected, "{act:x?} (seed {})", random.seed);
                    }
                }
            }
        }
    }
}

/// Moduli, each with a divisor.
const FACTORS: [(u32, u32); 10] = [
    (4, 2),
    (12, 3),
    (12, 4),
    (60, 6),
    (30_030, 30),
    (65_520, 12),
    (65_535, 255),
    (1 << 28, 1 << 14),
    (4_026_531_840, 240),
    (u32::MAX, 255),
];

#[test]
fn steps_are_gone_through_before_equations_and_the_start_before_both() {
    let mut random = Random::new();
    let (mut broken, mut changed, mut turned) = (0, 0, 0);
    for _ in 0..2_000 {
        // d times each unknown is what it is `there`; an entry of the way from there leaves it so exactly if m / d divides it
        let (m, d) = pick(&mut random, &FACTORS);
        let (n, count) = (2 + random.below(15) as usize, 1 + random.below(17) as usize);
        let there = any_vector(&mut random, m, n);
        let right = |j: usize| (d as i64 * there[j] as i64) % m as i64;
        let line = |j: usize| (0..n).map(|i| (i == j) as i64 * d as i64).chain([right(j)]).collect();
        let mut system = System::plain(m, n, (0..n).map(line).collect());
        // some of them divided by d: the unknown is what it is there mod m / d
        for (j, line) in system.equations.iter_mut().enumerate().filter(|_| chance(&mut random, 2)) {
            let numbers = (0..n).map(|i| (i == j) as i64).chain([there[j] as i64]).collect();
            *line = Line { q: m / d, numbers };
        }
        let mut posed = Posed::new(system, None);
        // the entries that are no such multiples, of the start's way from there and of each step
        let often = 2 + random.below(4 * n as u64);
        let off: Vec<Vec<bool>> = (0..count)
            .map(|i| (0..n).map(|_| chance(&mut random, if i == 0 { 4 * n as u64 } else { often })).collect())
            .collect();
        let mut entry = |&off: &bool| {
            let rest = if off { 1 + random.below((m / d) as u64 - 1) } else { 0 };
            (m / d * random.below(d as u64) as u32) + rest as u32
        };
        let mut vectors: Vec<Vec<u32>> = off.iter().map(|off| off.iter().map(&mut entry).collect()).collect();
        vectors[0] = plus(m, &there, 1, &vectors[0]);
        let first = |i: usize| (0..n).find(|&j| off[i][j]);
        let expected = match (first(0), (1..count).find(|&i| first(i).is_some())) {
            (Some(j), _) => [3, 0, j as u32 + 1],
            (None, Some(step)) => [4, step as u32, first(step).unwrap() as u32 + 1],
            (None, None) => continue,
        };
        let reply = posed.roomy(&vectors, random.seed);
        let found = (reply.outcome, reply.at[0], reply.at[1]);
        assert_eq!(found, (Outcome::Reason(expected[0]), expected[1], expected[2]), "{off:?}, seed {}", random.seed);
        broken += (expected[0] == 3) as usize;
        changed += (expected[0] == 4) as usize;
        // another step changes an equation before that one
        turned += (expected[0] == 4 && (1..count).any(|i| first(i).is_some_and(|j| j + 1 < expected[2] as usize))) as usize;
    }
    assert!(broken > 150 && changed > 500 && turned > 300, "{broken} broken, {changed} changed, {turned} in another order");
}

#[test]
fn full_size_claims_of_17_vectors_with_one_fault() {
    let mut random = Random::new();
    for round in 0..18 {
        let (m, d) = [(65_520, 12), (32_768, 256), (30_030, 30), (65_535, 255), (4_026_531_840, 240), (u32::MAX, 255)][round % 6];
        let mut posed = Posed::planted(&mut random, m, &[d; 16], true);
        let answer = posed.answer.clone().expect("a solution");
        let right = exercises::right_claim(&mut random, m, &answer);
        assert_eq!(right.len(), 17);
        // it takes 16 steps, so none of these follows from the others
        assert_eq!(posed.roomy(&right, random.seed).outcome, Outcome::Reason(0));
        for place in 0..17 {
            // an entry that is 1 more shows, since d times a column of the rows is not 0
            let mut other = right.clone();
            let entry = random.below(16) as usize;
            other[place][entry] = (other[place][entry] + 1) % m;
            let reply = posed.roomy(&other, random.seed);
            let expected = if place == 0 { (3, 0) } else { (4, place as u32) };
            let found = (reply.outcome, reply.at[0]);
            assert_eq!(found, (Outcome::Reason(expected.0), expected.1), "{:?}: {other:?}, seed {}", posed.system, random.seed);
            // and so does nothing in the place of a step, since fewer than 16 do not lead everywhere
            if place > 0 {
                let mut fewer = right.clone();
                fewer[place] = vec![0; 16];
                let reply = posed.roomy(&fewer, random.seed);
                assert_eq!(reply.outcome, Outcome::Reason(5), "{:?}: {fewer:?}, seed {}", posed.system, random.seed);
                fewer.remove(place);
                assert_eq!(posed.roomy(&fewer, random.seed).outcome, reply.outcome, "{fewer:?}, seed {}", random.seed);
            }
        }
        assert_eq!(posed.roomy(&[], random.seed).outcome, Outcome::Reason(1), "seed {}", random.seed);
        let mut none = Posed::planted(&mut random, m, &[d; 16], false);
        assert_eq!(none.system.equations.len(), 16);
        assert_eq!(none.roomy(&right, random.seed).outcome, Outcome::Reason(2), "seed {}", random.seed);
        assert_eq!(none.roomy(&[], random.seed).outcome, Outcome::Reason(0), "seed {}", random.seed);
    }
}

#[test]
fn plugging_in_finds_the_reason_that_trying_all_vectors_does() {
    let mut random = Random::new();
    let mut seen = BTreeMap::new();
    for round in 0..3_000 {
        let posed = Posed::random(&mut random, round % 4);
        let kind = pick(&mut random, &KINDS);
        let vectors = vectors(&mut random, &posed, kind);
        let reason = shown::reason(&posed.system, &vectors);
        assert_eq!(reason, ledger::reason(&posed.system, &vectors), "{:?}: {vectors:?} (seed {})", posed.system, random.seed);
        *seen.entry(reason.map_or(0, |reason| reason.numbers()[0])).or_insert(0) += 1;
    }
    assert!(seen.len() == 7 && seen.values().all(|&times| times > 50), "{seen:?}");
}
