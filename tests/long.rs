//! Right but long: the set is right, but some step is a combination of the others. The values of the request; every claim about small
//! sheets, where every vector and every coefficient is tried; and claims of up to 16 steps, whose superfluous ones are known because the
//! claims are made from a basis. Marks, reasons, the bytes of classes and the lines of tapes are looked at together.
mod acts;
mod exercises;
mod face;
mod grammar;
mod ledger;
mod planted;
mod random;
mod reference;
mod sheet;
mod shown;
mod spelling;
mod tape;

use acts::{answer, answered, entered, full_size_system, random_solvable, random_unsolvable, reason};
use exercises::{chance, pick, plus, unit};
use face::{untouched, LONGEST_WORDS};
use ledger::{claim, OWN_REASONED, REASONED};
use planted::{any_divisor, any_vector, planted, times};
use random::Random;
use reference::{divisor_by_halving, without, Answer, System};
use sheet::{Act, Desk, Outcome};
use std::collections::{BTreeMap, BTreeSet};

/// A start and steps, or nothing for "no solution".
type Vectors = Vec<Vec<u32>>;

/// The mark of a claim; for a long one with the number of its first superfluous step.
#[derive(Clone, Copy, Debug, Eq, Ord, PartialEq, PartialOrd)]
enum Verdict {
    Fail,
    Pass,
    Long(usize),
}

impl Verdict {
    /// Of a claim that is right, with this first superfluous step.
    fn right(superfluous: Option<usize>) -> Verdict {
        superfluous.map_or(Verdict::Pass, Verdict::Long)
    }

    fn is_right(self) -> bool {
        self != Verdict::Fail
    }

    fn is_long(self) -> bool {
        matches!(self, Verdict::Long(_))
    }

    /// "`long` on the printer and 2 in the class bytes."
    fn written(self) -> (u8, &'static str) {
        match self {
            Verdict::Fail => (0, "fail\n"),
            Verdict::Pass => (1, "pass\n"),
            Verdict::Long(_) => (2, "long\n"),
        }
    }
}

/// The verdict of the sheet on a claim. The mark and the reason agree, and the reason of a right claim writes no words.
fn verdict(desk: &mut Desk, vectors: &[Vec<u32>]) -> Verdict {
    let words = claim(vectors);
    let mark = desk.act(&Act::Mark(words.clone())).unwrap().outcome;
    let reply = desk.act(&reason(&words, 4, 33)).unwrap();
    let at: Vec<u32> = reply.at[..3].to_vec();
    let silent = reply.buffer == untouched(33);
    match (mark, reply.outcome) {
        (Outcome::Pass, Outcome::Reason(0)) if silent && at == [0, 0, 0] => Verdict::Pass,
        (Outcome::Long, Outcome::Reason(6)) if silent && at[0] > 0 && at[1..] == [0, 0] => Verdict::Long(at[0] as usize),
        (Outcome::Fail, Outcome::Reason(1..=5)) => Verdict::Fail,
        (mark, _) => panic!("{vectors:?} has the mark {mark:?} and the reason {reply:?}"),
    }
}

/// The verdicts on claims about these equations, with which the bytes of classes and the lines of tapes agree.
fn verdicts(system: &System, claims: &[Vectors], seed: u64) -> Vec<Verdict> {
    let mut desk = entered(system);
    let found: Vec<Verdict> = claims.iter().map(|vectors| verdict(&mut desk, vectors)).collect();
    let adding = system.equations.iter().flat_map(|line| ledger::line_words(system.m, line));
    let entering: Vec<u32> = ledger::opening(system.m, system.n as u32).into_iter().chain(adding).collect();
    let added: String = (1..=system.equations.len()).map(|held| format!("added {held}\n")).collect();
    // so many of the longest claims fit on a tape, where each entry takes two words
    for (claims, found) in claims.chunks(28).zip(found.chunks(28)) {
        let words: Vec<u32> = claims.iter().flat_map(|vectors| claim(vectors)).collect();
        let marks = desk.act(&Act::Class(words.clone(), vec![0xC0; claims.len()])).unwrap().marks;
        let bytes: Vec<u8> = found.iter().map(|verdict| verdict.written().0).collect();
        assert_eq!(marks, bytes, "{system:?}: {claims:?} (seed {seed})");
        let printed = face::tape(&tape::bytes(&[&entering[..], &words].concat()), 1_024);
        let lines: String = found.iter().map(|verdict| verdict.written().1).collect();
        let expected = format!("open {} {}\n{added}{lines}", system.m, system.n);
        assert_eq!(printed.result, expected.len() as i64, "{system:?}: {claims:?} (seed {seed})");
        assert_eq!(printed.memory[..expected.len()], *expected.as_bytes(), "{system:?}: {claims:?} (seed {seed})");
    }
    found
}

/// Each claim about these equations has this verdict.
fn expect(system: &System, claims: &[(Vectors, Verdict)], seed: u64) {
    let vectors: Vec<Vectors> = claims.iter().map(|(vectors, _)| vectors.clone()).collect();
    for (found, (vectors, expected)) in verdicts(system, &vectors, seed).iter().zip(claims) {
        assert_eq!(found, expected, "{vectors:?}, {system:?} (seed {seed})");
    }
}

/// The verdict by trying all vectors, and every coefficient for each step.
fn tried(m: u32, solutions: &BTreeSet<Vec<u32>>, vectors: &[Vec<u32>]) -> Verdict {
    if ledger::described(m, vectors) != *solutions {
        return Verdict::Fail;
    }
    let steps = vectors.get(1..).unwrap_or_default();
    Verdict::right(reference::superfluous_by_trying(m, steps).first().copied())
}

/// The verdict on a claim whose solutions cannot be tried, about equations with this answer: by plugging in.
fn plugged_in(system: &System, answer: &Answer, vectors: &[Vec<u32>]) -> Verdict {
    match shown::reason_given(system, Some(answer), vectors) {
        None => Verdict::Pass,
        Some(ledger::Reason::Superfluous { step }) => Verdict::Long(step),
        Some(_) => Verdict::Fail,
    }
}

#[test]
fn the_values_of_the_request() {
    let vectors = |start: &[u32], steps: &[&[u32]]| -> Vectors {
        [start].into_iter().chain(steps.iter().copied()).map(|v| v.to_vec()).collect()
    };
    // x + 2y = 0 mod 4: our own answer is long, and the example claim still passes
    let example = System::plain(4, 2, vec![vec![1, 2, 0]]);
    let own = vectors(&[0, 0], &[&[2, 1], &[0, 2]]);
    let mut desk = entered(&example);
    assert_eq!(answered(&desk.act(&answer(LONGEST_WORDS)).unwrap()), [3, 0, 0, 2, 1, 0, 2]);
    assert_eq!(desk.act(&Act::MarkBlock).unwrap().outcome, Outcome::Long);
    expect(&example, &[(own, Verdict::Long(2)), (vectors(&[0, 0], &[&[2, 3]]), Verdict::Pass)], 0);
    // x = 5 mod 6: "the zero vector as a step is always superfluous"
    let five = System::plain(6, 1, vec![vec![1, 5]]);
    expect(&five, &[(vectors(&[5], &[&[0]]), Verdict::Long(1)), (vectors(&[5], &[]), Verdict::Pass)], 0);
    // mod 6 without equations
    let steps = [([1, 2], Verdict::Long(2)), ([0, 1], Verdict::Long(1)), ([1, 1], Verdict::Long(1)), ([2, 3], Verdict::Pass)];
    let claims = steps.map(|(steps, expected)| (vectors(&[0], &[&steps[..1], &steps[1..]]), expected));
    expect(&System::empty(6, 1), &claims, 0);
}

#[test]
fn what_is_lent_for_the_reason_of_a_long_claim() {
    let own = claim(&[vec![0, 0], vec![2, 1], vec![0, 2]]);
    let mut desk = entered(&System::plain(4, 2, vec![vec![1, 2, 0]]));
    for at in 0..6 {
        for out in 0..4 {
            let reply = desk.act(&reason(&own, at, out)).unwrap();
            let before = untouched(at + out);
            let (outcome, numbers) = match at {
                0..=2 => (Outcome::Refused(8), before[out..].to_vec()),
                _ => (Outcome::Reason(6), [&[2, 0, 0], &before[out + 3..]].concat()),
            };
            assert_eq!((reply.outcome, reply.at), (outcome, numbers), "{at} numbers, {out} words");
            assert_eq!(reply.buffer, before[..out], "{at} numbers, {out} words");
        }
    }
}

#[test]
fn claims_that_were_worked_out_by_hand() {
    let plain = REASONED.map(|(m, n, equations, vectors, expected)| (ledger::posed(m, n, equations, vectors), expected));
    let own = OWN_REASONED.map(|(m, n, equations, vectors, expected)| (ledger::posed_own(m, n, equations, vectors), expected));
    let mut seen = BTreeMap::new();
    for ((system, vectors), [number, step, _]) in plain.into_iter().chain(own) {
        let expected = match number {
            0 => Verdict::Pass,
            6 => Verdict::Long(step as usize),
            _ => Verdict::Fail,
        };
        expect(&system, &[(vectors, expected)], 0);
        *seen.entry(expected.written().1).or_insert(0) += 1;
    }
    assert!(seen.len() == 3 && seen.values().all(|&times| times > 20), "{seen:?}");
}

/// Each claim of one of these starts and of at most so many steps gets the verdict that trying everything gives it.
fn every_claim(system: &System, starts: &[Vec<u32>], most: usize, seen: &mut BTreeMap<Verdict, usize>) {
    let (m, n, solutions) = (system.m, system.n, ledger::solutions(system));
    let mut claims = vec![(vec![], tried(m, &solutions, &[]))];
    for entries in (0..=most).flat_map(|count| reference::vectors(m, count * n)) {
        let steps: Vectors = entries.chunks(n).map(|step| step.to_vec()).collect();
        for start in starts {
            let vectors = [&[start.clone()][..], &steps].concat();
            let expected = tried(m, &solutions, &vectors);
            claims.push((vectors, expected));
        }
    }
    expect(system, &claims, 0);
    claims.iter().for_each(|(_, expected)| *seen.entry(*expected).or_insert(0) += 1);
}

/// No equations, and each equation alone that a sheet can hold, with or without a modulus of its own.
fn every_system(m: u32, n: usize) -> Vec<System> {
    let alone = reference::every_line(m, n).into_iter().map(|line| System { equations: vec![line], ..System::empty(m, n) });
    [System::empty(m, n)].into_iter().chain(alone).collect()
}

#[test]
fn every_claim_in_one_unknown() {
    let mut seen = BTreeMap::new();
    for m in 2..=6 {
        let starts: Vectors = reference::vectors(m, 1).collect();
        every_system(m, 1).iter().for_each(|system| every_claim(system, &starts, 3, &mut seen));
    }
    // two steps that have no common divisor with m, and three
    for (m, most) in [(10, 3), (12, 3), (30, 2), (8, 4), (6, 4)] {
        every_claim(&System::empty(m, 1), &[vec![1]], most, &mut seen);
    }
    let all = [Verdict::Fail, Verdict::Pass, Verdict::Long(1), Verdict::Long(2), Verdict::Long(3)];
    assert!(all.iter().all(|verdict| seen.get(verdict).is_some_and(|&times| times > 100)), "{seen:?}");
}

/// One of the solutions, and where there is none, zeros.
fn some_start(system: &System, place: usize) -> Vec<u32> {
    let solutions: Vectors = ledger::solutions(system).into_iter().collect();
    solutions.get(place % solutions.len().max(1)).cloned().unwrap_or(vec![0; system.n])
}

#[test]
fn every_claim_of_two_steps_in_two_unknowns() {
    let mut seen = BTreeMap::new();
    for m in 2..=3 {
        let starts: Vectors = reference::vectors(m, 2).collect();
        every_system(m, 2).iter().for_each(|system| every_claim(system, &starts, 2, &mut seen));
    }
    // with right sides put to 0, for which there is always a solution
    for m in 4..=6 {
        for (place, system) in every_system(m, 2).iter().enumerate() {
            if *system == system.homogeneous() {
                every_claim(system, &[some_start(system, place)], 2, &mut seen);
            }
        }
    }
    let all = [Verdict::Fail, Verdict::Pass, Verdict::Long(1), Verdict::Long(2)];
    assert!(all.iter().all(|verdict| seen.get(verdict).is_some_and(|&times| times > 100)), "{seen:?}");
}

#[test]
fn every_claim_of_three_steps_in_two_unknowns() {
    let mut seen = BTreeMap::new();
    let lines: [(u32, &[(u32, [i64; 3])]); 14] = [
        (2, &[]),
        (2, &[(2, [1, 1, 1])]),
        (3, &[]),
        (3, &[(3, [1, 2, 1])]),
        (3, &[(3, [1, 2, 1]), (3, [1, 1, 0])]),
        (4, &[]),
        (4, &[(4, [1, 2, 0])]),
        (4, &[(4, [2, 0, 2])]),
        (4, &[(2, [1, 1, 1])]),
        (5, &[(5, [1, 4, 2])]),
        (6, &[]),
        (6, &[(6, [2, 3, 1])]),
        (6, &[(3, [1, 0, 2]), (2, [1, 1, 1])]),
        (6, &[(6, [2, 0, 4]), (6, [0, 3, 3])]),
    ];
    for (place, (m, equations)) in lines.into_iter().enumerate() {
        let mut system = System::empty(m, 2);
        equations.iter().for_each(|(q, numbers)| system.add(*q, numbers.to_vec()));
        every_claim(&system, &[some_start(&system, place)], 3, &mut seen);
    }
    let all = [Verdict::Fail, Verdict::Pass, Verdict::Long(1), Verdict::Long(2), Verdict::Long(3)];
    assert!(all.iter().all(|verdict| seen.get(verdict).is_some_and(|&times| times > 100)), "{seen:?}");
}

/// Vectors in any order.
fn shuffled<T>(random: &mut Random, mut all: Vec<T>) -> Vec<T> {
    for i in (1..all.len()).rev() {
        all.swap(i, random.below(i as u64 + 1) as usize);
    }
    all
}

/// The sum of these steps, each times its coefficient.
fn combination(m: u32, n: usize, coefficients: &[u32], steps: &[Vec<u32>]) -> Vec<u32> {
    coefficients.iter().zip(steps).fold(vec![0; n], |sum, (&t, step)| plus(m, &sum, t as u64, step))
}

/// Another start among the vectors that these steps lead to.
fn moved(random: &mut Random, m: u32, start: &[u32], steps: &[Vec<u32>]) -> Vec<u32> {
    steps.iter().fold(start.to_vec(), |v, step| plus(m, &v, random.below(m as u64), step))
}

/// Each step is multiplied by a unit and gets multiples of others, again and again: they lead to the same vectors.
fn mixed(random: &mut Random, m: u32, steps: &mut [Vec<u32>]) {
    for _ in 0..3 * steps.len() {
        let (i, j) = (random.below(steps.len() as u64) as usize, random.below(steps.len() as u64) as usize);
        steps[i] = times(m, unit(random, m) as u32, &steps[i]);
        if i != j {
            steps[i] = plus(m, &steps[i], random.below(m as u64), &steps[j]);
        }
    }
}

/// Steps other than zeros, each with its order. Each vector that they lead to is just one combination of them, with coefficients below
/// the orders. So a step of the basis follows from combinations, and from the rest of the basis, exactly if their coefficients of it and
/// its order have no common divisor.
struct Basis {
    m: u32,
    n: usize,
    steps: Vec<(Vec<u32>, u32)>,
}

impl Basis {
    fn vectors(&self) -> Vectors {
        self.steps.iter().map(|(step, _)| step.clone()).collect()
    }

    /// The basis with combinations of it, of these coefficients, in any order; and the number of the first superfluous step. Each of
    /// the combinations is one.
    fn lengthened(&self, random: &mut Random, extras: &[Vec<u32>]) -> (Vectors, Option<usize>) {
        let basis = self.vectors();
        let mut all: Vec<(Vec<u32>, bool)> = vec![];
        for (j, (step, order)) in self.steps.iter().enumerate() {
            let common = extras.iter().fold(*order, |common, extra| divisor_by_halving(common, extra[j] % order));
            all.push((step.clone(), common == 1));
        }
        all.extend(extras.iter().map(|extra| (combination(self.m, self.n, extra, &basis), true)));
        let all = shuffled(random, all);
        let first = all.iter().position(|(_, superfluous)| *superfluous).map(|place| place + 1);
        (all.into_iter().map(|(step, _)| step).collect(), first)
    }

    /// Coefficients of some combinations, of one kind or of several: zeros, one step of the basis again, one of them multiplied,
    /// multiples of a divisor of m, or any.
    fn extras(&self, random: &mut Random, count: usize) -> Vec<Vec<u32>> {
        let (m, k) = (self.m, self.steps.len());
        let (kind, shared) = (random.below(6), any_divisor(random, m));
        let mut extras = vec![];
        for _ in 0..count {
            let only = random.below(k.max(1) as u64) as usize;
            let numbers = any_vector(random, m, k);
            let one = |t: u32| (0..k).map(|j| if j == only { t } else { 0 }).collect();
            extras.push(match if kind < 5 { kind } else { random.below(5) } {
                0 => vec![0; k],
                1 => one(1),
                2 => one(random.below(m as u64) as u32),
                3 => times(m, shared, &numbers),
                _ => numbers,
            });
        }
        extras
    }
}

const MODULI: [u32; 18] = [
    2,
    4,
    6,
    12,
    30,
    60,
    30_030,
    32_768,
    65_520,
    65_521,
    65_534,
    65_535,
    65_536,
    1 << 28,
    (1 << 28) + 1,
    3_234_846_615,
    4_294_967_291,
    u32::MAX,
];

/// A prime that divides m: each number from 2 on is divided out as often as it goes, and what is left in the end is a prime too.
fn prime(random: &mut Random, m: u32) -> u32 {
    let (mut left, mut primes) = (m, vec![]);
    for p in (2..).take_while(|p| p * p <= m as u64).map(|p| p as u32) {
        if left % p == 0 {
            primes.push(p);
        }
        while left % p == 0 {
            left /= p;
        }
    }
    primes.extend((left > 1).then_some(left));
    pick(random, &primes)
}

/// A divisor of m that this number divides, which divides m too.
fn multiple(random: &mut Random, m: u32, of: u32) -> u32 {
    of * any_divisor(random, m / of)
}

/// A sheet with up to 16 unknowns whose solutions have a basis, and a start among them. The orders are all one divisor of m, and the
/// basis is mixed, which it then still is; or they are any, and some steps are parted in two, of orders without a common divisor.
fn on_a_basis(random: &mut Random) -> (System, Vec<u32>, Basis) {
    let (m, n) = (pick(random, &MODULI), pick(random, &[1, 2, 3, 5, 8, 15, 16]));
    let (same, order, free) = (chance(random, 2), exercises::divisor(random, m), random.below(n as u64 + 1) as usize);
    let mut divisors = vec![1; n];
    divisors[..free].iter_mut().for_each(|d| *d = if same { order } else { any_divisor(random, m) });
    let divisors = shuffled(random, divisors);
    let (system, answer) = planted(random, m, &divisors, true);
    let orders = divisors.iter().copied().filter(|&d| d > 1);
    let mut steps: Vec<(Vec<u32>, u32)> = answer.steps.iter().cloned().zip(orders).collect();
    if same {
        let mut vectors = answer.steps.clone();
        mixed(random, m, &mut vectors);
        steps.iter_mut().zip(vectors).for_each(|(step, vector)| step.0 = vector);
    } else {
        for place in 0..steps.len() {
            let (step, order) = steps[place].clone();
            let part = any_divisor(random, order);
            if steps.len() < 16 && 1 < part && part < order && divisor_by_halving(part, order / part) == 1 {
                steps[place] = (times(m, part, &step), order / part);
                steps.push((times(m, order / part, &step), part));
            }
        }
        steps.iter_mut().for_each(|(step, _)| *step = times(m, unit(random, m) as u32, step));
    }
    (system, answer.start, Basis { m, n, steps })
}

#[test]
fn superfluous_steps_among_up_to_16_on_a_basis() {
    let mut random = Random::new();
    let (mut passed, mut long, mut full, mut later, mut small) = (0, 0, 0, 0, 0);
    for _ in 0..1_500 {
        let (system, start, basis) = on_a_basis(&mut random);
        let room = 16 - basis.steps.len();
        let mut claims = vec![];
        for count in [0, random.below(room as u64 + 1) as usize, room] {
            let extras = basis.extras(&mut random, count);
            let (steps, first) = basis.lengthened(&mut random, &extras);
            let vectors = [vec![moved(&mut random, system.m, &start, &steps)], steps].concat();
            claims.push((vectors, Verdict::right(first)));
        }
        for (vectors, expected) in &claims {
            // the basis is one
            if ledger::can_try(system.m, system.n) {
                let walked = Verdict::right(ledger::superfluous(system.m, vectors));
                assert_eq!(walked, *expected, "{vectors:?} (seed {})", random.seed);
                small += 1;
            }
            passed += (*expected == Verdict::Pass) as usize;
            long += expected.is_long() as usize;
            full += (vectors.len() == 17 && !ledger::can_try(system.m, system.n)) as usize;
            later += matches!(expected, Verdict::Long(3..)) as usize;
        }
        expect(&system, &claims, random.seed);
    }
    assert!(passed > 1_000 && long > 1_000, "{passed} passed, {long} long");
    assert!(full > 500 && later > 100 && small > 500, "{full} of 16 steps, {later} with a later step first, {small} tried");
}

/// A sheet whose solutions take as many steps as the answer has: one prime divides the order of each.
fn on_as_many_as_it_takes(random: &mut Random) -> (System, Answer) {
    let (m, n) = (pick(random, &MODULI), pick(random, &[1, 2, 3, 5, 8, 15, 16]));
    let p = prime(random, m);
    let free = if chance(random, 3) { n } else { random.below(n as u64 + 1) as usize };
    let divisors: Vec<u32> = (0..n).map(|j| if j < free { multiple(random, m, p) } else { 1 }).collect();
    let divisors = shuffled(random, divisors);
    planted(random, m, &divisors, true)
}

#[test]
fn mixed_steps_pass_where_it_takes_as_many_and_one_more_is_long() {
    let mut random = Random::new();
    let mut sixteen = 0;
    for _ in 0..1_000 {
        let (system, answer) = on_as_many_as_it_takes(&mut random);
        let m = system.m;
        let mut steps = answer.steps.clone();
        mixed(&mut random, m, &mut steps);
        let start = moved(&mut random, m, &answer.start, &steps);
        let minimal = [vec![start.clone()], steps.clone()].concat();
        let mut claims = vec![(minimal, Verdict::Pass)];
        // whatever is then left out is missing
        if !steps.is_empty() {
            let fewer = without(&steps, random.below(steps.len() as u64) as usize);
            claims.push(([vec![start.clone()], fewer].concat(), Verdict::Fail));
        }
        expect(&system, &claims, random.seed);
        sixteen += (steps.len() == 16) as usize;
        if steps.len() < 16 {
            let coefficients = any_vector(&mut random, m, steps.len());
            let more = combination(m, system.n, &coefficients, &steps);
            steps.insert(random.below(steps.len() as u64 + 1) as usize, more);
            let longer = [vec![start], steps].concat();
            let expected = Verdict::right(shown::superfluous(m, &longer));
            assert!(expected.is_long(), "{longer:?} (seed {})", random.seed);
            expect(&system, &[(longer, expected)], random.seed);
        }
    }
    assert!(sixteen > 20, "{sixteen} of 16 steps");
}

#[test]
fn sixteen_unknowns_without_equations_take_sixteen_steps() {
    let mut random = Random::new();
    for m in MODULI {
        let system = System::empty(m, 16);
        let mut steps: Vectors = (0..16).map(|i| (0..16).map(|j| (i == j) as u32).collect()).collect();
        let mut claims = vec![];
        for _ in 0..4 {
            mixed(&mut random, m, &mut steps);
            let start = any_vector(&mut random, m, 16);
            claims.push(([vec![start.clone()], steps.clone()].concat(), Verdict::Pass));
            // one of them multiplied, so that it no longer leads everywhere; there may then be a superfluous one, and it fails
            let place = random.below(16) as usize;
            let mut fewer = steps.clone();
            fewer[place] = times(m, prime(&mut random, m), &fewer[place]);
            claims.push(([vec![start.clone()], fewer.clone()].concat(), Verdict::Fail));
            fewer[place] = fewer[(place + 1) % 16].clone();
            claims.push(([vec![start], fewer].concat(), Verdict::Fail));
        }
        expect(&system, &claims, random.seed);
    }
}

/// Sheets of three kinds, small, on a basis and any of full size, with a right claim of some steps about each.
fn some_right_claim(random: &mut Random, round: usize) -> (System, Vectors) {
    match round % 3 {
        0 => {
            let (system, answer) = random_solvable(random);
            let claim = exercises::right_claim(random, system.m, &answer);
            (system, claim)
        }
        1 => {
            let (system, start, basis) = on_a_basis(random);
            let count = random.below(17 - basis.steps.len() as u64) as usize;
            let extras = basis.extras(random, count);
            let (mut steps, _) = basis.lengthened(random, &extras);
            if chance(random, 2) {
                mixed(random, system.m, &mut steps);
            }
            (system, [vec![start], steps].concat())
        }
        _ => {
            let system = full_size_system(random, true);
            let answer = shown::solved(&system).expect("right sides fit");
            let claim = exercises::right_claim(random, system.m, &answer);
            (system, claim)
        }
    }
}

#[test]
fn the_step_that_is_named_is_the_first_that_can_be_left_out() {
    let mut random = Random::new();
    let (mut passed, mut long, mut kept) = (0, 0, 0);
    for round in 0..1_500 {
        let (system, vectors) = some_right_claim(&mut random, round);
        let mut claims = vec![vectors.clone()];
        claims.extend((1..vectors.len()).map(|step| without(&vectors, step)));
        let found = verdicts(&system, &claims, random.seed);
        let first = (1..vectors.len()).find(|&step| found[step].is_right());
        assert_eq!(found[0], Verdict::right(first), "{vectors:?}, {system:?} (seed {})", random.seed);
        passed += first.is_none() as usize;
        long += first.is_some() as usize;
        kept += first.is_some_and(|step| step > 1) as usize;
    }
    assert!(passed > 200 && long > 500 && kept > 100, "{passed} passed, {long} long, {kept} of them not for the first step");
}

#[test]
fn a_long_claim_passes_once_the_steps_that_are_named_are_left_out_in_turn() {
    let mut random = Random::new();
    let (mut passed, mut most) = (0, 0);
    for round in 0..1_500 {
        let (system, mut vectors) = some_right_claim(&mut random, round);
        let (mut desk, mut times) = (entered(&system), 0);
        loop {
            match verdict(&mut desk, &vectors) {
                Verdict::Long(step) => vectors = without(&vectors, step),
                Verdict::Pass => break,
                Verdict::Fail => panic!("{vectors:?} once {times} are left out, {system:?} (seed {})", random.seed),
            }
            times += 1;
        }
        // and then no step is left to leave out
        for step in 1..vectors.len() {
            let fewer = without(&vectors, step);
            assert_eq!(verdict(&mut desk, &fewer), Verdict::Fail, "{fewer:?}, {system:?} (seed {})", random.seed);
        }
        passed += (times > 0) as usize;
        most = most.max(times);
    }
    assert!(passed > 500 && most > 10, "{passed} were long, with up to {most} steps too many");
}

#[test]
fn the_order_of_the_steps_and_the_start_do_not_change_what_is_long() {
    let mut random = Random::new();
    let (mut long, mut passed, mut another) = (0, 0, 0);
    for round in 0..900 {
        let (system, vectors) = some_right_claim(&mut random, round);
        let first = verdict(&mut entered(&system), &vectors);
        assert!(first.is_right(), "{vectors:?}, {system:?} (seed {})", random.seed);
        // the same steps from another of the vectors that they describe
        let elsewhere = moved(&mut random, system.m, &vectors[0], &vectors[1..]);
        let mut claims = vec![([vec![elsewhere], vectors[1..].to_vec()].concat(), first)];
        for _ in 0..3 {
            let order = shuffled(&mut random, (1..vectors.len()).collect());
            let other: Vectors = [0].iter().chain(&order).map(|&place| vectors[place].clone()).collect();
            let found = verdict(&mut entered(&system), &other);
            assert_eq!(found.is_long(), first.is_long(), "{vectors:?} in the order {order:?}, {system:?} (seed {})", random.seed);
            another += (found != first) as usize;
            claims.push((other, found));
        }
        // each step times a unit leads where it led
        let units: Vectors = vectors[1..].iter().map(|step| times(system.m, unit(&mut random, system.m) as u32, step)).collect();
        claims.push(([vec![vectors[0].clone()], units].concat(), first));
        expect(&system, &claims, random.seed);
        long += first.is_long() as usize;
        passed += (first == Verdict::Pass) as usize;
    }
    assert!(long > 300 && passed > 150 && another > 300, "{long} long, {passed} passed, {another} with another first step");
}

#[test]
fn a_wrong_set_with_superfluous_steps_fails() {
    let mut random = Random::new();
    let (mut starts, mut steps, mut missing) = (0, 0, 0);
    for round in 0..1_500 {
        let (system, vectors) = some_right_claim(&mut random, round);
        let (m, n) = (system.m, system.n);
        // zeros, or a step that is there twice
        let mut long = vectors.clone();
        long.truncate(16);
        let again = if long.len() > 1 { pick(&mut random, &[0, 1]) } else { 0 };
        let more = if again == 1 { long[1 + random.below(long.len() as u64 - 1) as usize].clone() } else { vec![0; n] };
        long.insert(1 + random.below(long.len() as u64) as usize, more);
        assert!(shown::superfluous(m, &long).is_some(), "{long:?} (seed {})", random.seed);
        let mut claims = vec![];
        let entry = random.below(n as u64) as usize;
        let mut other = long.clone();
        other[0][entry] = (other[0][entry] + 1) % m;
        if !system.solved_by(&other[0]) {
            claims.push((other, Verdict::Fail));
            starts += 1;
        }
        let (mut other, place) = (long.clone(), 1 + random.below(long.len() as u64 - 1) as usize);
        other[place][entry] = (other[place][entry] + 1) % m;
        if !system.homogeneous().solved_by(&other[place]) {
            claims.push((other, Verdict::Fail));
            steps += 1;
        }
        // a right claim from which all that is superfluous is gone lacks each of its steps, whatever superfluous ones come in
        let mut needed = vectors.clone();
        while let Some(step) = shown::superfluous(m, &needed) {
            needed.remove(step);
        }
        if needed.len() > 1 {
            let left = without(&needed, 1 + random.below(needed.len() as u64 - 1) as usize);
            let coefficients = any_vector(&mut random, m, left.len() - 1);
            let more = combination(m, n, &coefficients, &left[1..]);
            claims.push(([left, vec![more, vec![0; n]]].concat(), Verdict::Fail));
            missing += 1;
        }
        claims.retain(|(vectors, _)| vectors.len() <= 17);
        expect(&system, &claims, random.seed);
    }
    assert!(starts > 500 && steps > 500 && missing > 500, "{starts} other starts, {steps} other steps, {missing} steps missing");
    // where nothing solves the equations, no steps make a claim long
    for _ in 0..200 {
        let system = random_unsolvable(&mut random);
        let start = any_vector(&mut random, system.m, system.n);
        let zeros = vec![0; system.n];
        let claims = [1, 2, 3, 17].map(|count| ([vec![start.clone()], vec![zeros.clone(); count - 1]].concat(), Verdict::Fail));
        expect(&system, &claims, random.seed);
    }
}

#[test]
fn a_claim_without_steps_is_never_long() {
    let mut random = Random::new();
    let (mut passed, mut failed) = ([0; 2], [0; 2]);
    for round in 0..2_000 {
        let system = match round % 4 {
            0 => random_solvable(&mut random).0,
            1 => random_unsolvable(&mut random),
            2 => full_size_system(&mut random, round % 8 == 2),
            // one solution alone
            _ => {
                let m = pick(&mut random, &MODULI);
                planted(&mut random, m, &[1, 1, 1], true).0
            }
        };
        let start = shown::solved(&system).map_or(vec![0; system.n], |answer| answer.start);
        for vectors in [vec![], vec![start]] {
            match verdicts(&system, &[vectors.clone()], random.seed)[0] {
                Verdict::Pass => passed[vectors.len()] += 1,
                Verdict::Fail => failed[vectors.len()] += 1,
                long => panic!("{vectors:?}: {long:?}, {system:?} (seed {})", random.seed),
            }
        }
    }
    assert!(passed.iter().chain(&failed).all(|&times| times > 200), "{passed:?} passed, {failed:?} failed, of heads 0 and 1");
}

#[test]
fn one_step_is_superfluous_exactly_if_it_is_zero() {
    let mut random = Random::new();
    let (mut passed, mut long) = (0, 0);
    for _ in 0..300 {
        let (m, n) = (pick(&mut random, &MODULI), pick(&mut random, &[1, 2, 8, 16]));
        let mut divisors = vec![1; n];
        divisors[random.below(n as u64) as usize] = any_divisor(&mut random, m);
        let (system, answer) = planted(&mut random, m, &divisors, true);
        let step = answer.steps.first().cloned().unwrap_or(vec![0; n]);
        let expected = if step.iter().all(|&x| x == 0) { Verdict::Long(1) } else { Verdict::Pass };
        expect(&system, &[(vec![answer.start, step], expected)], random.seed);
        passed += (expected == Verdict::Pass) as usize;
        long += expected.is_long() as usize;
    }
    assert!(passed > 100 && long > 50, "{passed} passed, {long} long");
}

#[test]
fn our_own_answers_are_right_and_pass_or_are_long() {
    let mut random = Random::new();
    let (mut passed, mut long) = ([0; 2], [0; 2]);
    for round in 0..3_000 {
        let system = match round % 3 {
            0 => random_solvable(&mut random).0,
            1 => on_a_basis(&mut random).0,
            _ => full_size_system(&mut random, true),
        };
        let mut desk = entered(&system);
        let block = answered(&desk.act(&answer(LONGEST_WORDS)).unwrap());
        let vectors: Vectors = block[1..].chunks(system.n).map(|v| v.to_vec()).collect();
        let marked = desk.act(&Act::MarkBlock).unwrap().outcome;
        let found = verdicts(&system, &[vectors.clone()], random.seed)[0];
        let large = !ledger::can_try(system.m, system.n);
        let expected = match large {
            true => Verdict::right(shown::superfluous(system.m, &vectors)),
            false => Verdict::right(ledger::superfluous(system.m, &vectors)),
        };
        assert_eq!(found, expected, "{vectors:?}, {system:?} (seed {})", random.seed);
        let outcome = if expected.is_long() { Outcome::Long } else { Outcome::Pass };
        assert_eq!(marked, outcome, "{vectors:?}, {system:?} (seed {})", random.seed);
        *(if expected.is_long() { &mut long[large as usize] } else { &mut passed[large as usize] }) += 1;
    }
    let often = passed.iter().all(|&times| times > 300) && long[0] > 5 && long[1] > 100;
    assert!(often, "{passed:?} passed, {long:?} long, small and large");
}

#[test]
fn random_claims_of_full_size_are_as_plugging_in_says() {
    let mut random = Random::new();
    let mut seen = BTreeMap::new();
    for round in 0..1_500 {
        let (system, answer) = if round % 2 == 0 {
            on_as_many_as_it_takes(&mut random)
        } else {
            let (m, n) = (pick(&mut random, &MODULI), pick(&mut random, &[5, 8, 16]));
            let divisors: Vec<u32> = (0..n).map(|_| any_divisor(&mut random, m)).collect();
            planted(&mut random, m, &divisors, true)
        };
        let right = exercises::right_claim(&mut random, system.m, &answer);
        let changed = exercises::changed_claim(&mut random, system.m, &right);
        let claims = [right, changed].map(|vectors| {
            let expected = plugged_in(&system, &answer, &vectors);
            (vectors, expected)
        });
        expect(&system, &claims, random.seed);
        claims.iter().for_each(|(_, expected)| *seen.entry(expected.written().1).or_insert(0) += 1);
    }
    assert!(seen.len() == 3 && seen.values().all(|&times| times > 300), "{seen:?}");
}
