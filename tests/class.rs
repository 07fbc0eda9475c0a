//! A class in one call: each claim gets the byte that marking it singly would give, wherever it stands and whatever stands beside
//! it; how claims are cut out of the words, how many there may be, and how many bytes they need.
mod acts;
mod exercises;
mod face;
mod grammar;
mod ledger;
mod random;
mod reference;
mod sheet;
mod shown;
mod spelling;
mod tape;

use acts::{answer, answered, class, entered, full_size_system, random_solvable, random_unsolvable, replied};
use exercises::{chance, pick, Flaw};
use face::LONGEST_WORDS;
use ledger::{claim, word, written, ENTRY, HEAD, LARGEST_ALONE, MULTIPLIER, TOP};
use random::Random;
use reference::{Answer, System};
use sheet::{Act, Desk, Outcome, Reply};
use std::collections::{BTreeMap, BTreeSet};

/// "Up to 64 claims."
const MOST: usize = 64;

/// A sheet with these equations, and its answer where there is one. That is the sheet's own, since of the larger ones not all vectors
/// can be tried; where they can, the reference has a word in every class.
struct Posed {
    desk: Desk,
    system: System,
    answer: Option<Answer>,
}

impl Posed {
    fn new(system: System) -> Posed {
        let mut desk = entered(&system);
        let block = answered(&desk.act(&answer(LONGEST_WORDS)).unwrap());
        let mut vectors = block[1..].chunks(system.n).map(|v| v.to_vec());
        let answer = (block[0] > 0).then(|| Answer { start: vectors.next().unwrap(), steps: vectors.collect() });
        Posed { desk, system, answer }
    }

    /// Of five sheets two are small and have a solution, one is small and has none, and two are large; of one of these the right
    /// sides are any.
    fn random(random: &mut Random, round: usize) -> Posed {
        Posed::new(match round % 5 {
            0 | 1 => random_solvable(random).0,
            2 => random_unsolvable(random),
            3 => full_size_system(random, true),
            _ => full_size_system(random, false),
        })
    }

    /// The class, which the reference and single marks confirm.
    fn class(&mut self, act: &Act, seed: u64) -> Reply {
        replied(&mut self.desk, &self.system, act, seed)
    }

    /// The marks of the class, which is not refused.
    fn marks(&mut self, random: &mut Random, words: &[u32]) -> Vec<u8> {
        let reply = self.class(&class(random, words, MOST), random.seed);
        let Outcome::Marked(count) = reply.outcome else { panic!("{words:x?}: {:?}", reply.outcome) };
        reply.marks[..count].to_vec()
    }
}

/// What a student hands in: always the words of one claim.
#[derive(Clone, Copy, Debug, Eq, Ord, PartialEq, PartialOrd)]
enum Kind {
    /// The solutions, in another form, which may be long.
    Right,
    /// The same, changed in one place.
    Changed,
    /// The answer without one of its steps, if it has any.
    Short,
    /// "No solution."
    NoSolution,
    /// Any vectors.
    Any,
    /// One that is refused, but none that is too long: in a class, what is too much is another claim.
    Flawed(Flaw),
    /// In a head's place a word of kind 13 that is none in any place.
    Top,
    /// In a head's place one that is good, with the word of another kind of which it is a part.
    Pair,
}

/// Those that stand anywhere in a class.
const WHOLE: [Kind; 12] = [
    Kind::Right,
    Kind::Changed,
    Kind::Short,
    Kind::NoSolution,
    Kind::Any,
    Kind::Flawed(Flaw::NotBelow),
    Kind::Flawed(Flaw::Misfit),
    Kind::Flawed(Flaw::Top),
    Kind::Flawed(Flaw::LargeHead),
    Kind::Flawed(Flaw::Stray),
    Kind::Top,
    Kind::Pair,
];

/// A claim that breaks off, which only the last one can.
const CUT: Kind = Kind::Flawed(Flaw::Cut);

/// Vectors, one at least, most of them right.
fn some_vectors(random: &mut Random, posed: &Posed) -> Vec<Vec<u32>> {
    match &posed.answer {
        Some(answer) => exercises::right_claim(random, posed.system.m, answer),
        None => vec![vec![0; posed.system.n]; 1 + random.below(17) as usize],
    }
}

/// The words of one claim of this kind.
fn handed_in(random: &mut Random, posed: &Posed, kind: Kind) -> Vec<u32> {
    let (m, n) = (posed.system.m, posed.system.n);
    let vectors = some_vectors(random, posed);
    match (kind, &posed.answer) {
        (Kind::NoSolution, _) | (Kind::Right, None) => claim(&[]),
        (Kind::Right, _) => claim(&vectors),
        (Kind::Changed, _) => claim(&exercises::changed_claim(random, m, &vectors)),
        (Kind::Short, Some(answer)) if !answer.steps.is_empty() => {
            let mut fewer = ledger::vectors_of(answer);
            fewer.remove(1 + random.below(answer.steps.len() as u64) as usize);
            claim(&fewer)
        }
        (Kind::Short | Kind::Any, _) => claim(&exercises::any_claim(random, m, n)),
        // no entries belong to a word that is no head or too large a one
        (Kind::Flawed(flaw @ (Flaw::LargeHead | Flaw::Stray)), _) => {
            vec![exercises::flawed(random, &posed.system, &vectors, flaw)[0]]
        }
        (Kind::Flawed(flaw), _) => exercises::flawed(random, &posed.system, &vectors, flaw),
        (Kind::Top, _) => vec![exercises::bad_top(random)],
        (Kind::Pair, _) => {
            vec![exercises::top(random), word(pick(random, &[1, 3, 4, 6, 7, 10, 11, 12]), random.below(20) as u32)]
        }
    }
}

/// The bytes that a claim of this kind may have, as far as they are known without a look at the equations.
fn possible(posed: &Posed, kind: Kind) -> &'static [u8] {
    match (kind, &posed.answer) {
        (Kind::Right | Kind::NoSolution, None) => &[1],
        (Kind::Right, Some(_)) => &[1, 2],
        (Kind::NoSolution, Some(_)) => &[0],
        (Kind::Changed | Kind::Short | Kind::Any, _) => &[0, 1, 2],
        (Kind::Flawed(Flaw::NotBelow), _) => &[106],
        (Kind::Flawed(Flaw::Top) | Kind::Top, _) => &[117],
        (Kind::Flawed(_) | Kind::Pair, _) => &[101],
    }
}

/// So many claims with their kinds; now and then the last one breaks off.
fn handed_in_by_all(random: &mut Random, posed: &Posed, count: usize) -> Vec<(Kind, Vec<u32>)> {
    let mut class = vec![];
    for place in 0..count {
        let kind = if place + 1 == count && chance(random, 3) { CUT } else { pick(random, &WHOLE) };
        class.push((kind, handed_in(random, posed, kind)));
    }
    class
}

/// The words of all claims, one claim behind the other.
fn words_of(class: &[(Kind, Vec<u32>)]) -> Vec<u32> {
    class.iter().flat_map(|(_, words)| words.clone()).collect()
}

#[test]
fn random_classes_get_the_bytes_of_single_marks_in_their_order() {
    let mut random = Random::new();
    let (mut seen, mut sheets, mut strays, mut misfits) = (BTreeMap::new(), BTreeMap::new(), BTreeSet::new(), BTreeSet::new());
    for round in 0..2_000 {
        let mut posed = Posed::random(&mut random, round);
        *sheets.entry((ledger::can_try(posed.system.m, posed.system.n), posed.answer.is_some())).or_insert(0) += 1;
        let count = if chance(&mut random, 20) { 60 + random.below(5) } else { random.below(12) } as usize;
        let handed_in = handed_in_by_all(&mut random, &posed, count);
        let words = words_of(&handed_in);
        // they are cut as they were put together
        let claims: Vec<Vec<u32>> = handed_in.iter().map(|(_, words)| words.clone()).collect();
        assert_eq!(ledger::claims(posed.system.n, &words), claims, "{handed_in:x?} (seed {})", random.seed);
        let bytes = count + if chance(&mut random, 2) { 0 } else { random.below(70) as usize };
        let reply = posed.class(&class(&mut random, &words, bytes), random.seed);
        assert_eq!(reply.outcome, Outcome::Marked(count), "{handed_in:x?} (seed {})", random.seed);
        for ((kind, words), &byte) in handed_in.iter().zip(&reply.marks) {
            let good = possible(&posed, *kind).contains(&byte);
            assert!(good, "{kind:?} {words:x?}: {byte}, {:?} (seed {})", posed.system, random.seed);
            *seen.entry((*kind, byte)).or_insert(0) += 1;
            match kind {
                Kind::Flawed(Flaw::Stray) => drop(strays.insert(ledger::kind(words[0]))),
                Kind::Flawed(Flaw::Misfit) => {
                    misfits.extend(ledger::joined(&words[1..]).iter().map(|word| word.kind).filter(|&kind| kind != ENTRY))
                }
                _ => {}
            }
        }
    }
    for (kind, byte) in [
        (Kind::Right, 1),
        (Kind::Right, 2),
        (Kind::Changed, 0),
        (Kind::Changed, 1),
        (Kind::Changed, 2),
        (Kind::Short, 0),
        (Kind::NoSolution, 0),
        (Kind::NoSolution, 1),
        (Kind::Any, 0),
        (Kind::Flawed(Flaw::NotBelow), 106),
        (Kind::Flawed(Flaw::Misfit), 101),
        (Kind::Flawed(Flaw::LargeHead), 101),
        (Kind::Flawed(Flaw::Stray), 101),
        (Kind::Flawed(Flaw::Top), 117),
        (Kind::Top, 117),
        (Kind::Pair, 101),
        (CUT, 101),
    ] {
        assert!(seen.get(&(kind, byte)).is_some_and(|&times| times > 150), "{kind:?} with {byte} among {seen:?}");
    }
    assert!(sheets.len() == 4 && sheets.values().all(|&times| times > 20), "small, and with a solution: {sheets:?}");
    assert!(strays.len() == 14 && misfits.len() == 14, "{strays:?}, {misfits:?}");
}

#[test]
fn classes_marked_by_hand() {
    let head = |h: u32| vec![word(HEAD, h)];
    let entries = |numbers: &[u32]| numbers.iter().flat_map(|&x| written(ENTRY, x)).collect::<Vec<u32>>();
    let top = |number: u32| vec![word(TOP, number)];
    let of = |h: u32, numbers: &[u32]| [head(h), entries(numbers)].concat();
    let (right, short) = (of(2, &[0, 0, 2, 3]), of(2, &[0, 0, 0, 2]));
    let long = of(3, &[0, 0, 2, 1, 0, 2]);
    let misfit = |h: u32, numbers: &[u32]| [of(h, numbers), vec![word(MULTIPLIER, 0)]].concat();
    let mut classes: Vec<(Vec<Vec<u32>>, Vec<u8>)> = vec![
        (vec![], vec![]),
        (vec![right.clone()], vec![1]),
        (vec![short.clone()], vec![0]),
        (vec![long.clone()], vec![2]),
        // a class has all three, and each has its byte wherever it stands
        (vec![long.clone(), right.clone(), short.clone(), long.clone()], vec![2, 1, 0, 2]),
        (vec![right.clone(), long.clone(), head(0), long.clone(), of(1, &[0, 4]), right.clone()], vec![1, 2, 0, 2, 106, 1]),
        // zeros are superfluous, and a step that is there twice; also where the set is wrong, which fails
        (vec![of(3, &[0, 0, 2, 3, 0, 0]), of(3, &[0, 0, 2, 3, 2, 3]), of(3, &[0, 0, 0, 2, 0, 2])], vec![2, 2, 0]),
        (vec![right.clone(), short, head(0), of(1, &[0, 4]), misfit(1, &[0]), right.clone()], vec![1, 0, 0, 106, 101, 1]),
        // a head above 17 takes one word, and so does each entry behind it
        (vec![head(18), right.clone()], vec![101, 1]),
        (vec![head(LARGEST_ALONE), entries(&[0, 0]), head(0)], vec![101, 101, 101, 0]),
        (vec![entries(&[0, 0, 0, 0]), right.clone(), entries(&[0])], vec![101, 101, 101, 101, 1, 101]),
        // 17 is none that is too large
        (vec![of(17, &[0; 34]), head(0)], vec![0, 0]),
        (vec![of(17, &[[0, 0, 2, 3].to_vec(), vec![0; 30]].concat()), right.clone()], vec![2, 1]),
        // the last claim has what remains
        (vec![head(1)], vec![101]),
        (vec![of(1, &[0])], vec![101]),
        (vec![head(17)], vec![101]),
        (vec![right.clone(), of(2, &[0, 0, 2])], vec![1, 101]),
        // the kinds of the entries decide nothing about its length: heads are among them
        (vec![head(1), head(0), head(0)], vec![101]),
        (vec![head(1), head(0), head(0), head(0)], vec![101, 0]),
        (vec![head(1), head(18), right.clone()], vec![101, 101, 101, 101, 101]),
        // the shape is asked for before the numbers
        (vec![misfit(1, &[4])], vec![101]),
        (vec![of(1, &[0, 4]), of(1, &[LARGEST_ALONE, 0])], vec![106, 106]),
        (vec![of(2, &[0, 0, 2, 4]), of(2, &[0, 0, 2, 3])], vec![106, 1]),
        // entries of two words are one entry: they are not below the modulus, and the claims behind them stay what they are
        (vec![of(1, &[1 << 28, 0]), right.clone(), of(1, &[0, u32::MAX]), right.clone()], vec![106, 1, 106, 1]),
        (vec![of(2, &[0, 0, (1 << 28) + 2, 3]), head(0)], vec![106, 0]),
        (vec![right.clone(), of(2, &[0, 0, 1 << 28])], vec![1, 101]),
        // in a head's place: a word of kind 13 with 0 or above 15, or before a head or another of its kind, or behind all
        (vec![top(0), right.clone(), top(16), right.clone(), top(LARGEST_ALONE)], vec![117, 1, 117, 1, 117]),
        (vec![top(1), right.clone(), top(15), head(0), top(1), top(1), head(18)], vec![117, 1, 117, 0, 117, 117, 101]),
        (vec![right.clone(), top(1)], vec![1, 117]),
        (vec![top(1), vec![word(2, 1)], top(1), vec![word(9, 0)], top(1), vec![word(14, 0)]], vec![117, 101, 117, 101, 117, 101]),
        // a good one there is one claim with the word behind it; 13 13 6 is a bad one, and then a good one
        (vec![entries(&[1 << 28]), right.clone(), entries(&[u32::MAX]), head(0)], vec![101, 1, 101, 0]),
        (vec![top(1), entries(&[1 << 28]), right.clone()], vec![117, 101, 1]),
        // among the entries it is one of the claim's words, and the last claim may end with it
        (vec![head(1), top(0), entries(&[0]), right.clone()], vec![117, 1]),
        (vec![head(1), entries(&[0]), top(1), right.clone()], vec![117, 1]),
        (vec![head(1), entries(&[0, 0]), top(1), right.clone()], vec![0, 117, 1]),
        (vec![head(1), top(1), right.clone()], vec![117, 101, 101, 101, 101]),
        (vec![right.clone(), of(1, &[0]), top(1)], vec![1, 117]),
        (vec![right.clone(), head(17), top(16)], vec![1, 117]),
        // before shape and numbers
        (vec![head(1), entries(&[4]), top(16), right.clone()], vec![117, 1]),
        (vec![head(1), top(16), head(18), right.clone()], vec![117, 1]),
    ];
    // a stray word is one word, also of the kinds that begin longer calls on a tape
    for kind in (0..16).filter(|&kind| kind != HEAD) {
        let byte = if kind == TOP { 117 } else { 101 };
        classes.push((vec![vec![word(kind, 1)], right.clone()], vec![byte, 1]));
        classes.push((vec![right.clone(), vec![word(kind, 2); 2]], vec![1, byte, byte]));
    }
    let mut random = Random::new();
    let mut posed = Posed::new(System::plain(4, 2, vec![vec![1, 2, 0]]));
    for (claims, bytes) in classes {
        assert_eq!(posed.marks(&mut random, &claims.concat()), bytes, "{claims:x?}");
    }
    // where nothing solves the equations, so say those who are right
    let mut posed = Posed::new(System::plain(2, 2, vec![vec![1, 1, 1], vec![1, 1, 0]]));
    let claims = [head(0), of(1, &[0, 1]), head(0), of(2, &[0, 1, 1, 1]), head(0), of(3, &[0, 1, 0, 0, 0, 0])];
    assert_eq!(posed.marks(&mut random, &claims.concat()), [1, 0, 1, 0, 1, 0]);
}

#[test]
fn sixty_four_claims_are_marked_and_one_more_is_refused_whatever_the_bytes() {
    let mut random = Random::new();
    for round in 0..20 {
        let mut posed = Posed::random(&mut random, round);
        for kind in WHOLE.map(Some).into_iter().chain([None]) {
            let mut full = vec![];
            let mut last = vec![];
            for _ in 0..MOST {
                let kind = kind.unwrap_or(pick(&mut random, &WHOLE));
                last = handed_in(&mut random, &posed, kind);
                full.extend(&last);
            }
            for (bytes, outcome) in [
                (0, Outcome::Refused(8)),
                (MOST - 1, Outcome::Refused(8)),
                (MOST, Outcome::Marked(MOST)),
                (MOST + 1, Outcome::Marked(MOST)),
                (1_000, Outcome::Marked(MOST)),
            ] {
                let reply = posed.class(&class(&mut random, &full, bytes), random.seed);
                assert_eq!(reply.outcome, outcome, "{kind:?}, {bytes} bytes (seed {})", random.seed);
            }
            // the 65th is the 64th once more, a stray word, or a claim that breaks off; or there are very many
            let cut = vec![word(HEAD, 1 + random.below(17) as u32)];
            for more in [last, vec![exercises::stray(&mut random)], cut, full.repeat(20)] {
                let words = [full.clone(), more].concat();
                for bytes in [0, 1, MOST - 1, MOST, MOST + 1, 1_000] {
                    let reply = posed.class(&class(&mut random, &words, bytes), random.seed);
                    assert_eq!(reply.outcome, Outcome::Refused(14), "{kind:?}, {bytes} bytes (seed {})", random.seed);
                }
            }
        }
    }
}

#[test]
fn bytes_are_enough_exactly_when_each_claim_has_one() {
    let mut random = Random::new();
    for round in 0..200 {
        let mut posed = Posed::random(&mut random, round);
        let count = random.below(10) as usize;
        let words = words_of(&handed_in_by_all(&mut random, &posed, count));
        for bytes in 0..count + 4 {
            let expected = if bytes < count { Outcome::Refused(8) } else { Outcome::Marked(count) };
            let reply = posed.class(&class(&mut random, &words, bytes), random.seed);
            assert_eq!(reply.outcome, expected, "{words:x?} into {bytes} bytes (seed {})", random.seed);
        }
    }
}

#[test]
fn no_words_are_no_claims_and_an_unopened_sheet_has_none_marked() {
    let mut random = Random::new();
    for round in 0..20 {
        let mut posed = Posed::random(&mut random, round);
        let words = words_of(&handed_in_by_all(&mut random, &posed, 5));
        for bytes in [0, 1, MOST, MOST + 1] {
            let reply = posed.class(&class(&mut random, &[], bytes), random.seed);
            assert_eq!(reply.outcome, Outcome::Marked(0), "{bytes} bytes");
            // too many claims, too few bytes, or neither: there is no sheet to mark them by
            for words in [&[][..], &words, &words.repeat(MOST), &[word(HEAD, 0)].repeat(MOST + 1), &[NOUGHT].repeat(MOST + 1)] {
                let reply = Desk::fresh().act(&class(&mut random, words, bytes)).unwrap();
                assert_eq!(reply.outcome, Outcome::Refused(4), "{words:x?} into {bytes} bytes (seed {})", random.seed);
            }
        }
    }
}

#[test]
fn a_claim_has_its_byte_wherever_it_stands() {
    let mut random = Random::new();
    let (mut moved, mut seen) = (0, BTreeMap::new());
    for round in 0..600 {
        let mut posed = Posed::random(&mut random, round);
        let kinds: Vec<Kind> = (0..2 + random.below(10)).map(|_| pick(&mut random, &WHOLE)).collect();
        let claims: Vec<Vec<u32>> = kinds.iter().map(|&kind| handed_in(&mut random, &posed, kind)).collect();
        let bytes = posed.marks(&mut random, &claims.concat());
        let mut order: Vec<usize> = (0..claims.len()).collect();
        for i in (1..order.len()).rev() {
            order.swap(i, random.below(i as u64 + 1) as usize);
        }
        // twice, too: a class says the same of the same claims
        let order = [&order[..], &order].concat();
        let others: Vec<u32> = order.iter().flat_map(|&place| claims[place].clone()).collect();
        let expected: Vec<u8> = order.iter().map(|&place| bytes[place]).collect();
        assert_eq!(posed.marks(&mut random, &others), expected, "{claims:x?}, {order:?} (seed {})", random.seed);
        moved += (0..claims.len()).filter(|&i| bytes[i] != expected[i]).count();
        bytes.iter().for_each(|&byte| *seen.entry(byte).or_insert(0) += 1);
    }
    assert!(moved > 300 && seen.len() == 6 && seen.values().all(|&times| times > 100), "{moved} moved, {seen:?}");
}

/// A word of kind 6 with the number 0.
const NOUGHT: u32 = ENTRY << 28;

/// What the lines of a tape say of claims, as bytes.
fn bytes_of(lines: &str) -> Vec<u8> {
    let byte = |line: &str| match line {
        "pass" => 1,
        "long" => 2,
        "fail" => 0,
        _ => 100 + line.strip_prefix("refused ").expect("no mark").parse::<u8>().unwrap(),
    };
    lines.lines().map(byte).collect()
}

#[test]
fn a_class_is_cut_as_on_the_tape() {
    let mut random = Random::new();
    let mut seen = BTreeMap::new();
    for round in 0..600 {
        let mut posed = Posed::random(&mut random, round);
        let count = 1 + random.below(10) as usize;
        let mut handed_in = handed_in_by_all(&mut random, &posed, count);
        // a stray word that begins no call on a tape
        for (_, words) in handed_in.iter_mut().filter(|(kind, _)| *kind == Kind::Flawed(Flaw::Stray)) {
            *words = vec![word(pick(&mut random, &tape::MEANINGLESS), 1)];
        }
        for (_, words) in handed_in.iter_mut().filter(|(kind, _)| *kind == Kind::Pair) {
            words[1] = word(pick(&mut random, &[4, 6, 7, 11]), 1);
        }
        let words = words_of(&handed_in);
        let system = &posed.system;
        let equations = system.equations.iter().flat_map(|line| ledger::line_words(system.m, line));
        let before: Vec<u32> = ledger::opening(system.m, system.n as u32).into_iter().chain(equations).collect();
        let held = system.equations.len();
        let printed = face::tape(&tape::bytes(&[before, words.clone()].concat()), 4_096);
        let lines = String::from_utf8(printed.memory[..printed.result as usize].to_vec()).unwrap();
        let marks: Vec<&str> = lines.lines().skip(1 + held).collect();
        let bytes = posed.marks(&mut random, &words);
        assert_eq!(bytes_of(&marks.join("\n")), bytes, "{handed_in:x?} (seed {})", random.seed);
        bytes.iter().for_each(|&byte| *seen.entry(byte).or_insert(0) += 1);
    }
    assert!(seen.len() == 6 && seen.values().all(|&times| times > 100), "{seen:?}");
}

/// 16 dense equations in 16 unknowns whose solutions take 16 steps: each is multiplied by a divisor of m, and the right sides fit.
fn steps_everywhere(random: &mut Random) -> System {
    let (m, factor) = pick(random, &[(65_520, 12), (32_768, 256), (30_030, 30), (4_026_531_840, 240), (u32::MAX as u64, 255)]);
    let solution: Vec<u64> = (0..16).map(|_| random.below(m)).collect();
    let equation = |random: &mut Random| {
        let mut numbers: Vec<u64> = (0..16).map(|_| random.below(m) * factor % m).collect();
        let right: u128 = numbers.iter().zip(&solution).map(|(&a, &x)| a as u128 * x as u128).sum();
        numbers.push((right % m as u128) as u64);
        numbers.iter().map(|&number| number as i64).collect()
    };
    System::plain(m as u32, 16, (0..16).map(|_| equation(random)).collect())
}

#[test]
fn full_classes_of_claims_of_17_vectors() {
    let mut random = Random::new();
    let (mut passed, mut failed) = (0, 0);
    for _ in 0..20 {
        let mut posed = Posed::new(steps_everywhere(&mut random));
        let (m, found) = (posed.system.m, posed.answer.clone().expect("right sides fit"));
        assert_eq!(found.steps.len(), 16, "{:?} (seed {})", posed.system, random.seed);
        let (mut claims, mut right) = (vec![], vec![]);
        for _ in 0..MOST {
            let mut vectors = exercises::right_claim(&mut random, m, &found);
            assert_eq!(vectors.len(), 17);
            let (place, wrong) = (random.below(17) as usize, random.below(3));
            match wrong {
                // one more, which no step of the answer is, and nothing in place of a step that nothing else leads to
                0 => vectors[place][15] = (vectors[place][15] + 1) % m,
                1 => vectors[1 + place % 16] = vec![0; 16],
                _ => {}
            }
            // it takes 16 steps, so that no right claim is long
            right.push(wrong > 1);
            claims.push(claim(&vectors));
        }
        let marks = posed.marks(&mut random, &claims.concat());
        for (place, &right) in right.iter().enumerate() {
            assert_eq!(marks[place], right as u8, "claim {place} about {:?} (seed {})", posed.system, random.seed);
        }
        passed += right.iter().filter(|&&right| right).count();
        failed += right.iter().filter(|&&right| !right).count();
    }
    assert!(passed > 200 && failed > 500, "{passed} passed, {failed} failed");
}
