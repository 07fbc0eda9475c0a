//! Random words for the calls on a sheet: openings, equations and claims, most of them good, the others spoiled in one place. The
//! numbers of equations have signs, and are residues or any that a word can have, with one of kind 13 in front from 2^28 on; some
//! equations have a modulus of their own.
#![allow(dead_code)]

use crate::ledger::{self, Solved, LARGEST, LARGEST_ALONE};
use crate::random::Random;
use crate::reference::{self, Answer, System};

pub fn pick<T: Copy>(random: &mut Random, from: &[T]) -> T {
    from[random.below(from.len() as u64) as usize]
}

pub fn chance(random: &mut Random, one_in: u64) -> bool {
    random.below(one_in) == 0
}

/// A modulus and a number of unknowns for which all vectors can be tried, few in most cases.
pub fn small_shape(random: &mut Random) -> (u32, u32) {
    let most = if chance(random, 20) { ledger::MOST_VECTORS } else { 150 };
    loop {
        let n = 1 + if chance(random, 4) { random.below(7) } else { random.below(3) } as u32;
        let m = 2 + if n == 1 && chance(random, 4) { random.below(5_000) } else { random.below(14) } as u32;
        if (m as u128).pow(n) <= most {
            return (m, n);
        }
    }
}

/// The words of an opening, most of them for a small sheet.
pub fn opening(random: &mut Random) -> Vec<u32> {
    let (m, n) = small_shape(random);
    let words = match random.below(16) {
        0 => ledger::opening(pick(random, &[0, 1]), n),
        1 => ledger::opening(m, pick(random, &[0, 17, 18, 257, 65_537, 1 << 27, (1 << 28) - 1])),
        2 => ledger::opening(
            pick(random, &[2, 65_535, 65_536, LARGEST_ALONE, 1 << 28, (1 << 28) + 1, u32::MAX]),
            pick(random, &[1, 16]),
        ),
        _ => ledger::opening(m, n),
    };
    sometimes_spoiled(random, words, m)
}

/// A whole number that a word of an equation can have: small, beside m or a multiple of it, the largest, or any.
pub fn any_whole(random: &mut Random, m: u32) -> i64 {
    let m = m as i64;
    let beside = random.below(3) as i64 - 1;
    let number = match random.below(6) {
        0 => random.below(4) as i64,
        1 => random.below(m as u64) as i64,
        2 => (m + beside).min(LARGEST),
        3 => m * random.below((LARGEST / m) as u64) as i64 + beside,
        4 => pick(random, &[LARGEST_ALONE as i64 + 2, LARGEST]) - random.below(3) as i64,
        _ => random.any_length() as i64,
    };
    if chance(random, 2) {
        -number
    } else {
        number
    }
}

/// A whole number that a word can have and that has this residue: the residue, one beside it on either side, the least or the
/// greatest there is, or any.
pub fn written(random: &mut Random, m: u32, residue: u32) -> i64 {
    let (m, residue) = (m as i64, residue as i64);
    let (least, greatest) = (-((LARGEST + residue) / m), (LARGEST - residue) / m);
    let any = least + random.below((greatest - least + 1) as u64) as i64;
    residue + pick(random, &[0, -1, greatest.min(1), least, greatest, any]) * m
}

/// The words with some zeros written as minus 0.
fn with_minus_zeros(random: &mut Random, mut words: Vec<u32>) -> Vec<u32> {
    // 0, and not the low 28 bits of a larger number
    let zeros: Vec<bool> = (0..words.len()).map(|i| ledger::number(words[i]) == 0 && (i == 0 || !is_top(words[i - 1]))).collect();
    for (place, zero) in words.iter_mut().zip(zeros) {
        if zero && chance(random, 4) {
            *place = if ledger::kind(*place) == ledger::RIGHT { MINUS_RIGHT_ZERO } else { MINUS_ZERO };
        }
    }
    words
}

const MINUS_ZERO: u32 = ledger::MINUS_COEFFICIENT << 28;
const MINUS_RIGHT_ZERO: u32 = ledger::MINUS_RIGHT << 28;

fn is_top(place: u32) -> bool {
    ledger::kind(place) == ledger::TOP
}

/// A divisor of m from 2 on, m as often as others.
pub fn divisor(random: &mut Random, m: u32) -> u32 {
    let one = reference::divisor_by_halving(random.below(m as u64) as u32, m);
    let found = pick(random, &[one, m / one, m]);
    if found < 2 {
        m
    } else {
        found
    }
}

/// A modulus for one line of a sheet mod m, or now and then a number that is none, in most cases.
fn own_modulus(random: &mut Random, m: u32) -> u32 {
    let any = random.any_length();
    let more = |more: u32| m.saturating_add(more);
    match random.below(6) {
        0 => pick(random, &[0, 1, m - 1, more(1), more(m), more(65_536), more(1 << 27), more(1 << 28), LARGEST as u32, any]),
        _ => divisor(random, m),
    }
}

/// The words of an equation: residues, or whole numbers of any size and sign; few of them or none that are not 0, or an earlier
/// equation multiplied, also so that it follows from that one. Two of five have a modulus of their own.
pub fn equation(random: &mut Random, system: &System) -> Vec<u32> {
    let m = system.m;
    let own = (random.below(5) < 2).then(|| own_modulus(random, m));
    let q = own.filter(|&q| ledger::is_own_modulus(m, q)).unwrap_or(m);
    let (sparse, signed) = (chance(random, 2), chance(random, 2));
    let mut numbers: Vec<i64> = vec![];
    for _ in 0..=system.n {
        let number = if signed { any_whole(random, q) } else { random.below(q as u64) as i64 };
        numbers.push(if sparse && chance(random, 2) { 0 } else { number });
    }
    if !system.equations.is_empty() && chance(random, 2) {
        let earlier = &system.equations[random.below(system.equations.len() as u64) as usize];
        let least = if chance(random, 2) { 1 } else { q / reference::divisor_by_halving(q, earlier.q) };
        let factor = (random.below(m as u64) as i128 * least as i128) % q as i128;
        let residues: Vec<u32> = earlier.numbers.iter().map(|&x| (x as i128 * factor).rem_euclid(q as i128) as u32).collect();
        numbers = residues.iter().map(|&x| if signed { written(random, q, x) } else { x as i64 }).collect();
    }
    let mut words = ledger::equation(&numbers);
    if signed {
        words = with_minus_zeros(random, words);
    }
    if let Some(q) = own {
        words.splice(0..0, ledger::written(ledger::OWN_MODULUS, q));
    }
    sometimes_spoiled(random, words, m)
}

/// v + t·w mod m
pub fn plus(m: u32, v: &[u32], t: u64, w: &[u32]) -> Vec<u32> {
    v.iter().zip(w).map(|(&x, &y)| ((x as u128 + t as u128 * y as u128) % m as u128) as u32).collect()
}

/// A residue that has an inverse mod m.
pub fn unit(random: &mut Random, m: u32) -> u64 {
    loop {
        let unit = 1 + random.below(m as u64 - 1);
        if reference::divisor_by_halving(unit as u32, m) == 1 {
            return unit;
        }
    }
}

/// A start and steps that describe the same vectors as the answer: another start, the steps in another order, each multiplied
/// by a unit, others added to it, and superfluous ones between them.
pub fn right_claim(random: &mut Random, m: u32, answer: &Answer) -> Vec<Vec<u32>> {
    let mut steps = answer.steps.clone();
    for i in (1..steps.len()).rev() {
        steps.swap(i, random.below(i as u64 + 1) as usize);
    }
    for i in 0..steps.len() {
        let factor = unit(random, m) - 1;
        steps[i] = plus(m, &steps[i], factor, &steps[i]);
        for j in (0..steps.len()).filter(|&j| j != i) {
            steps[i] = plus(m, &steps[i], random.below(m as u64), &steps[j]);
        }
    }
    let start = steps.iter().fold(answer.start.clone(), |v, step| plus(m, &v, random.below(m as u64), step));
    while steps.len() < 16 && chance(random, 2) {
        let mut superfluous = vec![0; start.len()];
        for step in &steps {
            superfluous = plus(m, &superfluous, random.below(m as u64), step);
        }
        steps.insert(random.below(steps.len() as u64 + 1) as usize, superfluous);
    }
    [vec![start], steps].concat()
}

/// A claim with one step less, one entry changed, or one step multiplied.
pub fn changed_claim(random: &mut Random, m: u32, vectors: &[Vec<u32>]) -> Vec<Vec<u32>> {
    let mut vectors = vectors.to_vec();
    let place = random.below(vectors.len() as u64) as usize;
    match random.below(3) {
        0 => {
            vectors.remove(place);
        }
        1 => {
            let entry = random.below(vectors[place].len() as u64) as usize;
            vectors[place][entry] = random.below(m as u64) as u32;
        }
        _ => {
            let (zeros, factor) = (vec![0; vectors[place].len()], random.below(m as u64));
            vectors[place] = plus(m, &zeros, factor, &vectors[place]);
        }
    }
    vectors
}

/// Any vectors at all.
pub fn any_claim(random: &mut Random, m: u32, n: usize) -> Vec<Vec<u32>> {
    let count = if chance(random, 8) { random.below(18) } else { random.below(4) };
    (0..count).map(|_| (0..n).map(|_| random.below(m as u64) as u32).collect()).collect()
}

/// The words of a claim about the equations: right in another form, nearly right, "no solution", or any.
pub fn claim(random: &mut Random, system: &System) -> Vec<u32> {
    let (m, n) = (system.m, system.n);
    let vectors = match (ledger::solve(system), random.below(8)) {
        (_, 0) => any_claim(random, m, n),
        (_, 1) => vec![],
        (_, 2) => (0..18).map(|_| vec![0; n]).collect(),
        (Solved::Vectors(answer), choice) => {
            let right = right_claim(random, m, &answer);
            if choice < 5 {
                right
            } else {
                changed_claim(random, m, &right)
            }
        }
        (_, choice) => {
            if choice < 5 {
                vec![]
            } else {
                any_claim(random, m, n)
            }
        }
    };
    let words = ledger::claim(&vectors);
    sometimes_spoiled(random, words, m)
}

/// The words of a class: some claims about the equations, one behind the other, or so many of one word each that there may be one too
/// many. Now and then the last is cut short.
pub fn class(random: &mut Random, system: &System) -> Vec<u32> {
    let many = chance(random, 6);
    let count = if many { 62 + random.below(5) } else { random.below(6) };
    let mut words = vec![];
    for _ in 0..count {
        match random.below(6) {
            0 => words.extend(stray_words(random)),
            _ if many => words.push(ledger::word(ledger::HEAD, pick(random, &[0, 18]))),
            _ => words.extend(claim(random, system)),
        }
    }
    if chance(random, 6) {
        words.truncate(random.below(words.len() as u64 + 1) as usize);
    }
    words
}

/// A word of another kind than a head's, and than 13.
pub fn stray(random: &mut Random) -> u32 {
    let kind = pick(random, &[0, 1, 2, 3, 4, 6, 7, 8, 9, 10, 11, 12, 14, 15]);
    ledger::word(kind, pick(random, &[0, 1, 2, 17, 18, (1 << 28) - 1]))
}

/// A word of kind 13 that is none in whatever place: its number is 0, or above 15.
pub fn bad_top(random: &mut Random) -> u32 {
    ledger::word(ledger::TOP, pick(random, &[0, 16, 17, 31, 32, 256, 1 << 27, LARGEST_ALONE]))
}

/// A word of kind 13 that is good before a word of the right kind.
pub fn top(random: &mut Random) -> u32 {
    ledger::word(ledger::TOP, pick(random, &[1, 1, 2, 7, 8, 14, 15]))
}

/// A word of another kind than a head's, which may be one of kind 13, or a good one with the word that it counts with.
pub fn stray_words(random: &mut Random) -> Vec<u32> {
    let kind = pick(random, &[1, 3, 4, 6, 7, 10, 11, 12]);
    match random.below(4) {
        0 => vec![bad_top(random)],
        1 => vec![top(random), ledger::word(kind, pick(random, &[0, 1, 17, LARGEST_ALONE]))],
        _ => vec![stray(random)],
    }
}

/// What a claim is refused for.
#[derive(Clone, Copy, Debug, Eq, Ord, PartialEq, PartialOrd)]
pub enum Flaw {
    /// An entry is m or more.
    NotBelow,
    /// A word among the entries is of another kind, other than 13.
    Misfit,
    /// In the place of an entry is a word of kind 13 that is none in any place.
    Top,
    /// Between the words or behind all is a word of kind 13, none in any place or just none there.
    Loose,
    /// A head above 17.
    LargeHead,
    /// A word of another kind where a head should stand.
    Stray,
    /// It breaks off.
    Cut,
    /// One word too many.
    Long,
}

/// The words of a claim with this flaw and no other. It would be one of these vectors, one at least; where its head is too large, it
/// is one of 18, and has the words for them.
pub fn flawed(random: &mut Random, system: &System, vectors: &[Vec<u32>], flaw: Flaw) -> Vec<u32> {
    let m = system.m;
    // the places of each word, of which the first is the head
    let mut words: Vec<Vec<u32>> = [vec![ledger::word(ledger::HEAD, vectors.len() as u32)]]
        .into_iter()
        .chain(vectors.iter().flatten().map(|&x| ledger::written(ledger::ENTRY, x)))
        .collect();
    let place = 1 + random.below(words.len() as u64 - 1) as usize;
    match flaw {
        Flaw::NotBelow => {
            let more = |more: u32| m.saturating_add(more);
            let number = pick(random, &[m, more(1), more(65_536), more(1 << 27), more(1 << 28), LARGEST as u32]);
            words[place] = ledger::written(ledger::ENTRY, number);
        }
        Flaw::Misfit => {
            let other = pick(random, &[0, 1, 2, 3, 4, 5, 7, 8, 9, 10, 11, 12, 14, 15]);
            words[place] = vec![ledger::word(other, pick(random, &[0, 1, m % (1 << 28), LARGEST_ALONE]))];
        }
        Flaw::Top => words[place] = vec![bad_top(random)],
        Flaw::Loose => match random.below(4) {
            0 => words.insert(place, vec![bad_top(random)]),
            1 => words.insert(place - 1, vec![top(random), top(random)]),
            2 => words.push(vec![top(random)]),
            _ => {
                let kind = pick(random, &[0, 2, 5, 8, 9, 13, 14, 15]);
                words[place] = vec![top(random), ledger::word(kind, 0)];
            }
        },
        Flaw::LargeHead => {
            words = vec![vec![ledger::word(ledger::ENTRY, 0)]; 1 + 18 * system.n];
            words[0] = vec![ledger::word(ledger::HEAD, pick(random, &[18, 18, 19, 32, 256, 65_537, 1 << 27, LARGEST_ALONE]))];
        }
        Flaw::Stray => words[0] = vec![stray(random)],
        Flaw::Cut => words.truncate(place),
        Flaw::Long => words.push(vec![ledger::word(ledger::ENTRY, 0)]),
    }
    words.concat()
}

/// The words as they are, or now and then spoiled.
fn sometimes_spoiled(random: &mut Random, words: Vec<u32>, m: u32) -> Vec<u32> {
    if chance(random, 6) {
        spoiled(random, words, m)
    } else {
        words
    }
}

/// Words with one thing changed: the length, a kind, a number, or the order; or with a modulus between them, or a word of kind 13, which
/// may be good, and then makes a number larger, or stand in the place of another.
pub fn spoiled(random: &mut Random, mut words: Vec<u32>, m: u32) -> Vec<u32> {
    let count = words.len() as u64;
    let place = random.below(count.max(1)) as usize;
    if words.is_empty() {
        return vec![random.bits() as u32];
    }
    let low = m % (1 << 28);
    match random.below(15) {
        0 => words.truncate(place),
        1 => words.push(words[place]),
        2 => words.insert(0, words[place]),
        3 => words[place] = ledger::word(random.below(16) as u32, ledger::number(words[place])),
        4 => words[place] = ledger::word(ledger::kind(words[place]), low),
        5 => words[place] = ledger::word(ledger::kind(words[place]), (m - 1) % (1 << 28)),
        6 => words[place] = (words[place] & 0xF000_FFFF) + pick(random, &[1 << 16, 1 << 20, 1 << 27]),
        7 => words[place] = random.bits() as u32,
        8 => {
            let minus = pick(random, &[ledger::MINUS_COEFFICIENT, ledger::MINUS_RIGHT]);
            words[place] = ledger::word(minus, ledger::number(words[place]));
        }
        9 => words.insert(place, ledger::word(ledger::OWN_MODULUS, pick(random, &[0, 1, 2, low]))),
        10 => words.insert(place, top(random)),
        11 => words.insert(place, bad_top(random)),
        12 => words[place] = if chance(random, 2) { top(random) } else { bad_top(random) },
        13 => words.push(top(random)),
        _ => words.swap(0, place),
    }
    words
}
