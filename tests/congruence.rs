//! milebadger_congruence against trying every t, with signed a and b.
mod face;
mod random;
mod reference;

use face::Reply;
use random::Random;
use reference::Congruence;

/// What the call must give back for this answer.
fn reply(answer: &Congruence, len: usize) -> Reply {
    match *answer {
        Congruence::Refused(number) => face::silent(-(number as i64), len),
        Congruence::NoSolution => face::silent(0, len),
        Congruence::Solutions { least, spacing } => face::writing(1, &[least, spacing], len),
    }
}

/// The answer, where m may be too large to try every t: with g for the greatest common divisor of a and m there is none if g does not
/// divide b, and else the spacing is m / g, and just one t below it solves. That t is taken from what was found, and seen to be it.
fn answer(a: i32, b: i32, m: u32, found: &Reply) -> Congruence {
    if m <= 1 << 17 {
        return reference::congruence(a, b, m);
    }
    let g = reference::divisor_by_halving(a.unsigned_abs(), m);
    let (spacing, t) = (m / g, found.memory.first().copied().unwrap_or(0));
    if b.unsigned_abs() % g != 0 {
        return Congruence::NoSolution;
    }
    assert!(found.result < 0 || t < spacing && reference::is_solution(a, b, m, t), "{a} t = {b} mod {m}: {found:?}");
    Congruence::Solutions { least: t, spacing }
}

fn expect(a: i32, b: i32, m: u32, len: usize, seed: u64) {
    let answer = answer(a, b, m, &face::congruence(a, b, m, len));
    let (found, expected) = (face::congruence(a, b, m, len), reply(&answer, len));
    assert!(found == expected, "{a} t = {b} mod {m} into {len}: {found:?} is not {expected:?} (seed {seed})");
}

#[test]
fn every_small_congruence_gets_the_least_solution_and_the_spacing() {
    for m in 0..=60 {
        let most = m as i32 + 2;
        for a in -most..=most {
            for b in -most..=most {
                expect(a, b, m, 2, 0);
            }
        }
    }
}

#[test]
fn all_pairs_of_numbers_of_8_bits_get_theirs() {
    for m in [2, 3, 4, 5, 6, 7, 8, 9, 12, 16, 30, 60, 127, 128, 129, 255, 256, 257] {
        for a in -128..=127 {
            for b in -128..=127 {
                expect(a, b, m, 2, 0);
            }
        }
    }
}

#[test]
fn random_congruences_get_theirs() {
    let mut random = Random::new();
    for _ in 0..1_000 {
        let m = 2 + random.below(65_534);
        let (a, b) = (random.below(m) as i32, random.below(m) as i32);
        expect(a, b, m as u32, 2, random.seed);
        expect(random.any_length() as i32, random.any_length() as i32, m as u32, 2, random.seed);
    }
}

#[test]
fn random_congruences_with_large_moduli_get_theirs() {
    let mut random = Random::new();
    let (mut none, mut some, mut spaced) = (0, 0, 0);
    for round in 0..60_000 {
        let factor = if round % 2 == 0 { 1 } else { random.any_length().max(1) >> random.below(28) };
        let most = (u32::MAX / factor.max(1)) as u64;
        let m = factor.max(1) * (1 + random.below(most)) as u32;
        let (a, b) = (random.any_length() as i32, random.any_length() as i32);
        let shared = (factor as i32 & i32::MAX).max(1);
        for (a, b) in [(a, b), (a / shared * shared, b), (a / shared * shared, b / shared * shared)] {
            expect(a, b, m, 2, random.seed);
            let found = face::congruence(a, b, m, 2);
            none += (found.result == 0) as usize;
            some += (found.result == 1) as usize;
            spaced += (found.result == 1 && found.memory[1] < m) as usize;
        }
    }
    assert!(none > 10_000 && some > 10_000 && spaced > 10_000, "{none} without, {some} with a solution, {spaced} with others");
}

#[test]
fn congruences_with_a_large_common_factor_get_theirs() {
    let mut random = Random::new();
    for _ in 0..1_000 {
        let factor = 2 + random.below(250);
        let m = factor * (1 + random.below(65_535 / factor));
        let a = factor * random.below(m / factor);
        let b = factor * random.below(m / factor) + (random.below(4) == 0) as u64;
        // and the same numbers some multiples of m away, on either side of 0
        let (a, b, m) = (a as i32, b as i32, m as i32);
        let [above, below] = [random.below(20_000) as i32 * m, -(random.below(20_000) as i32) * m];
        for (a, b) in [(a, b), (a + above, b + below), (-a + below, b + above), (-a, -b)] {
            expect(a, b, m as u32, 2, random.seed);
        }
    }
}

/// The largest number of a word.
const LARGEST: i32 = (1 << 28) - 1;

#[test]
fn boundary_numbers_get_their_solutions_or_their_refusal() {
    let wide = [65_536, 65_537, (1 << 28) - 1, 1 << 28, (1 << 28) + 1, (1 << 31) - 1, 1 << 31, (1 << 31) + 1, 4_294_967_291];
    for m in [0, 1, 2, 3, 4, 6, 12, 65_520, 65_521, 65_534, 65_535, u32::MAX].into_iter().chain(wide) {
        let size = m as i32 % (1 << 17);
        let around = [0, 1, 2, size / 2, size - 2, size - 1, size, size + 1, 2 * size, LARGEST, LARGEST + 1, i32::MAX];
        let around = around.iter().flat_map(|&x| [x, -x]).chain([i32::MIN]).collect::<Vec<i32>>();
        for &a in &around {
            for &b in &around {
                expect(a, b, m, 2, 0);
            }
        }
    }
}

#[test]
fn any_three_numbers_get_an_answer() {
    let mut random = Random::new();
    for _ in 0..20_000 {
        let (a, b, m) = (random.any_length() as i32, random.any_length() as i32, random.any_length() >> 16);
        expect(a, b, m.wrapping_mul(65_537), 2, random.seed);
        expect(a, b, m, 2, random.seed);
        expect(a.wrapping_neg(), b, m, 2, random.seed);
    }
}

#[test]
fn the_examples_of_the_paper_come_out() {
    assert_eq!(face::congruence(4, 8, 12, 2), face::writing(1, &[2, 3], 2));
    assert_eq!(face::congruence(4, 6, 12, 2), face::silent(0, 2));
    assert_eq!(face::congruence(65_534, 1, 65_535, 2), face::writing(1, &[65_534, 65_535], 2));
    assert_eq!(face::congruence(0, 0, 1, 2), face::silent(-2, 2));
    assert_eq!(face::congruence(0, 0, 65_536, 2), face::writing(1, &[0, 1], 2));
    assert_eq!(face::congruence(5, 1, 65_536, 2), face::writing(1, &[52_429, 65_536], 2));
    assert_eq!(face::congruence(-1, 1, u32::MAX, 2), face::writing(1, &[u32::MAX - 1, u32::MAX], 2));
    assert_eq!(face::congruence(2, 1, 4_294_967_291, 2), face::writing(1, &[2_147_483_646, 4_294_967_291], 2));
    assert_eq!(face::congruence(3, 6, u32::MAX, 2), face::writing(1, &[2, 1_431_655_765], 2));
    assert_eq!(face::congruence(3, 5, u32::MAX, 2), face::silent(0, 2));
    assert_eq!(face::congruence(-1, 1, 65_535, 2), face::writing(1, &[65_534, 65_535], 2));
    // the least solution of t = b is the residue of b
    for (b, m, residue) in [
        (LARGEST, 65_535, 4_095),
        (-LARGEST, 65_535, 61_440),
        (i32::MIN, 65_535, 32_767),
        (i32::MAX, 65_535, 32_767),
        (-1, 65_535, 65_534),
        (0, 65_535, 0),
        (-1, 2, 1),
        (i32::MIN, 2, 0),
        (i32::MIN, 3, 1),
        (i32::MAX, 3, 1),
        (-1, 65_536, 65_535),
        (-1, u32::MAX, u32::MAX - 1),
        (i32::MIN, u32::MAX, i32::MAX as u32),
        (i32::MAX, u32::MAX, i32::MAX as u32),
        (i32::MIN, 1 << 28, 0),
        (i32::MIN, (1 << 28) + 1, 8),
        (i32::MAX, (1 << 28) + 1, 268_435_448),
        (i32::MIN, 1 << 31, 0),
        (i32::MIN, (1 << 31) + 1, 1),
        (i32::MIN, 4_294_967_291, 2_147_483_643),
    ] {
        assert_eq!(face::congruence(1, b, m, 2), face::writing(1, &[residue, m], 2), "{b} mod {m}");
    }
    // 4·t = 8 once more, and 4·t = 6
    for (a, b) in [(-4, -8), (-8, 8), (16, -4), (4, 20), (-20, -40)] {
        assert_eq!(face::congruence(a, b, 12, 2), face::writing(1, &[2, 3], 2), "{a} t = {b}");
    }
    for (a, b) in [(-4, -6), (-8, 6), (16, -6), (i32::MIN, 6)] {
        assert_eq!(face::congruence(a, b, 12, 2), face::silent(0, 2), "{a} t = {b}");
    }
}

#[test]
fn the_modulus_alone_is_asked_for() {
    for (a, b) in [(9, 9), (-9, 9), (70_000, 0), (0, 65_535), (i32::MIN, i32::MAX)] {
        for m in [0, 1] {
            assert_eq!(face::congruence(a, b, m, 2), face::silent(-2, 2), "{a} t = {b} mod {m}");
        }
        for m in [2, 65_536, 1 << 31, u32::MAX] {
            assert!(face::congruence(a, b, m, 2).result >= 0, "{a} t = {b} mod {m}");
        }
    }
    // 70,000 is 4,465 mod 65,535, and their divisor is 5
    assert_eq!(face::congruence(70_000, 0, 65_535, 2), face::writing(1, &[0, 13_107], 2));
    assert_eq!(face::congruence(0, 65_535, 65_535, 2), face::writing(1, &[0, 1], 2));
    assert_eq!(face::congruence(12, 1, 12, 2), face::silent(0, 2));
}

#[test]
fn the_length_of_the_memory_is_asked_last_and_only_where_numbers_are_written() {
    for len in 0..2 {
        for sign in [1, -1] {
            assert_eq!(face::congruence(4 * sign, 8, 1, len), face::silent(-2, len));
            assert_eq!(face::congruence(12 * sign, 8, 12, len), face::silent(0, len));
            assert_eq!(face::congruence(4 * sign, 6, 12, len), face::silent(0, len));
            assert_eq!(face::congruence(4 * sign, 8, 12, len), face::silent(-8, len));
        }
    }
}

#[test]
fn memory_past_the_two_numbers_keeps_its_content() {
    for len in 2..40 {
        for (a, b, m) in [(4, 8, 12), (4, 6, 12), (4, 8, 1), (12, 8, 12), (-4, 8, 12), (i32::MIN, i32::MIN, 12)] {
            expect(a, b, m, len, 0);
        }
    }
}
