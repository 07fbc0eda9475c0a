//! milebadger_gcd against the paper's recurrence.
mod face;
mod random;
mod reference;

use random::Random;

/// The call on (a, b) must give this divisor, the recurrence's count, and a count within Lamé's bound.
fn expect(a: u32, b: u32, divisor: u32, seed: u64) {
    let count = reference::divisions(a, b);
    let expected = face::writing(1, &[divisor, count], 2);
    let found = face::gcd(a, b, 2);
    assert!(found == expected, "gcd({a}, {b}): {found:?} is not {expected:?} (seed {seed})");
    let most = reference::most_divisions(a, b);
    assert!(found.memory[1] <= most, "gcd({a}, {b}): {found:?} counts more than {most} divisions (seed {seed})");
}

#[test]
fn every_small_pair_gets_the_greatest_divisor_and_its_count() {
    for a in 0..=300 {
        for b in 0..=300 {
            expect(a, b, reference::divisor_by_trying(a, b), 0);
        }
    }
}

#[test]
fn random_pairs_of_every_length_get_theirs() {
    let mut random = Random::new();
    for _ in 0..200_000 {
        let (a, b) = (random.any_length(), random.any_length());
        expect(a, b, reference::divisor_by_halving(a, b), random.seed);
    }
}

#[test]
fn pairs_with_a_large_common_factor_get_theirs() {
    let mut random = Random::new();
    for _ in 0..100_000 {
        let factor = random.any_length().max(1);
        let room = (u32::MAX / factor) as u64 + 1;
        let (a, b) = (factor * random.below(room) as u32, factor * random.below(room) as u32);
        expect(a, b, reference::divisor_by_halving(a, b), random.seed);
    }
}

#[test]
fn boundary_pairs_get_theirs() {
    for a in random::boundaries() {
        for b in random::boundaries() {
            expect(a, b, reference::divisor_by_halving(a, b), 0);
        }
    }
}

#[test]
fn neighbours_among_the_fibonacci_numbers_need_the_most_divisions() {
    let (mut small, mut large, mut count) = (1u32, 2u32, 1);
    while let Some(next) = large.checked_add(small) {
        expect(large, small, 1, 0);
        assert_eq!(face::gcd(large, small, 2).memory[1], count, "gcd({large}, {small})");
        (small, large, count) = (large, next, count + 1);
    }
    assert_eq!(count, 45);
}

#[test]
fn the_divisor_is_the_same_for_both_orders() {
    let mut random = Random::new();
    for _ in 0..10_000 {
        let (a, b) = (random.any_length(), random.any_length());
        let (one, other) = (face::gcd(a, b, 2), face::gcd(b, a, 2));
        assert_eq!(one.memory[0], other.memory[0], "gcd({a}, {b}) (seed {})", random.seed);
    }
}

#[test]
fn memory_too_short_for_two_numbers_gets_minus_8_and_keeps_its_content() {
    for (a, b) in [(0, 0), (12, 18), (u32::MAX, 1)] {
        for len in 0..2 {
            assert_eq!(face::gcd(a, b, len), face::silent(-8, len), "gcd({a}, {b}) into {len}");
        }
    }
}

#[test]
fn memory_past_the_two_numbers_keeps_its_content() {
    for len in 2..40 {
        assert_eq!(face::gcd(12, 18, len), face::writing(1, &[6, 3], len), "into {len}");
    }
}
