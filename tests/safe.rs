//! milebadger_safe against trying all turns.
mod face;
mod random;
mod reference;

use face::Reply;
use random::Random;
use reference::{entry, joined, written, Safe, System, TOP};

const MOST_LOCKS: usize = 16;

fn safe(m: u32, rows: usize, columns: usize, values: &[u32]) -> Safe {
    Safe { m, rows, columns, values: values.to_vec() }
}

fn words(numbers: &[u32]) -> Vec<u32> {
    numbers.iter().flat_map(|&number| written(6, number)).collect()
}

fn call(safe: &Safe, len: usize) -> Reply {
    face::safe(safe.m, safe.rows as u32, safe.columns as u32, &words(&safe.values), len)
}

/// What the call must give back for these turns.
fn reply(turns: &Option<Vec<u32>>, len: usize) -> Reply {
    match turns {
        None => face::silent(0, len),
        Some(turns) => face::writing(words(turns).len() as i64, &words(turns), len),
    }
}

fn expect(safe: &Safe, len: usize, seed: u64) {
    let (found, expected) = (call(safe, len), reply(&safe.turns(), len));
    assert!(found == expected, "{safe:?} into {len}: {found:?} is not {expected:?} (seed {seed})");
}

/// Some numbers of rows and of columns for at most so many locks.
fn sizes(most: usize) -> impl Iterator<Item = (usize, usize)> {
    (1..=most).flat_map(move |rows| (1..=most / rows).map(move |columns| (rows, columns)))
}

/// The safe's equations as 001 writes them, a sum of turns for each lock, with these right sides.
fn equations(safe: &Safe, rights: &[u32]) -> System {
    let n = safe.rows * safe.columns;
    let line = |i: usize| -> Vec<u32> {
        let counts = |j: usize| i / safe.columns == j / safe.columns || i % safe.columns == j % safe.columns;
        (0..n).map(|j| counts(j) as u32).chain([rights[i]]).collect()
    };
    System::of(safe.m, n, &(0..n).map(line).collect::<Vec<Vec<u32>>>())
}

fn negatives(safe: &Safe) -> Vec<u32> {
    safe.values.iter().map(|&value| (safe.m - value) % safe.m).collect()
}

#[test]
fn the_first_example_opens_in_two_ways_and_the_other_one_comes_first() {
    let safe = safe(2, 2, 3, &[1, 1, 0, 0, 1, 1]);
    assert!(safe.opened_by(&[1, 0, 0, 0, 0, 1]), "001's turns");
    assert_eq!(safe.after(&[1, 0, 0, 0, 0, 0]), [0, 0, 1, 1, 1, 1], "001's first transformation");
    assert!(safe.opened_by(&[0, 1, 1, 1, 1, 0]));
    assert_eq!(call(&safe, 6), face::writing(6, &words(&[0, 1, 1, 1, 1, 0]), 6));
}

#[test]
fn the_second_example_has_the_turns_of_001_which_fit_the_negatives_of_the_values() {
    let safe = safe(3, 2, 4, &[2, 0, 2, 2, 1, 2, 2, 1]);
    let turns = [0, 2, 2, 0, 0, 2, 0, 0];
    assert_eq!(call(&safe, 8), face::writing(8, &words(&turns), 8));
    assert!(safe.opened_by(&turns));
    assert!(!equations(&safe, &safe.values).solved_by(&turns), "with the values as right sides");
    assert!(equations(&safe, &negatives(&safe)).solved_by(&turns));
}

#[test]
fn every_safe_of_up_to_six_locks_mod_2_gets_its_turns() {
    for (rows, columns) in sizes(6) {
        for values in reference::vectors(2, rows * columns) {
            expect(&safe(2, rows, columns, &values), MOST_LOCKS, 0);
        }
    }
}

#[test]
fn random_small_safes_get_their_turns() {
    let mut random = Random::new();
    for (rows, columns) in sizes(8) {
        for _ in 0..20 {
            let largest = match rows * columns {
                1 => 400,
                2 => 60,
                3 => 16,
                4 => 9,
                5 => 6,
                6 => 4,
                _ => 3,
            };
            let m = 2 + random.below(largest - 1) as u32;
            let values: Vec<u32> = (0..rows * columns).map(|_| random.below(m as u64) as u32).collect();
            expect(&safe(m, rows, columns, &values), rows * columns + random.below(3) as usize, random.seed);
        }
    }
}

#[test]
fn safes_of_every_size_that_some_turns_close_are_opened_by_earlier_ones_or_these() {
    let mut random = Random::new();
    for (rows, columns) in sizes(MOST_LOCKS) {
        let wide = [65_536, (1 << 28) - 1, 1 << 28, (1 << 28) + 1, 4_294_967_291, u32::MAX];
        for m in [2, 3, 4, 12, 60, 32_768, 65_521, 65_535].into_iter().chain(wide) {
            let n = rows * columns;
            let mut turns: Vec<u32> = (0..n).map(|_| random.below(m as u64) as u32).collect();
            let mut closed = safe(m, rows, columns, &vec![0; n]);
            closed.values = closed.after(&turns);
            turns.iter_mut().for_each(|t| *t = (m - *t) % m);
            assert!(closed.opened_by(&turns));

            let reply = call(&closed, 2 * n);
            assert!((n as i64..=2 * n as i64).contains(&reply.result), "{closed:?} (seed {})", random.seed);
            let count = reply.result as usize;
            let found: Vec<u32> = joined(&reply.memory[..count]).iter().map(|word| word.number).collect();
            assert_eq!(words(&found), reply.memory[..count], "{closed:?} (seed {})", random.seed);
            assert_eq!(reply.memory[count..], face::untouched(2 * n)[count..], "{closed:?} (seed {})", random.seed);
            assert!(closed.opened_by(&found) && found <= turns, "{closed:?} (seed {})", random.seed);
            // as many words as are written are enough, and one less is not
            for len in [0, count - 1, count, count + 1] {
                let expected = face::writing(count as i64, &words(&found), len);
                assert_eq!(call(&closed, len), expected, "{closed:?} (seed {})", random.seed);
            }
        }
    }
}

#[test]
fn rows_and_columns_are_told_apart() {
    let values = [1, 2, 3, 4, 0, 1];
    let (upright, lying) = (safe(5, 3, 2, &values), safe(5, 2, 3, &values));
    expect(&upright, 6, 0);
    expect(&lying, 6, 0);
    assert_ne!(call(&upright, 6), call(&lying, 6));
}

#[test]
fn a_safe_that_no_turns_open_says_0_and_leaves_the_memory_alone() {
    let mut shut = 0;
    for (rows, columns) in sizes(6) {
        for values in reference::vectors(2, rows * columns) {
            let safe = safe(2, rows, columns, &values);
            if safe.turns().is_none() {
                shut += 1;
                for len in [0, 1, MOST_LOCKS + 4] {
                    assert_eq!(call(&safe, len), face::silent(0, len), "{safe:?}");
                }
            }
        }
    }
    assert!(shut > 0);
}

#[test]
fn every_question_refuses_with_its_number() {
    let six = words(&[0; 6]);
    for m in [0, 1] {
        assert_eq!(face::safe(m, 2, 3, &six, 20), face::silent(-2, 20));
    }
    for m in [2, 65_536, 1 << 20, 1 << 28, u32::MAX] {
        assert_eq!(face::safe(m, 2, 3, &six, 20), face::writing(6, &six, 20));
    }
    for (rows, columns) in [(0, 3), (3, 0), (0, 0), (1, 17), (17, 1), (2, 9), (4, 5)] {
        assert_eq!(face::safe(2, rows, columns, &six, 20), face::silent(-3, 20));
    }
    // products that are 0 or 1 in 32 bits
    for (rows, columns) in [(65_536, 65_536), (1 << 31, 2), (u32::MAX, u32::MAX)] {
        assert_eq!(face::safe(2, rows, columns, &six, 20), face::silent(-3, 20));
    }
    for (rows, columns) in [(1, 5), (1, 7), (3, 3), (4, 4)] {
        assert_eq!(face::safe(2, rows, columns, &six, 20), face::silent(-1, 20));
    }
    // a word of kind 13 that is none: with 0 or above 15 in whatever place; or the last one; or before one of another kind
    for place in 0..6 {
        for number in [0, 16, 17, 1 << 27, (1 << 28) - 1] {
            let (mut values, mut more) = (six.clone(), six.clone());
            values[place] = TOP << 28 | number;
            more.insert(place, TOP << 28 | number);
            assert_eq!(face::safe(2, 2, 3, &values, 20), face::silent(-17, 20));
            assert_eq!(face::safe(2, 2, 3, &more, 20), face::silent(-17, 20));
        }
        for kind in [0, 2, 5, 8, 9, 13, 14, 15] {
            let mut values = six.clone();
            values.splice(place..=place, [TOP << 28 | 1, kind << 28]);
            assert_eq!(face::safe(2, 2, 3, &values, 20), face::silent(-17, 20));
        }
        // a good one makes an entry larger, or one of another kind
        for (kind, result) in [(6, -6), (1, -1), (3, -1), (4, -1), (7, -1), (10, -1), (11, -1), (12, -1)] {
            let mut values = six.clone();
            values.splice(place..=place, [TOP << 28 | 1, kind << 28]);
            assert_eq!(face::safe(2, 2, 3, &values, 20), face::silent(result, 20));
        }
    }
    assert_eq!(face::safe(2, 2, 3, &[&six[..], &[TOP << 28 | 1]].concat(), 20), face::silent(-17, 20));
    for kind in (0..16).filter(|&kind| kind != 6 && kind != TOP) {
        for place in 0..6 {
            let mut values = six.clone();
            values[place] = kind << 28;
            assert_eq!(face::safe(2, 2, 3, &values, 20), face::silent(-1, 20));
        }
    }
    for number in [2, 3, 65_535, 65_536, (1 << 28) - 1, 1 << 28, u32::MAX] {
        for place in 0..6 {
            let mut values = [0; 6];
            values[place] = number;
            assert_eq!(face::safe(2, 2, 3, &words(&values), 20), face::silent(-6, 20));
        }
    }
    for len in 0..6 {
        assert_eq!(face::safe(2, 2, 3, &six, len), face::silent(-8, len));
    }
}

#[test]
fn the_questions_are_asked_in_their_order() {
    let bad = [entry(9), 5 << 28];
    let worse = [&bad[..], &[TOP << 28]].concat();
    assert_eq!(face::safe(1, 0, 0, &worse, 0), face::silent(-2, 0));
    assert_eq!(face::safe(2, 0, 0, &worse, 0), face::silent(-3, 0));
    assert_eq!(face::safe(2, 1, 2, &worse, 0), face::silent(-17, 0));
    assert_eq!(face::safe(2, 1, 2, &bad, 0), face::silent(-1, 0));
    assert_eq!(face::safe(2, 1, 2, &words(&[9, 0]), 0), face::silent(-6, 0));
    assert_eq!(face::safe(2, 1, 2, &words(&[1, 1]), 0), face::silent(-8, 0));
    assert_eq!(face::safe(2, 1, 2, &words(&[1, 0]), 0), face::silent(0, 0));
}

#[test]
fn any_arguments_get_an_answer() {
    let mut random = Random::new();
    let sometimes = |random: &mut Random, usual: u32| if random.below(8) == 0 { random.any_length() } else { usual };
    for _ in 0..20_000 {
        let (rows, columns) = (random.below(5) as u32, random.below(5) as u32);
        let usual = 2 + random.below(3) as u32;
        let m = sometimes(&mut random, usual);
        let count = if random.below(8) == 0 { random.below(18) as usize } else { (rows * columns) as usize };
        let mut values: Vec<u32> = (0..count)
            .map(|_| {
                let word = entry(random.below(2) as u32);
                if random.below(40) == 0 { random.any_length() } else { word }
            })
            .collect();
        // now and then a word of kind 13, good in some places
        if random.below(6) == 0 {
            let place = random.below(values.len() as u64 + 1) as usize;
            values.insert(place, TOP << 28 | [0, 1, 15, 16][random.below(4) as usize]);
        }
        let (rows, columns) = (sometimes(&mut random, rows), sometimes(&mut random, columns));
        let len = random.below(20) as usize;
        let found = face::safe(m, rows, columns, &values, len);
        match reference::safe_refusal(m, rows, columns, &values) {
            Some(number) => assert_eq!(found, face::silent(-(number as i64), len)),
            None if (m as u64).saturating_pow(joined(&values).len() as u32) <= 4_096 => {
                let numbers: Vec<u32> = joined(&values).iter().map(|word| word.number).collect();
                let safe = safe(m, rows as usize, columns as usize, &numbers);
                assert_eq!(found, reply(&safe.turns(), len), "{safe:?} (seed {})", random.seed);
            }
            None => {
                let wrote = (rows * columns) as i64..=len as i64;
                assert!([0, -8].contains(&found.result) || wrote.contains(&found.result))
            }
        }
    }
}

#[test]
fn memory_past_the_turns_keeps_its_content() {
    for (rows, columns) in sizes(MOST_LOCKS) {
        let shut = safe(7, rows, columns, &vec![0; rows * columns]);
        for len in rows * columns..24 {
            assert_eq!(call(&shut, len), face::writing((rows * columns) as i64, &words(&vec![0; rows * columns]), len));
        }
    }
}
