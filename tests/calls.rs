//! Lists of direct calls on a sheet: any at all, and those at the limits of a sheet, of a call's words and of a buffer.
mod acts;
mod exercises;
mod face;
mod grammar;
mod ledger;
mod random;
mod reference;
mod sheet;
mod shown;
mod spelling;

use acts::{add, add_own, all_refusals, answer, answered, entering, expect, full_size_system, last, mark, open, outcomes};
use acts::{random_act, random_system, Tally, WIDE};
use exercises::{chance, pick};
use face::{LONGEST_BLOCK, LONGEST_WORDS};
use ledger::{Call, Ledger, Word};
use random::Random;
use reference::{Line, System};
use sheet::{Act, Desk, Outcome};

fn random_acts(random: &mut Random, count: usize) -> Vec<Act> {
    let filling = chance(random, 4);
    let (m, n) = exercises::small_shape(random);
    let mut acts = if chance(random, 8) { vec![] } else { vec![open(m, n)] };
    let mut sheet = Ledger::Unopened;
    acts.iter().for_each(|_| drop(sheet.run(&Call::Open(ledger::opening(m, n)))));
    for _ in 0..count {
        let act = random_act(random, &sheet, filling);
        match &act {
            Act::Open(words) => drop(sheet.run(&Call::Open(words.clone()))),
            Act::Add(words) => drop(sheet.run(&Call::Add(words.clone()))),
            Act::AddText(text) => drop(sheet.run(&Call::AddText(grammar::read(text)))),
            Act::Strike(place) => drop(sheet.run(&Call::Strike(*place))),
            _ => {}
        }
        acts.push(act);
    }
    acts
}

#[test]
fn random_lists_of_calls_do_what_the_paper_says_and_every_call_meets_its_refusals() {
    let mut random = Random::new();
    let (mut tally, mut signs, mut own, mut wide) = (Tally::new(), 0, 0, 0);
    for _ in 0..10_000 {
        let count = 1 + random.below(60) as usize;
        let acts = random_acts(&mut random, count);
        let added = acts.iter().filter_map(|act| if let Act::Add(words) = act { Some(words) } else { None });
        let added: Vec<Word> = added.flat_map(|words| ledger::joined(words)).collect();
        signs += added.iter().filter(|&&word| ledger::whole(word) < 0).count();
        own += added.iter().filter(|word| word.kind == ledger::OWN_MODULUS).count();
        wide += added.iter().filter(|word| word.number > ledger::LARGEST_ALONE).count();
        expect(&acts, random.seed, &mut tally);
    }
    assert!(signs > 10_000 && own > 10_000, "{signs} minus signs, {own} equations with a modulus of their own");
    assert!(wide > 10_000, "{wide} numbers of 2^28 or more");
    assert_eq!(tally, all_refusals(), "refusals seen, and refusals to be seen");
}

/// In each place of these words, each kind that is not among the allowed ones is refused with 1, or with 17 where it is 13 and does not
/// count with the next word; and those are accepted.
fn expect_kinds(words: &[u32], act: impl Fn(&[u32]) -> Act, allowed: &[Vec<u32>]) {
    for place in 0..words.len() {
        for kind in 0..16 {
            let mut words = words.to_vec();
            words[place] = ledger::word(kind, ledger::number(words[place]));
            let outcome = last(&[open(5, 2), act(&words)]);
            let refused = outcome == Outcome::Refused(1) || outcome == Outcome::Refused(17) && kind == ledger::TOP;
            assert_eq!(refused, !allowed[place].contains(&kind), "{words:x?}");
        }
    }
}

#[test]
fn misshapen_claims_and_equations_are_refused_with_1() {
    let word = ledger::word;
    let head = |number| word(ledger::HEAD, number);
    let entry = |number| word(ledger::ENTRY, number);
    let claims: [Vec<u32>; 12] = [
        vec![],
        vec![entry(1)],
        vec![head(1), entry(0)],
        vec![head(1), entry(0), entry(0), entry(0)],
        vec![head(0), entry(0)],
        vec![head(0), entry(0), entry(0)],
        vec![head(2), entry(0), entry(0)],
        vec![head(1), entry(0), word(ledger::MULTIPLIER, 0)],
        vec![entry(1), entry(0), entry(0)],
        vec![head(18); 1],
        [vec![head(18)], vec![entry(0); 36]].concat(),
        [vec![head((1 << 28) - 1)], vec![entry(0); 34]].concat(),
    ];
    for words in claims {
        assert_eq!(last(&[open(5, 2), Act::Mark(words.clone())]), Outcome::Refused(1), "{words:x?}");
    }
    let (a, b) = (word(ledger::COEFFICIENT, 1), word(ledger::RIGHT, 1));
    let (minus_a, minus_b) = (word(ledger::MINUS_COEFFICIENT, 1), word(ledger::MINUS_RIGHT, 1));
    let own = word(ledger::OWN_MODULUS, 5);
    let equations: [Vec<u32>; 26] = [
        vec![],
        vec![a],
        vec![b],
        vec![a, b],
        vec![a, a, a],
        vec![a, b, b],
        vec![a, a, a, b],
        vec![a, a, b, b],
        vec![minus_a],
        vec![minus_b],
        vec![minus_a, minus_b],
        vec![minus_a, minus_a, minus_a],
        vec![minus_a, minus_b, minus_b],
        vec![minus_a, minus_a, minus_a, minus_b],
        vec![minus_a, minus_a, minus_b, minus_b],
        [vec![minus_a; 17], vec![minus_b]].concat(),
        vec![own],
        vec![own, a],
        vec![own, a, b],
        vec![own, a, a],
        vec![own, a, a, a, b],
        vec![own, a, a, b, b],
        vec![own, own, a, a, b],
        vec![a, own, a, b],
        vec![a, a, own, b],
        vec![a, a, b, own],
    ];
    for words in equations {
        assert_eq!(last(&[open(5, 2), Act::Add(words.clone())]), Outcome::Refused(1), "{words:x?}");
    }
    expect_kinds(&[a, a, b], |words| Act::Add(words.to_vec()), &[vec![3, 10], vec![3, 10], vec![4, 11]]);
    // in front, 5 of kind 13 makes of the coefficient behind it a larger one
    expect_kinds(&[own, a, a, b], |words| Act::Add(words.to_vec()), &[vec![12, 13], vec![3, 10], vec![3, 10], vec![4, 11]]);
    expect_kinds(&[head(1), entry(1), entry(1)], |words| Act::Mark(words.to_vec()), &[vec![5], vec![6], vec![6]]);
    let (m, n) = (word(ledger::MODULUS, 5), word(ledger::UNKNOWNS, 2));
    for words in [vec![], vec![m], vec![n, m], vec![m, n, n], vec![m, m], vec![n, n]] {
        assert_eq!(last(&[Act::Open(words.clone())]), Outcome::Refused(1), "{words:x?}");
    }
}

#[test]
fn numbers_are_compared_with_all_their_32_bits() {
    for number in [5, 6, 65_536, 65_537, 1 << 24, (1 << 27) + 1, (1 << 28) - 1, 1 << 28, (1 << 28) + 1, (1 << 31) + 1, u32::MAX] {
        assert_eq!(last(&[open(5, 1), mark(&[vec![number]])]), Outcome::Refused(6), "{number}");
        assert_eq!(last(&[open(5, 1), mark(&[vec![0], vec![number]])]), Outcome::Refused(6), "{number}");
    }
    for number in [0, 1] {
        assert_eq!(last(&[open(number, 1)]), Outcome::Refused(2), "{number}");
    }
    for number in [2, 65_536, 65_538, 1 << 24, (1 << 27) + 2, (1 << 28) - 1, 1 << 28, (1 << 28) + 1, 15 << 28, u32::MAX] {
        assert_eq!(last(&[open(number, 1)]), Outcome::Holds(0), "{number}");
        // an entry is below the modulus or not
        let marks = [mark(&[vec![number - 1]]), mark(&[vec![number]]), mark(&[vec![0], vec![number.saturating_add(1)]])];
        let expected = [Outcome::Fail, Outcome::Refused(6), Outcome::Refused(6)];
        assert_eq!(outcomes(&[&[open(number, 1)], &marks[..]].concat())[1..], expected, "{number}");
    }
    for number in [0, 17, 32, 257, 65_537, (1 << 27) + 1, (1 << 28) - 1] {
        assert_eq!(last(&[open(5, number)]), Outcome::Refused(3), "{number}");
        assert_eq!(last(&[open(1, number)]), Outcome::Refused(2), "{number}");
    }
}

/// The starting vector that the sheet's answer has after an equation in one unknown mod m with the coefficient 1.
fn start_of(m: u32, right: Vec<u32>) -> Vec<u32> {
    let acts = [open(m, 1), Act::Add([vec![ledger::word(ledger::COEFFICIENT, 1)], right].concat()), answer(3)];
    let numbers = answered(expect(&acts, 0, &mut Tally::new()).last().unwrap());
    assert_eq!(numbers[0], 1, "a vector alone");
    numbers[1..].to_vec()
}

#[test]
fn numbers_of_equations_are_brought_to_their_residues_with_all_their_32_bits() {
    // residues worked out by hand, of the number and of minus the number
    for (m, number, residue, of_minus) in [
        (65_535, 268_435_455, 4_095, 61_440),
        (65_535, 65_534, 65_534, 1),
        (65_535, 65_535, 0, 0),
        (65_535, 65_536, 1, 65_534),
        (65_535, 1, 1, 65_534),
        (65_535, 0, 0, 0),
        (65_535, 1 << 27, 2_048, 63_487),
        (65_521, 1 << 16, 15, 65_506),
        (5, 1 << 24, 1, 4),
        (5, (1 << 28) - 1, 0, 0),
        (3, (1 << 28) - 1, 0, 0),
        (3, (1 << 27) + 1, 0, 0),
        (3, 1 << 27, 2, 1),
        (2, 1, 1, 1),
        (2, 2, 0, 0),
        (2, (1 << 28) - 1, 1, 1),
        (2, 1 << 27, 0, 0),
        (2, 1 << 28, 0, 0),
        (2, (1 << 28) + 1, 1, 1),
        // 2^16 is 1 mod 65,535, 15 mod 65,521, 0 mod 65,536 and -1 mod 65,537
        (65_535, 1 << 28, 4_096, 61_439),
        (65_535, u32::MAX, 0, 0),
        (65_521, u32::MAX, 224, 65_297),
        (65_536, u32::MAX, 65_535, 1),
        (65_537, u32::MAX, 0, 0),
        (65_537, 1 << 28, 61_441, 4_096),
        (268_435_455, 1 << 28, 1, 268_435_454),
        (268_435_456, 1 << 28, 0, 0),
        (268_435_457, 1 << 28, 268_435_456, 1),
        (268_435_457, u32::MAX, 268_435_440, 17),
        (4_294_967_291, u32::MAX, 4, 4_294_967_287),
        (4_294_967_295, u32::MAX, 0, 0),
        (4_294_967_295, 1, 1, 4_294_967_294),
        (4_294_967_295, 1 << 28, 1 << 28, 4_026_531_839),
    ] {
        assert_eq!(start_of(m, ledger::written(ledger::RIGHT, number)), [residue], "{number} mod {m}");
        assert_eq!(start_of(m, ledger::written(ledger::MINUS_RIGHT, number)), [of_minus], "minus {number} mod {m}");
    }
}

/// The words of one equation in two writings: with whole numbers of any size and sign, and with their residues. Half of them have a
/// modulus of their own.
fn in_two_writings(random: &mut Random, m: u32, n: usize) -> [Vec<u32>; 2] {
    let q = if chance(random, 2) { exercises::divisor(random, m) } else { m };
    let residues: Vec<i64> = (0..=n).map(|_| if chance(random, 3) { 0 } else { random.below(q as u64) as i64 }).collect();
    let numbers: Vec<i64> = residues.iter().map(|&x| exercises::written(random, q, x as u32)).collect();
    [numbers, residues].map(|numbers| ledger::line_words(m, &Line { q, numbers }))
}

#[test]
fn an_equation_with_signs_and_large_numbers_leaves_the_same_sheet_as_one_with_residues() {
    let mut random = Random::new();
    let mut signs = 0;
    for round in 0..300 {
        let (m, n) = if round % 3 == 0 {
            let wide = pick(&mut random, &WIDE);
            (pick(&mut random, &[2, 12, 32_768, 65_521, 65_535, wide, wide]), pick(&mut random, &[1, 8, 16]))
        } else {
            exercises::small_shape(&mut random)
        };
        let (mut one, mut other) = (Desk::fresh(), Desk::fresh());
        for desk in [&mut one, &mut other] {
            assert_eq!(desk.act(&open(m, n)).unwrap().outcome, Outcome::Holds(0));
        }
        for held in 1..=1 + random.below(16) as usize {
            let [signed, plain] = in_two_writings(&mut random, m, n as usize);
            signs += ledger::joined(&signed).iter().filter(|&&word| ledger::whole(word) < 0).count();
            for (desk, words) in [(&mut one, signed), (&mut other, plain)] {
                let reply = desk.act(&Act::Add(words.clone())).unwrap();
                assert_eq!(reply.outcome, Outcome::Holds(held), "{words:x?} mod {m} (seed {})", random.seed);
            }
            assert_eq!(one.numbers(), other.numbers(), "mod {m} (seed {})", random.seed);
            let answers = [&mut one, &mut other].map(|desk| desk.act(&answer(LONGEST_WORDS)).unwrap());
            assert_eq!(answers[0], answers[1], "mod {m} (seed {})", random.seed);
        }
    }
    assert!(signs > 3_000, "{signs} minus signs");
}

#[test]
fn a_full_sheet_refuses_with_5_after_shape_and_the_modulus_of_the_equation() {
    let mut acts = vec![open(3, 1)];
    acts.extend((0..16).map(|_| add(&[1, 2])));
    assert_eq!(last(&acts), Outcome::Holds(16));
    for (words, number) in [
        (ledger::equation(&[1, 2]), 5),
        (ledger::equation(&[3, 2]), 5),
        (ledger::equation(&[1, 3]), 5),
        (ledger::equation(&[-1, 2]), 5),
        (ledger::equation(&[-1, -ledger::LARGEST]), 5),
        (ledger::equation(&[1, -2]), 5),
        (ledger::equation(&[-1, 1, 2]), 1),
        (ledger::equation(&[-1]), 1),
        (vec![ledger::word(ledger::MINUS_COEFFICIENT, 1)], 1),
        (ledger::equation(&[1, 1, 2]), 1),
        (ledger::equation(&[2]), 1),
        (vec![], 1),
        (vec![ledger::word(ledger::COEFFICIENT, 3), ledger::word(ledger::ENTRY, 3)], 1),
        (ledger::own_equation(3, &[1, 2]), 5),
        (ledger::own_equation(0, &[1, 2]), 15),
        (ledger::own_equation(1, &[-1, 2]), 15),
        (ledger::own_equation(2, &[1, -2]), 15),
        (ledger::own_equation(6, &[-1, -2]), 15),
        (ledger::own_equation(6, &[1, 1, 2]), 1),
        (ledger::own_equation(6, &[2]), 1),
        (vec![ledger::word(ledger::OWN_MODULUS, 6)], 1),
    ] {
        let more = [acts.clone(), vec![Act::Add(words.clone()), answer(3), Act::Strike(0), add(&[1, 2]), answer(3)]].concat();
        let found = outcomes(&more);
        let expected = [Outcome::Refused(number), Outcome::Wrote(2), Outcome::Holds(15), Outcome::Holds(16), Outcome::Wrote(2)];
        assert_eq!(found[17..], expected, "{words:x?}");
    }
}

#[test]
fn a_refused_opening_keeps_the_sheet_and_an_accepted_one_empties_it() {
    let mut random = Random::new();
    let loose = [ledger::opening(2, 1), vec![ledger::word(ledger::TOP, 1)]].concat();
    let refused = [ledger::opening(1, 1), ledger::opening(0, 1), ledger::opening(2, 0), ledger::opening(2, 17), vec![], loose];
    for _ in 0..100 {
        let system = random_system(&mut random);
        let length = ledger::block_length(&system).unwrap();
        for words in &refused {
            let acts = [entering(&system), vec![answer(length), Act::Open(words.clone()), answer(length)]].concat();
            let replies = expect(&acts, random.seed, &mut Tally::new());
            let count = replies.len();
            assert_eq!(replies[count - 1], replies[count - 3], "{system:?}, {words:x?} (seed {})", random.seed);
        }
        let acts = [entering(&system), vec![open(7, 2), answer(7), Act::Strike(0)]].concat();
        let found = outcomes(&acts);
        let expected = [Outcome::Holds(0), Outcome::Wrote(7), Outcome::Refused(7)];
        assert_eq!(found[found.len() - 3..], expected, "{system:?} (seed {})", random.seed);
    }
}

#[test]
fn strikes_bring_back_every_earlier_answer() {
    let mut random = Random::new();
    for _ in 0..150 {
        let (m, n) = exercises::small_shape(&mut random);
        let mut system = System::empty(m, n as usize);
        let mut acts = vec![open(m, n), answer(LONGEST_WORDS)];
        for _ in 0..16 {
            let q = exercises::divisor(&mut random, m);
            let numbers = (0..=n).map(|_| exercises::any_whole(&mut random, q)).collect::<Vec<i64>>();
            acts.extend([add_own(q, &numbers), answer(LONGEST_WORDS)]);
            system.add(q, numbers);
        }
        for _ in 0..16 {
            acts.extend([Act::Strike(0), answer(LONGEST_WORDS)]);
        }
        acts.push(Act::Strike(0));
        let replies = expect(&acts, random.seed, &mut Tally::new());
        for held in 0..16 {
            let (up, down) = (&replies[2 * held + 1], &replies[65 - 2 * held]);
            assert_eq!(up, down, "{held} equations of {system:?} (seed {})", random.seed);
        }
        assert_eq!(replies[66].outcome, Outcome::Refused(7));
    }
}

#[test]
fn a_buffer_is_long_enough_exactly_when_the_block_fits() {
    let mut random = Random::new();
    for _ in 0..60 {
        let system = random_system(&mut random);
        let length = ledger::block_length(&system).unwrap();
        let mut acts = entering(&system);
        acts.extend((0..length + 4).map(answer));
        let found = outcomes(&acts);
        for (given, outcome) in found[1 + system.equations.len()..].iter().enumerate() {
            let expected = if given < length { Outcome::Refused(8) } else { Outcome::Wrote(length) };
            assert_eq!(*outcome, expected, "{system:?} into {given} words (seed {})", random.seed);
        }
    }
}

/// The numbers of the block from milebadger_solve, whose blocks of this size the tests of systems look into.
fn solved(system: &System) -> Vec<u32> {
    let reply = face::solve(system.m, system.n as u32, &system.lines(), LONGEST_BLOCK);
    reply.memory[..usize::try_from(reply.result).expect("a refusal")].to_vec()
}

#[test]
fn full_size_sheets_are_answered_soundly_and_their_own_block_passes_or_is_long() {
    let mut random = Random::new();
    let (mut solvable, mut unsolvable, mut long) = (0, 0, 0);
    for round in 0..120 {
        let system = full_size_system(&mut random, round % 3 != 0);
        let acts = [entering(&system), vec![answer(LONGEST_WORDS), Act::MarkBlock, mark(&[])]].concat();
        let replies = expect(&acts, random.seed, &mut Tally::new());
        let Outcome::Wrote(length) = replies[replies.len() - 3].outcome else { panic!("{replies:?}") };
        let room = ledger::block_room(&system, shown::solved(&system).as_ref());
        let fitting = outcomes(&[entering(&system), vec![answer(room), answer(room - 1)]].concat());
        let expected = [Outcome::Wrote(length), Outcome::Refused(8)];
        assert_eq!(fitting[fitting.len() - 2..], expected, "{system:?} (seed {})", random.seed);
        let outcomes: Vec<Outcome> = replies.iter().rev().take(2).map(|reply| reply.outcome).collect();
        match outcomes[..] {
            [Outcome::Fail, Outcome::Pass | Outcome::Long] => {
                assert_eq!(answered(&replies[replies.len() - 3]), solved(&system), "{system:?} (seed {})", random.seed);
                solvable += 1;
                long += (outcomes[1] == Outcome::Long) as usize;
            }
            [Outcome::Pass, Outcome::Refused(1)] if round % 3 == 0 => unsolvable += 1,
            _ => panic!("{system:?}: {outcomes:?} (seed {})", random.seed),
        }
    }
    assert!(solvable > 60 && unsolvable > 3, "{solvable} solvable, {unsolvable} unsolvable");
    assert!(long > 10 && solvable - long > 10, "{solvable} solvable, {long} of them long");
}
