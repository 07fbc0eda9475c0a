//! The reference itself against the examples of the paper, and of typed equations, so that the other tests compare with what the
//! paper says.
mod grammar;
mod ledger;
mod reference;
mod tape;

use grammar::{Tree, Typed, ADDED, OUTSIDE, REFUSED};
use ledger::{Call, Ledger, Reason, Said, Solved, Word, LARGEST, OWN_REASONED, REASONED};
use reference::{Answer, Congruence, System};
use std::rc::Rc;
use tape::{OWN, PAPER_LINES, PAPER_TAPE, SIGNED, WIDE};

fn system(m: u32, n: usize, equations: &[&[i64]]) -> System {
    System::plain(m, n, equations.iter().map(|equation| equation.to_vec()).collect())
}

/// "from .. , steps .."
fn from(start: &[u32], steps: &[&[u32]]) -> Solved {
    Solved::Vectors(Answer { start: start.to_vec(), steps: steps.iter().map(|step| step.to_vec()).collect() })
}

/// A ledger with these equations.
fn opened(m: u32, n: u32, equations: &[&[i64]]) -> Ledger {
    let mut sheet = Ledger::Unopened;
    assert_eq!(sheet.run(&Call::Open(ledger::opening(m, n))), Said::Opened { m, n: n as usize });
    for (held, equation) in equations.iter().enumerate() {
        assert_eq!(sheet.run(&Call::Add(ledger::equation(equation))), Said::Added(held + 1));
    }
    sheet
}

fn claimed(sheet: &mut Ledger, vectors: &[&[u32]]) -> Said {
    let vectors: Vec<Vec<u32>> = vectors.iter().map(|v| v.to_vec()).collect();
    sheet.run(&Call::Mark(ledger::claim(&vectors)))
}

#[test]
fn one_congruence_is_as_the_paper_says() {
    assert_eq!(reference::congruence(4, 8, 12), Congruence::Solutions { least: 2, spacing: 3 });
    assert_eq!(reference::congruence(4, 6, 12), Congruence::NoSolution);
    assert!(system(12, 1, &[&[4, 6]]).refuted_by(&[3]));
    assert!(!system(12, 1, &[&[4, 6]]).refuted_by(&[6]));
    assert_eq!(reference::congruence(-1, 1, 65_535), Congruence::Solutions { least: 65_534, spacing: 65_535 });
    assert_eq!(reference::congruence(1, i32::MIN, 65_535), Congruence::Solutions { least: 32_767, spacing: 65_535 });
    assert_eq!(reference::congruence(-4, -8, 12), Congruence::Solutions { least: 2, spacing: 3 });
    assert_eq!(reference::congruence(-4, 6, 12), Congruence::NoSolution);
    for m in [0, 1] {
        assert_eq!(reference::congruence(-1, 1, m), Congruence::Refused(2));
    }
    assert_eq!(reference::congruence(-1, 1, 65_536), Congruence::Solutions { least: 65_535, spacing: 65_536 });
}

/// "A class in one call": how its words are cut, what its bytes say, and when it is turned away.
#[test]
fn a_class_is_as_the_request_says() {
    let (head, entry) = (|h: u32| ledger::word(ledger::HEAD, h), |x: u32| ledger::word(ledger::ENTRY, x));
    let words = [head(1), entry(0), entry(0), entry(0), head(18), head(0), head(2), entry(0), head(0)];
    let cut = [&words[..3], &words[3..4], &words[4..5], &words[5..6], &words[6..]].map(|claim| claim.to_vec());
    assert_eq!(ledger::claims(2, &words), cut);
    assert_eq!(ledger::claims(2, &[]), Vec::<Vec<u32>>::new());
    let mut sheet = opened(4, 2, &[&[1, 2, 0]]);
    let one = Said::Refused(1);
    assert_eq!(
        sheet.run(&Call::Class(words.to_vec(), 5)),
        Said::Classed(vec![Said::Failed, one.clone(), one.clone(), Said::Failed, one])
    );
    assert_eq!(sheet.run(&Call::Class(words.to_vec(), 4)), Said::Refused(8));
    assert_eq!(sheet.run(&Call::Class(vec![], 0)), Said::Classed(vec![]));
    for (claims, bytes, said) in [(64, 64, None), (64, 63, Some(8)), (65, 65, Some(14)), (65, 0, Some(14))] {
        let expected = said.map_or(Said::Classed(vec![Said::Failed; claims]), Said::Refused);
        assert_eq!(sheet.run(&Call::Class(vec![head(0); claims], bytes)), expected, "{claims} claims, {bytes} bytes");
    }
    for call in [Call::Class(vec![], 0), Call::Class(vec![head(0); 65], 0)] {
        assert_eq!(Ledger::Unopened.run(&call), Said::Refused(4));
    }
}

/// "The reason beside a failed mark": the first that holds, none where it passes, and when it is turned away.
#[test]
fn a_reason_is_as_the_request_says() {
    let plain = REASONED.map(|(m, n, equations, vectors, expected)| (ledger::posed(m, n, equations, vectors), expected));
    let own = OWN_REASONED.map(|(m, n, equations, vectors, expected)| (ledger::posed_own(m, n, equations, vectors), expected));
    for ((system, vectors), expected) in plain.into_iter().chain(own) {
        let found = ledger::reason(&system, &vectors);
        assert_eq!(found.map_or([0; 3], Reason::numbers), expected, "{system:?}: {vectors:?}");
        // "a passed claim gives no reason", each failed one does, and a long one the last
        let right = ledger::described(system.m, &vectors) == ledger::solutions(&system);
        assert_eq!(found.is_none() || expected[0] == 6, right, "{system:?}: {vectors:?}");
    }
    let [none, start, number, short] = [vec![], vec![vec![1, 0]], vec![vec![4, 0]], vec![vec![1]]].map(|v| ledger::claim(&v));
    let right = ledger::claim(&[vec![0, 0], vec![2, 3]]);
    let long = ledger::claim(&[vec![0, 0], vec![2, 1], vec![0, 2]]);
    let mut sheet = opened(4, 2, &[&[1, 2, 0]]);
    for (words, at, out, said) in [
        (&none, 3, 2, Said::Reasoned(Some(Reason::Solvable))),
        (&none, 3, 1, Said::Refused(8)),
        (&none, 2, 2, Said::Refused(8)),
        (&start, 3, 0, Said::Reasoned(Some(Reason::Breaks { equation: 1 }))),
        (&start, 2, 16, Said::Refused(8)),
        (&right, 3, 0, Said::Reasoned(None)),
        (&right, 2, 0, Said::Refused(8)),
        (&long, 3, 0, Said::Reasoned(Some(Reason::Superfluous { step: 2 }))),
        (&long, 2, 16, Said::Refused(8)),
        (&number, 0, 0, Said::Refused(6)),
        (&short, 0, 0, Said::Refused(1)),
    ] {
        assert_eq!(sheet.run(&Call::Reason(words.clone(), at, out)), said, "{words:x?}, {at}, {out}");
        assert_eq!(Ledger::Unopened.run(&Call::Reason(words.clone(), at, out)), Said::Refused(4), "{words:x?}, {at}, {out}");
    }
    // two equations have two multipliers
    let mut sheet = opened(2, 3, &[&[1, 1, 0, 1], &[1, 1, 0, 0]]);
    let zeros = ledger::claim(&[vec![0; 3]]);
    assert_eq!(sheet.run(&Call::Reason(zeros.clone(), 3, 2)), Said::Reasoned(Some(Reason::Unsolvable)));
    assert_eq!(sheet.run(&Call::Reason(zeros, 3, 1)), Said::Refused(8));
    assert_eq!(sheet.run(&Call::Reason(none, 3, 0)), Said::Reasoned(None));
}

#[test]
fn a_residue_is_the_only_number_below_m_that_differs_by_a_multiple_of_m() {
    for (m, whole, residue) in [
        (65_535, 268_435_455, 4_095),
        (65_535, -268_435_455, 61_440),
        (65_535, i32::MIN as i64, 32_767),
        (65_535, -1, 65_534),
        (2, -1, 1),
        (2, 0, 0),
    ] {
        assert_eq!(reference::residue(m, whole), residue, "{whole} mod {m}");
    }
    for m in [2, 3, 4, 6, 12, 255] {
        for whole in (-600..=600).chain([LARGEST, -LARGEST, i32::MIN as i64, i32::MAX as i64]) {
            let found: Vec<u32> = (0..m).filter(|&r| (whole - r as i64) % m as i64 == 0).collect();
            assert_eq!(found, [reference::residue(m, whole)], "{whole} mod {m}");
        }
    }
}

#[test]
fn equations_with_signs_and_large_numbers_have_the_solutions_of_their_residues() {
    let written = [system(7, 2, &[&[1, -2, -1]]), system(7, 2, &[&[-6, 12, 700_006]]), system(7, 2, &[&[8, -9, -268_435_455]])];
    for system in written {
        assert_eq!(system.reduced().equations[0].numbers, [1, 5, 6]);
        assert_eq!(ledger::solve(&system), from(&[0, 4], &[&[1, 4]]));
    }
    // -2·x = 1 mod 4: twice it is 0 = 2
    assert_eq!(ledger::solve(&system(4, 1, &[&[-2, 1]])), Solved::Nothing);
    assert!(system(4, 1, &[&[-2, 1]]).refuted_by(&[2]));
    assert!(!system(4, 1, &[&[-2, 1]]).refuted_by(&[1]));
    // -x = 0 and x = 3 mod 3 are the same, and both are x = 0
    assert!(!system(3, 1, &[&[-1, 0], &[1, 3]]).refuted_by(&[1, 1]));
    assert_eq!(ledger::solve(&system(3, 1, &[&[-1, 0], &[1, 3]])), from(&[0], &[]));
}

#[test]
fn adding_asks_for_an_opened_sheet_the_shape_the_modulus_and_room_alone() {
    let mut sheet = opened(3, 2, &[]);
    let [a, b] = [ledger::word(ledger::MINUS_COEFFICIENT, 1), ledger::word(ledger::MINUS_RIGHT, 1)];
    let [plus, right] = [ledger::word(ledger::COEFFICIENT, 9), ledger::word(ledger::RIGHT, 9)];
    for (words, said) in [
        (vec![a, a, b], Said::Added(1)),
        (vec![plus, a, b], Said::Added(2)),
        (vec![a, plus, right], Said::Added(3)),
        (vec![a, a, a], Said::Refused(1)),
        (vec![a, b, b], Said::Refused(1)),
        (vec![b, a, b], Said::Refused(1)),
        (vec![a, b], Said::Refused(1)),
        (vec![a, a, a, b], Said::Refused(1)),
        (vec![], Said::Refused(1)),
    ] {
        assert_eq!(Ledger::Unopened.run(&Call::Add(words.clone())), Said::Refused(4), "{words:x?}");
        assert_eq!(sheet.run(&Call::Add(words.clone())), said, "{words:x?}");
    }
    assert_eq!(sheet, Ledger::Opened(system(3, 2, &[&[-1, -1, -1], &[9, -1, -1], &[-1, 9, 9]])));
    assert_eq!(sheet.reduced(), Ledger::Opened(system(3, 2, &[&[2, 2, 2], &[0, 2, 2], &[2, 0, 0]])));
}

/// "Lines with a modulus of their own": the values that the request has, and the refusals in their order.
#[test]
fn a_modulus_of_its_own_is_as_the_request_says() {
    let posed = |lines: &[(u32, [i64; 2])]| {
        let mut system = System::empty(12, 1);
        lines.iter().for_each(|(q, numbers)| system.add(*q, numbers.to_vec()));
        system
    };
    assert_eq!(ledger::solve(&posed(&[(3, [1, 2])])), from(&[2], &[&[3]]));
    assert_eq!(ledger::solve(&posed(&[(3, [1, 2]), (4, [1, 3])])), from(&[11], &[]));
    let none = posed(&[(3, [1, 1]), (3, [1, 2])]);
    assert_eq!(ledger::solve(&none), Solved::Nothing);
    // 4 times the one and 44 times the other: 44 is 8 mod 12, and 4 + 8 is 0, while 4 + 16 is not
    assert!(none.refuted_by(&[1, 11]));
    for multipliers in [[0, 0], [1, 1], [3, 9], [1, 10]] {
        assert!(!none.refuted_by(&multipliers), "{multipliers:?}");
    }
    assert_eq!(none.lines(), [4, 4, 4, 8]);
    // "minus 1 mod 3 is 2, not 11"
    assert_eq!(posed(&[(3, [-1, -1])]).reduced(), posed(&[(3, [2, 2])]));

    let mut sheet = opened(12, 1, &[&[4, 8]]);
    assert_eq!(sheet.run(&Call::Add(ledger::own_equation(12, &[4, 8]))), Said::Added(2));
    assert_eq!(sheet, opened(12, 1, &[&[4, 8], &[4, 8]]), "the plain line");
    let full = opened(12, 1, &[&[1, 1][..]; 16]);
    for (words, said, on_a_full_sheet) in [
        (ledger::own_equation(3, &[1, 2]), Said::Added(3), 5),
        (ledger::own_equation(0, &[1, 2]), Said::Refused(15), 15),
        (ledger::own_equation(1, &[1, 2]), Said::Refused(15), 15),
        (ledger::own_equation(5, &[1, 2]), Said::Refused(15), 15),
        (ledger::own_equation(24, &[1, 2]), Said::Refused(15), 15),
        (ledger::own_equation(5, &[1, 1, 2]), Said::Refused(1), 1),
        ([ledger::word(ledger::OWN_MODULUS, 3)].repeat(2), Said::Refused(1), 1),
        ([&[ledger::word(ledger::OWN_MODULUS, 3)][..], &ledger::own_equation(3, &[1, 2])].concat(), Said::Refused(1), 1),
        ([&ledger::equation(&[1, 2])[..], &[ledger::word(ledger::OWN_MODULUS, 3)]].concat(), Said::Refused(1), 1),
    ] {
        let call = Call::Add(words.clone());
        assert_eq!(sheet.clone().run(&call), said, "{words:x?}");
        assert_eq!(full.clone().run(&call), Said::Refused(on_a_full_sheet), "{words:x?}");
        assert_eq!(Ledger::Unopened.run(&call), Said::Refused(4), "{words:x?}");
    }
}

#[test]
fn equations_with_a_modulus_of_their_own_have_the_answers_that_were_worked_out_by_hand() {
    for (m, equations, answer) in OWN {
        let (words, lines) = tape::own_tape(m, equations, answer);
        prints(&tape::bytes(&words), &lines);
    }
}

#[test]
fn the_answers_of_the_paper_come_out() {
    assert_eq!(ledger::solve(&system(12, 2, &[&[2, 3, 5]])), from(&[1, 1], &[&[3, 2], &[0, 4]]));
    assert_eq!(ledger::solve(&system(6, 2, &[&[2, 3, 1]])), from(&[2, 1], &[&[3, 0], &[0, 2]]));
    assert_eq!(ledger::solve(&system(4, 2, &[&[1, 2, 0]])), from(&[0, 0], &[&[2, 1], &[0, 2]]));
    assert_eq!(ledger::solve(&system(12, 1, &[&[4, 6]])), Solved::Nothing);
    assert_eq!(ledger::solve(&system(6, 2, &[])), from(&[0, 0], &[&[1, 0], &[0, 1]]));
    assert_eq!(ledger::solve(&system(6, 2, &[&[2, 3, 1], &[0, 0, 0]])), from(&[2, 1], &[&[3, 0], &[0, 2]]));
    assert_eq!(ledger::solve(&system(6, 2, &[&[2, 3, 1], &[0, 0, 1]])), Solved::Nothing);
    let answer = reference::answer(&system(65_535, 1, &[&[65_534, 1]])).unwrap();
    assert_eq!(answer, Answer { start: vec![65_534], steps: vec![] });
}

#[test]
fn the_claims_of_the_paper_are_marked_as_it_says() {
    let mut sheet = opened(4, 2, &[&[1, 2, 0]]);
    assert_eq!(claimed(&mut sheet, &[&[0, 0], &[2, 3]]), Said::Passed);
    assert_eq!(claimed(&mut sheet, &[&[0, 0], &[0, 2]]), Said::Failed);
    assert_eq!(claimed(&mut sheet, &[&[0, 0], &[2, 1], &[0, 2]]), Said::Long);
    assert_eq!(claimed(&mut sheet, &[]), Said::Failed);
}

/// "Right but long": the values that the request has.
#[test]
fn a_long_claim_is_as_the_request_says() {
    let mut sheet = opened(6, 1, &[&[1, 5]]);
    assert_eq!(claimed(&mut sheet, &[&[5]]), Said::Passed);
    assert_eq!(claimed(&mut sheet, &[&[5], &[0]]), Said::Long);
    assert_eq!(claimed(&mut sheet, &[&[4], &[0]]), Said::Failed);
    let mut sheet = opened(6, 1, &[]);
    for (steps, said, step) in [
        ([1, 2], Said::Long, Some(2)),
        ([0, 1], Said::Long, Some(1)),
        ([1, 1], Said::Long, Some(1)),
        ([2, 3], Said::Passed, None),
        ([2, 2], Said::Failed, Some(1)),
    ] {
        let vectors = [vec![0], vec![steps[0]], vec![steps[1]]];
        assert_eq!(claimed(&mut sheet, &[&[0], &steps[..1], &steps[1..]]), said, "{steps:?}");
        assert_eq!(ledger::superfluous(6, &vectors), step, "{steps:?}");
    }
    assert_eq!(claimed(&mut sheet, &[]), Said::Failed);
}

#[test]
fn walking_from_zeros_finds_the_superfluous_steps_that_trying_every_coefficient_does() {
    let (mut none, mut first, mut other) = (0, 0, 0);
    // m, n, and the most steps
    let shapes = [(2, 1, 5), (2, 2, 4), (2, 3, 3), (3, 1, 4), (3, 2, 3), (4, 1, 4), (4, 2, 2), (5, 1, 3), (6, 1, 4), (30, 1, 3)];
    for (m, n, most) in shapes {
        for entries in (0..=most).flat_map(|count| reference::vectors(m, count * n)) {
            let steps: Vec<Vec<u32>> = entries.chunks(n).map(|step| step.to_vec()).collect();
            let vectors = [vec![vec![1; n]], steps.clone()].concat();
            let all = reference::superfluous_by_trying(m, &steps);
            assert_eq!(ledger::superfluous(m, &vectors), all.first().copied(), "{vectors:?} mod {m}");
            match all.first() {
                None => none += 1,
                Some(1) => first += 1,
                Some(_) => other += 1,
            }
        }
    }
    assert!(none > 500 && first > 5_000 && other > 5_000, "{none} without, {first} with the first, {other} with another");
}

#[test]
fn an_equation_that_leaves_no_solution_is_struck_again() {
    let mut sheet = opened(6, 1, &[&[2, 4], &[3, 3]]);
    assert_eq!(sheet.run(&Call::Answer(2)), Said::Answered(from(&[5], &[])));
    assert_eq!(sheet.run(&Call::Add(ledger::equation(&[1, 0]))), Said::Added(3));
    assert_eq!(sheet.run(&Call::Answer(4)), Said::Answered(Solved::Nothing));
    assert_eq!(sheet.run(&Call::Answer(3)), Said::Refused(8));
    assert!(system(6, 1, &[&[2, 4], &[3, 3], &[1, 0]]).refuted_by(&[0, 1, 3]));
    assert_eq!(claimed(&mut sheet, &[]), Said::Passed);
    assert_eq!(sheet.run(&Call::Strike(0)), Said::Struck(2));
    assert_eq!(sheet.run(&Call::Answer(2)), Said::Answered(from(&[5], &[])));
    assert_eq!(sheet.run(&Call::Answer(1)), Said::Refused(8));
}

#[test]
fn limits_are_those_of_the_paper() {
    for m in [0, 1] {
        assert_eq!(Ledger::Unopened.run(&Call::Open(ledger::opening(m, 1))), Said::Refused(2));
    }
    for n in [0, 17] {
        assert_eq!(Ledger::Unopened.run(&Call::Open(ledger::opening(2, n))), Said::Refused(3));
    }
    for m in [65_535, 65_536, 268_435_455, 268_435_456, 4_294_967_295] {
        assert_eq!(Ledger::Unopened.run(&Call::Open(ledger::opening(m, 16))), Said::Opened { m, n: 16 });
    }
    let mut sheet = opened(2, 1, &[&[1, 1][..]; 16]);
    assert_eq!(sheet.run(&Call::Add(ledger::equation(&[1, 1]))), Said::Refused(5));
    assert_eq!(sheet.run(&Call::Add(ledger::equation(&[2, 1]))), Said::Refused(5));
    assert_eq!(sheet.run(&Call::Add(ledger::equation(&[1]))), Said::Refused(1));
}

#[test]
fn the_tape_of_the_paper_prints_its_ten_lines() {
    assert_eq!(tape::wrong_lines(&tape::bytes(&PAPER_TAPE), PAPER_LINES.as_bytes()), None);
    let known: Vec<Option<String>> =
        tape::play(&tape::bytes(&PAPER_TAPE)).calls.iter().map(|(_, said, _)| tape::lines(said)).collect();
    assert_eq!(known.iter().flatten().cloned().collect::<String>(), PAPER_LINES.replace("none 1 1\n", ""));
    assert_eq!(known.iter().filter(|lines| lines.is_none()).count(), 1);
}

#[test]
fn other_lines_are_not_taken_for_those_of_the_paper() {
    let tape = tape::bytes(&PAPER_TAPE);
    let changes = [
        ("open 2 2", "open 2 3"),
        ("from 0 1", "from 1 0"),
        ("step 1 1", "step 01 1"),
        ("step 1 1\n", ""),
        ("none 1 1", "none 1 0"),
        ("none 1 1", "none 1"),
        ("none 1 1", "none 1 1 "),
        ("none 1 1", "none 3 1"),
        ("fail\n", "pass\n"),
        ("fail\n", "long\n"),
        ("pass\n", "long\n"),
        ("refused 1\n", "refused 1"),
        ("refused 1\n", "refused 1\n\n"),
        ("refused 1\n", ""),
    ];
    for (old, new) in changes {
        let changed = PAPER_LINES.replace(old, new);
        assert_ne!(changed, PAPER_LINES);
        assert!(tape::wrong_lines(&tape, changed.as_bytes()).is_some(), "{new:?} for {old:?}");
    }
}

/// The tape's bytes print these lines; no multipliers are among them.
fn prints(tape: &[u8], lines: &str) {
    assert_eq!(tape::wrong_lines(tape, lines.as_bytes()), None);
}

#[test]
fn the_tape_is_cut_into_calls_as_the_paper_says() {
    let all = [tape::readings(), tape::signed_readings(), tape::own_readings(), tape::long_readings(), tape::wide_readings()];
    for (words, lines) in all.concat() {
        prints(&tape::bytes(&words), &lines);
    }
}

#[test]
fn equations_with_minus_signs_have_the_answers_that_were_worked_out_by_hand() {
    for (m, equation, answer) in SIGNED {
        let (words, lines) = tape::signed_tape(m, equation, answer);
        prints(&tape::bytes(&words), &lines);
    }
}

#[test]
fn equations_with_large_moduli_have_the_answers_that_were_worked_out_by_hand() {
    for (m, equation, answer) in WIDE {
        let (words, lines) = tape::wide_tape(m, equation, answer);
        prints(&tape::bytes(&words), &lines);
    }
}

/// "Moduli of 32 bits": how words lie in memory, and how long buffers must be.
#[test]
fn words_of_two_places_are_as_the_request_says() {
    let word = |kind: u32, number: u32| Word { kind, number };
    let top = |number: u32| 0xD000_0000 + number;
    assert_eq!(ledger::joined(&[]), []);
    for kind in 0..16 {
        let takes = [1, 3, 4, 6, 7, 10, 11, 12].contains(&kind);
        let low = kind * (1 << 28) + 5;
        for number in [0, 1, 2, 14, 15, 16, 17, 31, 268_435_455] {
            let good = takes && (1..=15).contains(&number);
            let two = vec![word(13, number), word(kind, 5)];
            let expected = if good { vec![word(kind, number.wrapping_mul(268_435_456) + 5)] } else { two };
            assert_eq!(ledger::joined(&[top(number), low]), expected, "{number} before kind {kind}");
            assert_eq!(ledger::front(&[top(number), low], 1), 1 + good as usize, "{number} before kind {kind}");
            assert_eq!(ledger::front(&[top(number), low], 2), 2, "{number} before kind {kind}");
        }
    }
    // 13 13 1: the first is bad, and the second is good
    assert_eq!(ledger::joined(&[top(1), top(2), 0x1000_0003]), [word(13, 1), word(1, 536_870_915)]);
    // behind all, and before a pair
    assert_eq!(ledger::joined(&[0x3000_0001, top(1)]), [word(3, 1), word(13, 1)]);
    assert_eq!(ledger::joined(&[top(15), 0x6FFF_FFFF, top(1), 0x6000_0000]), [word(6, 4_294_967_295), word(6, 268_435_456)]);
    assert_eq!(ledger::front(&[top(1), 0x6000_0000, 0x6000_0000, top(1)], 2), 3);
    assert_eq!(ledger::front(&[top(1), 0x6000_0000, 0x6000_0000, top(1)], 9), 4);
    for (number, places) in [(0, vec![0x6000_0000]), (268_435_455, vec![0x6FFF_FFFF]), (268_435_456, vec![top(1), 0x6000_0000])] {
        assert_eq!(ledger::written(6, number), places);
    }
    assert_eq!(ledger::written(7, 4_294_967_295), [top(15), 0x7FFF_FFFF]);
    assert_eq!([2, 268_435_456, 268_435_457, 4_294_967_295].map(ledger::counted), [1, 1, 2, 2]);
    assert_eq!(ledger::opening(4_294_967_295, 1), [top(15), 0x1FFF_FFFF, 0x2000_0001]);
    // of a claim, and of a class in which a good one is in a head's place
    let claims = [vec![0x5000_0001, top(1), 0x6000_0000], vec![top(1), 0x6000_0000], vec![top(1)], vec![0x5000_0000]];
    assert_eq!(ledger::claims(1, &claims.concat()), claims);
    // on a sheet that is not opened 4 comes first; then 17, and then the shape
    let loose = vec![top(1), 0x9000_0000];
    for call in [Call::Add(loose.clone()), Call::Mark(loose.clone()), Call::Reason(loose.clone(), 0, 0)] {
        assert_eq!(Ledger::Unopened.run(&call), Said::Refused(4));
        assert_eq!(opened(3, 2, &[]).run(&call), Said::Refused(17));
    }
    assert_eq!(Ledger::Unopened.run(&Call::Open(loose)), Said::Refused(17));
}

/// "A sheet for a wanted answer": what solves the equations of the request is what its claims describe; and the questions in their order.
#[test]
fn a_sheet_for_a_wanted_answer_is_as_the_request_says() {
    let same = |m: u32, equations: &[&[i64]], vectors: &[&[u32]]| {
        let vectors: Vec<Vec<u32>> = vectors.iter().map(|v| v.to_vec()).collect();
        ledger::solutions(&system(m, equations[0].len() - 1, equations)) == ledger::described(m, &vectors)
    };
    assert!(same(4, &[&[1, 2, 0]], &[&[0, 0], &[2, 3]]) && same(4, &[&[3, 2, 0]], &[&[0, 0], &[2, 3]]));
    assert!(!same(4, &[&[2, 0, 0]], &[&[0, 0], &[2, 3]]) && !same(4, &[&[1, 2, 2]], &[&[0, 0], &[2, 3]]));
    assert!(same(6, &[&[3, 3]], &[&[1], &[2]]) && same(6, &[&[3, 3]], &[&[5], &[0], &[4], &[2]]));
    assert!(same(6, &[&[0, 0]], &[&[5], &[1]]) && same(6, &[&[0, 1]], &[]) && !same(6, &[&[0, 1]], &[&[1]]));

    assert_eq!([1, 2, 3, 15, 16].map(ledger::sheet_room), [4, 12, 24, 480, 544]);
    let refusal = ledger::sheet_for_refusal;
    for m in [0, 1] {
        assert_eq!(refusal(m, 0, &[0xD000_0000], 0), Some(2));
    }
    for n in [0, 17, 65_536, u32::MAX] {
        assert_eq!(refusal(2, n, &[0xD000_0000], 0), Some(3));
    }
    // an entry that is not below m, in a claim that breaks off, with a word of kind 13 behind it
    let words = [0x5000_0001, 0x6000_0004, 0xD000_0001];
    assert_eq!(refusal(4, 2, &words, 0), Some(17));
    assert_eq!(refusal(4, 2, &words[..2], 0), Some(1));
    assert_eq!(refusal(4, 2, &[], 0), Some(1));
    assert_eq!(refusal(4, 2, &[0x5000_0001, 0x6000_0004, 0x6000_0000], 0), Some(6));
    assert_eq!(refusal(4, 2, &[0x5000_0001, 0xD000_0001, 0x6000_0000, 0x6000_0000], 0), Some(6));
    for words in [&[0x5000_0000][..], &[0x5000_0001, 0x6000_0003, 0x6000_0000]] {
        assert_eq!([0, 11, 12, 13].map(|length| refusal(4, 2, words, length)), [Some(8), Some(8), None, None]);
    }
}

#[test]
fn left_over_bytes_and_tapes_that_are_too_long_are_refused() {
    prints(&[], "");
    for left in 1..=3 {
        prints(&vec![0; left], "refused 9\n");
        prints(&[tape::bytes(&ledger::opening(2, 1)), vec![0; left]].concat(), "open 2 1\nrefused 9\n");
    }
    prints(&vec![0; 65_536], &"refused 1\n".repeat(16_384));
    prints(&vec![0; 65_537], "refused 10\n");
}

/// What the text says to a ledger, and the equations that it then holds.
fn typed(mut sheet: Ledger, text: &str) -> (Said, Ledger) {
    (sheet.run(&Call::AddText(grammar::read(text.as_bytes()))), sheet)
}

#[test]
fn typed_equations_are_those_that_were_worked_out_by_hand() {
    for (m, n, text, numbers) in ADDED {
        let held = opened(m, n as u32, &[numbers]);
        assert_eq!(typed(opened(m, n as u32, &[]), text), (Said::Added(1), held), "{text}");
    }
}

#[test]
fn texts_are_turned_away_by_the_first_question_that_they_fail() {
    let full = [&[1, 1, 1, 1][..]; 16];
    for sheet in [opened(7, 3, &[]), opened(7, 3, &full)] {
        for (number, text) in OUTSIDE.map(|text| (11, text)).into_iter().chain(REFUSED) {
            assert_eq!(typed(sheet.clone(), text), (Said::Refused(number), sheet.clone()), "{text}");
            assert_eq!(typed(Ledger::Unopened, text), (Said::Refused(4), Ledger::Unopened), "{text}");
        }
    }
    assert_eq!(typed(opened(7, 3, &full), "x1=1").0, Said::Refused(5));
    assert_eq!(typed(Ledger::Unopened, "x1=1").0, Said::Refused(4));
    let longest = format!("x1={}1", " ".repeat(252));
    assert_eq!(typed(opened(7, 3, &[]), &longest).0, Said::Added(1));
    assert_eq!(typed(opened(7, 3, &[]), &format!("{longest} ")).0, Said::Refused(11));
}

#[test]
fn products_bind_before_sums_a_minus_before_both_and_operators_of_one_rank_to_the_left() {
    let number = |number| Rc::new(Tree::Number(number));
    let minus = |tree| Rc::new(Tree::Minus(tree));
    let sum = |left, right| Rc::new(Tree::Sum(left, right));
    let difference = |left, right| Rc::new(Tree::Difference(left, right));
    let product = |left, right| Rc::new(Tree::Product(left, right));
    for (text, tree) in [
        ("1-2-3", difference(difference(number(1), number(2)), number(3))),
        ("1-(2-3)", difference(number(1), difference(number(2), number(3)))),
        ("1-2+3", sum(difference(number(1), number(2)), number(3))),
        ("1*2*3", product(product(number(1), number(2)), number(3))),
        ("1+2*3", sum(number(1), product(number(2), number(3)))),
        ("1*2+3", sum(product(number(1), number(2)), number(3))),
        ("(1+2)*3", product(sum(number(1), number(2)), number(3))),
        ("-1*2", product(minus(number(1)), number(2))),
        ("-1-2", difference(minus(number(1)), number(2))),
        ("-(1-2)", minus(difference(number(1), number(2)))),
        ("1*--2", product(number(1), minus(minus(number(2))))),
        ("1--2", difference(number(1), minus(number(2)))),
        ("((00012)) * x16", product(number(12), Rc::new(Tree::Unknown(16)))),
    ] {
        let found = grammar::read(format!("{text} = 0").as_bytes());
        assert_eq!(found, Some(Typed { left: tree, right: number(0) }), "{text}");
    }
}
