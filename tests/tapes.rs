//! milebadger_tape against the reference, on tapes of every kind: exercises with signs and without, boundary values, random words,
//! random bytes, and cut anywhere. Multipliers are left free, so lines with `none` are compared by their property alone.
mod exercises;
mod face;
mod grammar;
mod ledger;
mod random;
mod reference;
mod tape;

use exercises::{chance, pick};
use ledger::{Call, Ledger, Said};
use random::Random;
use reference::{Line, System};
use std::collections::{BTreeMap, BTreeSet};
use tape::{LONGEST_TAPE, PAPER_LINES, PAPER_TAPE, SIGNED, WIDE};

/// Which call was refused with which number; the tape's own refusals are those of "tape".
type Tally = BTreeSet<(&'static str, u32)>;

/// The lines of a tape that is not too long, from a buffer in which they fit.
fn printed(tape: &[u8]) -> Vec<u8> {
    let mut len = 64;
    loop {
        let reply = face::tape(tape, len);
        if reply.result == -8 {
            assert_eq!(reply.memory, face::untouched_bytes(len), "written at -8");
            len *= 4;
            continue;
        }
        let written = usize::try_from(reply.result).expect("a refusal");
        assert_eq!(reply.memory[written..], face::untouched_bytes(len)[written..], "written behind the last line");
        return reply.memory[..written].to_vec();
    }
}

/// The tape prints its lines. Its refusals go to the tally.
fn expect(tape: &[u8], seed: u64, tally: &mut Tally) -> String {
    let lines = printed(tape);
    if let Some(why) = tape::wrong_lines(tape, &lines) {
        panic!("{why} (seed {seed})\nbytes: {}\nwords: {:x?}", tape.len(), tape::words(tape));
    }
    let played = tape::play(tape);
    for (call, said, _) in &played.calls {
        if let Said::Refused(number) = said {
            tally.insert((call.name(), *number));
        }
    }
    if played.left_over {
        tally.insert(("tape", 9));
    }
    String::from_utf8(lines).unwrap()
}

/// Exact buffers take the lines; shorter ones get minus 8 and keep their content, longer ones keep it behind the lines.
fn expect_buffers(tape: &[u8], lines: &str) {
    let exact = lines.len();
    for len in [0, exact / 2, exact.saturating_sub(1), exact, exact + 1, exact + 100] {
        let mut memory = face::untouched_bytes(len);
        let fits = exact <= len;
        if fits {
            memory[..exact].copy_from_slice(lines.as_bytes());
        }
        let expected = face::Printed { result: if fits { exact as i64 } else { -8 }, memory };
        let found = face::tape(tape, len);
        assert!(found == expected, "into {len} bytes: {found:?} is not {expected:?}\nwords: {:x?}", tape::words(tape));
    }
}

/// The ledger after the words, where they are calls one behind the other.
fn advance(sheet: &mut Ledger, words: &[u32]) {
    let mut rest = words;
    while !rest.is_empty() {
        let (call, used) = tape::first_call(sheet, rest);
        if !matches!(call, Call::AnswerFromTape(_) | Call::Mark(_)) {
            sheet.run(&call);
        }
        rest = &rest[used..];
    }
}

/// The words of an exercise: calls most of which are good. A sheet that is being filled gets many equations.
fn exercise(random: &mut Random, calls: usize) -> Vec<u32> {
    let mut sheet = Ledger::Unopened;
    let filling = chance(random, 4);
    let (m, n) = exercises::small_shape(random);
    let mut tape = if chance(random, 8) { vec![] } else { ledger::opening(m, n) };
    advance(&mut sheet, &tape);
    for _ in 0..calls {
        let unopened = System::empty(7, 2);
        let system = if let Ledger::Opened(system) = &sheet { system } else { &unopened };
        let words = match random.below(if filling { 40 } else { 20 }) {
            0 => exercises::opening(random),
            1..=2 => vec![ledger::word(ledger::STRIKE, random.below(system.equations.len() as u64 + 2) as u32)],
            3 => vec![ledger::word(pick(random, &[ledger::STRIKE, ledger::ANSWER]), boundary(random))],
            4..=7 => vec![ledger::word(ledger::ANSWER, 0)],
            8..=12 => exercises::claim(random, system),
            13 if chance(random, 3) => exercises::stray_words(random),
            13 => vec![boundary_word(random)],
            _ => exercises::equation(random, system),
        };
        advance(&mut sheet, &words);
        tape.extend(words);
    }
    tape
}

/// A number at which something changes.
fn boundary(random: &mut Random) -> u32 {
    pick(random, &[0, 0, 0, 1, 1, 2, 3, 15, 16, 17, 18, 19, 255, 256, 65_534, 65_535, 65_536, 65_537, 1 << 27, (1 << 28) - 1])
}

/// A word of any kind with such a number.
fn boundary_word(random: &mut Random) -> u32 {
    ledger::word(random.below(16) as u32, boundary(random))
}

/// "Questions, in order, and the number when the answer is no": every refusal that each call on tape can give.
const REFUSALS: [(&str, &[u32]); 7] = [
    ("open", &[17, 1, 2, 3]),
    ("add", &[4, 17, 1, 15, 5]),
    ("strike", &[4, 7, 16]),
    ("answer from tape", &[4, 1]),
    ("mark", &[4, 17, 1, 6]),
    ("meaningless word", &[17, 1]),
    ("tape", &[9]),
];

#[test]
fn the_tape_of_the_paper_prints_its_ten_lines() {
    let tape = tape::bytes(&PAPER_TAPE);
    let lines = expect(&tape, 0, &mut Tally::new());
    // mod 2 no other multipliers serve
    assert_eq!(lines, PAPER_LINES);
    expect_buffers(&tape, &lines);
}

#[test]
fn exercises_print_their_lines_and_every_call_meets_its_refusals() {
    let mut random = Random::new();
    let (mut tally, mut seen, mut signs, mut own, mut wide) = (Tally::new(), BTreeMap::new(), 0, 0, 0);
    for round in 0..4_000 {
        let calls = 1 + random.below(40) as usize;
        let words = exercise(&mut random, calls);
        let joined = ledger::joined(&words);
        signs += joined.iter().filter(|&&word| ledger::whole(word) < 0).count();
        own += joined.iter().filter(|word| word.kind == ledger::OWN_MODULUS).count();
        wide += joined.iter().filter(|word| word.number > ledger::LARGEST_ALONE).count();
        let mut tape = tape::bytes(&words);
        if chance(&mut random, 3) {
            tape.truncate(random.below(tape.len() as u64 + 1) as usize);
        }
        let lines = expect(&tape, random.seed, &mut tally);
        if round % 8 == 0 {
            expect_buffers(&tape, &lines);
        }
        for line in lines.lines() {
            *seen.entry(line.split(' ').next().unwrap().to_string()).or_insert(0) += 1;
        }
    }
    assert!(seen.len() == 10 && seen.values().all(|&times| times > 1_000), "{seen:?}");
    assert!(signs > 10_000 && own > 10_000, "{signs} minus signs, {own} equations with a modulus of their own");
    assert!(wide > 10_000, "{wide} numbers of 2^28 or more");
    let all: Tally = REFUSALS.iter().flat_map(|(name, numbers)| numbers.iter().map(|&number| (*name, number))).collect();
    assert_eq!(tally, all, "refusals seen, and refusals to be seen");
}

#[test]
fn tapes_of_boundary_values_print_their_lines() {
    let mut random = Random::new();
    for _ in 0..6_000 {
        let mut words = if chance(&mut random, 4) {
            vec![]
        } else {
            let wide = pick(&mut random, &[65_536, (1 << 28) - 1, 1 << 28, (1 << 28) + 1, u32::MAX]);
            ledger::opening(pick(&mut random, &[2, 3, 17, 65_535, wide]), pick(&mut random, &[1, 2, 15, 16]))
        };
        let tops = random.below(3);
        for _ in 0..random.below(12) {
            match random.below(7) {
                0 => words.push(boundary_word(&mut random)),
                1 => words.push(ledger::word(ledger::HEAD, random.below(19) as u32)),
                2 => words.extend(vec![ledger::word(ledger::ENTRY, boundary(&mut random)); random.below(40) as usize]),
                3 => {
                    let (plus, minus) = (ledger::COEFFICIENT, ledger::MINUS_COEFFICIENT);
                    for _ in 0..random.below(18) {
                        let kind = pick(&mut random, &[plus, plus, minus]);
                        words.push(ledger::word(kind, boundary(&mut random)));
                    }
                }
                4 => {
                    let kind = pick(&mut random, &[ledger::RIGHT, ledger::MINUS_RIGHT]);
                    words.push(ledger::word(kind, boundary(&mut random)));
                }
                5 => words.push(ledger::word(ledger::OWN_MODULUS, boundary(&mut random))),
                _ => words.push(ledger::word(pick(&mut random, &[ledger::STRIKE, ledger::ANSWER]), boundary(&mut random))),
            }
        }
        // words of kind 13 between them, many or few: most are good where the next word takes one
        for place in (0..words.len()).rev().filter(|_| tops > 0) {
            if chance(&mut random, if tops == 1 { 3 } else { 12 }) {
                let number = pick(&mut random, &[0, 1, 1, 2, 7, 8, 15, 15, 16, (1 << 28) - 1]);
                words.insert(place, ledger::word(ledger::TOP, number));
            }
        }
        expect(&tape::bytes(&words), random.seed, &mut Tally::new());
    }
}

#[test]
fn random_words_and_random_bytes_print_their_lines() {
    let mut random = Random::new();
    for round in 0..6_000 {
        let length = random.below(400) as usize;
        let mut tape: Vec<u8> = (0..length).map(|_| random.bits() as u8).collect();
        if round % 2 == 0 {
            // opened, and then words whose numbers are small
            tape.iter_mut().skip(1).step_by(4).for_each(|byte| *byte = 0);
            tape.iter_mut().skip(2).step_by(4).for_each(|byte| *byte = 0);
            tape.iter_mut().skip(3).step_by(4).for_each(|byte| *byte &= 0xF0);
            tape.iter_mut().step_by(4).for_each(|byte| *byte &= 3);
            let (m, n) = exercises::small_shape(&mut random);
            tape.splice(0..0, tape::bytes(&ledger::opening(m, n)));
        }
        expect(&tape, random.seed, &mut Tally::new());
    }
}

#[test]
fn a_tape_is_cut_into_calls_as_the_paper_says() {
    let all = [
        tape::readings(),
        tape::signed_readings(),
        tape::own_readings(),
        tape::struck_readings(),
        tape::long_readings(),
        tape::wide_readings(),
    ];
    for (words, lines) in all.concat() {
        assert_eq!(expect(&tape::bytes(&words), 0, &mut Tally::new()), lines, "{words:x?}");
    }
}

#[test]
fn minus_signs_and_large_numbers_have_the_answers_that_the_paper_gives_them() {
    for (m, equation, answer) in SIGNED {
        let (words, lines) = tape::signed_tape(m, equation, answer);
        assert_eq!(expect(&tape::bytes(&words), 0, &mut Tally::new()), lines, "{words:x?}");
    }
}

#[test]
fn large_moduli_have_the_answers_that_were_worked_out_by_hand() {
    for (m, equation, answer) in WIDE {
        let (words, lines) = tape::wide_tape(m, equation, answer);
        assert_eq!(expect(&tape::bytes(&words), 0, &mut Tally::new()), lines, "{words:x?}");
    }
}

#[test]
fn every_pair_of_small_signed_numbers_gets_the_answer_of_whole_numbers() {
    for m in [2, 3, 4, 6, 12] {
        for a in -13..=13 {
            let mut words = vec![];
            for b in -13..=13 {
                words.extend([ledger::opening(m, 1), ledger::equation(&[a, b]), vec![ledger::word(ledger::ANSWER, 0)]].concat());
            }
            expect(&tape::bytes(&words), 0, &mut Tally::new());
        }
    }
}

/// Some moduli of large sheets.
const LARGE: [u32; 8] = [2, 12, 32_768, 65_535, 65_536, 1 << 28, (1 << 28) + 1, u32::MAX];

/// The calls of an exercise, each of them good, with its equations written as they come, and the same with residues.
fn in_two_writings(random: &mut Random) -> [Vec<u32>; 2] {
    let (m, n) = exercises::small_shape(random);
    let (m, n) = if chance(random, 3) { (pick(random, &LARGE), pick(random, &[1, 8, 16])) } else { (m, n) };
    let mut words = [ledger::opening(m, n), ledger::opening(m, n)];
    for _ in 0..1 + random.below(12) {
        let q = if chance(random, 2) { exercises::divisor(random, m) } else { m };
        let numbers: Vec<i64> = (0..=n).map(|_| if chance(random, 3) { 0 } else { exercises::any_whole(random, m) }).collect();
        let line = Line { q, numbers };
        let vectors = exercises::any_claim(random, m, n as usize);
        let strikes = vec![ledger::word(ledger::STRIKE, random.below(3) as u32); chance(random, 4) as usize];
        let behind = [vec![ledger::word(ledger::ANSWER, 0)], ledger::claim(&vectors), strikes].concat();
        words[0].extend([ledger::line_words(m, &line), behind.clone()].concat());
        words[1].extend([ledger::line_words(m, &line.reduced()), behind].concat());
    }
    words
}

#[test]
fn equations_with_signs_and_large_numbers_print_the_lines_of_their_residues() {
    let mut random = Random::new();
    let mut signs = 0;
    for _ in 0..1_000 {
        let [signed, plain] = in_two_writings(&mut random);
        signs += ledger::joined(&signed).iter().filter(|&&word| ledger::whole(word) < 0).count();
        assert_eq!(printed(&tape::bytes(&signed)), printed(&tape::bytes(&plain)), "{signed:x?} (seed {})", random.seed);
    }
    assert!(signs > 3_000, "{signs} minus signs");
}

#[test]
fn an_answer_has_number_0_and_a_strike_a_place_in_all_28_bits() {
    for bit in 0..28 {
        let calls = [ledger::word(ledger::STRIKE, 1 << bit), ledger::word(ledger::ANSWER, 1 << bit)];
        let (open, add) = (ledger::opening(3, 1), ledger::equation(&[1, 2]));
        let words = [&calls[..], &open, &calls, &add, &calls, &[9 << 28, 8 << 28]].concat();
        let (struck, left) = if bit == 0 { ("struck 0", "from 0\nstep 1\nrefused 7") } else { ("refused 16", "from 2\nstruck 0") };
        let lines = format!("refused 4\nrefused 4\nopen 3 1\nrefused 7\nrefused 1\nadded 1\n{struck}\nrefused 1\n{left}\n");
        assert_eq!(expect(&tape::bytes(&words), 0, &mut Tally::new()), lines, "bit {bit}");
    }
}

#[test]
fn left_over_bytes_are_refused_after_the_calls() {
    let mut random = Random::new();
    for _ in 0..300 {
        let words = exercise(&mut random, 8);
        let tape = tape::bytes(&words);
        let lines = expect(&tape, random.seed, &mut Tally::new());
        for left in 1..=3 {
            let longer = [tape.clone(), vec![random.bits() as u8; left]].concat();
            let found = expect(&longer, random.seed, &mut Tally::new());
            assert_eq!(found, lines.clone() + "refused 9\n", "{words:x?} and {left} bytes (seed {})", random.seed);
        }
    }
}

#[test]
fn an_empty_tape_prints_nothing_into_any_buffer() {
    for len in [0, 1, 100] {
        assert_eq!(face::tape(&[], len), face::Printed { result: 0, memory: face::untouched_bytes(len) });
    }
}

#[test]
fn tapes_of_the_greatest_length_print_their_lines_and_longer_ones_get_minus_10() {
    let mut random = Random::new();
    let mut words = ledger::opening(3, 2);
    while words.len() * 4 < LONGEST_TAPE + 4 {
        words.extend(exercise(&mut random, 30));
    }
    let answers = [ledger::opening(12, 2), vec![ledger::word(ledger::ANSWER, 0); 16_384]].concat();
    let any: Vec<u8> = (0..LONGEST_TAPE + 4).map(|_| random.bits() as u8).collect();
    for tape in [tape::bytes(&words), tape::bytes(&answers), any, vec![0; LONGEST_TAPE + 4]] {
        for length in LONGEST_TAPE - 4..=LONGEST_TAPE {
            expect(&tape[..length], random.seed, &mut Tally::new());
        }
        for length in LONGEST_TAPE + 1..=LONGEST_TAPE + 4 {
            // minus 10 comes before minus 8
            for len in [0, 1, 10, 11, 12, 4_096] {
                let expected = face::Printed { result: -10, memory: face::untouched_bytes(len) };
                assert_eq!(face::tape(&tape[..length], len), expected, "{length} bytes into {len}");
            }
        }
    }
}

/// The vectors of the last answer among the lines, or None where it says `none`.
fn last_answer(lines: &str) -> Option<Vec<Vec<u32>>> {
    let numbers = |line: &str| line.split(' ').skip(1).map(|number| number.parse().unwrap()).collect::<Vec<u32>>();
    let lines: Vec<&str> = lines.lines().collect();
    let from = lines.iter().rposition(|line| line.starts_with("from") || line.starts_with("none"))?;
    lines[from].starts_with("from").then(|| lines[from..].iter().map(|line| numbers(line)).collect())
}

#[test]
fn an_answer_that_was_printed_passes_or_is_long_as_a_claim_on_the_same_tape() {
    let mut random = Random::new();
    let (mut passed, mut long, mut none) = (0, 0, 0);
    for round in 0..300 {
        let large = round % 3 == 0;
        let (m, n) = if large { (pick(&mut random, &LARGE), 16) } else { exercises::small_shape(&mut random) };
        let mut words = ledger::opening(m, n);
        let solution: Vec<u64> = (0..n).map(|_| random.below(m as u64)).collect();
        for _ in 0..random.below(17) {
            let q = if chance(&mut random, 2) { exercises::divisor(&mut random, m) } else { m };
            let mut numbers: Vec<i64> = (0..n).map(|_| exercises::any_whole(&mut random, q)).collect();
            let right: i128 = numbers.iter().zip(&solution).map(|(&a, &x)| a as i128 * x as i128).sum();
            let right = if round % 4 == 0 { random.below(q as u64) as u32 } else { right.rem_euclid(q as i128) as u32 };
            numbers.push(exercises::written(&mut random, q, right));
            words.extend(ledger::line_words(m, &Line { q, numbers }));
        }
        words.push(ledger::word(ledger::ANSWER, 0));
        let lines = expect(&tape::bytes(&words), random.seed, &mut Tally::new());
        let claim = last_answer(&lines).unwrap_or_default();
        words.extend(ledger::claim(&claim));
        let longer = expect(&tape::bytes(&words), random.seed, &mut Tally::new());
        match longer.strip_prefix(&lines) {
            Some("pass\n") if claim.is_empty() => none += 1,
            Some("pass\n") => passed += 1,
            Some("long\n") => long += 1,
            other => panic!("{words:x?}: {other:?} (seed {})", random.seed),
        }
    }
    assert!(passed > 50 && long > 20 && none > 30, "{passed} passed, {long} long, {none} without solution");
}
