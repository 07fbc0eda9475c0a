//! Lines with a modulus of their own: the values of the request by calls and by tape, what such a line says beside the plain line with
//! both sides times m / q, and what is turned away. Random sheets of such lines are in the other tests too.
mod acts;
mod exercises;
mod face;
mod grammar;
mod ledger;
mod random;
mod reference;
mod sheet;
mod shown;
mod spelling;
mod tape;

use acts::{add, add_own, add_text, answer, answered, class, entered, entering, expect, last, mark, open, outcomes, reason};
use acts::{replied, step, Tally};
use exercises::{chance, pick};
use face::LONGEST_WORDS;
use ledger::{claim, equation, own_equation, word, Ledger, COEFFICIENT, ENTRY, MULTIPLIER, OWN_MODULUS, OWN_REASONED, RIGHT};
use random::Random;
use reference::{Line, System};
use sheet::{Act, Desk, Outcome};
use tape::OWN;

/// Moduli of sheets with many divisors, and with few.
const MODULI: [u32; 12] = [2, 4, 6, 8, 9, 12, 30, 60, 30_030, 32_768, 65_520, 65_535];

/// The divisors of m from 2 on.
fn divisors(m: u32) -> Vec<u32> {
    (2..=m).filter(|q| m % q == 0).collect()
}

/// A sheet mod m with equations in one unknown, each with its modulus.
fn posed(m: u32, lines: &[(u32, [i64; 2])]) -> System {
    let mut system = System::empty(m, 1);
    lines.iter().for_each(|(q, numbers)| system.add(*q, numbers.to_vec()));
    system
}

/// The calls that enter these lines, each with its modulus in front, also where that is m.
fn entering_own(system: &System) -> Vec<Act> {
    let adding = system.equations.iter().map(|line| add_own(line.q, &line.numbers));
    [open(system.m, system.n as u32)].into_iter().chain(adding).collect()
}

/// The numbers of the answer block after these calls, which do what the reference says.
fn answer_after(acts: &[Act]) -> Vec<u32> {
    answered(expect(&[acts, &[answer(LONGEST_WORDS)]].concat(), 0, &mut Tally::new()).last().unwrap())
}

/// The same for lines in one unknown.
fn answer_of(m: u32, lines: &[(u32, [i64; 2])]) -> Vec<u32> {
    answer_after(&entering_own(&posed(m, lines)))
}

/// The lines of a tape with these words, which are those of the reference.
fn printed(words: &[u32], seed: u64) -> String {
    let tape = tape::bytes(words);
    let reply = face::tape(&tape, words.len() * 120 + 10);
    let lines = reply.memory[..usize::try_from(reply.result).expect("a refusal")].to_vec();
    if let Some(why) = tape::wrong_lines(&tape, &lines) {
        panic!("{why} (seed {seed})\nwords: {words:x?}");
    }
    String::from_utf8(lines).unwrap()
}

#[test]
fn the_values_of_the_request_by_calls() {
    // a head, the start, and a step
    assert_eq!(answer_of(12, &[(3, [1, 2])]), [2, 2, 3]);
    assert_eq!(answer_of(12, &[(3, [1, 2]), (4, [1, 3])]), [1, 11]);
    assert_eq!(answer_of(12, &[(4, [1, 3]), (3, [1, 2])]), [1, 11]);
    // minus 1 mod 3 is 2, not 11
    assert_eq!(answer_of(12, &[(3, [1, -1])]), [2, 2, 3]);
    assert_eq!(answer_of(12, &[(3, [-1, 1])]), [2, 2, 3]);
    // 12 is the plain line
    assert_eq!(answer_of(12, &[(12, [4, 8])]), [2, 2, 3]);
    assert_eq!(answer_of(12, &[(12, [1, -1])]), [1, 11]);
    // mod 3 x = 1 and x = 2; that the multipliers refute them, the reference has seen
    let none = posed(12, &[(3, [1, 1]), (3, [1, 2])]);
    assert_eq!(answer_of(12, &[(3, [1, 1]), (3, [1, 2])])[..1], [0]);
    assert!(none.refuted_by(&[1, 11]));
    let reply = replied(&mut entered(&none), &none, &reason(&claim(&[vec![1]]), 3, 2), 0);
    assert_eq!((reply.outcome, &reply.at[..]), (Outcome::Reason(2), &[0, 0, 2][..]));
    assert!(reply.buffer.iter().all(|&shown| ledger::kind(shown) == MULTIPLIER));

    let full = [vec![open(12, 1)], vec![add_own(3, &[1, 2]); 16]].concat();
    for (q, outcome) in [(0, 15), (1, 15), (5, 15), (24, 15), (3, 5), (12, 5)] {
        let act = add_own(q, &[1, 2]);
        let good = if outcome == 15 { Outcome::Refused(15) } else { Outcome::Holds(1) };
        assert_eq!(last(&[open(12, 1), act.clone()]), good, "{q}");
        assert_eq!(last(&[&full[..], &[act.clone()]].concat()), Outcome::Refused(outcome), "{q} on a full sheet");
        assert_eq!(last(&[act]), Outcome::Refused(4), "{q}, not opened");
    }
    let own = |q: u32| word(OWN_MODULUS, q);
    let [a, b] = [word(COEFFICIENT, 1), word(RIGHT, 2)];
    for words in [vec![own(5), a], vec![own(5), a, a, b], vec![own(3), own(3), a, b], vec![a, own(3), b], vec![a, b, own(3)]] {
        assert_eq!(last(&[open(12, 1), Act::Add(words.clone())]), Outcome::Refused(1), "{words:x?}");
        assert_eq!(last(&[&full[..], &[Act::Add(words.clone())]].concat()), Outcome::Refused(1), "{words:x?}");
        assert_eq!(last(&[Act::Add(words.clone())]), Outcome::Refused(4), "{words:x?}");
    }
}

#[test]
fn the_values_of_the_request_by_tape() {
    for (words, lines) in tape::own_readings() {
        assert_eq!(printed(&words, 0), lines, "{words:x?}");
    }
    for (m, equations, answer) in OWN {
        let (words, lines) = tape::own_tape(m, equations, answer);
        assert_eq!(printed(&words, 0), lines, "{words:x?}");
    }
    let contradicting = [ledger::opening(12, 1), own_equation(3, &[1, 1]), own_equation(3, &[1, 2]), vec![9 << 28]].concat();
    assert!(printed(&contradicting, 0).starts_with("open 12 1\nadded 1\nadded 2\nnone "));
}

#[test]
fn a_tape_prints_what_the_calls_give() {
    let mut random = Random::new();
    for _ in 0..400 {
        let (m, n) = exercises::small_shape(&mut random);
        let (mut words, mut acts) = (ledger::opening(m, n), vec![open(m, n)]);
        for _ in 0..random.below(20) {
            let q = pick(&mut random, &[0, 1, 2, 3, 4, 5, 6, m, m, m + 1]);
            let numbers: Vec<i64> = (0..=n).map(|_| exercises::any_whole(&mut random, m)).collect();
            words.extend(own_equation(q, &numbers));
            acts.push(add_own(q, &numbers));
        }
        let line = |outcome: &Outcome| match outcome {
            Outcome::Holds(held) => format!("added {held}"),
            Outcome::Refused(number) => format!("refused {number}"),
            other => panic!("{other:?}"),
        };
        let expected: Vec<String> = outcomes(&acts)[1..].iter().map(line).collect();
        let lines = printed(&words, random.seed);
        assert_eq!(lines.lines().skip(1).collect::<Vec<&str>>(), expected, "{words:x?} (seed {})", random.seed);
    }
}

#[test]
fn reasons_marks_and_classes_that_were_worked_out_by_hand() {
    let mut random = Random::new();
    for (m, n, equations, vectors, [number, place, broken]) in OWN_REASONED {
        let (system, vectors) = ledger::posed_own(m, n, equations, vectors);
        let (mut desk, words) = (entered(&system), claim(&vectors));
        let reply = replied(&mut desk, &system, &reason(&words, 3, 16), 0);
        assert_eq!((reply.outcome, &reply.at[..2]), (Outcome::Reason(number), &[place, broken][..]), "{system:?}: {vectors:?}");
        let (good, byte) = match number {
            0 => (Outcome::Pass, 1),
            6 => (Outcome::Long, 2),
            _ => (Outcome::Fail, 0),
        };
        assert_eq!(desk.act(&mark(&vectors)).unwrap().outcome, good, "{system:?}: {vectors:?}");
        let reply = replied(&mut desk, &system, &class(&mut random, &[&words[..], &words].concat(), 2), 0);
        assert_eq!(reply.marks, [byte; 2], "{system:?}: {vectors:?}");
    }
}

#[test]
fn every_number_of_a_modulus_is_taken_exactly_if_it_is_at_least_2_and_divides() {
    for m in (2..=40).chain(MODULI) {
        let (mut desk, mut ledger, mut tally) = (Desk::fresh(), Ledger::Unopened, Tally::new());
        let high = [1 << 16, 1 << 24, 1 << 27, 1 << 28, 1 << 31].iter().flat_map(|bit| [bit + 1, bit + 2, bit + 3, bit + m]);
        let most = if m <= 40 { 2 * m + 2 } else { 300 };
        for q in (0..=most).chain([m - 1, m, m + 1, m / 2, 2 * m, ledger::LARGEST as u32]).chain(high) {
            for act in [open(m, 1), add_own(q, &[1, 1])] {
                let reply = step(&mut desk, &mut ledger, &act, &mut tally);
                let taken = reply.expect("as the reference says").outcome != Outcome::Refused(15);
                assert!(taken == (q >= 2 && m % q == 0) || act == open(m, 1), "{q} on a sheet mod {m}");
            }
        }
    }
}

/// The words that lie in this memory, each with its places.
fn parts(memory: &[u32]) -> Vec<Vec<u32>> {
    let (mut parts, mut rest) = (vec![], memory);
    while !rest.is_empty() {
        let (word, behind) = rest.split_at(ledger::front(rest, 1));
        parts.push(word.to_vec());
        rest = behind;
    }
    parts
}

#[test]
fn questions_are_asked_in_their_order_and_a_refused_call_changes_nothing() {
    let mut random = Random::new();
    for round in 0..40 {
        let (m, n) = (pick(&mut random, &MODULI), 1 + random.below(16) as usize);
        let numbers: Vec<i64> = (0..=n).map(|_| exercises::any_whole(&mut random, m)).collect();
        let held = [0, 1, 15, 16][round % 4];
        let filling = vec![add_own(exercises::divisor(&mut random, m), &numbers); held];
        let mut desk = Desk::fresh();
        for act in [vec![open(m, n as u32)], filling].concat() {
            assert!(matches!(desk.act(&act).unwrap().outcome, Outcome::Holds(_)), "{act:x?}");
        }
        let before = desk.numbers().to_vec();
        for q in [exercises::divisor(&mut random, m), m, 0, 1, m + 1, 2 * m] {
            let good = parts(&own_equation(q, &numbers));
            let mut other_kind = good.clone();
            other_kind[1 + random.below(n as u64 + 1) as usize] = vec![word(ENTRY, 1)];
            let mut moved = good.clone();
            moved.swap(0, 1 + random.below(n as u64 + 1) as usize);
            let twice = [&good[..1], &good].concat();
            let shapes = [
                good[..n + 1].to_vec(),
                [&good[..], &good[n + 1..]].concat(),
                other_kind,
                moved,
                twice,
                good[..1].to_vec(),
                good,
            ];
            for (shape, words) in shapes.iter().enumerate() {
                let act = Act::Add(words.concat());
                assert_eq!(Desk::fresh().act(&act).unwrap().outcome, Outcome::Refused(4), "{act:x?}");
                let expected = match (shape, q >= 2 && m % q == 0, held) {
                    (0..=5, ..) => Outcome::Refused(1),
                    (_, false, _) => Outcome::Refused(15),
                    (_, true, 16) => Outcome::Refused(5),
                    (_, true, _) => Outcome::Holds(held + 1),
                };
                // the desk sees that a refused call writes nothing, neither on the sheet nor beside it
                let reply = Desk::with(&before).act(&act).unwrap();
                assert_eq!(reply.outcome, expected, "{act:x?} on a sheet mod {m} with {held} equations");
            }
        }
    }
}

#[test]
fn the_modulus_of_the_sheet_in_front_makes_the_plain_line() {
    let mut random = Random::new();
    for round in 0..300 {
        let large = round % 3 == 0;
        let (m, n) = if large {
            (pick(&mut random, &MODULI), pick(&mut random, &[1, 8, 16]))
        } else {
            exercises::small_shape(&mut random)
        };
        let (mut own, mut plain) = (Desk::fresh(), Desk::fresh());
        let (mut tapes, seed) = ([ledger::opening(m, n), ledger::opening(m, n)], random.seed);
        let mut both = |acts: [Act; 2]| {
            let replies = [own.act(&acts[0]).unwrap(), plain.act(&acts[1]).unwrap()];
            assert_eq!(replies[0], replies[1], "{acts:x?} mod {m} (seed {seed})");
            assert_eq!(own.numbers(), plain.numbers(), "{acts:x?} mod {m} (seed {seed})");
            replies
        };
        both([open(m, n), open(m, n)]);
        for _ in 0..1 + random.below(18) {
            let numbers: Vec<i64> =
                (0..=n).map(|_| if chance(&mut random, 3) { 0 } else { exercises::any_whole(&mut random, m) }).collect();
            both([add_own(m, &numbers), add(&numbers)]);
            let vectors = exercises::any_claim(&mut random, m, n as usize);
            for act in
                [answer(LONGEST_WORDS), mark(&vectors), reason(&claim(&vectors), 3, 16), class(&mut random, &claim(&vectors), 64)]
            {
                both([act.clone(), act]);
            }
            let behind = [vec![9 << 28], claim(&vectors)].concat();
            tapes[0].extend([own_equation(m, &numbers), behind.clone()].concat());
            tapes[1].extend([equation(&numbers), behind].concat());
        }
        let [own, plain] = tapes.map(|words| face::tape(&tape::bytes(&words), 40_000));
        assert!(own.result > 0 && own == plain, "mod {m} (seed {seed})");
    }
}

#[test]
fn a_line_says_what_the_plain_line_with_both_sides_times_m_over_q_says() {
    let mut random = Random::new();
    let (mut solvable, mut unsolvable) = (0, 0);
    for round in 0..600 {
        let system =
            if round % 2 == 0 { acts::random_system(&mut random) } else { acts::full_size_system(&mut random, round % 4 == 1) };
        let lines: Vec<Vec<u32>> = system.lines().chunks(system.n + 1).map(|line| line.to_vec()).collect();
        let plain = System::of(system.m, system.n, &lines);
        let [one, other] = [&system, &plain].map(|system| answer_after(&entering(system)));
        if one[0] > 0 {
            assert_eq!(one, other, "{system:?} (seed {})", random.seed);
            solvable += 1;
        } else {
            // multipliers of the one serve the other
            assert!(
                other[0] == 0 && plain.refuted_by(&one[1..]) && system.refuted_by(&other[1..]),
                "{system:?} (seed {})",
                random.seed
            );
            unsolvable += 1;
        }
        let words = exercises::claim(&mut random, &system);
        let replies = [&system, &plain].map(|system| replied(&mut entered(system), system, &reason(&words, 3, 32), random.seed));
        // what is shown is free, and so is how many words it has where m is above 2^28
        let named = replies.map(|reply| (reply.outcome, reply.at[..2].to_vec()));
        assert_eq!(named[0], named[1], "{system:?}: {words:x?}");
    }
    assert!(solvable > 200 && unsolvable > 50, "{solvable} solvable, {unsolvable} unsolvable");
}

#[test]
fn every_line_in_one_unknown_gets_its_answer() {
    for m in [2, 3, 4, 6, 8, 9, 10, 12] {
        for q in divisors(m) {
            let mut words = vec![];
            for numbers in (-(q as i64) - 1..=q as i64 + 1).flat_map(|a| (-1..=q as i64 + 1).map(move |b| [a, b])) {
                words.extend([ledger::opening(m, 1), own_equation(q, &numbers), vec![9 << 28]].concat());
            }
            printed(&words, 0);
        }
    }
}

#[test]
fn every_pair_of_clocks_shows_the_hours_at_which_both_are_right() {
    for m in [4, 6, 8, 12, 18, 30] {
        for (p, q) in divisors(m).into_iter().flat_map(|p| divisors(m).into_iter().map(move |q| (p, q))) {
            for (a, b) in (0..p).flat_map(|a| (0..q).map(move |b| (a, b))) {
                let hours: Vec<u32> = (0..m).filter(|x| x % p == a && x % q == b).collect();
                let found = answer_of(m, &[(p, [1, a as i64]), (q, [1, b as i64])]);
                match &hours[..] {
                    [] => assert_eq!(found[0], 0, "{a} mod {p} and {b} mod {q}, mod {m}"),
                    [only] => assert_eq!(found, [1, *only], "{a} mod {p} and {b} mod {q}, mod {m}"),
                    [first, second, ..] => assert_eq!(found, [2, *first, second - first], "{a} mod {p} and {b} mod {q}, mod {m}"),
                }
            }
        }
    }
}

#[test]
fn numbers_are_brought_to_their_residues_mod_q_with_all_their_32_bits() {
    let mut random = Random::new();
    for m in MODULI {
        for q in divisors(m) {
            let number = exercises::any_whole(&mut random, m);
            for number in [-1, 1, q as i64, m as i64 - 1, -(m as i64) - 1, ledger::LARGEST, -ledger::LARGEST, number] {
                let residue = number.rem_euclid(q as i64) as u32;
                let expected = if q == m { vec![1, residue] } else { vec![2, residue, q] };
                let acts = [open(m, 1), add_own(q, &[1, number]), answer(LONGEST_WORDS)];
                let mut desk = Desk::fresh();
                let replies = acts.map(|act| desk.act(&act).unwrap());
                assert_eq!(answered(&replies[2]), expected, "{number} mod {q}, mod {m}");
            }
        }
    }
}

#[test]
fn a_struck_line_leaves_nothing_of_its_modulus_behind() {
    let mut random = Random::new();
    for _ in 0..200 {
        let (m, n) = exercises::small_shape(&mut random);
        let mut some = || -> Vec<i64> { (0..=n).map(|_| exercises::any_whole(&mut random, m)).collect() };
        let [first, struck, after] = [some(), some(), some()];
        let [q, other] = [exercises::divisor(&mut random, m), exercises::divisor(&mut random, m)];
        let kept = [open(m, n), add_own(q, &first)];
        for line in [add(&after), add_own(other, &after), add_text("x1 = 1")] {
            let direct = [&kept[..], &[line.clone()]].concat();
            let detour = [&kept[..], &[add_own(other, &struck), Act::Strike(0), line.clone()]].concat();
            assert_eq!(answer_after(&direct), answer_after(&detour), "{direct:x?} (seed {})", random.seed);
            let from_the_middle = [&kept[..], &[add_own(other, &struck), line, Act::Strike(2)]].concat();
            assert_eq!(answer_after(&direct), answer_after(&from_the_middle), "{direct:x?} (seed {})", random.seed);
            let opened_again = [&detour[..], &direct].concat();
            assert_eq!(answer_after(&direct), answer_after(&opened_again), "{direct:x?} (seed {})", random.seed);
        }
    }
}

#[test]
fn full_size_sheets_with_16_moduli() {
    let mut random = Random::new();
    for m in [30_030, 32_768, 65_520, 65_535, 3_234_846_615, 4_026_531_840] {
        for _ in 0..10 {
            let solution: Vec<u32> = (0..16).map(|_| random.below(m as u64) as u32).collect();
            let mut system = System::empty(m, 16);
            for _ in 0..16 {
                let q = exercises::divisor(&mut random, m);
                let mut line = Line { q, numbers: (0..16).map(|_| exercises::any_whole(&mut random, q)).collect() };
                line.numbers.push(exercises::written(&mut random, q, line.left(&solution).rem_euclid(q as i128) as u32));
                system.add(q, line.numbers);
            }
            // whether a block or a claim that is right is long, is seen by plugging in
            let is_right = |outcome: Outcome| [Outcome::Pass, Outcome::Long].contains(&outcome);
            let acts = [entering_own(&system), vec![answer(LONGEST_WORDS), Act::MarkBlock]].concat();
            assert!(is_right(last(&acts)), "{system:?} (seed {})", random.seed);
            // the solution is among those that were found, and one beside it is not
            let found = shown::solved(&system).expect("it has one");
            let right = exercises::right_claim(&mut random, m, &found);
            assert!(shown::describes(m, &right, &solution), "{system:?} (seed {})", random.seed);
            let mut desk = entered(&system);
            let marked = replied(&mut desk, &system, &mark(&right), random.seed).outcome;
            assert!(is_right(marked), "{system:?} (seed {})", random.seed);
            let place = (0..16).find(|&i| {
                let unit: Vec<u32> = (0..16).map(|j| (i == j) as u32).collect();
                !system.homogeneous().solved_by(&unit)
            });
            let mut wrong = right.clone();
            let entry = &mut wrong[0][place.expect("an unknown that counts")];
            *entry = (*entry + 1) % m;
            assert_eq!(desk.act(&mark(&wrong)).unwrap().outcome, Outcome::Fail, "{system:?} (seed {})", random.seed);
        }
    }
}
