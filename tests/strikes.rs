//! Strikes at any place: the values of the request, lists of adds and strikes against a plain list of lines, and what is turned away.
//! Strikes on tape, and among other calls on sheets of any numbers, are in the other tests.
mod acts;
mod exercises;
mod face;
mod grammar;
mod ledger;
mod random;
mod reference;
mod sheet;
mod shown;
mod spelling;

use acts::{add, add_own, answer, answered, entered, expect, full_size_system, last, open, outcomes, Tally, FAR_PLACES};
use exercises::{chance, pick};
use face::LONGEST_WORDS;
use random::Random;
use reference::{Line, System};
use sheet::{Act, Desk, Outcome, Reply};

/// The numbers of the answer block after these calls, which do what the reference says.
fn answer_after(acts: &[Act]) -> Vec<u32> {
    answered(expect(&[acts, &[answer(LONGEST_WORDS)]].concat(), 0, &mut Tally::new()).last().unwrap())
}

/// The answer to these equations on a sheet on which no others ever were.
fn answer_of(system: &System) -> Reply {
    entered(system).act(&answer(LONGEST_WORDS)).unwrap()
}

/// A line in n unknowns, with a modulus of its own in half of the cases.
fn some_line(random: &mut Random, m: u32, n: u32) -> Line {
    let q = if chance(random, 2) { exercises::divisor(random, m) } else { m };
    let numbers = (0..=n).map(|_| if chance(random, 3) { 0 } else { exercises::any_whole(random, q) }).collect();
    Line { q, numbers }
}

/// A sheet with so many lines.
fn held(random: &mut Random, m: u32, n: u32, count: usize) -> System {
    System { equations: (0..count).map(|_| some_line(random, m, n)).collect(), ..System::empty(m, n as usize) }
}

/// The lines that a strike leaves, by the paper's words: "a place, 1 for the first; 0 means the last".
fn left(system: &System, place: usize) -> System {
    let gone = if place == 0 { system.equations.len() } else { place };
    let numbered = system.equations.iter().zip(1..);
    System { equations: numbered.filter(|(_, number)| *number != gone).map(|(line, _)| line.clone()).collect(), ..*system }
}

/// Strikes a place that a line has, on a sheet that holds these equations; the answer then is that to the lines left.
fn strike(desk: &mut Desk, system: &mut System, place: usize, seed: u64) {
    let before = system.clone();
    *system = left(&before, place);
    assert_eq!(desk.act(&Act::Strike(place as u32)).unwrap().outcome, Outcome::Holds(system.equations.len()), "{place} of {before:?} (seed {seed})");
    assert_eq!(desk.act(&answer(LONGEST_WORDS)).unwrap(), answer_of(system), "{place} of {before:?} (seed {seed})");
}

#[test]
fn the_values_of_the_request() {
    // mod 5 x = 1, y = 2, z = 3: a head, the start, and the step that the line struck leaves
    let three = [open(5, 3), add(&[1, 0, 0, 1]), add(&[0, 1, 0, 2]), add(&[0, 0, 1, 3])];
    let after = |place: u32| answer_after(&[&three[..], &[Act::Strike(place)]].concat());
    assert_eq!(answer_after(&three), [1, 1, 2, 3]);
    assert_eq!(after(1), [2, 0, 2, 3, 1, 0, 0]);
    assert_eq!(after(2), [2, 1, 0, 3, 0, 1, 0]);
    assert_eq!(after(3), [2, 1, 2, 0, 0, 0, 1]);
    assert_eq!(after(0), after(3));
    for place in [4, 5, 15, 16, 268_435_455].into_iter().chain(FAR_PLACES) {
        assert_eq!(last(&[&three[..], &[Act::Strike(place)]].concat()), Outcome::Refused(16), "{place}");
        assert_eq!(after(place), [1, 1, 2, 3], "{place}");
    }
    // the third line is the second once the second is struck
    assert_eq!(answer_after(&[&three[..], &[Act::Strike(2), Act::Strike(2)]].concat()), [3, 1, 0, 0, 0, 1, 0, 0, 0, 1]);
    assert_eq!(answer_after(&[&three[..], &[Act::Strike(1), Act::Strike(1)]].concat()), [3, 0, 0, 3, 1, 0, 0, 0, 1, 0]);
    assert_eq!(last(&[&three[..], &[Act::Strike(2), Act::Strike(3)]].concat()), Outcome::Refused(16));
}

#[test]
fn lines_keep_their_own_modulus_by_hand() {
    // mod 12: x = 2 mod 3, x = 3 mod 4, x = 1 mod 2
    let clock = [open(12, 1), add_own(3, &[1, 2]), add_own(4, &[1, 3]), add_own(2, &[1, 1])];
    let after = |places: &[u32]| answer_after(&[&clock[..], &places.iter().map(|&place| Act::Strike(place)).collect::<Vec<Act>>()].concat());
    assert_eq!(after(&[]), [1, 11]);
    assert_eq!(after(&[1]), [2, 3, 4]);
    assert_eq!(after(&[2]), [2, 5, 6]);
    assert_eq!(after(&[3]), [1, 11]);
    assert_eq!(after(&[1, 1]), [2, 1, 2]);
    assert_eq!(after(&[2, 1]), [2, 1, 2]);
    assert_eq!(after(&[1, 2]), [2, 3, 4]);
    assert_eq!(after(&[2, 0]), [2, 2, 3]);
}

#[test]
fn multipliers_go_with_the_lines_left_by_hand() {
    // mod 2: x = 0, y = 1, x = 1. Without the first or the third they agree; without the second the other two are added up.
    let none = [open(2, 2), add(&[1, 0, 0]), add(&[0, 1, 1]), add(&[1, 0, 1])];
    let after = |place: u32| answer_after(&[&none[..], &[Act::Strike(place)]].concat());
    assert_eq!(answer_after(&none), [0, 1, 0, 1]);
    assert_eq!(after(1), [1, 1, 1]);
    assert_eq!(after(2), [0, 1, 1]);
    assert_eq!(after(3), [1, 0, 1]);
    assert_eq!(after(0), [1, 0, 1]);
    // of y = 1, x + y = 0 and x = 0 the claim 1 1 breaks the third, which is the second once the first is struck
    let claim = ledger::claim(&[vec![1, 1]]);
    let lines = [open(2, 2), add(&[0, 1, 1]), add(&[1, 1, 0]), add(&[1, 0, 0]), Act::Strike(1)];
    let replies = expect(&[&lines[..], &[acts::reason(&claim, 3, 16)]].concat(), 0, &mut Tally::new());
    assert_eq!((replies[5].outcome, &replies[5].at[..2]), (Outcome::Reason(3), &[0, 2][..]));
}

#[test]
fn a_strike_asks_for_an_opened_sheet_then_for_an_equation_then_for_its_place() {
    let bits = (0..32).map(|bit| 1 << bit);
    for place in bits.chain(FAR_PLACES).chain([0, 3, 16, 18]) {
        let strike = Act::Strike(place);
        assert_eq!(last(&[strike.clone()]), Outcome::Refused(4), "{place:x}");
        assert_eq!(last(&[open(5, 2), strike.clone()]), Outcome::Refused(7), "{place:x}");
        let acts = [open(5, 2), add(&[1, 2, 3]), strike.clone(), Act::Strike(0), strike.clone(), open(7, 1), strike];
        let there = place <= 1;
        let first = if there { Outcome::Holds(0) } else { Outcome::Refused(16) };
        let second = if there { Outcome::Refused(7) } else { Outcome::Holds(0) };
        let expected = [first, second, Outcome::Refused(7), Outcome::Holds(0), Outcome::Refused(7)];
        assert_eq!(outcomes(&acts)[2..], expected, "{place:x}");
    }
}

#[test]
fn every_place_of_every_number_of_lines() {
    let mut random = Random::new();
    for round in 0..6 {
        for count in 0..=16 {
            let (m, n) = exercises::small_shape(&mut random);
            let system = if round % 2 == 0 { held(&mut random, m, n, count) } else { full_size_system(&mut random, round % 4 == 1) };
            let count = system.equations.len();
            for place in 0..=count + 2 {
                let (mut desk, strike) = (entered(&system), Act::Strike(place as u32));
                let (outcome, then) = match (count, place <= count) {
                    (0, _) => (Outcome::Refused(7), system.clone()),
                    (_, false) => (Outcome::Refused(16), system.clone()),
                    (_, true) => (Outcome::Holds(count - 1), left(&system, place)),
                };
                assert_eq!(desk.act(&strike).unwrap().outcome, outcome, "{place} of {system:?} (seed {})", random.seed);
                let reply = acts::replied(&mut desk, &then, &answer(LONGEST_WORDS), random.seed);
                assert_eq!(reply, answer_of(&then), "{place} of {system:?} (seed {})", random.seed);
            }
        }
    }
}

#[test]
fn every_order_of_striking_five_lines() {
    let mut random = Random::new();
    let (m, n) = (12, 2);
    let system = held(&mut random, m, n, 5);
    // one of 0..=5, then one of 0..=4, and so on
    for order in 0..6 * 5 * 4 * 3 * 2 {
        let (mut desk, mut system, mut rest) = (entered(&system), system.clone(), order);
        for count in (1..=5).rev() {
            strike(&mut desk, &mut system, rest % (count + 1), random.seed);
            rest /= count + 1;
        }
        assert_eq!(desk.act(&Act::Strike(0)).unwrap().outcome, Outcome::Refused(7));
    }
}

/// Adds and strikes, some of them refused, each followed by an answer; and the lines that are held at each answer.
fn adds_and_strikes(random: &mut Random, m: u32, n: u32) -> (Vec<Act>, Vec<System>) {
    let (mut acts, mut lists) = (vec![open(m, n)], vec![]);
    let mut system = System::empty(m, n as usize);
    let most = pick(random, &[3, 6, 16]);
    for _ in 0..40 {
        let count = system.equations.len();
        if count < most && chance(random, 2) {
            let line = some_line(random, m, n);
            acts.push(Act::Add(ledger::line_words(m, &line)));
            system.equations.push(line);
        } else {
            let place = random.below(count as u64 + 2) as usize;
            acts.push(Act::Strike(place as u32));
            if 0 < count && place <= count {
                system = left(&system, place);
            }
        }
        acts.push(answer(LONGEST_WORDS));
        lists.push(system.clone());
    }
    (acts, lists)
}

#[test]
fn lists_of_adds_and_strikes_against_a_plain_list() {
    let mut random = Random::new();
    let (mut tally, mut unsolvable) = (Tally::new(), 0);
    for _ in 0..400 {
        let (m, n) = exercises::small_shape(&mut random);
        let (acts, lists) = adds_and_strikes(&mut random, m, n);
        let replies = expect(&acts, random.seed, &mut tally);
        for (turn, system) in lists.iter().enumerate() {
            // the answer is also that of a sheet on which the lines struck never were
            assert_eq!(replies[2 * turn + 2], answer_of(system), "answer {turn} of {acts:x?} (seed {})", random.seed);
            unsolvable += (answered(&replies[2 * turn + 2])[0] == 0) as usize;
        }
    }
    assert_eq!(tally, Tally::from([("strike", 7), ("strike", 16)]));
    assert!((3_000..13_000).contains(&unsolvable), "{unsolvable} of 16,000 answers have multipliers");
}

#[test]
fn a_full_sheet_has_room_again_behind_its_lines() {
    let mut random = Random::new();
    for round in 0..48 {
        let (m, n) = exercises::small_shape(&mut random);
        let (mut system, line) = (held(&mut random, m, n, 16), some_line(&mut random, m, n));
        let (mut desk, adding) = (entered(&system), Act::Add(ledger::line_words(m, &line)));
        assert_eq!(desk.act(&adding).unwrap().outcome, Outcome::Refused(5));
        strike(&mut desk, &mut system, round % 17, random.seed);
        assert_eq!(desk.act(&adding).unwrap().outcome, Outcome::Holds(16));
        assert_eq!(desk.act(&adding).unwrap().outcome, Outcome::Refused(5));
        system.equations.push(line);
        assert_eq!(desk.act(&answer(LONGEST_WORDS)).unwrap(), answer_of(&system), "{system:?} (seed {})", random.seed);
    }
}
