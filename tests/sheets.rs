//! Sheets whose 291 numbers are any at all, which every caller can write: each reads as a ledger, every call answers as that ledger
//! says, and the numbers after it are known to the last one.
mod acts;
mod exercises;
mod face;
mod grammar;
mod ledger;
mod random;
mod reference;
mod sheet;
mod shown;
mod spelling;

use acts::{add, add_own, add_text, all_refusals, answer, class, entering, mark, open, random_act, random_system, reason, step};
use acts::{place, Tally, FAR_PLACES, WIDE};
use exercises::{chance, pick};
use face::LONGEST_WORDS;
use ledger::{Ledger, LARGEST};
use random::Random;
use reference::System;
use sheet::{Act, Desk, Outcome, NUMBERS};
use std::collections::BTreeMap;

/// Where the numbers of a sheet lie. That is not the caller's business, and no other test knows it.
const MODULUS: usize = 0;
const UNKNOWNS: usize = 1;
const HELD: usize = 2;
/// One modulus for each of 16 lines, and then the cells.
const MODULI: usize = 3;
const CELLS: usize = 19;

/// The lines of the equations held: the modulus q of each, and its cells, n coefficients and a right side, all of them times m / q.
/// For n up to 16 and k up to 16.
fn lines(numbers: &[u32]) -> impl Iterator<Item = (u32, &[u32])> {
    let cells = numbers[CELLS..].chunks(numbers[UNKNOWNS] as usize + 1);
    numbers[MODULI..CELLS].iter().copied().zip(cells).take(numbers[HELD] as usize)
}

/// Some cell of a line is no multiple of m / q, where q may be its modulus.
fn is_uneven(m: u32, q: u32, cells: &[u32]) -> bool {
    m > 0 && ledger::is_own_modulus(m, q) && cells.iter().any(|cell| cell % (m / q) != 0)
}

/// What keeps the numbers from being an opened sheet.
fn faults(numbers: &[u32]) -> Vec<&'static str> {
    let (m, n, k) = (numbers[MODULUS], numbers[UNKNOWNS], numbers[HELD]);
    let held: Vec<(u32, &[u32])> = if n <= 16 && k <= 16 { lines(numbers).collect() } else { vec![] };
    let all = [
        ("modulus", !reference::is_modulus(m)),
        ("unknowns", !(1..=16).contains(&n)),
        ("held", k > 16),
        ("own modulus", held.iter().any(|&(q, _)| !ledger::is_own_modulus(m, q))),
        ("cell", held.iter().any(|(_, cells)| cells.iter().any(|&cell| cell >= m))),
        ("multiple", held.iter().any(|&(q, cells)| is_uneven(m, q, cells))),
    ];
    all.iter().filter(|(_, found)| *found).map(|(name, _)| *name).collect()
}

/// The ledger as which the numbers read.
fn reading(numbers: &[u32]) -> Ledger {
    if !faults(numbers).is_empty() {
        return Ledger::Unopened;
    }
    let m = numbers[MODULUS];
    let mut system = System::empty(m, numbers[UNKNOWNS] as usize);
    lines(numbers).for_each(|(q, cells)| system.add(q, cells.iter().map(|&cell| (cell / (m / q)) as i64).collect()));
    Ledger::Opened(system)
}

/// The numbers of a sheet that was just opened.
fn opened(m: u32, n: u32) -> Vec<u32> {
    [vec![m, n], vec![0; NUMBERS - 2]].concat()
}

/// Writes a line with the modulus q and these residues to its place, in a sheet of as many unknowns.
fn write(numbers: &mut [u32], place: usize, q: u32, residues: &[u32]) {
    let (times, at) = (numbers[MODULUS] / q, CELLS + place * residues.len());
    let cells: Vec<u32> = residues.iter().map(|residue| times * residue).collect();
    numbers[MODULI + place] = q;
    numbers[at..at + cells.len()].copy_from_slice(&cells);
}

/// Takes the line at a place away: 1 is the first, and 0 the last. Each line behind it lies one place further up, as it was.
fn strike(numbers: &mut [u32], place: u32) {
    let mut left: Vec<(u32, Vec<u32>)> = lines(numbers).map(|(q, cells)| (q, cells.to_vec())).collect();
    left.remove(if place == 0 { left.len() } else { place as usize } - 1);
    for (index, (q, cells)) in left.iter().enumerate() {
        let at = CELLS + index * cells.len();
        numbers[MODULI + index] = *q;
        numbers[at..at + cells.len()].copy_from_slice(cells);
    }
    numbers[HELD] -= 1;
}

/// Puts a line with the modulus q and these residues behind those that are held.
fn enter(numbers: &mut [u32], q: u32, residues: &[u32]) {
    write(numbers, numbers[HELD] as usize, q, residues);
    numbers[HELD] += 1;
}

/// The numbers after a call with this outcome: but for an opening no others change than the call needs.
fn after(numbers: &[u32], act: &Act, outcome: Outcome) -> Vec<u32> {
    let mut numbers = numbers.to_vec();
    match (act, outcome) {
        (_, Outcome::Refused(_)) => {}
        (Act::Open(words), _) => {
            let words = ledger::joined(words);
            numbers = opened(words[0].number, words[1].number);
        }
        (Act::Add(words), _) => {
            // "Its numbers become residues mod q"
            let (q, behind) = ledger::parted(numbers[MODULUS], words);
            let line: Vec<u32> = behind.iter().map(|&word| reference::residue(q, ledger::whole(word))).collect();
            enter(&mut numbers, q, &line);
        }
        (Act::AddText(text), _) => {
            let typed = grammar::read(text).expect("refused with 11");
            let m = numbers[MODULUS];
            let line = typed.numbers(m, numbers[UNKNOWNS] as usize);
            enter(&mut numbers, m, &line);
        }
        (Act::Strike(place), _) => strike(&mut numbers, *place),
        (Act::Answer(_) | Act::Mark(_) | Act::MarkBlock | Act::Class(..) | Act::Reason(..), _) => {}
    }
    numbers
}

/// The call answers as the ledger says as which the numbers read, and leaves the numbers that it should.
fn expect(desk: &mut Desk, act: &Act, seed: u64, tally: &mut Tally) -> Outcome {
    let before = desk.numbers().to_vec();
    let mut ledger = reading(&before);
    let found = step(desk, &mut ledger, act, tally).and_then(|reply| {
        let good = after(&before, act, reply.outcome);
        assert_eq!(reading(&good), ledger.reduced(), "{act:x?} on {before:?} (seed {seed})");
        let wrong = (0..NUMBERS).find(|&place| desk.numbers()[place] != good[place]);
        wrong.map_or(Ok(reply.outcome), |place| Err(format!("number {place} is {}, not {}", desk.numbers()[place], good[place])))
    });
    found.unwrap_or_else(|why| panic!("{act:x?}: {why} (seed {seed})\nnumbers: {before:?}"))
}

/// Each call on a sheet of its own with these numbers, good ones and refused ones.
fn expect_each(random: &mut Random, numbers: &[u32], tally: &mut Tally) {
    let unopened = System::empty(7, 2);
    let system = if let Ledger::Opened(system) = reading(numbers) { system } else { unopened };
    let (ones, plus) = (vec![1; system.n], vec![1; system.n]);
    let more = (system.m as i64 + 1).min(LARGEST);
    let minus = vec![-more; system.n];
    let (claims, stray) = (exercises::class(random, &system), [exercises::stray(random)]);
    let (one, some) = (ledger::claim(&[ones.clone()]), exercises::claim(random, &system));
    let (m, own) = (system.m, exercises::divisor(random, system.m));
    let (loose, behind) = (exercises::bad_top(random), exercises::top(random));
    for act in [
        open(5, 3),
        open(1, 1),
        Act::Open(vec![]),
        add(&[&plus[..], &[0]].concat()),
        add(&[&plus[..], &[system.m as i64]].concat()),
        add(&[&minus[..], &[-LARGEST]].concat()),
        add(&plus),
        add(&minus),
        add_own(own, &[&minus[..], &[more]].concat()),
        add_own(m, &[&plus[..], &[0]].concat()),
        add_own(more as u32, &[&plus[..], &[0]].concat()),
        add_own(pick(random, &[0, 1, m.saturating_mul(2)]), &[&plus[..], &[0]].concat()),
        add_own(more as u32, &plus),
        add_own(own, &minus),
        add_text("2 * (x1 - 3) = 1"),
        add_text("2 (x1 - 3) = 1"),
        add_text("x16 = 0"),
        add_text("0*x1*x1 = 0"),
        Act::AddText(spelling::text(random, system.n)),
        Act::Strike(0),
        Act::Strike(1),
        Act::Strike(place(random, system.equations.len())),
        Act::Strike(pick(random, &FAR_PLACES)),
        answer(LONGEST_WORDS),
        answer(0),
        mark(&[]),
        mark(&[ones.clone()]),
        mark(&vec![vec![0; system.n]; 18]),
        Act::MarkBlock,
        class(random, &[], 0),
        class(random, &claims, 64),
        class(random, &stray.repeat(64), 64),
        class(random, &stray.repeat(64), 63),
        class(random, &stray.repeat(65), 63),
        class(random, &[&[loose], &claims[..]].concat(), 64),
        reason(&[], 3, 32),
        reason(&ledger::claim(&[]), 3, 32),
        reason(&ledger::claim(&[]), 3, 16),
        reason(&ledger::claim(&[]), 3, 0),
        reason(&ledger::claim(&[]), 2, 32),
        reason(&one, 4, 33),
        reason(&one, 3, 31),
        reason(&one, 3, 0),
        reason(&one, 0, 0),
        reason(&ledger::claim(&vec![vec![system.m; system.n]; 2]), 3, 32),
        reason(&ledger::claim(&vec![vec![0; system.n]; 18]), 3, 32),
        reason(&some, 3, 32),
        // a word of kind 13 that is none in any place, and one that is none behind all
        Act::Open([&[loose], &ledger::opening(5, 3)[..]].concat()),
        Act::Open([&ledger::opening(5, 3)[..], &[behind]].concat()),
        Act::Add([&ledger::equation(&[&plus[..], &[0]].concat())[..], &[behind]].concat()),
        Act::Mark([&[loose], &some[..]].concat()),
        Act::Mark([&one[..], &[behind]].concat()),
        reason(&[&one[..], &[behind]].concat(), 3, 32),
    ] {
        expect(&mut Desk::with(numbers), &act, random.seed, tally);
    }
}

/// Random calls on one sheet that has these numbers in the beginning.
fn expect_list(random: &mut Random, numbers: &[u32], tally: &mut Tally) {
    let mut desk = Desk::with(numbers);
    let filling = chance(random, 3);
    for _ in 0..if filling { 30 } else { 10 } {
        let act = random_act(random, &reading(desk.numbers()), filling);
        expect(&mut desk, &act, random.seed, tally);
    }
}

/// Among the sheets, at least so many have no fault, and at least so many each fault alone.
fn expect_faults(sheets: &[Vec<u32>], least: usize) {
    let mut times = BTreeMap::new();
    sheets.iter().for_each(|numbers| *times.entry(faults(numbers)).or_insert(0) += 1);
    for faults in [vec![], vec!["modulus"], vec!["unknowns"], vec!["held"], vec!["own modulus"], vec!["cell"], vec!["multiple"]] {
        assert!(times.get(&faults).is_some_and(|&times| times >= least), "{faults:?} among {times:?}");
    }
}

/// A small number other than 1 and m that divides m, if there is one.
fn part(m: u32) -> Option<u32> {
    (2..=5).find(|&q| q < m && m % q == 0)
}

/// Multiplies the modulus, and of each line its modulus or its cells, so that there is no fault: up to 2^28 or beyond it, or up to the
/// largest.
fn grow(random: &mut Random, numbers: &mut [u32]) {
    let (m, width) = (numbers[MODULUS], numbers[UNKNOWNS] as usize + 1);
    let most = u32::MAX / m;
    let any = 1 + random.below(most as u64) as u32;
    let factor = pick(random, &[most, most, (1 << 28) / m, (1 << 28) / m + 1, any]).clamp(1, most);
    numbers[MODULUS] *= factor;
    for place in 0..numbers[HELD] as usize {
        match random.below(2) {
            0 => numbers[MODULI + place] *= factor,
            _ => numbers[CELLS + place * width..][..width].iter_mut().for_each(|cell| *cell *= factor),
        }
    }
}

/// Puts the modulus of a line to a value near a limit, or to any. In half of the cases its cells go with it, so that none of them is
/// too large, and all are multiples of m / q as far as there is such a number.
fn disturb_modulus(random: &mut Random, numbers: &mut [u32], place: usize) {
    let (m, width, any) = (numbers[MODULUS], numbers[UNKNOWNS] as usize + 1, random.bits() as u32);
    let divisor = exercises::divisor(random, m);
    let q = pick(random, &[0, 1, 2, m - 1, m.wrapping_add(1), m.wrapping_mul(2), divisor, m / divisor, u32::MAX, any]);
    numbers[MODULI + place] = q;
    if chance(random, 2) {
        let times = m / q.max(1);
        numbers[CELLS + place * width..][..width].iter_mut().for_each(|cell| *cell = *cell % q.max(1) * times);
    }
}

/// Puts one cell of a line to a value near a limit: m, and the multiples of m / q.
fn disturb_cell(random: &mut Random, numbers: &mut [u32], place: usize) {
    let (m, width) = (numbers[MODULUS], numbers[UNKNOWNS] as usize + 1);
    let (q, times) = (numbers[MODULI + place], m / numbers[MODULI + place]);
    let (above, beyond) = (m.wrapping_add(1), m.wrapping_add(times));
    let values = [m - 1, m, m, above, beyond, m - times, m - times + 1, times, times - 1, times + 1, q, q - 1, 65_536, u32::MAX];
    numbers[CELLS + place * width + random.below(width as u64) as usize] = pick(random, &values);
}

/// Makes of a line, the first one where none is held, one whose modulus divides m, and puts one of its cells beside a multiple of
/// m / q, where there is room.
fn disturb_multiple(random: &mut Random, numbers: &mut [u32], place: usize) {
    let (m, width) = (numbers[MODULUS], numbers[UNKNOWNS] as usize + 1);
    let q = part(m).map_or(m, |part| pick(random, &[part, m / part]));
    let times = m / q;
    (numbers[HELD], numbers[MODULI + place]) = (numbers[HELD].max(1), q);
    let cells = &mut numbers[CELLS + place * width..][..width];
    cells.iter_mut().for_each(|cell| *cell = *cell % m / times * times);
    cells[random.below(width as u64) as usize] += pick(random, &[1, times / 2, times - 1]);
}

/// Puts any of the moduli of lines and of the cells to a value near a limit of the sheet's modulus, or to any: where the equations
/// held end in most cases.
fn disturb_any(random: &mut Random, numbers: &mut [u32], held: usize) {
    let (m, any) = (numbers[MODULUS], random.bits() as u32);
    let end = if held == 0 { 0 } else { held * (numbers[UNKNOWNS] as usize + 1) };
    let beside = |at: usize, random: &mut Random| (at + random.below(2) as usize).saturating_sub(1);
    let places = [
        MODULI + beside(held, random).min(15),
        CELLS + random.below(end.max(1) as u64) as usize,
        CELLS + beside(end, random).min(271),
        MODULI + random.below(288) as usize,
    ];
    let values = [m, m, m.wrapping_sub(1), m.wrapping_add(1), 0, 65_535, 65_536, u32::MAX, any];
    numbers[pick(random, &places)] = pick(random, &values);
}

/// Puts one number to a value near a limit of its place, or to any. With some go others.
fn disturb(random: &mut Random, numbers: &mut [u32]) {
    let (m, any) = (numbers[MODULUS], random.bits() as u32);
    let good = faults(numbers).is_empty();
    let held = if good { numbers[HELD] as usize } else { 0 };
    let place = random.below(held.max(1) as u64) as usize;
    match random.below(24) {
        22 => (numbers[MODULUS], numbers[HELD]) = (pick(random, &[0, 1]), 0),
        0..=1 if good => grow(random, numbers),
        0..=2 => numbers[MODULUS] = pick(random, &[0, 1, 2, 3, m.wrapping_mul(2), 65_535, 65_536, 65_537, u32::MAX, any]),
        3..=4 => numbers[UNKNOWNS] = pick(random, &[0, 1, 2, 15, 16, 17, 255, (1 << 31) - 1, u32::MAX, any]),
        5..=6 => numbers[HELD] = pick(random, &[0, 1, 2, 15, 16, 17, 18, 1 << 28, 1 << 31, u32::MAX, any]),
        7..=8 if held > 0 => disturb_modulus(random, numbers, place),
        9..=12 if held > 0 => disturb_cell(random, numbers, place),
        13..=18 if good => disturb_multiple(random, numbers, place),
        _ => disturb_any(random, numbers, held),
    }
}

/// Numbers of an opened sheet that holds some of 16 lines; in half of the sheets the others are any numbers, and in three of four
/// one or two numbers are disturbed.
fn plausible(random: &mut Random) -> Vec<u32> {
    let (m, n) = if chance(random, 8) {
        let wide = pick(random, &WIDE);
        (pick(random, &[2, 12, 32_768, 65_521, 65_535, wide, wide]), pick(random, &[1, 8, 15, 16]))
    } else {
        exercises::small_shape(random)
    };
    let (tidy, mut numbers) = (chance(random, 2), opened(m, n));
    let k = pick(random, &[0, 1, 2, 3, 4, 15, 16]);
    for place in 0..if tidy { 16 } else { k } {
        let q = if chance(random, 2) { exercises::divisor(random, m) } else { m };
        let residues: Vec<u32> = (0..=n).map(|_| random.below(q as u64) as u32).collect();
        write(&mut numbers, place, q, &residues);
    }
    numbers[HELD] = k as u32;
    if !tidy {
        let end = CELLS + k * (n as usize + 1);
        (MODULI + k..CELLS).chain(end..NUMBERS).for_each(|place| numbers[place] = random.any_length());
    }
    for _ in 0..pick(random, &[0, 1, 1, 2]) {
        disturb(random, &mut numbers);
    }
    numbers
}

/// The numbers of a sheet that calls have made, some of the cells left over from struck equations.
fn made(random: &mut Random) -> Vec<u32> {
    let (mut desk, mut tally) = (Desk::fresh(), Tally::new());
    let system = random_system(random);
    for act in entering(&system) {
        expect(&mut desk, &act, random.seed, &mut tally);
    }
    for _ in 0..random.below(3) {
        let act = Act::Strike(place(random, desk.numbers()[HELD] as usize));
        expect(&mut desk, &act, random.seed, &mut tally);
    }
    desk.numbers().to_vec()
}

#[test]
fn zeroed_memory_is_an_unopened_sheet() {
    let mut tally = Tally::new();
    let tops = [0, 1].map(|number| vec![ledger::word(ledger::TOP, number)]);
    let words = [vec![], ledger::opening(2, 1), ledger::equation(&[1, 1]), ledger::claim(&[]), ledger::claim(&[vec![0]])];
    let words = [&words[..], &tops].concat();
    let acts = words.iter().flat_map(|words| [Act::Add(words.clone()), Act::Mark(words.clone())]);
    let texts = ["x1 = 1", "1 = 1", "", "=", "x1*x1 = 0", "x16 = 0"].map(add_text);
    let strikes = FAR_PLACES.iter().chain(&[0, 1, 16]).map(|&place| Act::Strike(place));
    let marks = |bytes: usize| vec![0xC0; bytes];
    let classes = words.iter().map(|words| Act::Class(words.clone(), marks(64))).chain([0, 1, 64, 65, 1_000].map(|count| {
        // more claims than may be, and fewer bytes than claims
        Act::Class(ledger::claim(&[]).repeat(count), marks(count / 2))
    }));
    // nor are the shape and the entries of a claim asked about, nor the lengths of what a reason would write
    let lengths = [(0, 0), (2, 32), (3, 0), (3, 32), (4, 33)];
    let reasons = words.iter().flat_map(|words| lengths.map(|(at, out)| reason(words, at, out)));
    let others = [0, 1, 2, LONGEST_WORDS].map(answer).into_iter().chain([Act::MarkBlock]).chain(classes).chain(reasons);
    for act in acts.chain(texts).chain(strikes).chain(others) {
        let mut desk = Desk::fresh();
        assert_eq!(expect(&mut desk, &act, 0, &mut tally), Outcome::Refused(4), "{act:x?}");
        assert_eq!(desk.numbers(), [0; NUMBERS]);
    }
}

#[test]
fn an_opening_makes_the_same_sheet_of_any_numbers() {
    let mut random = Random::new();
    for round in 0..300 {
        let (m, n) = (random.any_length().max(2), 1 + random.below(16) as u32);
        let mut desk = match round % 3 {
            0 => Desk::fresh(),
            1 => Desk::with(&(0..NUMBERS).map(|_| random.bits() as u32).collect::<Vec<u32>>()),
            _ => Desk::with(&plausible(&mut random)),
        };
        assert_eq!(expect(&mut desk, &open(m, n), random.seed, &mut Tally::new()), Outcome::Holds(0));
        assert_eq!(desk.numbers(), opened(m, n), "seed {}", random.seed);
        // "without equations": zeros, and the unit vectors as steps
        expect(&mut desk, &answer(LONGEST_WORDS), random.seed, &mut Tally::new());
        let vectors = (0..=n).map(|i| (1..=n).map(|j| (i == j) as u32).collect()).collect::<Vec<Vec<u32>>>();
        assert_eq!(desk.block(), ledger::claim(&vectors), "{m} {n} (seed {})", random.seed);
    }
}

#[test]
fn sheets_of_random_numbers_answer_every_call() {
    let mut random = Random::new();
    let mut tally = Tally::new();
    for round in 0..1_500 {
        let mut numbers: Vec<u32> = (0..NUMBERS).map(|_| random.bits() as u32).collect();
        if round % 2 == 0 {
            numbers = (0..NUMBERS).map(|_| random.any_length()).collect();
        }
        expect_each(&mut random, &numbers, &mut tally);
        expect_list(&mut random, &numbers, &mut tally);
    }
}

/// Each call, and a list of calls, on 2,500 sheets of a kind. Each fault is there alone at least so often, and every refusal is seen.
fn expect_kind(least: usize, numbers_of: impl Fn(&mut Random) -> Vec<u32>) {
    let mut random = Random::new();
    let (mut tally, mut sheets) = (Tally::new(), vec![]);
    for _ in 0..2_500 {
        let numbers = numbers_of(&mut random);
        expect_each(&mut random, &numbers, &mut tally);
        expect_list(&mut random, &numbers, &mut tally);
        sheets.push(numbers);
    }
    expect_faults(&sheets, least);
    assert_eq!(tally, all_refusals(), "refusals seen, and refusals to be seen");
}

#[test]
fn sheets_with_numbers_replaced_answer_every_call() {
    expect_kind(100, |random| {
        let mut numbers = made(random);
        for _ in 0..1 + random.below(3) {
            disturb(random, &mut numbers);
        }
        numbers
    });
}

#[test]
fn plausible_sheets_answer_every_call() {
    expect_kind(50, plausible);
}

/// A sheet, opened or not, that holds k lines, the greatest there are with the modulus q; and all behind them is the same.
fn greatest(m: u32, n: u32, k: u32, q: u32) -> Vec<u32> {
    [vec![m, n, k], vec![q; 16], vec![m - m / q.max(1); 272]].concat()
}

/// Places of such a sheet, and numbers beside a limit there: the first cell and the last one of the equations, the one behind it, and
/// the last of all; and where equations are read, the first and the last modulus of a line too, and the one behind it.
fn beside_limits(m: u32, n: u32, k: u32, q: u32) -> Vec<(usize, u32)> {
    let (below, above, held) = (m.saturating_sub(1), m.wrapping_add(1), k.min(16) as usize);
    let (end, last) = (CELLS + held * (n.min(16) as usize + 1), MODULI + held.max(1) - 1);
    let last_cell = (end - 1).max(CELLS);
    let mut places = vec![(CELLS, m), (last_cell, m), (end, m), (NUMBERS - 1, m)];
    if (1..=16).contains(&n) && k <= 16 {
        places.extend([(MODULI, 0), (MODULI, above), (last, 0), (last, 1), (last, above), (MODULI + held, 0)]);
        places.extend([(CELLS, m / q.max(1) + 1), (last_cell, above), (last_cell, below)]);
    }
    places.into_iter().filter(|(place, _)| *place < NUMBERS).collect()
}

#[test]
fn the_limits_of_each_number_decide_whether_a_sheet_is_opened() {
    let mut random = Random::new();
    let (mut tally, mut sheets) = (Tally::new(), vec![]);
    let mut add = |m: u32, n: u32, k: u32, q: u32| {
        let numbers = greatest(m, n, k, q);
        for (place, value) in beside_limits(m, n, k, q) {
            let mut other = numbers.clone();
            other[place] = value;
            sheets.push(other);
        }
        sheets.push(numbers);
    };
    for m in [0, 1, 2, 65_536, u32::MAX] {
        for n in [0, 1, 16, 17, (1 << 31) - 1, u32::MAX] {
            for k in [0, 1, 15, 16, 17, 1 << 28, 1 << 31, u32::MAX] {
                add(m, n, k, m);
                if let (Some(part), 1..=16, 1..=16) = (part(m), n, k) {
                    add(m, n, k, part);
                    add(m, n, k, m / part);
                }
            }
        }
    }
    sheets.iter().for_each(|numbers| expect_each(&mut random, numbers, &mut tally));
    expect_faults(&sheets, 10);
}

#[test]
fn every_line_of_two_numbers_is_read_by_its_modulus() {
    let (mut tally, mut sheets) = (Tally::new(), vec![]);
    for m in 2..=12u32 {
        for numbers in 0..(m + 2).pow(3) {
            let (q, coefficient, right) = (numbers / (m + 2).pow(2), numbers / (m + 2) % (m + 2), numbers % (m + 2));
            let mut line = opened(m, 1);
            (line[HELD], line[MODULI], line[CELLS], line[CELLS + 1]) = (1, q, coefficient, right);
            sheets.push(line);
        }
    }
    for numbers in &sheets {
        for act in [answer(LONGEST_WORDS), mark(&[]), add_own(2, &[1, 1]), Act::Strike(0), Act::Strike(1), Act::Strike(2)] {
            expect(&mut Desk::with(numbers), &act, 0, &mut tally);
        }
    }
    let read = sheets.iter().filter(|numbers| faults(numbers).is_empty()).count();
    // m has the divisors q from 2 on, and each has q times q lines
    let lines: u32 = (2..=12u32).map(|m| (2..=m).filter(|q| m % q == 0).map(|q| q * q).sum::<u32>()).sum();
    assert_eq!(read, lines as usize);
}

#[test]
fn a_sheet_is_its_numbers_and_nothing_else() {
    let mut random = Random::new();
    for _ in 0..300 {
        let mut desk = Desk::with(&made(&mut random));
        let mut others: Vec<Desk> = vec![];
        for _ in 0..12 {
            // a copy that begins here does the same from here on, whatever is called on the others between
            others.push(Desk::with(desk.numbers()));
            let act = loop {
                let act = random_act(&mut random, &reading(desk.numbers()), false);
                if act != Act::MarkBlock {
                    break act;
                }
            };
            let reply = desk.act(&act);
            assert!(reply.is_ok(), "{act:x?}: {reply:?} (seed {})", random.seed);
            for other in &mut others {
                assert_eq!(other.act(&act), reply, "{act:x?} (seed {})", random.seed);
                assert_eq!(other.numbers(), desk.numbers(), "{act:x?} (seed {})", random.seed);
            }
        }
    }
}
