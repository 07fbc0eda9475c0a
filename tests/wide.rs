//! Moduli of 32 bits, and numbers that take two words: the values of the request by calls and by tape, every short tape and every short
//! list of words over a small alphabet, buffers of every length, and answers that whole numbers of 128 bits or the sheet's making tell.
//! Large moduli and words of kind 13 are in the other tests too.
mod acts;
mod exercises;
mod face;
mod grammar;
mod ledger;
mod planted;
mod random;
mod reference;
mod sheet;
mod shown;
mod spelling;
mod tape;

use acts::{add, add_own, answer, answered, class, entered, entering, last, mark, open, outcomes, reason, replied, step};
use acts::{Tally, WIDE};
use exercises::{chance, pick};
use face::{untouched, LONGEST_WORDS};
use ledger::{claim, equation, joined, own_equation, word, written, Call, Ledger, Reason};
use ledger::{COEFFICIENT, ENTRY, HEAD, MODULUS, MULTIPLIER, OWN_MODULUS, RIGHT, TOP, UNKNOWNS};
use planted::{any_divisor, any_vector, planted};
use random::Random;
use reference::{divisor_by_halving, Answer, Safe, System};
use sheet::{Act, Desk, Outcome};
use std::collections::{BTreeMap, BTreeSet};

/// The largest modulus of which every residue has one word, and the first beyond it.
const LAST_PLAIN: u32 = 1 << 28;
const FIRST_WIDE: u32 = (1 << 28) + 1;

/// The lines of a tape with these words, which are those of the reference.
fn printed(words: &[u32]) -> String {
    let tape = tape::bytes(words);
    let reply = face::tape(&tape, words.len() * 250 + 10);
    let lines = reply.memory[..usize::try_from(reply.result).expect("a refusal")].to_vec();
    if let Some(why) = tape::wrong_lines(&tape, &lines) {
        panic!("{why}\nwords: {words:x?}");
    }
    String::from_utf8(lines).unwrap()
}

#[test]
fn the_values_of_the_request_by_tape() {
    for (words, lines) in tape::wide_readings() {
        assert_eq!(printed(&words), lines, "{words:x?}");
    }
    for (m, equation, answer) in tape::WIDE {
        let (words, lines) = tape::wide_tape(m, equation, answer);
        assert_eq!(printed(&words), lines, "{words:x?}");
    }
    // 1 to 3 bytes behind a word of kind 13 are no word
    for left in 1..=3 {
        let tape = [tape::bytes(&[word(TOP, 1)]), vec![0x10; left]].concat();
        let reply = face::tape(&tape, 21);
        assert_eq!((reply.result, &reply.memory[..]), (21, &b"refused 17\nrefused 9\n"[..]), "{left} bytes");
    }
}

#[test]
fn the_values_of_the_request_by_calls() {
    let opened = |words: &[u32]| last(&[Act::Open(words.to_vec())]);
    assert_eq!(opened(&[0x1001_0000, 0x2000_0001]), Outcome::Holds(0));
    assert_eq!(opened(&[0xD000_000F, 0x1FFF_FFFF, 0x2000_0001]), Outcome::Holds(0));
    assert_eq!(opened(&[0xD000_000F, 0x1FFF_FFFF, 0x2000_0011]), Outcome::Refused(3));
    assert_eq!(opened(&[0x1000_0001, 0x2000_0001]), Outcome::Refused(2));
    // 13 with 0 or 16, before 2, and last; and 13 13 1
    for words in [
        &[0xD000_0000, 0x1000_0005, 0x2000_0001][..],
        &[0xD000_0010, 0x1000_0005, 0x2000_0001],
        &[0x1000_0005, 0xD000_0001, 0x2000_0001],
        &[0x1000_0005, 0x2000_0001, 0xD000_0001],
        &[0xD000_0001, 0xD000_0001, 0x1000_0005, 0x2000_0001],
        &[0xD000_0001],
        &[0x1000_0001, 0xD000_0000],
    ] {
        assert_eq!(opened(words), Outcome::Refused(17), "{words:x?}");
    }
    // where it is good, the other questions
    for (words, number) in [
        (&[0xD000_0001, 0x1000_0005][..], 1),
        (&[0xD000_0001, 0x1000_0005, 0xD000_0001, 0x1000_0001], 1),
        (&[0xD000_0001, 0x3000_0005, 0x2000_0001], 1),
        (&[0xD000_0001, 0x1000_0000, 0x2000_0000], 3),
    ] {
        assert_eq!(opened(words), Outcome::Refused(number), "{words:x?}");
    }
    // an add, a mark and a reason ask for an opened sheet first
    let loose = vec![word(TOP, 1)];
    let calls = [Act::Add(loose.clone()), Act::Mark(loose.clone()), reason(&loose, 0, 0)];
    for act in calls {
        assert_eq!(last(&[act.clone()]), Outcome::Refused(4), "{act:x?}");
        assert_eq!(last(&[open(3, 1), act.clone()]), Outcome::Refused(17), "{act:x?}");
    }
    // then comes 17, before shape, modulus, room and entries
    let full = [vec![open(12, 1)], vec![add(&[1, 2]); 16]].concat();
    for words in [
        [own_equation(5, &[1, 2]), loose.clone()].concat(),
        [loose.clone(), vec![word(UNKNOWNS, 1)], equation(&[1, 2])].concat(),
        [equation(&[1, 2]), loose.clone()].concat(),
        [vec![word(TOP, 16)], equation(&[1, 2])].concat(),
    ] {
        assert_eq!(last(&[&full[..], &[Act::Add(words.clone())]].concat()), Outcome::Refused(17), "{words:x?}");
    }
    for (words, number) in [
        (vec![word(HEAD, 1), word(ENTRY, 12), word(TOP, 1)], 17),
        (vec![word(HEAD, 18), word(TOP, 0)], 17),
        (vec![word(TOP, 1), word(HEAD, 1), word(ENTRY, 0)], 17),
        (vec![word(HEAD, 1), word(TOP, 1), word(ENTRY, 0)], 6),
        (vec![word(HEAD, 1), word(TOP, 1), word(MULTIPLIER, 0)], 1),
        (vec![word(TOP, 1), word(ENTRY, 0)], 1),
    ] {
        for act in [Act::Mark(words.clone()), reason(&words, 0, 0), reason(&words, 3, 32)] {
            assert_eq!(last(&[&full[..], &[act]].concat()), Outcome::Refused(number), "{words:x?}");
        }
    }
}

#[test]
fn signs_and_moduli_are_those_of_the_whole_number_by_hand() {
    // m, the words of one equation in one unknown, and the numbers of the answer's block
    let rows: [(u32, Vec<u32>, &[u32]); 14] = [
        (u32::MAX, equation(&[-1, 1]), &[1, u32::MAX - 1]),
        (u32::MAX, equation(&[1, -4_294_967_295]), &[1, 0]),
        (u32::MAX, equation(&[1, -4_294_967_294]), &[1, 1]),
        (u32::MAX, equation(&[-4_294_967_294, 7]), &[1, 7]),
        (u32::MAX, equation(&[1, -268_435_456]), &[1, 4_026_531_839]),
        (7, equation(&[1, -4_294_967_295]), &[1, 4]),
        (7, equation(&[1, 268_435_456]), &[1, 2]),
        (65_536, equation(&[-4_294_967_295, 5]), &[1, 5]),
        (LAST_PLAIN, equation(&[1, 4_294_967_295]), &[1, 268_435_455]),
        (FIRST_WIDE, equation(&[1, -268_435_458]), &[1, 268_435_456]),
        // 1,431,655,765 is a third of the modulus, 858,993,459 a fifth
        (u32::MAX, own_equation(1_431_655_765, &[1, -1]), &[2, 1_431_655_764, 1_431_655_765]),
        (u32::MAX, own_equation(858_993_459, &[1, 4_294_967_294]), &[2, 858_993_458, 858_993_459]),
        (u32::MAX, own_equation(3, &[1, -4_294_967_294]), &[2, 1, 3]),
        (u32::MAX, own_equation(u32::MAX, &[1, -2]), &[1, u32::MAX - 2]),
    ];
    for (m, words, numbers) in rows {
        let replies = acts::expect(&[open(m, 1), Act::Add(words.clone()), answer(LONGEST_WORDS)], 0, &mut Tally::new());
        assert_eq!(answered(&replies[2]), numbers, "{words:x?} mod {m}");
    }
    // a modulus of 32 bits that does not divide, or is too large by the top bits alone
    for (m, q) in [(u32::MAX, u32::MAX - 1), (u32::MAX, 1 << 28), (12, (1 << 28) + 12), (12, (1 << 28) + 3), (65_536, 1 << 31)] {
        assert_eq!(last(&[open(m, 1), add_own(q, &[1, 1])]), Outcome::Refused(15), "{q} on a sheet mod {m}");
    }
}

/// All lists of up to so many of these letters.
fn lists(letters: &[u32], longest: usize) -> impl Iterator<Item = Vec<u32>> + '_ {
    let places = (1..=longest).flat_map(|length| reference::vectors(letters.len() as u32, length));
    places.map(|places| places.iter().map(|&place| letters[place as usize]).collect())
}

/// Words of kind 13: none in any place, good in some, and none.
const TOPS: [u32; 4] = [0xD000_0000, 0xD000_0001, 0xD000_000F, 0xD000_0010];

/// The words of which calls are made, and two of kind 13.
const SOME: [u32; 9] =
    [0x1000_0003, 0x2000_0001, 0x3000_0001, 0x4000_0002, 0x5000_0001, 0x6000_0001, 0xC000_0003, 0xD000_0001, 0xD000_0010];

#[test]
fn every_short_tape_over_a_small_alphabet() {
    let few = [0x1000_0003, 0x2000_0001, 0x3000_0001, 0x4000_0002, 0xD000_0001, 0xD000_0010];
    let heads = [0x5000_0001, 0x6000_0001, 0xD000_0001, 0xD000_0000];
    let others = [0x5000_0000, 0x7000_0000, 0x8000_0000, 0x9000_0000, 0xA000_0001, 0xB000_0001, 0xE000_0000];
    let all = [&SOME[..7], &others, &TOPS].concat();
    let mut refused: BTreeMap<u32, usize> = BTreeMap::new();
    for opening in [vec![], ledger::opening(3, 1), ledger::opening(3, 2)] {
        for (letters, longest) in [(&all[..], 3), (&SOME, 5), (&few, 6), (&heads, 7)] {
            for words in lists(letters, longest) {
                let lines = printed(&[&opening[..], &words].concat());
                for number in lines.lines().filter_map(|line| line.strip_prefix("refused ")) {
                    *refused.entry(number.parse().unwrap()).or_insert(0) += 1;
                }
            }
        }
    }
    assert!(refused.keys().eq(&[1, 4, 6, 7, 15, 17]) && refused.values().all(|&times| times > 10), "{refused:?}");
}

#[test]
fn every_short_list_of_words_given_to_each_call() {
    let mut tally = Tally::new();
    let system = System::plain(3, 1, vec![vec![1, 2]]);
    for (numbers, ledger) in
        [(Desk::fresh().numbers().to_vec(), Ledger::Unopened), (entered(&system).numbers().to_vec(), Ledger::Opened(system))]
    {
        for words in lists(&SOME, 4) {
            let calls = [
                Act::Open(words.clone()),
                Act::Add(words.clone()),
                Act::Mark(words.clone()),
                Act::Class(words.clone(), vec![0xC0; 4]),
                reason(&words, 3, 2),
            ];
            for act in calls {
                let found = step(&mut Desk::with(&numbers), &mut ledger.clone(), &act, &mut tally);
                assert!(found.is_ok(), "{act:x?}: {found:?}");
            }
        }
    }
    for seen in [("open", 17), ("open", 1), ("add", 4), ("add", 17), ("add", 1), ("mark", 17), ("reason", 17), ("mark", 6)] {
        assert!(tally.contains(&seen), "{seen:?} among {tally:?}");
    }
}

#[test]
fn a_word_of_kind_13_in_every_place_of_every_call() {
    let mut random = Random::new();
    for m in [5, 65_536, LAST_PLAIN, FIRST_WIDE, u32::MAX] {
        let vectors: Vec<Vec<u32>> = (0..3).map(|_| any_vector(&mut random, m, 3)).collect();
        let numbers: Vec<i64> = (0..4).map(|_| exercises::any_whole(&mut random, m)).collect();
        let system = System::plain(m, 3, vec![numbers.clone()]);
        let desk = entered(&system);
        let (opening, equation) = (ledger::opening(m, 3), own_equation(m, &numbers));
        let spoil = |words: &[u32]| {
            let mut all = vec![];
            for top in TOPS {
                for place in 0..=words.len() {
                    all.push([&words[..place], &[top], &words[place..]].concat());
                    if place < words.len() {
                        all.push([&words[..place], &[top], &words[place + 1..]].concat());
                    }
                }
            }
            all
        };
        let opens = spoil(&opening).into_iter().map(Act::Open);
        let adds = spoil(&equation).into_iter().map(Act::Add);
        let marks = spoil(&claim(&vectors)).into_iter().flat_map(|words| {
            [Act::Mark(words.clone()), reason(&words, 3, 6), Act::Class([&words[..], &words].concat(), vec![0xC0; 64])]
        });
        for act in opens.chain(adds).chain(marks) {
            let found = step(&mut Desk::with(desk.numbers()), &mut Ledger::Opened(system.clone()), &act, &mut Tally::new());
            assert!(found.is_ok(), "{act:x?}: {found:?} (seed {})", random.seed);
        }
    }
}

/// The least t with a·t = b mod m, and how far it is from one to the next; by Euclid's chain with whole numbers of 128 bits.
fn least(a: i128, b: i128, m: i128) -> Option<(i128, i128)> {
    let (mut old, mut new) = ((a.rem_euclid(m), 1), (m, 0));
    while new.0 != 0 {
        let q = old.0 / new.0;
        (old, new) = (new, (old.0 - q * new.0, old.1 - q * new.1));
    }
    // a times old.1 is old.0 mod m, and that is the greatest common divisor
    let (g, spacing) = (old.0, m / old.0);
    (b.rem_euclid(g) == 0).then(|| ((b.div_euclid(g) % spacing * (old.1 % spacing)).rem_euclid(spacing), spacing))
}

/// Moduli, some of them any.
fn any_modulus(random: &mut Random) -> u32 {
    let (wide, any) = (pick(random, &WIDE), (1 << 27) + random.below((1 << 32) - (1 << 27)) as u32);
    pick(random, &[wide, wide, wide, 65_535, any, any])
}

/// A number beside 0, m or a multiple of a divisor of m, or any.
fn some_number(random: &mut Random, m: u32) -> i64 {
    let (d, t) = (any_divisor(random, m) as i64, random.below(1_000) as i64);
    let any = exercises::any_whole(random, m);
    let shared = (d as i128 * any as i128 % m as i128) as i64;
    pick(random, &[any, shared, shared, d, t, -t, d * t % (1 << 32)])
}

#[test]
fn one_unknown_has_the_answer_of_whole_numbers() {
    let mut random = Random::new();
    let (mut none, mut one, mut more, mut pairs) = (0, 0, 0, 0);
    for _ in 0..20_000 {
        let m = any_modulus(&mut random);
        let (a, b) = (some_number(&mut random, m), some_number(&mut random, m));
        let system = System::plain(m, 1, vec![vec![a, b]]);
        let reply = replied(&mut entered(&system), &system, &answer(5), random.seed);
        let found = answered(&reply);
        match least(a as i128, b as i128, m as i128) {
            None => {
                assert_eq!(found[0], 0, "{a} x = {b} mod {m} (seed {})", random.seed);
                none += 1;
            }
            Some((t, spacing)) => {
                let alone = spacing == m as i128;
                let expected = if alone { vec![1, t as u32] } else { vec![2, t as u32, spacing as u32] };
                assert_eq!(found, expected, "{a} x = {b} mod {m} (seed {})", random.seed);
                *(if alone { &mut one } else { &mut more }) += 1;
                pairs += (reply.outcome != Outcome::Wrote(found.len())) as usize;
            }
        }
    }
    let often = none > 1_000 && one > 1_000 && more > 1_000 && pairs > 1_000;
    assert!(often, "{none} without a solution, {one} with one, {more} with more, {pairs} with numbers of two words");
}

/// The answer to a·x + b·y = c mod m: x is such that what is left for y is a multiple of the greatest common divisor of b and m, and y is
/// then the least; the step at x is as far as x is from the next, and that at y leaves x alone.
fn two_unknowns(m: i128, a: i128, b: i128, c: i128) -> Option<Vec<Vec<u32>>> {
    let g = divisor_by_halving(b.rem_euclid(m) as u32, m as u32) as i128;
    let (x, spacing) = if g == 1 { (0, 1) } else { least(a, c, g)? };
    let second = |left: i128| least(b, left, m).expect("a multiple of g").0;
    let vector = |x: i128, y: i128| vec![x as u32, y as u32];
    let mut vectors = vec![vector(x, second(c - a * x))];
    if spacing < m {
        vectors.push(vector(spacing, second(-a * spacing)));
    }
    if g > 1 {
        vectors.push(vector(0, m / g));
    }
    Some(vectors)
}

#[test]
fn two_unknowns_have_the_answer_of_whole_numbers() {
    // by hand: 2x + 3y = 5 mod 12, and mod the largest modulus 3x + 5y = 1
    assert_eq!(two_unknowns(12, 2, 3, 5), Some(vec![vec![1, 1], vec![3, 2], vec![0, 4]]));
    assert_eq!(two_unknowns(6, 2, 3, 1), Some(vec![vec![2, 1], vec![3, 0], vec![0, 2]]));
    assert_eq!(two_unknowns(4, 2, 0, 1), None);
    let mut random = Random::new();
    let (mut none, mut steps) = (0, [0; 3]);
    for _ in 0..20_000 {
        let m = if chance(&mut random, 4) { 2 + random.below(30) as u32 } else { any_modulus(&mut random) };
        let numbers: Vec<i64> = (0..3).map(|_| some_number(&mut random, m)).collect();
        let system = System::plain(m, 2, vec![numbers.clone()]);
        let [a, b, c] = [0, 1, 2].map(|i| numbers[i] as i128);
        let reply = replied(&mut entered(&system), &system, &answer(LONGEST_WORDS), random.seed);
        let Outcome::Wrote(length) = reply.outcome else { panic!("{reply:?}") };
        match two_unknowns(m as i128, a, b, c) {
            None => {
                assert_eq!(reply.buffer[0], word(HEAD, 0), "{system:?} (seed {})", random.seed);
                none += 1;
            }
            Some(vectors) => {
                assert_eq!(reply.buffer[..length], claim(&vectors), "{system:?} (seed {})", random.seed);
                steps[vectors.len() - 1] += 1;
            }
        }
    }
    assert!(
        none > 1_000 && steps[1..].iter().all(|&times| times > 1_000),
        "{none} without a solution, {steps:?} with so many steps"
    );
}

/// A step's place: that of its first entry that is not 0.
fn place(step: &[u32]) -> usize {
    step.iter().position(|&x| x != 0).expect("a step of zeros")
}

/// What the fixed form says of an answer, beside that it solves: places rise, the entry there divides m, and no step fits once more into
/// the start or a step before it.
fn is_in_form(m: u32, answer: &Answer) -> bool {
    let places: Vec<usize> = answer.steps.iter().map(|step| place(step)).collect();
    places.windows(2).all(|pair| pair[0] < pair[1])
        && answer.steps.iter().all(|step| m % step[place(step)] == 0)
        && ledger::vectors_of(answer).iter().all(|v| answer.steps.iter().all(|s| s == v || v[place(s)] < s[place(s)]))
}

#[test]
fn sheets_that_are_made_from_their_solutions_are_answered_marked_and_read_back() {
    let mut random = Random::new();
    let (mut passed, mut long, mut none, mut pairs) = (0, 0, 0, 0);
    for round in 0..600 {
        let (m, n) = (any_modulus(&mut random), pick(&mut random, &[1, 2, 3, 8, 16]));
        let divisors: Vec<u32> = (0..n).map(|_| any_divisor(&mut random, m)).collect();
        let solvable = round % 4 > 0;
        let (system, made) = planted(&mut random, m, &divisors, solvable);
        let mut desk = entered(&system);
        let reply = replied(&mut desk, &system, &answer(LONGEST_WORDS), random.seed);
        let Outcome::Wrote(length) = reply.outcome else { panic!("{reply:?}") };
        let (block, numbers) = (&reply.buffer[..length], answered(&reply));
        if !solvable {
            // that the multipliers refute the equations, the reference has seen
            assert_eq!(block[0], word(HEAD, 0), "{system:?} (seed {})", random.seed);
            assert_eq!(desk.act(&Act::MarkBlock).unwrap().outcome, Outcome::Refused(1));
            assert_eq!(desk.act(&mark(&[])).unwrap().outcome, Outcome::Pass);
            none += 1;
            continue;
        }
        let mut vectors = numbers[1..].chunks(n).map(|v| v.to_vec());
        let found = Answer { start: vectors.next().unwrap(), steps: vectors.collect() };
        assert_eq!(block, claim(&ledger::vectors_of(&found)), "{system:?} (seed {})", random.seed);
        assert!(system.solved_by(&found.start), "{system:?} (seed {})", random.seed);
        assert!(found.steps.iter().all(|step| system.homogeneous().solved_by(step)), "{system:?} (seed {})", random.seed);
        assert!(is_in_form(m, &found), "{system:?}: {found:?} (seed {})", random.seed);
        // it leads to what the sheet was made from
        assert!(!shown::misses(m, &made, &ledger::vectors_of(&found)), "{system:?}: {found:?} (seed {})", random.seed);
        // as a claim it is right where it lies, in a class, and on a tape; and so is what the sheet was made from
        let outcome = desk.act(&Act::MarkBlock).unwrap().outcome;
        let line = match outcome {
            Outcome::Pass => "pass\n",
            Outcome::Long => "long\n",
            other => panic!("{system:?}: {other:?} (seed {})", random.seed),
        };
        let byte = (outcome == Outcome::Long) as u8 + 1;
        let words = [block, &[word(TOP, 1)], block, &claim(&[]), block].concat();
        let classed = replied(&mut desk, &system, &class(&mut random, &words, 6), random.seed);
        assert_eq!(classed.marks[..5], [byte, 117, byte, 0, byte], "{system:?} (seed {})", random.seed);
        let adding = system.equations.iter().flat_map(|line| ledger::line_words(m, line));
        let tape: Vec<u32> = ledger::opening(m, n as u32).into_iter().chain(adding).chain(block.iter().copied()).collect();
        assert!(printed(&tape).ends_with(line), "{system:?} (seed {})", random.seed);
        let marked = replied(&mut desk, &system, &mark(&ledger::vectors_of(&made)), random.seed).outcome;
        assert!([Outcome::Pass, Outcome::Long].contains(&marked), "{system:?} (seed {})", random.seed);
        *(if outcome == Outcome::Long { &mut long } else { &mut passed }) += 1;
        pairs += (length > numbers.len()) as usize;
    }
    let often = passed > 100 && long > 20 && none > 100 && pairs > 100;
    assert!(often, "{passed} passed, {long} long, {none} without a solution, {pairs} with numbers of two words");
}

/// Moduli around 2^28, at which a multiplier begins to count two words, and around the others.
const AROUND: [u32; 9] =
    [65_535, 65_536, LAST_PLAIN - 1, LAST_PLAIN, FIRST_WIDE, FIRST_WIDE + 1, 1 << 31, 4_294_967_291, u32::MAX];

#[test]
fn a_block_needs_as_many_words_as_are_written() {
    for m in AROUND {
        // x1 = m - 1, x2 = 5, x3 is free
        let system = System::plain(m, 3, vec![vec![1, 0, 0, -1], vec![0, 1, 0, 5]]);
        let block = claim(&[vec![m - 1, 5, 0], vec![0, 0, 1]]);
        assert_eq!(block.len(), if m > LAST_PLAIN { 8 } else { 7 }, "{m}");
        let mut desk = entered(&system);
        for length in 0..block.len() + 4 {
            let reply = replied(&mut desk, &system, &answer(length), 0);
            let (outcome, memory) = if length < block.len() {
                (Outcome::Refused(8), untouched(length))
            } else {
                (Outcome::Wrote(block.len()), [&block[..], &untouched(length)[block.len()..]].concat())
            };
            assert_eq!((reply.outcome, reply.buffer), (outcome, memory), "{length} words mod {m}");
        }
        assert_eq!(desk.act(&Act::MarkBlock).unwrap().outcome, Outcome::Pass, "{m}");
    }
}

#[test]
fn multipliers_count_two_words_above_2_28_whatever_is_written() {
    for m in AROUND {
        for k in [1, 2, 3, 16] {
            // 0 = 1 again and again; and 0 = -1 behind 2x = 0 again and again
            let alike = System::plain(m, 1, vec![vec![0, 1]; k]);
            let other = System::plain(m, 1, [vec![vec![2, 0]; k - 1], vec![vec![0, -1]]].concat());
            for system in [alike, other] {
                let need = 1 + k * if m > 268_435_456 { 2 } else { 1 };
                let mut desk = entered(&system);
                for length in 0..need + 4 {
                    let reply = replied(&mut desk, &system, &answer(length), 0);
                    if length < need {
                        assert_eq!((reply.outcome, reply.buffer), (Outcome::Refused(8), untouched(length)), "{length} mod {m}");
                        continue;
                    }
                    let Outcome::Wrote(wrote) = reply.outcome else { panic!("{reply:?}") };
                    assert!(k < wrote && wrote <= need, "{wrote} of {need} words mod {m}");
                    let multipliers: Vec<u32> = joined(&reply.buffer[1..wrote]).iter().map(|word| word.number).collect();
                    assert!(system.refuted_by(&multipliers), "{multipliers:?} mod {m}");
                    assert_eq!(reply.buffer[wrote..], untouched(length)[wrote..], "{length} mod {m}");
                }
                // and so in a reason
                let need = need - 1;
                for length in 0..need + 4 {
                    let reply = replied(&mut desk, &system, &reason(&claim(&[vec![0]]), 3, length), 0);
                    let good = if length < need { Outcome::Refused(8) } else { Outcome::Reason(2) };
                    assert_eq!(reply.outcome, good, "{length} of {need} words mod {m}");
                }
            }
        }
    }
}

#[test]
fn entries_of_a_reason_count_two_words_above_2_28_whatever_is_written() {
    for m in AROUND {
        let need = 3 * if m > 268_435_456 { 2 } else { 1 };
        // x1 = m - 1, x2 = 5: the first solution is m - 1, 5, 0; without equations it is zeros, of one word each
        let system = System::plain(m, 3, vec![vec![1, 0, 0, -1], vec![0, 1, 0, 5]]);
        for (system, start) in [(system, vec![m - 1, 5, 0]), (System::empty(m, 3), vec![0; 3])] {
            let shown: Vec<u32> = start.iter().flat_map(|&x| written(ENTRY, x)).collect();
            let mut desk = entered(&system);
            for (at, length) in (2..5).flat_map(|at| (0..need + 4).map(move |length| (at, length))) {
                let reply = replied(&mut desk, &system, &reason(&claim(&[]), at, length), 0);
                let memory = untouched(at + length);
                let (outcome, numbers, out) = if at < 3 || length < need {
                    (Outcome::Refused(8), memory[length..].to_vec(), memory[..length].to_vec())
                } else {
                    let numbers = [&[0, 0, shown.len() as u32], &memory[length + 3..]].concat();
                    (Outcome::Reason(1), numbers, [&shown[..], &memory[shown.len()..length]].concat())
                };
                assert_eq!((reply.outcome, reply.at, reply.buffer), (outcome, numbers, out), "{at} and {length} mod {m}");
                // a solution that is missed counts the same
                let missed = replied(&mut desk, &system, &reason(&claim(&[start.clone()]), at, length), 0).outcome;
                assert_eq!(missed, if at < 3 || length < need { Outcome::Refused(8) } else { Outcome::Reason(5) });
            }
            // a claim that passes, is long, or breaks an equation shows nothing
            let right = [start.clone(), vec![0, 0, 1]];
            for (vectors, number) in [(right.to_vec(), 0), ([&right[..], &[vec![0; 3]]].concat(), 6)] {
                let expected = if system.equations.is_empty() { 5 } else { number };
                let room = if expected == 5 { need } else { 0 };
                let reply = replied(&mut desk, &system, &reason(&claim(&vectors), 3, room), 0);
                assert_eq!(reply.outcome, Outcome::Reason(expected), "{vectors:?} mod {m}");
            }
        }
    }
}

#[test]
fn turns_of_a_safe_need_as_many_words_as_are_written() {
    for m in AROUND {
        // one lock at 1 has the turn m - 1; two in a row at m - 5 the turns 0 and 5; and at different values none
        let one = written(ENTRY, m - 1);
        let small = [written(ENTRY, 0), written(ENTRY, 5)].concat();
        let large = [written(ENTRY, 0), written(ENTRY, m - 7)].concat();
        for (columns, values, turns) in [(1, vec![1], one), (2, vec![m - 5; 2], small), (2, vec![7; 2], large)] {
            let words: Vec<u32> = values.iter().flat_map(|&x| written(ENTRY, x)).collect();
            let numbers: Vec<u32> = joined(&turns).iter().map(|word| word.number).collect();
            assert!(Safe { m, rows: 1, columns, values }.opened_by(&numbers));
            for length in 0..turns.len() + 4 {
                let expected = face::writing(turns.len() as i64, &turns, length);
                assert_eq!(face::safe(m, 1, columns as u32, &words, length), expected, "{length} words mod {m}");
            }
        }
        for length in 0..6 {
            let words = [written(ENTRY, m - 1), written(ENTRY, m - 2)].concat();
            assert_eq!(face::safe(m, 1, 2, &words, length), face::silent(0, length), "{m}");
        }
        for value in [m, m.saturating_add(1), u32::MAX] {
            let words = [written(ENTRY, 0), written(ENTRY, value)].concat();
            assert_eq!(face::safe(m, 1, 2, &words, 6), face::silent(-6, 6), "{value} mod {m}");
        }
    }
}

#[test]
fn reasons_that_were_worked_out_by_hand() {
    let m = u32::MAX;
    // m, n, the equations with their moduli, the vectors; the reason's number, its step and its equation
    let third = m / 3;
    let rows: [(u32, usize, &[(u32, &[i64])], &[&[u32]], [u32; 3]); 25] = [
        (m, 1, &[(m, &[-1, 1])], &[&[m - 1]], [0, 0, 0]),
        (m, 1, &[(m, &[-1, 1])], &[&[m - 1], &[0]], [6, 1, 0]),
        (m, 1, &[(m, &[-1, 1])], &[&[1]], [3, 0, 1]),
        (m, 1, &[(m, &[-1, 1])], &[&[m - 1], &[m - 1]], [4, 1, 1]),
        (m, 1, &[(m, &[-1, 1])], &[], [1, 0, 0]),
        // 3x = 6: from 2, and a third of the modulus further on
        (m, 1, &[(m, &[3, 6])], &[&[2], &[third]], [0, 0, 0]),
        (m, 1, &[(m, &[3, 6])], &[&[2 + 2 * third], &[2 * third]], [0, 0, 0]),
        (m, 1, &[(m, &[3, 6])], &[&[2], &[third], &[2 * third]], [6, 1, 0]),
        (m, 1, &[(m, &[3, 6])], &[&[2]], [5, 0, 0]),
        (m, 1, &[(m, &[3, 6])], &[&[2], &[third + 1]], [4, 1, 1]),
        (m, 1, &[(m, &[3, 6])], &[&[third], &[third]], [3, 0, 1]),
        // 3x = 5 has no solution
        (m, 1, &[(m, &[3, 5])], &[&[2], &[third]], [2, 0, 0]),
        (m, 1, &[(m, &[3, 5])], &[], [0, 0, 0]),
        // x = -1 mod a third of the modulus, and x = 2 mod 3
        (m, 1, &[(third, &[1, -1])], &[&[m - 1], &[third]], [0, 0, 0]),
        (m, 1, &[(third, &[1, -1])], &[&[third - 1], &[m - third]], [0, 0, 0]),
        (m, 1, &[(third, &[1, -1]), (3, &[1, 2])], &[&[m - 1]], [0, 0, 0]),
        (m, 1, &[(third, &[1, -1]), (3, &[1, 2])], &[&[third - 1]], [3, 0, 2]),
        (m, 1, &[(third, &[1, -1]), (3, &[1, 2])], &[&[m - 1], &[third]], [4, 1, 2]),
        // no equations: 3 and 5 lead everywhere, 3 and 6 do not
        (m, 1, &[], &[&[m - 1], &[3], &[5]], [0, 0, 0]),
        (m, 1, &[], &[&[m - 1], &[3], &[6]], [5, 0, 0]),
        (m, 1, &[], &[&[m - 1], &[m - 1], &[5]], [6, 2, 0]),
        // mod a prime, x + y = 0: each step but zeros leads everywhere
        (4_294_967_291, 2, &[(4_294_967_291, &[1, 1, 0])], &[&[0, 0], &[4_294_967_290, 1]], [0, 0, 0]),
        (4_294_967_291, 2, &[(4_294_967_291, &[1, 1, 0])], &[&[5, 4_294_967_286], &[1 << 28, 4_026_531_835]], [0, 0, 0]),
        (4_294_967_291, 2, &[(4_294_967_291, &[1, 1, 0])], &[&[0, 0], &[1, 4_294_967_290], &[2, 4_294_967_289]], [6, 1, 0]),
        (4_294_967_291, 2, &[(4_294_967_291, &[1, 1, 0])], &[&[1 << 31, 1 << 31]], [3, 0, 1]),
    ];
    for (m, n, equations, vectors, [number, place, broken]) in rows {
        let (system, vectors) = ledger::posed_own(m, n, equations, vectors);
        let reply = replied(&mut entered(&system), &system, &reason(&claim(&vectors), 3, 32), 0);
        assert_eq!((reply.outcome, &reply.at[..2]), (Outcome::Reason(number), &[place, broken][..]), "{system:?}: {vectors:?}");
    }
}

#[test]
fn full_classes_of_the_longest_claims() {
    let mut random = Random::new();
    for m in [FIRST_WIDE, 4_294_967_291, u32::MAX] {
        // no equations: the right claims have 16 steps that lead everywhere, and all entries of the others have two words
        let system = System::empty(m, 16);
        let units: Vec<Vec<u32>> = (0..16).map(|i| (0..16).map(|j| (i == j) as u32).collect()).collect();
        let (mut claims, mut bytes) = (vec![], vec![]);
        for place in 0..64 {
            let start: Vec<u32> = (0..16).map(|_| m - 1 - random.below(1 << 20).min(m as u64 - (1 << 28) - 1) as u32).collect();
            let (steps, byte) = match place % 3 {
                0 => (units.clone(), 1),
                1 => (vec![start.clone(); 16], 0),
                // minus each unit vector
                _ => (units.iter().map(|unit| unit.iter().map(|&x| if x == 0 { 0 } else { m - 1 }).collect()).collect(), 1),
            };
            claims.push(claim(&[vec![start], steps].concat()));
            bytes.push(byte);
        }
        assert_eq!(claims[1].len(), LONGEST_WORDS);
        let reply = entered(&system).act(&class(&mut random, &claims.concat(), 64)).unwrap();
        assert_eq!((reply.outcome, &reply.marks[..]), (Outcome::Marked(64), &bytes[..]), "mod {m} (seed {})", random.seed);
        let more = [claims.concat(), vec![word(TOP, 1)]].concat();
        assert_eq!(entered(&system).act(&class(&mut random, &more, 65)).unwrap().outcome, Outcome::Refused(14));
    }
}

#[test]
fn numbers_of_every_length_are_written_as_they_should_be_and_read_as_they_are_written() {
    let numbers: BTreeSet<u32> = random::boundaries().into_iter().collect();
    for &x in &numbers {
        // x1 = x mod the least modulus above it that is not below 2, and mod the largest
        for m in [x.max(1).saturating_add(1), u32::MAX].into_iter().filter(|&m| x < m) {
            let block = claim(&[vec![x]]);
            for words in [equation(&[1, x as i64]), equation(&[-1, -(x as i64)])] {
                let outcomes = outcomes(&[open(m, 1), Act::Add(words.clone()), answer(block.len()), Act::MarkBlock]);
                assert_eq!(outcomes[2..], [Outcome::Wrote(block.len()), Outcome::Pass], "{words:x?} mod {m}");
            }
            let mut desk = entered(&System::plain(m, 1, vec![vec![1, x as i64]]));
            desk.act(&answer(block.len())).unwrap();
            assert_eq!(desk.block(), block, "{x} mod {m}");
        }
    }
    // a modulus, of a sheet and of a line
    for &m in numbers.iter().filter(|&&m| m >= 2) {
        assert_eq!(printed(&[written(MODULUS, m), vec![word(UNKNOWNS, 1)]].concat()), format!("open {m} 1\n"));
        let line = [written(OWN_MODULUS, m), vec![word(COEFFICIENT, 1), word(RIGHT, 1)]].concat();
        assert_eq!(last(&[open(m, 1), Act::Add(line.clone())]), Outcome::Holds(1), "{m}");
        assert_eq!(last(&[open(u32::MAX, 1), Act::Add(line)]) == Outcome::Holds(1), u32::MAX % m == 0, "{m}");
    }
}

#[test]
fn random_tapes_of_large_moduli_print_their_lines() {
    let mut random = Random::new();
    let mut seen: BTreeMap<String, usize> = BTreeMap::new();
    for _ in 0..1_500 {
        let (m, n) = (any_modulus(&mut random), 1 + random.below(4) as usize);
        let mut words = ledger::opening(m, n as u32);
        let mut sheet = Ledger::Unopened;
        sheet.run(&Call::Open(words.clone()));
        for _ in 0..random.below(12) {
            let Ledger::Opened(system) = &sheet else { unreachable!() };
            let mut next = match random.below(6) {
                0..=2 => exercises::equation(&mut random, system),
                3 => vec![word(ledger::ANSWER, 0)],
                4 => claim(&exercises::any_claim(&mut random, m, n)),
                _ => shown::solved(system).map_or(claim(&[]), |answer| claim(&exercises::right_claim(&mut random, m, &answer))),
            };
            if chance(&mut random, 8) {
                next = exercises::spoiled(&mut random, next, m);
            }
            let mut rest = &next[..];
            while !rest.is_empty() {
                let (call, used) = tape::first_call(&sheet, rest);
                if matches!(call, Call::Add(_)) {
                    sheet.run(&call);
                }
                rest = &rest[used..];
            }
            words.extend(next);
        }
        // an opening among the spoiled words would make another sheet, and the reference knows
        let lines = printed(&words);
        for line in lines.lines() {
            let name = if line.starts_with("refused") { line } else { line.split(' ').next().unwrap() };
            *seen.entry(name.to_string()).or_insert(0) += 1;
        }
    }
    for name in ["open", "added", "from", "step", "none", "pass", "fail", "refused 1", "refused 6", "refused 15", "refused 17"] {
        assert!(seen.get(name).is_some_and(|&times| times > 5), "{name} among {seen:?}");
    }
}

#[test]
fn a_reason_is_the_same_by_plugging_in_and_what_it_shows_has_as_many_words_as_it_says() {
    let mut random = Random::new();
    let mut seen = BTreeMap::new();
    for round in 0..1_200 {
        let (m, n) = (any_modulus(&mut random), pick(&mut random, &[1, 2, 5, 16]));
        let divisors: Vec<u32> = (0..n).map(|_| any_divisor(&mut random, m)).collect();
        let (system, made) = planted(&mut random, m, &divisors, round % 3 > 0);
        let right = exercises::right_claim(&mut random, m, &made);
        let vectors = match round % 4 {
            0 => right,
            1 => exercises::changed_claim(&mut random, m, &right),
            2 => right[..1].to_vec(),
            _ => vec![],
        };
        let known = shown::reason_given(&system, (round % 3 > 0).then_some(&made), &vectors);
        let need = known.map_or(0, |known| known.room(&system));
        for length in [need, need + 3, 40] {
            let reply = replied(&mut entered(&system), &system, &reason(&claim(&vectors), 3, length), random.seed);
            let number = known.map_or(0, |known| known.numbers()[0]);
            assert_eq!(reply.outcome, Outcome::Reason(number), "{system:?}: {vectors:?} (seed {})", random.seed);
            let shown = joined(&reply.buffer[..reply.at[2] as usize]);
            let count = known.map_or(0, |known| known.shown(&system));
            assert_eq!(shown.len(), count, "{system:?}: {vectors:?} (seed {})", random.seed);
        }
        if need > 0 {
            let reply = replied(&mut entered(&system), &system, &reason(&claim(&vectors), 3, need - 1), random.seed);
            assert_eq!(reply.outcome, Outcome::Refused(8), "{system:?}: {vectors:?} (seed {})", random.seed);
        }
        *seen.entry(known.map_or(0, |known: Reason| known.numbers()[0])).or_insert(0) += 1;
    }
    assert!(seen.len() == 7 && seen.values().all(|&times| times > 20), "{seen:?}");
}

#[test]
fn openings_of_large_moduli_hold_equations_up_to_sixteen() {
    let mut random = Random::new();
    for m in AROUND {
        let mut system = System::empty(m, 16);
        let solution = any_vector(&mut random, m, 16);
        for _ in 0..16 {
            let numbers: Vec<i64> = (0..16).map(|_| exercises::any_whole(&mut random, m)).collect();
            let sum: i128 = numbers.iter().zip(&solution).map(|(&a, &x)| a as i128 * x as i128).sum();
            let right = exercises::written(&mut random, m, sum.rem_euclid(m as i128) as u32);
            system.add(m, [numbers, vec![right]].concat());
        }
        let acts = [entering(&system), vec![add(&[0; 17]), answer(LONGEST_WORDS), Act::MarkBlock]].concat();
        let found = acts::expect(&acts, random.seed, &mut Tally::new());
        let [.., full, block, marked] = &found[..] else { unreachable!() };
        assert_eq!(full.outcome, Outcome::Refused(5), "mod {m}");
        let vectors: Vec<Vec<u32>> = answered(block)[1..].chunks(16).map(|v| v.to_vec()).collect();
        assert!(shown::describes(m, &vectors, &solution), "mod {m} (seed {})", random.seed);
        assert!([Outcome::Pass, Outcome::Long].contains(&marked.outcome), "mod {m} (seed {})", random.seed);
    }
}
