//! Equations typed as text against the reference, which cuts a text in every way there is: random trees that were spelled, texts
//! one byte off, all short texts, every byte in every place, texts of every length, and the examples that were worked out by hand.
mod acts;
mod exercises;
mod face;
mod grammar;
mod ledger;
mod random;
mod reference;
mod sheet;
mod shown;
mod spelling;

use acts::{add, add_text, answer, open, step, Tally};
use exercises::{chance, pick};
use face::LONGEST_WORDS;
use grammar::{ADDED, LONGEST_TEXT, OUTSIDE, REFUSED};
use ledger::Ledger;
use random::Random;
use sheet::{Act, Desk, Outcome};
use std::collections::{BTreeMap, BTreeSet};

/// A sheet and the ledger as which it reads.
struct Opened {
    numbers: Vec<u32>,
    ledger: Ledger,
}

impl Opened {
    /// With so many equations, whose numbers are all 1.
    fn holding(m: u32, n: usize, held: usize) -> Opened {
        let (mut desk, mut ledger) = (Desk::fresh(), Ledger::Unopened);
        for act in [vec![open(m, n as u32)], vec![add(&vec![1; n + 1]); held]].concat() {
            step(&mut desk, &mut ledger, &act, &mut Tally::new()).expect("an accepted call");
        }
        Opened { numbers: desk.numbers().to_vec(), ledger }
    }

    fn new(m: u32, n: usize) -> Opened {
        Opened::holding(m, n, 0)
    }

    /// The text is accepted or refused as the reference says, and the sheet is then the same as after milebadger_add with the
    /// words of the equation.
    fn expect(&self, text: &[u8], seed: u64) -> (Outcome, Desk) {
        let (mut desk, mut ledger) = (Desk::with(&self.numbers), self.ledger.clone());
        let found = step(&mut desk, &mut ledger, &Act::AddText(text.to_vec()), &mut Tally::new());
        let reply = found.unwrap_or_else(|why| panic!("{}: {why} (seed {seed})", text.escape_ascii()));
        if let (Outcome::Holds(_), Ledger::Opened(system)) = (reply.outcome, ledger) {
            let mut other = Desk::with(&self.numbers);
            let added = other.act(&add(&system.equations.last().unwrap().numbers));
            assert_eq!(added, Ok(reply.clone()), "{} (seed {seed})", text.escape_ascii());
            assert_eq!(desk.numbers(), other.numbers(), "{} (seed {seed})", text.escape_ascii());
        }
        (reply.outcome, desk)
    }

    /// The same, and the outcome is this one.
    fn gives(&self, text: &[u8], outcome: Outcome) {
        assert_eq!(self.expect(text, 0).0, outcome, "{}", text.escape_ascii());
    }
}

/// How many texts were refused with which number, and how many were not, which have number 0.
#[derive(Debug, Default)]
struct Times(BTreeMap<u32, usize>);

impl Times {
    fn count(&mut self, outcome: Outcome) {
        let number = if let Outcome::Refused(number) = outcome { number } else { 0 };
        *self.0.entry(number).or_insert(0) += 1;
    }

    /// Each of these so often at least, and no other.
    fn at_least(&self, least: &[(u32, usize)]) {
        let numbers: BTreeSet<u32> = least.iter().map(|(number, _)| *number).collect();
        assert_eq!(self.0.keys().copied().collect::<BTreeSet<u32>>(), numbers, "{self:?}");
        assert!(least.iter().all(|(number, times)| self.0[number] >= *times), "{self:?}");
    }
}

/// The vectors that the answer to the sheet describes.
fn described(desk: &mut Desk, m: u32, n: usize) -> BTreeSet<Vec<u32>> {
    let reply = desk.act(&answer(LONGEST_WORDS)).expect("an answer");
    let numbers = acts::answered(&reply);
    let vectors: Vec<Vec<u32>> = numbers[1..].chunks(n).map(|vector| vector.to_vec()).collect();
    ledger::described(m, if numbers[0] == 0 { &[] } else { &vectors })
}

#[test]
fn a_spelled_tree_is_refused_or_holds_at_the_vectors_that_solve_what_was_added() {
    let mut random = Random::new();
    let mut times = Times::default();
    for _ in 0..6_000 {
        let (m, n) = exercises::small_shape(&mut random);
        let n = n as usize;
        let (beyond, bent, most) = (chance(&mut random, 8), chance(&mut random, 8), pick(&mut random, &[2, 4, 8, 20]));
        let typed = spelling::typed(&mut random, most, if beyond { 16 } else { n }, bent);
        let text = spelling::spelled(&mut random, &typed);
        let (outcome, mut desk) = Opened::new(m, n).expect(&text, random.seed);
        times.count(outcome);
        let questions = [(11, text.len() <= LONGEST_TEXT), (12, typed.unknowns().iter().all(|&j| j <= n)), (13, typed.linear())];
        let refused = questions.iter().find(|(_, yes)| !yes).map(|(number, _)| Outcome::Refused(*number));
        let shown = format!("{} mod {m} with {n} unknowns (seed {})", text.escape_ascii(), random.seed);
        assert_eq!(outcome, refused.unwrap_or(Outcome::Holds(1)), "{shown}");
        if refused != Some(Outcome::Refused(11)) {
            assert_eq!(grammar::read(&text), Some(typed.clone()), "{shown}");
        }
        if refused.is_none() {
            let holds: BTreeSet<Vec<u32>> = reference::vectors(m, n).filter(|vector| typed.holds(m, vector)).collect();
            assert_eq!(described(&mut desk, m, n), holds, "{shown}");
        }
    }
    times.at_least(&[(0, 3_000), (11, 50), (12, 300), (13, 200)]);
}

#[test]
fn texts_one_byte_off_are_read_as_what_they_then_say() {
    let mut random = Random::new();
    let mut times = Times::default();
    for _ in 0..6_000 {
        let (m, n) = (pick(&mut random, &[2, 7, 12, 65_535]), pick(&mut random, &[1, 2, 3, 11, 16]));
        let (sheet, bent) = (Opened::new(m, n), chance(&mut random, 8));
        let most = pick(&mut random, &[1, 2, 4, 8]);
        let typed = spelling::typed(&mut random, most, n, bent);
        let text = spelling::spelled(&mut random, &typed);
        for _ in 0..4 {
            times.count(sheet.expect(&spelling::one_off(&mut random, &text), random.seed).0);
        }
    }
    times.at_least(&[(0, 5_000), (11, 10_000), (12, 100), (13, 100)]);
}

#[test]
fn every_byte_in_every_place_is_read_or_refused() {
    let mut times = Times::default();
    for text in ["x1=1", "1=x16", "12345=x1", " 2*(x2 - 3) = -x1 ", "x1*-(2)+x2*0=0", "(7)=((x1))"] {
        let sheet = Opened::new(65_521, 2);
        for place in 0..=text.len() {
            for byte in 0..=255 {
                let mut inserted = text.as_bytes().to_vec();
                inserted.insert(place, byte);
                times.count(sheet.expect(&inserted, 0).0);
                if place < text.len() {
                    inserted.remove(place + 1);
                    times.count(sheet.expect(&inserted, 0).0);
                }
            }
        }
    }
    times.at_least(&[(0, 500), (11, 25_000), (12, 100), (13, 1)]);
}

/// All texts of up to so many bytes out of these.
fn expect_all(bytes: &[u8], longest: usize, least: &[(u32, usize)]) {
    let (sheet, mut times) = (Opened::new(12, 1), Times::default());
    for places in (0..=longest).flat_map(|length| reference::vectors(bytes.len() as u32, length)) {
        let text: Vec<u8> = places.iter().map(|&place| bytes[place as usize]).collect();
        times.count(sheet.expect(&text, 0).0);
    }
    times.at_least(least);
}

#[test]
fn all_short_texts_are_read_or_refused() {
    expect_all(b"x10=+-*() ", 6, &[(0, 2_000), (11, 1_000_000), (12, 50)]);
    expect_all(b"x1=*", 8, &[(0, 100), (11, 80_000), (12, 30), (13, 6)]);
    expect_all(b"1=-()", 7, &[(0, 150), (11, 90_000)]);
    expect_all(b"1= +*", 7, &[(0, 400), (11, 90_000)]);
}

#[test]
fn the_examples_add_what_was_worked_out_by_hand() {
    for (m, n, text, numbers) in ADDED {
        let (outcome, desk) = Opened::new(m, n).expect(text.as_bytes(), 0);
        assert_eq!(outcome, Outcome::Holds(1), "{text}");
        let mut other = Desk::with(&Opened::new(m, n).numbers);
        assert_eq!(other.act(&add(numbers)).unwrap().outcome, Outcome::Holds(1), "{text}");
        assert_eq!(desk.numbers(), other.numbers(), "{text}");
    }
}

#[test]
fn texts_outside_the_grammar_come_before_unknowns_beyond_n_those_before_products_and_those_before_a_full_sheet() {
    for (held, good) in [(0, Outcome::Holds(1)), (15, Outcome::Holds(16)), (16, Outcome::Refused(5))] {
        let sheet = Opened::holding(7, 3, held);
        OUTSIDE.iter().for_each(|text| sheet.gives(text.as_bytes(), Outcome::Refused(11)));
        REFUSED.iter().for_each(|(number, text)| sheet.gives(text.as_bytes(), Outcome::Refused(*number)));
        ADDED.iter().filter(|(_, n, _, _)| *n <= 3).for_each(|(_, _, text, _)| sheet.gives(text.as_bytes(), good));
        sheet.gives(b"x4*x4=", Outcome::Refused(11));
        sheet.gives(&[b"x4*x4=0", &[b' '; 250][..]].concat(), Outcome::Refused(11));
    }
}

#[test]
fn an_unopened_sheet_refuses_every_text_with_4() {
    let mut random = Random::new();
    let listed = ADDED.iter().map(|(_, _, text, _)| *text).chain(OUTSIDE).chain(REFUSED.map(|(_, text)| text));
    let long = [vec![b' '; 257], vec![b'('; 100_000]];
    let random_texts: Vec<Vec<u8>> = (0..200).map(|_| spelling::text(&mut random, 3)).collect();
    for text in listed.map(|text| text.as_bytes().to_vec()).chain(long).chain(random_texts) {
        let outcome = Desk::fresh().act(&Act::AddText(text.clone())).unwrap().outcome;
        assert_eq!(outcome, Outcome::Refused(4), "{} (seed {})", text.escape_ascii(), random.seed);
    }
}

#[test]
fn a_sheet_can_be_filled_with_typed_equations_and_words_in_turn() {
    let (mut desk, mut ledger, mut tally) = (Desk::fresh(), Ledger::Unopened, Tally::new());
    let mut acts = vec![open(12, 2)];
    for k in 0..8 {
        let typed = add_text(&format!("{k}*x1 + 3*x2 = {k}*{k}"));
        acts.extend([typed, answer(LONGEST_WORDS), add(&[k, 1, 2]), answer(LONGEST_WORDS)]);
    }
    acts.extend([add_text("x1=x2"), add(&[1, 1, 1]), Act::Strike(0), add_text("x1=x2"), add_text("x1=x2")]);
    for act in acts {
        let found = step(&mut desk, &mut ledger, &act, &mut tally);
        assert!(found.is_ok(), "{act:?}: {found:?}");
    }
    assert_eq!(tally, BTreeSet::from([("add text", 5), ("add", 5)]));
}

/// The text with as many spaces as make it so long: in front, behind, or before its equals sign.
fn padded(text: &str, length: usize) -> [Vec<u8>; 3] {
    let spaces = " ".repeat(length - text.len());
    [format!("{spaces}{text}"), format!("{text}{spaces}"), text.replacen('=', &format!("{spaces}="), 1)].map(String::into_bytes)
}

#[test]
fn texts_may_have_256_bytes_and_no_more() {
    let deep = |before: &str, after: &str, times: usize| format!("{}x1{}=0", before.repeat(times), after.repeat(times));
    let long = [
        "x1 = 1".to_string(),
        deep("(", ")", 126),
        deep("-", "", 252),
        deep("-(", ")", 84),
        deep("2*(", ")", 63),
        deep("1-(", ")", 63),
        deep("", "+1", 126),
        deep("", "*2", 126),
        deep("", "-x1", 84),
        deep("", "*10000", 42),
        deep("10000*", "", 42),
        format!("0={}x1", "-".repeat(252)),
    ];
    for text in long {
        for m in [2, 12, 65_535] {
            let sheet = Opened::new(m, 1);
            sheet.gives(text.as_bytes(), Outcome::Holds(1));
            padded(&text, 256).iter().for_each(|text| sheet.gives(text, Outcome::Holds(1)));
            padded(&text, 257).iter().for_each(|text| sheet.gives(text, Outcome::Refused(11)));
            padded(&text, 70_000).iter().for_each(|text| sheet.gives(text, Outcome::Refused(11)));
        }
    }
}

#[test]
fn signs_and_brackets_that_lead_nowhere_are_refused_up_to_the_greatest_depth() {
    let sheet = Opened::new(65_535, 16);
    let pieces =
        ["(", ")", "-", "=", "+", "*", " ", "x", "9", "-(", "1+(", "1*(", "2*-(", "1-(-", "(1)", "1+", "1*", "x1-", "()", "=("];
    for piece in pieces {
        for length in [1, 2, 3, 100, 254, 255, 256, 257, 100_000] {
            let text: Vec<u8> = piece.bytes().cycle().take(length).collect();
            sheet.gives(&text, Outcome::Refused(11));
            // in front of an equation, where some of them lead somewhere
            sheet.expect(&[&text[..], b"1=1"].concat(), 0);
        }
    }
}

const LARGE: [u32; 9] = [32_768, 65_521, 65_534, 65_535, 65_536, (1 << 28) - 1, (1 << 28) + 1, 4_294_967_291, u32::MAX];

#[test]
fn large_moduli_and_long_products_come_out_right() {
    let mut random = Random::new();
    let (mut times, mut longest) = (Times::default(), 0);
    for _ in 0..3_000 {
        let (m, n) = (pick(&mut random, &LARGE), pick(&mut random, &[1, 4, 16]));
        let typed = spelling::typed(&mut random, 24, n, false);
        let text = spelling::spelled(&mut random, &typed);
        let (outcome, _) = Opened::new(m, n).expect(&text, random.seed);
        times.count(outcome);
        longest = longest.max(if outcome == Outcome::Holds(1) { text.len() } else { 0 });
    }
    times.at_least(&[(0, 2_000), (11, 10)]);
    assert!(longest > 240, "{longest}");
}

#[test]
fn products_of_the_largest_numbers_are_those_of_whole_numbers() {
    // seven factors below 100,000 fit into 128 bits
    for m in [2, 3, 10, 255, 256, 32_768, 65_521, 65_535].into_iter().chain(LARGE) {
        for factors in 1..=7 {
            for number in [99_999_u32, 65_535, 65_536, 65_534, 92_681, 46_341] {
                let product = (number as u128).pow(factors) % m as u128;
                let typed = vec![number.to_string(); factors as usize].join("*");
                let text = format!("{typed}*x1 - 5 = {typed}");
                let (outcome, desk) = Opened::new(m, 1).expect(text.as_bytes(), 0);
                assert_eq!(outcome, Outcome::Holds(1), "{text}");
                let mut other = Desk::with(&Opened::new(m, 1).numbers);
                other.act(&add(&[product as i64, ((product + 5) % m as u128) as i64])).unwrap();
                assert_eq!(desk.numbers(), other.numbers(), "{text} mod {m}");
            }
        }
    }
}
