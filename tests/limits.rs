//! The numbers that include/milebadger.h names: each limit is reached, and what is above it is refused; the version is that of the
//! archive, and a sheet has the size that the tests take it to have.
mod face;
mod grammar;
mod ledger;
mod reference;
mod sheet;
mod tape;

use ledger::{equation, opening, word, Reason, ANSWER, ENTRY, HEAD};
use reference::Safe;
use sheet::{Act, Desk, Outcome, Sheet};

const HEADER: &str = include_str!("../include/milebadger.h");

/// The number that the header has for a limit.
fn limit(name: &str) -> usize {
    let define = format!("#define MILEBADGER_{name} ");
    let rest = HEADER.lines().find_map(|line| line.strip_prefix(&define)).expect(name);
    let number = rest.split(' ').next().unwrap().trim_end_matches('u');
    match number.strip_prefix("0x") {
        Some(digits) => usize::from_str_radix(digits, 16).unwrap(),
        None => number.parse().unwrap(),
    }
}

/// The header's MILEBADGER_LINES_ROOM.
fn room(tape_len: usize) -> usize {
    tape_len / 4 * limit("LONGEST_ANSWER") + 10
}

/// The lines of a tape with these words, from a buffer with the room that the header names.
fn lines(words: &[u32]) -> String {
    let reply = face::tape(&tape::bytes(words), room(4 * words.len()));
    let written = usize::try_from(reply.result).expect("a refusal");
    String::from_utf8(reply.memory[..written].to_vec()).unwrap()
}

#[test]
fn the_archive_has_the_version_of_the_header() {
    assert_eq!(face::version() as usize, limit("VERSION"));
    assert_eq!(face::version(), 40_000, "4.0.0");
}

#[test]
fn a_sheet_has_as_many_numbers_as_the_header_says() {
    let (_, behind) = HEADER.split_once("uint32_t numbers[").expect("numbers");
    let (count, _) = behind.split_once(']').unwrap();
    assert_eq!(size_of::<Sheet>(), 4 * count.parse::<usize>().unwrap());
    assert_eq!(size_of::<Sheet>(), 1_164);
}

#[test]
fn a_sheet_goes_as_far_as_the_header_says() {
    let (m, n, k) = (limit("LARGEST_MODULUS") as u32, limit("MOST_UNKNOWNS"), limit("MOST_EQUATIONS"));
    let (mut desk, longest) = (Desk::fresh(), limit("LONGEST_BLOCK"));
    let mut outcome = |act: Act| desk.act(&act).unwrap().outcome;
    assert_eq!(m, u32::MAX);
    assert_eq!(outcome(Act::Open(opening(m, n as u32 + 1))), Outcome::Refused(3));
    assert_eq!(outcome(Act::Open(opening(m, n as u32))), Outcome::Holds(0));
    // zeros and unit vectors, whose entries have one word each
    assert_eq!(outcome(Act::Answer(face::untouched(longest - 1))), Outcome::Refused(8));
    assert_eq!(outcome(Act::Answer(face::untouched(longest))), Outcome::Wrote(longest));
    assert_eq!(outcome(Act::MarkBlock), Outcome::Pass);
    for held in 1..=k {
        assert_eq!(outcome(Act::Add(equation(&vec![m as i64 - 1; n + 1]))), Outcome::Holds(held));
    }
    assert_eq!(outcome(Act::Add(equation(&vec![m as i64 - 1; n + 1]))), Outcome::Refused(5));
}

#[test]
fn an_answer_and_a_claim_have_no_more_words_than_the_header_says() {
    let longest = limit("LONGEST_BLOCK_WORDS");
    assert_eq!(face::LONGEST_WORDS, longest);
    // a claim of so many vectors whose entries all take two words
    let (m, n) = (limit("LARGEST_MODULUS") as u32, limit("MOST_UNKNOWNS"));
    assert_eq!(ledger::claim(&vec![vec![m - 1; n]; limit("LARGEST_HEAD")]).len(), longest);
    // of the longest answer all entries but the zeros in front of a step's place do
    let (mut desk, words) = (Desk::fresh(), long_answer());
    let mut outcome = |act: Act| desk.act(&act).unwrap().outcome;
    assert_eq!(outcome(Act::Open(words[0].clone())), Outcome::Holds(0));
    for held in 1..=n {
        assert_eq!(outcome(Act::Add(words[held].clone())), Outcome::Holds(held));
    }
    let written = longest - (0..n).sum::<usize>();
    assert_eq!(outcome(Act::Answer(face::untouched(written - 1))), Outcome::Refused(8));
    assert_eq!(outcome(Act::Answer(face::untouched(longest))), Outcome::Wrote(written));
    // the first step leads to all others
    assert_eq!(outcome(Act::MarkBlock), Outcome::Long);
}

#[test]
fn a_class_has_as_many_claims_as_the_header_says() {
    let (mut desk, most) = (Desk::fresh(), limit("MOST_CLAIMS"));
    let mut outcome = |act: Act| desk.act(&act).unwrap().outcome;
    assert_eq!(outcome(Act::Open(opening(2, 1))), Outcome::Holds(0));
    assert_eq!(outcome(Act::Class(vec![word(HEAD, 0); most], vec![0xC0; most - 1])), Outcome::Refused(8));
    assert_eq!(outcome(Act::Class(vec![word(HEAD, 0); most], vec![0xC0; most])), Outcome::Marked(most));
    assert_eq!(outcome(Act::Class(vec![word(HEAD, 0); most + 1], vec![0xC0; most + 1])), Outcome::Refused(14));
}

#[test]
fn a_reason_shows_as_many_words_as_the_header_says() {
    let (most, longest) = (limit("MOST_UNKNOWNS"), limit("LONGEST_REASON"));
    // none is claimed, or one vector of the many; or 0 = 1 stands there as often as it can
    for (n, k, vectors, number) in [
        (most, 0, vec![], limit("REASON_SOLVABLE")),
        (most, 0, vec![vec![0; most]], limit("REASON_MISSED")),
        (1, limit("MOST_EQUATIONS"), vec![vec![0]], limit("REASON_UNSOLVABLE")),
    ] {
        let mut desk = Desk::fresh();
        let mut outcome = |act: Act| desk.act(&act).unwrap().outcome;
        assert_eq!(outcome(Act::Open(opening(limit("LARGEST_MODULUS") as u32, n as u32))), Outcome::Holds(0));
        for held in 1..=k {
            assert_eq!(outcome(Act::Add(equation(&[vec![0; n], vec![1]].concat()))), Outcome::Holds(held));
        }
        for (room, expected) in [(longest - 1, Outcome::Refused(8)), (longest, Outcome::Reason(number as u32))] {
            let act = Act::Reason(ledger::claim(&vectors), face::untouched(3), face::untouched(room));
            assert_eq!(outcome(act), expected, "{n} unknowns, {k} equations, {room} words");
        }
    }
}

#[test]
fn a_sheet_for_a_wanted_answer_needs_the_room_that_the_header_says() {
    assert!(HEADER.contains("\n#define MILEBADGER_SHEET_ROOM(n) (2 * (size_t)(n) * ((size_t)(n) + 1))\n"));
    let (m, most) = (limit("LARGEST_MODULUS") as u32, limit("MOST_UNKNOWNS"));
    assert!(HEADER.contains(&format!("of n equations, {} for the largest n.", ledger::sheet_room(most))));
    for n in 1..=most {
        let room = ledger::sheet_room(n);
        // one solution, whose entries take two words each; and none
        for vectors in [vec![vec![m - 1; n]], vec![]] {
            let words = ledger::claim(&vectors);
            assert_eq!(face::sheet_for(m, n as u32, &words, room - 1).result, -8, "{n} unknowns");
            let result = face::sheet_for(m, n as u32, &words, room).result;
            assert!((1..=n as i64).contains(&result), "{result} for {n} unknowns");
        }
    }
    let vectors = vec![vec![0; most]; limit("LARGEST_HEAD") + 1];
    let result = |n: usize, vectors: &[Vec<u32>]| face::sheet_for(m, n as u32, &ledger::claim(vectors), 1_000).result;
    assert!(result(most, &vectors[1..]) > 0);
    assert_eq!(result(most, &vectors), -1);
    assert_eq!(result(most + 1, &[]), -3);
}

#[test]
fn the_header_has_the_marks_of_the_paper() {
    assert_eq!(["FAIL", "PASS", "LONG"].map(limit), [0, 1, 2]);
}

#[test]
fn the_header_has_the_reasons_in_the_order_of_the_paper() {
    let names = ["SOLVABLE", "UNSOLVABLE", "START", "STEP", "MISSED", "SUPERFLUOUS"];
    let reasons = [
        Reason::Solvable,
        Reason::Unsolvable,
        Reason::Breaks { equation: 1 },
        Reason::Changes { step: 1, equation: 1 },
        Reason::Misses,
        Reason::Superfluous { step: 1 },
    ];
    for (name, reason) in names.iter().zip(reasons) {
        assert_eq!(limit(&format!("REASON_{name}")) as u32, reason.numbers()[0], "{name}");
    }
}

#[test]
fn numbers_of_an_equation_go_as_far_as_the_header_says_and_those_of_a_claim_up_to_the_modulus() {
    let (alone, largest) = (limit("LARGEST_NUMBER") as i64, limit("LARGEST_MODULUS") as i64);
    assert_eq!([alone, largest], [ledger::LARGEST_ALONE as i64, ledger::LARGEST]);
    let (mut desk, m) = (Desk::fresh(), limit("LARGEST_MODULUS") as u32);
    let mut outcome = |act: Act| desk.act(&act).unwrap().outcome;
    assert_eq!(outcome(Act::Open(opening(m, 2))), Outcome::Holds(0));
    let all = [
        [largest; 3],
        [-largest; 3],
        [largest, -largest, 0],
        [0, largest, -largest],
        [alone; 3],
        [-alone, alone + 1, -1 - alone],
    ];
    for (held, numbers) in all.iter().enumerate() {
        assert_eq!(outcome(Act::Add(equation(numbers))), Outcome::Holds(held + 1), "{numbers:?}");
    }
    for (number, expected) in [(alone as u32, Outcome::Fail), (m - 1, Outcome::Fail), (m, Outcome::Refused(6))] {
        assert_eq!(outcome(Act::Mark(ledger::claim(&[vec![1, number]]))), expected, "{number}");
    }
}

/// The kind that the header gives to the words of a name.
fn kind(name: &str) -> u32 {
    let define = format!("#define MILEBADGER_{name}");
    let rest = HEADER.lines().find_map(|line| line.strip_prefix(&define)).expect(name);
    let (_, behind) = rest.split_once("MILEBADGER_WORD(").expect(name);
    behind.split_once(',').unwrap().0.parse().unwrap()
}

#[test]
fn the_header_has_the_kinds_of_the_paper() {
    for (name, number) in [
        ("MODULUS(", ledger::MODULUS),
        ("UNKNOWNS(", ledger::UNKNOWNS),
        ("COEFFICIENT(", ledger::COEFFICIENT),
        ("RIGHT(", ledger::RIGHT),
        ("HEAD(", HEAD),
        ("ENTRY(", ENTRY),
        ("STRIKE ", ledger::STRIKE),
        ("STRIKE_AT(", ledger::STRIKE),
        ("ANSWER ", ANSWER),
        ("MINUS_COEFFICIENT(", ledger::MINUS_COEFFICIENT),
        ("MINUS_RIGHT(", ledger::MINUS_RIGHT),
        ("OWN_MODULUS(", ledger::OWN_MODULUS),
    ] {
        assert_eq!(kind(name), number, "{name}");
    }
    assert!(HEADER.contains("\n#define MILEBADGER_TOP(number) ((uint32_t)13 << 28 | (uint32_t)(number) >> 28)\n"));
}

#[test]
fn a_typed_equation_may_be_as_long_as_the_header_says() {
    let longest = limit("LONGEST_TEXT");
    let mut desk = Desk::fresh();
    let mut outcome = |act: Act| desk.act(&act).unwrap().outcome;
    assert_eq!(outcome(Act::Open(opening(2, 1))), Outcome::Holds(0));
    for (length, expected) in [(longest + 1, Outcome::Refused(11)), (longest, Outcome::Holds(1))] {
        assert_eq!(outcome(Act::AddText(format!("{:length$}", "x1=1").into_bytes())), expected, "{length}");
    }
}

#[test]
fn moduli_unknowns_and_equations_go_as_far_as_the_header_says() {
    let (modulus, unknowns) = (limit("LARGEST_MODULUS") as u32, limit("MOST_UNKNOWNS") as u32);
    let longest = lines(&opening(modulus, unknowns));
    assert_eq!(longest, format!("open {modulus} {unknowns}\n"));
    assert!(HEADER.contains(&format!("bytes for each ANSWER, {} for each other call", longest.len())));
    assert_eq!(lines(&opening(1, unknowns)), "refused 2\n");
    assert_eq!(lines(&opening(modulus, unknowns + 1)), "refused 3\n");

    let equations = limit("MOST_EQUATIONS");
    let added: String = (1..=equations).map(|held| format!("added {held}\n")).collect();
    let words = [opening(2, 1), equation(&[0, 0]).repeat(equations + 1)].concat();
    assert_eq!(lines(&words), format!("open 2 1\n{added}refused 5\n"));
}

#[test]
fn safes_and_blocks_are_as_large_as_the_header_says() {
    let locks = limit("MOST_LOCKS");
    let values = vec![word(ENTRY, 0); locks + 1];
    assert_eq!(face::safe(2, 1, locks as u32, &values[..locks], locks).result, locks as i64);
    assert_eq!(face::safe(2, 1, locks as u32 + 1, &values, locks + 1).result, -3);
    // mod this prime the turns of 4 rows and 4 columns are the only ones, and here each of them has two words
    let (m, longest) = (4_294_967_291, limit("LONGEST_TURNS"));
    let turns: Vec<u32> = (0..locks as u32).map(|i| m - 1 - 7 * i).collect();
    let mut closed = Safe { m, rows: 4, columns: 4, values: vec![0; locks] };
    let back: Vec<u32> = turns.iter().map(|t| m - t).collect();
    closed.values = closed.after(&back);
    let values: Vec<u32> = closed.values.iter().flat_map(|&value| ledger::written(ENTRY, value)).collect();
    assert_eq!(face::safe(m, 4, 4, &values, longest).result, longest as i64);
    assert_eq!(face::safe(m, 4, 4, &values, longest - 1).result, -8);

    let longest = limit("LONGEST_BLOCK");
    assert_eq!(face::solve(2, 16, &[], longest).result, longest as i64);
    assert_eq!(face::solve(2, 16, &[], longest - 1).result, -8);
}

#[test]
fn a_claim_above_the_largest_head_is_read_word_by_word() {
    let largest = limit("LARGEST_HEAD");
    let claim = |head: usize| [vec![word(HEAD, head as u32)], vec![word(ENTRY, 0); head]].concat();
    assert_eq!(lines(&[opening(2, 1), claim(largest)].concat()), "open 2 1\nfail\n");
    let refused = "refused 1\n".repeat(largest + 2);
    assert_eq!(lines(&[opening(2, 1), claim(largest + 1)].concat()), format!("open 2 1\n{refused}"));
    assert_eq!(limit("LARGEST_NUMBER"), (1 << 28) - 1);
}

#[test]
fn left_over_bytes_fill_the_room_of_a_tape_without_words() {
    assert_eq!(face::tape(&[0; 3], room(3)).result, room(3) as i64);
}

/// Equations in 16 unknowns with the longest answer: 2·x1 = b, x1 + 2·x2 = c, x2 + 2·x3 = c and so on, mod 15 times 2^28. A step begins
/// with half the modulus, and each entry behind that is half of what is left up to the modulus: so all have ten digits. The right sides fit
/// a start in which each entry is as large as it can be. The words of the opening, and of each equation.
fn long_answer() -> Vec<Vec<u32>> {
    let m: u32 = 15 << 28;
    let largest = m as i64 / 2 - 1;
    let mut words = vec![opening(m, 16)];
    for i in 0..16 {
        let mut numbers = vec![0; 17];
        numbers[i] = 2;
        if i > 0 {
            numbers[i - 1] = 1;
        }
        numbers[16] = numbers.iter().sum::<i64>() * largest % m as i64;
        words.push(equation(&numbers));
    }
    words
}

#[test]
fn the_longest_tape_of_longest_answers_fits_its_room_and_nearly_fills_it() {
    let mut words = long_answer().concat();
    let before = lines(&words);
    words.push(word(ANSWER, 0));
    let all = lines(&words);
    let answer = all.strip_prefix(&before).unwrap();
    assert_eq!(answer.split_inclusive('\n').map(str::len).max(), Some(limit("LONGEST_LINE")));
    assert_eq!(answer.lines().count(), limit("LARGEST_HEAD"));
    assert_eq!(answer.len(), limit("LONGEST_ANSWER"), "{answer}");

    let longest = limit("LONGEST_TAPE");
    words.resize(longest / 4, word(ANSWER, 0));
    let length = lines(&words).len();
    assert!(length > room(longest) / 100 * 97, "{length} bytes of {}", room(longest));
    assert_eq!(face::tape(&vec![0; longest + 1], 0).result, -10);
}
