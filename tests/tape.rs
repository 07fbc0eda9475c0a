//! The paper's tape and its lines once more in plain Rust, over the ledger beside it.
#![allow(dead_code)]

use crate::ledger::{self, number, word, Call, Ledger, Said, Solved};
use crate::ledger::{ANSWER, COEFFICIENT, HEAD, MINUS_COEFFICIENT, MODULUS, OWN_MODULUS, STRIKE};

/// The most bytes that a tape may have.
pub const LONGEST_TAPE: usize = 65_536;

/// "Words lie low byte first."
pub fn bytes(words: &[u32]) -> Vec<u8> {
    words.iter().flat_map(|w| w.to_le_bytes()).collect()
}

/// The whole words of a tape.
pub fn words(tape: &[u8]) -> Vec<u32> {
    tape.chunks_exact(4).map(|b| u32::from_le_bytes([b[0], b[1], b[2], b[3]])).collect()
}

/// "The first word's kind picks the call: 1 takes 2 words, 3 takes n+1, 5 takes 1 + n times its number; all other kinds take one,
/// as do 3 and 5 when unopened and 5 with a number above 17. If fewer remain, all of them." And "a first word of kind 10 begins an
/// add of n+1 words as kind 3 does"; one of kind 12 "begins its add, which then takes n+2 words, or one when unopened". "A call that
/// starts with a good kind 13 word is picked by the word after it"; one that breaks the rule "is a call of one word". The call, and
/// how much of the memory it takes.
pub fn first_call(ledger: &Ledger, memory: &[u32]) -> (Call, usize) {
    let ledger::Word { kind, number } = ledger::first(memory);
    let wanted = match (kind, ledger) {
        (MODULUS, _) => 2,
        (COEFFICIENT | MINUS_COEFFICIENT, Ledger::Opened(system)) => system.n + 1,
        (OWN_MODULUS, Ledger::Opened(system)) => system.n + 2,
        (HEAD, Ledger::Opened(system)) if number <= 17 => 1 + system.n * number as usize,
        _ => 1,
    };
    let used = ledger::front(memory, wanted);
    let own = memory[..used].to_vec();
    let call = match kind {
        MODULUS => Call::Open(own),
        COEFFICIENT | MINUS_COEFFICIENT | OWN_MODULUS => Call::Add(own),
        HEAD => Call::Mark(own),
        STRIKE => Call::Strike(number),
        ANSWER => Call::AnswerFromTape(memory[0]),
        _ => Call::Meaningless(own),
    };
    (call, used)
}

/// What a tape's calls say, each with the equations that it found, and last whether there are left-over bytes.
pub struct Played {
    pub calls: Vec<(Call, Said, Ledger)>,
    pub left_over: bool,
}

/// The calls of a tape that is not too long, from a fresh sheet on.
pub fn play(tape: &[u8]) -> Played {
    assert!(tape.len() <= LONGEST_TAPE);
    let words = words(tape);
    let (mut ledger, mut rest, mut calls) = (Ledger::Unopened, &words[..], vec![]);
    while !rest.is_empty() {
        let (call, used) = first_call(&ledger, rest);
        let before = ledger.clone();
        let said = ledger.run(&call);
        calls.push((call, said, before));
        rest = &rest[used..];
    }
    Played { calls, left_over: tape.len() % 4 != 0 }
}

/// A line: the word, then the numbers, "parted by single spaces, with numbers in decimal without leading zeros"; it "ends in one
/// byte 0x0A".
fn line(name: &str, numbers: &[u32]) -> String {
    let numbers: String = numbers.iter().map(|number| format!(" {number}")).collect();
    format!("{name}{numbers}\n")
}

/// The lines that a call prints, or None where they are not known: multipliers are free, and large sheets are not solved here.
pub fn lines(said: &Said) -> Option<String> {
    Some(match said {
        Said::Opened { m, n } => line("open", &[*m, *n as u32]),
        Said::Added(held) => line("added", &[*held as u32]),
        Said::Struck(held) => line("struck", &[*held as u32]),
        Said::Answered(Solved::Vectors(answer)) => {
            let steps: String = answer.steps.iter().map(|step| line("step", step)).collect();
            line("from", &answer.start) + &steps
        }
        Said::Passed => line("pass", &[]),
        Said::Long => line("long", &[]),
        Said::Failed => line("fail", &[]),
        Said::Refused(number) => line("refused", &[*number]),
        Said::Answered(Solved::Nothing | Solved::Unknown) | Said::SomeMark => return None,
        Said::Classed(_) | Said::Reasoned(_) | Said::SomeReason => unreachable!("no call on tape"),
    })
}

/// The numbers of a line with this first word, if it is written as `line` writes it.
fn read_line(name: &str, text: &str) -> Option<Vec<u32>> {
    let numbers = text.strip_suffix('\n')?.strip_prefix(name)?.split(' ').skip(1);
    let numbers: Vec<u32> = numbers.map(|number| number.parse().ok()).collect::<Option<_>>()?;
    (line(name, &numbers) == text).then_some(numbers)
}

/// Why these bytes are not the lines of the tape, if they are not.
pub fn wrong_lines(tape: &[u8], printed: &[u8]) -> Option<String> {
    if tape.len() > LONGEST_TAPE {
        return (printed != b"refused 10\n").then(|| "not refused with 10".to_string());
    }
    let Ok(mut rest) = std::str::from_utf8(printed) else {
        return Some("not text".to_string());
    };
    let played = play(tape);
    for (place, (call, said, before)) in played.calls.iter().enumerate() {
        match printed_by(call, said, before, rest) {
            Some(length) => rest = &rest[length..],
            None => return Some(format!("call {place}, {call:?} on {before:?}: {said:?} expected at {rest:?}")),
        }
    }
    let last = if played.left_over { "refused 9\n" } else { "" };
    (rest != last).then(|| format!("{last:?} expected at the end, {rest:?} found"))
}

/// How many bytes at the front of the text are the lines of a call that says this; None where they are not its lines.
fn printed_by(call: &Call, said: &Said, before: &Ledger, text: &str) -> Option<usize> {
    if let Some(expected) = lines(said) {
        return text.starts_with(&expected).then_some(expected.len());
    }
    let Ledger::Opened(system) = before else { unreachable!("question 4") };
    let first = text.split_inclusive('\n').next()?;
    match (said, call) {
        (Said::SomeMark, Call::Mark(words)) => {
            // a claim without steps has none that is superfluous
            let long = first == "long\n" && ledger::first(words).number > 1;
            (first == "pass\n" || first == "fail\n" || long).then_some(first.len())
        }
        (Said::Answered(Solved::Nothing), _) => system.refuted_by(&read_line("none", first)?).then_some(first.len()),
        _ if first.starts_with("none") => system.refuted_by(&read_line("none", first)?).then_some(first.len()),
        _ => {
            let mut vectors = vec![read_line("from", first)?];
            let mut length = first.len();
            for following in text.split_inclusive('\n').skip(1).take_while(|line| line.starts_with("step")) {
                vectors.push(read_line("step", following)?);
                length += following.len();
            }
            let whole = vectors.iter().all(|v| v.len() == system.n);
            (whole && ledger::wrong_vectors(system, &vectors).is_none()).then_some(length)
        }
    }
}

/// The tape that the paper prints, and its ten lines.
pub const PAPER_TAPE: [u32; 20] = [
    0x10000002, 0x20000002, 0x30000001, 0x30000001, 0x40000001, 0x90000000, 0x30000001, 0x30000001, 0x40000000, 0x90000000,
    0x80000000, 0x50000001, 0x60000001, 0x60000000, 0x50000002, 0x60000001, 0x60000000, 0x60000001, 0x60000001, 0xA0000000,
];
pub const PAPER_LINES: &str = "open 2 2\nadded 1\nfrom 0 1\nstep 1 1\nadded 2\nnone 1 1\nstruck 1\nfail\npass\nrefused 1\n";

/// The kinds with which no call begins; a word of kind 13 that breaks the rule is refused with another number.
pub const MEANINGLESS: [u32; 8] = [0, 2, 4, 6, 7, 11, 14, 15];

/// Tapes that are easily misread, with their lines.
pub fn readings() -> Vec<(Vec<u32>, String)> {
    let opened = |words: &[u32]| [&ledger::opening(3, 2), words].concat();
    let meaningless: Vec<u32> = MEANINGLESS.iter().map(|&kind| word(kind, 5)).collect();
    vec![
        // whatever its number, a word of a call on an unopened sheet says 4
        (vec![0x3000_0001, 0x5000_0001, 0x8000_0001, 0x9000_0001, 0x8000_0000, 0x9000_0000], "refused 4\n".repeat(6)),
        // words without meaning, and a minus right side, say 1, opened or not
        (meaningless.clone(), "refused 1\n".repeat(8)),
        (opened(&meaningless), "open 3 2\n".to_string() + &"refused 1\n".repeat(8)),
        // a call's length does not look at the kinds of the later words
        (opened(&[0x3000_0001, 0x9000_0000, 0x4000_0000]), "open 3 2\nrefused 1\n".to_string()),
        // a call that is cut off is one call
        (opened(&[0x3000_0001, 0x3000_0000]), "open 3 2\nrefused 1\n".to_string()),
        (vec![0x1000_0003], "refused 1\n".to_string()),
        // a head above 17 takes one word, and so does head 0
        (opened(&[0x5000_0012, 0x5000_0000]), "open 3 2\nrefused 1\nfail\n".to_string()),
        // an answer has the number 0; a strike asks for an equation first, whatever its number
        (opened(&[0x9000_0001, 0x8000_0001, 0x8000_0000]), "open 3 2\nrefused 1\nrefused 7\nrefused 7\n".to_string()),
    ]
}

/// Tapes with minus signs and numbers from m on, with their lines.
pub fn signed_readings() -> Vec<(Vec<u32>, String)> {
    let opened = |words: &[u32]| [&ledger::opening(3, 2), words].concat();
    let wrong_shape = |words: &[u32]| (opened(words), "open 3 2\nrefused 1\n".to_string());
    let full = [ledger::opening(3, 2), ledger::equation(&[0, 0, 0]).repeat(16)].concat();
    let answered = [
        [0xA000_0001, 0x3000_0001, 0xB000_0002, 0x9000_0000],
        [0x3000_0001, 0xA000_0001, 0x4000_0002, 0x9000_0000],
        [0xA000_0000, 0xA000_0000, 0xB000_0000, 0x9000_0000],
    ];
    let answers = (1..=3).map(|held| format!("added {held}\nfrom 0 1\nstep 1 1\n")).collect::<String>();
    let filled = "open 3 2\n".to_string() + &(1..=16).map(|held| format!("added {held}\n")).collect::<String>();
    vec![
        // a minus coefficient takes one word where the sheet is not opened; the right side behind it is a word of its own
        (vec![0xA000_0001, 0xA000_0000, 0xAFFF_FFFF, 0xB000_0001], "refused 4\n".repeat(3) + "refused 1\n"),
        // a minus right side says 1, opened or not, and takes one word
        (vec![0xB000_0000, 0x9000_0000, 0xBFFF_FFFF], "refused 1\nrefused 4\nrefused 1\n".to_string()),
        (opened(&[0xB000_0001, 0xB000_0000, 0x8000_0000]), "open 3 2\nrefused 1\nrefused 1\nrefused 7\n".to_string()),
        // one call, cut off: it is the last word of the paper's tape too
        wrong_shape(&[0xA000_0000]),
        wrong_shape(&[0xA000_0001, 0x3000_0000]),
        wrong_shape(&[0x3000_0001, 0xA000_0000]),
        // one call of two or three words, whatever kinds the later ones have
        wrong_shape(&[0xA000_0001, 0x9000_0000, 0xB000_0000]),
        wrong_shape(&[0xA000_0001, 0x3000_0001, 0xA000_0001]),
        wrong_shape(&[0xA000_0001, 0xA000_0001, 0x3000_0001]),
        wrong_shape(&[0xA000_0001, 0xB000_0001, 0xB000_0001]),
        wrong_shape(&[0xA000_0001, 0x4000_0001, 0xB000_0001]),
        wrong_shape(&[0x3000_0001, 0xB000_0001, 0x4000_0001]),
        wrong_shape(&[0x5000_0001, 0xA000_0001, 0x6000_0001]),
        wrong_shape(&[0x5000_0001, 0x6000_0001, 0xB000_0001]),
        wrong_shape(&[0x1000_0003, 0xA000_0002]),
        // a claim's entries have no minus sign and no number from m on
        (opened(&[0x5000_0001, 0x6000_0003, 0x6000_0000]), "open 3 2\nrefused 6\n".to_string()),
        // a full sheet asks for the shape first
        ([&full[..], &[0xA000_0001, 0x3000_0001, 0xB000_0001]].concat(), filled.clone() + "refused 5\n"),
        ([&full[..], &[0xA000_0003, 0x3000_0004, 0x4FFF_FFFF]].concat(), filled.clone() + "refused 5\n"),
        ([&full[..], &[0xA000_0001, 0x3000_0001, 0xA000_0001]].concat(), filled.clone() + "refused 1\n"),
        ([&full[..], &[0xA000_0001]].concat(), filled + "refused 1\n"),
        // mod 3: -x1 + x2 = -2, then x1 - x2 = 2, then their sum, with minus 0 everywhere
        (opened(&answered.concat()), "open 3 2\n".to_string() + &answers),
    ]
}

/// One equation in one unknown mod m, by its two words, and the lines of its answer.
pub const SIGNED: [(u32, [u32; 2], &str); 17] = [
    (2, [0xA000_0001, 0x4000_0001], "from 1\n"),
    (2, [0x3000_0001, 0xB000_0001], "from 1\n"),
    (2, [0xAFFF_FFFF, 0xBFFF_FFFF], "from 1\n"),
    (2, [0xA000_0002, 0xB000_0002], "from 0\nstep 1\n"),
    (3, [0x3000_0004, 0x4000_0005], "from 2\n"),
    (3, [0xA000_0004, 0x4000_0005], "from 1\n"),
    (12, [0xA000_0004, 0xB000_0008], "from 2\nstep 3\n"),
    (12, [0x3000_0010, 0xB000_0004], "from 2\nstep 3\n"),
    (65_535, [0xA000_0001, 0x4000_0001], "from 65534\n"),
    (65_535, [0xA000_0000, 0xB000_0000], "from 0\nstep 1\n"),
    (65_535, [0x3000_FFFF, 0x4000_FFFF], "from 0\nstep 1\n"),
    (65_535, [0xA000_FFFF, 0xB000_FFFF], "from 0\nstep 1\n"),
    (65_535, [0x3000_0001, 0x4FFF_FFFF], "from 4095\n"),
    (65_535, [0x3000_0001, 0xBFFF_FFFF], "from 61440\n"),
    // 4,095 and 65,535 have the common divisor 15
    (65_535, [0x3FFF_FFFF, 0x4000_0FFF], "from 1\nstep 4369\n"),
    (65_535, [0xAFFF_FFFF, 0x4000_0FFF], "from 4368\nstep 4369\n"),
    (65_535, [0xAFFF_FFFF, 0x4000_F000], "from 1\nstep 4369\n"),
];

/// Tapes with words of kind 13, good ones and others, with their lines.
pub fn wide_readings() -> Vec<(Vec<u32>, String)> {
    let opened = |words: &[u32]| [&ledger::opening(3, 2), words].concat();
    let after = |words: &[u32], lines: &str| (opened(words), format!("open 3 2\n{lines}"));
    let either = |words: &[u32], lines: &str| [(words.to_vec(), lines.to_string()), after(words, lines)];
    let alone = |words: &[u32], lines: &str| (words.to_vec(), lines.to_string());
    let mut all = vec![
        alone(&[0x1001_0000, 0x2000_0001], "open 65536 1\n"),
        alone(&[0xD000_000F, 0x1FFF_FFFF, 0x2000_0001], "open 4294967295 1\n"),
        alone(&[0xD000_0001, 0x1000_0000, 0x2000_0010], "open 268435456 16\n"),
        alone(&[0x1FFF_FFFF, 0x2000_0001], "open 268435455 1\n"),
        alone(&[0xD000_000F, 0x1FFF_FFFF, 0x2000_0011], "refused 3\n"),
        alone(&[0xD000_000F, 0x1FFF_FFFF, 0x1000_0001], "refused 1\n"),
        alone(&[0xD000_000F, 0x1FFF_FFFF], "refused 1\n"),
        // the words of a call that is not opened are words of their own, and a good pair is one
        (vec![0xD000_0001, 0x3000_0001, 0xD000_0001, 0xA000_0001, 0xD000_000F, 0xC000_0000], "refused 4\n".repeat(3)),
        // one equation of three words in five places; 2^28 is 1 mod 3
        after(&[0xD000_0001, 0x3000_0000, 0x3000_0001, 0xD000_000F, 0xBFFF_FFFF, 0x9000_0000], "added 1\nfrom 0 0\nstep 1 2\n"),
        after(&[0xD000_0001, 0xA000_0000, 0x3000_0001, 0x4000_0001, 0x9000_0000], "added 1\nfrom 0 1\nstep 1 1\n"),
        after(&[0xD000_0001, 0xC000_0003, 0x3000_0001, 0x3000_0001, 0x4000_0001], "refused 15\n"),
        // a pair counts once, and what is cut short within is whole or not as the rule says
        after(&[0x3000_0001, 0xD000_0001, 0x3000_0000, 0x8000_0000], "refused 1\n"),
        after(&[0x3000_0001, 0xD000_0001, 0x3000_0000, 0x4000_0001, 0x8000_0000], "added 1\nstruck 0\n"),
        after(&[0x3000_0001, 0x3000_0000, 0xD000_0001], "refused 17\n"),
        after(&[0x3000_0001, 0xD000_0001], "refused 17\n"),
        after(&[0xC000_0003, 0xD000_0001], "refused 17\n"),
        after(&[0x5000_0001, 0xD000_0001], "refused 17\n"),
        // a bad one is one of the words that the call takes
        after(&[0x3000_0001, 0xD000_0000, 0x3000_0000, 0x4000_0001], "refused 17\nrefused 1\n"),
        after(&[0x3000_0001, 0xD000_0010, 0x3000_0000, 0x4000_0001], "refused 17\nrefused 1\n"),
        after(&[0x3000_0001, 0xD000_0001, 0xD000_0001, 0x3000_0000, 0x8000_0000], "refused 17\nrefused 7\n"),
        after(&[0x3000_0001, 0x3000_0001, 0xD000_0001, 0x9000_0000], "refused 17\nfrom 0 0\nstep 1 0\nstep 0 1\n"),
        after(&[0x5000_0001, 0xD000_0001, 0x5000_0000, 0x6000_0000], "refused 17\nrefused 1\n"),
        after(&[0x5000_0001, 0x6000_0000, 0xD000_0001, 0x6000_0000], "refused 6\n"),
        after(&[0x5000_0000, 0xD000_0001, 0x6000_0000], "fail\nrefused 1\n"),
        after(&[0x5000_0012, 0xD000_0001, 0x6000_0000], "refused 1\nrefused 1\n"),
        // an opening of two words, of which the second is bad: what follows is no part of it
        alone(&[0x1000_0005, 0xD000_0001, 0x2000_0001], "refused 17\nrefused 1\n"),
        alone(&[0x1000_0005, 0xD000_0001, 0x1000_0001, 0x2000_0001], "refused 1\nrefused 1\n"),
        alone(&[0x1000_0005, 0xD000_0001], "refused 17\n"),
    ];
    // as first word it is a call of one word, opened or not: before kinds 2, 5, 8, 9, 13 and those without meaning, with 0 or above 15
    all.extend(either(&[0xD000_0001], "refused 17\n"));
    all.extend(either(&[0xD000_0001, 0x2000_0001], "refused 17\nrefused 1\n"));
    all.extend(either(&[0xD000_0001, 0xE000_0000, 0xD000_000F, 0x0000_0000], "refused 17\nrefused 1\nrefused 17\nrefused 1\n"));
    all.extend(either(&[0xD000_0000, 0x1000_0005, 0x2000_0001], "refused 17\nopen 5 1\n"));
    all.extend(either(&[0xD000_0010, 0x1000_0005, 0x2000_0001], "refused 17\nopen 5 1\n"));
    all.extend(either(&[0xDFFF_FFFF, 0x1000_0005, 0x2000_0001], "refused 17\nopen 5 1\n"));
    all.extend(either(&[0xD000_0001, 0xD000_0001, 0x1000_0005, 0x2000_0001], "refused 17\nopen 268435461 1\n"));
    all.push(alone(&[0xD000_0001, 0x5000_0000, 0xD000_0001, 0x8000_0000], "refused 17\nrefused 4\nrefused 17\nrefused 4\n"));
    all.push(alone(&[0xD000_0001, 0x9000_0000], "refused 17\nrefused 4\n"));
    all.push(after(&[0xD000_0001, 0x5000_0000, 0xD000_0001, 0x8000_0000], "refused 17\nfail\nrefused 17\nrefused 7\n"));
    // a good pair with which no call begins
    for kind in [4, 6, 7, 11] {
        all.extend(either(&[0xD000_0001, kind << 28, kind << 28], "refused 1\nrefused 1\n"));
    }
    all
}

/// Equations in one unknown with large numbers, mod a large modulus, by the places of memory in which they lie, and the lines of their
/// answer.
pub const WIDE: [(u32, &[u32], &str); 14] = [
    (65_536, &[0xA000_0001, 0x4000_0001], "from 65535\n"),
    (65_536, &[0x3000_0002, 0x4000_0004], "from 2\nstep 32768\n"),
    (65_536, &[0x3000_0001, 0xD000_000F, 0x4FFF_FFFF], "from 65535\n"),
    (268_435_455, &[0xA000_0001, 0x4000_0001], "from 268435454\n"),
    (268_435_456, &[0xA000_0001, 0x4000_0001], "from 268435455\n"),
    (268_435_457, &[0xA000_0001, 0x4000_0001], "from 268435456\n"),
    (268_435_457, &[0x3000_0001, 0xD000_0001, 0x4000_0001], "from 0\n"),
    (4_294_967_295, &[0xA000_0001, 0x4000_0001], "from 4294967294\n"),
    (4_294_967_295, &[0xD000_000F, 0x3FFF_FFFE, 0x4000_0001], "from 4294967294\n"),
    (4_294_967_295, &[0xD000_000F, 0xAFFF_FFFF, 0x4000_0000], "from 0\nstep 1\n"),
    // 3 times 1,431,655,765 is the modulus
    (4_294_967_295, &[0x3000_0003, 0x4000_0006], "from 2\nstep 1431655765\n"),
    (4_294_967_295, &[0xD000_0005, 0x3555_5555, 0xD000_000A, 0x4AAA_AAAA], "from 2\nstep 3\n"),
    // 2 times 2,147,483,646 is 1 mod this prime
    (4_294_967_291, &[0x3000_0002, 0x4000_0001], "from 2147483646\n"),
    (4_294_967_291, &[0xD000_000F, 0xAFFF_FFFB, 0xD000_000F, 0xBFFF_FFFB], "from 0\nstep 1\n"),
];

/// Such a tape and all its lines.
pub fn wide_tape(m: u32, equation: &[u32], answer: &str) -> (Vec<u32>, String) {
    let words = [&ledger::opening(m, 1)[..], equation, &[word(ANSWER, 0)]].concat();
    (words, format!("open {m} 1\nadded 1\n{answer}"))
}

/// Such a tape and all its lines.
pub fn signed_tape(m: u32, equation: [u32; 2], answer: &str) -> (Vec<u32>, String) {
    let words = [&ledger::opening(m, 1)[..], &equation, &[word(ANSWER, 0)]].concat();
    (words, format!("open {m} 1\nadded 1\n{answer}"))
}

/// Tapes with words of kind 12, on a sheet mod 12, with their lines.
pub fn own_readings() -> Vec<(Vec<u32>, String)> {
    let opened = |words: &[u32]| [&ledger::opening(12, 2), words].concat();
    let after = |words: &[u32], lines: &str| (opened(words), format!("open 12 2\n{lines}"));
    let full = [ledger::opening(12, 2), ledger::own_equation(3, &[0, 0, 0]).repeat(16)].concat();
    let filled = "open 12 2\n".to_string() + &(1..=16).map(|held| format!("added {held}\n")).collect::<String>();
    let overfull = |words: &[u32], line: &str| ([&full[..], words].concat(), format!("{filled}{line}"));
    vec![
        // one word where the sheet is not opened, whatever its number: what stands behind it are words of their own
        (vec![0xC000_0003], "refused 4\n".to_string()),
        (vec![0xC000_0000, 0xCFFF_FFFF, 0xC000_0003], "refused 4\n".repeat(3)),
        (vec![0xC000_0003, 0x3000_0001, 0x4000_0002], "refused 4\nrefused 4\nrefused 1\n".to_string()),
        (
            [vec![0xC000_0003], opened(&[0x9000_0000])].concat(),
            "refused 4\nopen 12 2\nfrom 0 0\nstep 1 0\nstep 0 1\n".to_string(),
        ),
        // one call of four words, whatever kinds the later ones have
        after(&[0xC000_0003, 0x3000_0001, 0xA000_0001, 0xB000_0001], "added 1\n"),
        after(&[0xC000_0003, 0x3000_0001, 0x4000_0001, 0x9000_0000, 0x8000_0000], "refused 1\nrefused 7\n"),
        after(&[0xC000_0003, 0x9000_0000, 0x9000_0000, 0x9000_0000, 0x8000_0000], "refused 1\nrefused 7\n"),
        after(&[0xC000_0003, 0x1000_0007, 0x2000_0001, 0x4000_0001, 0x8000_0000], "refused 1\nrefused 7\n"),
        // all that remain, if they are fewer; also where the modulus is none
        after(&[0xC000_0003], "refused 1\n"),
        after(&[0xC000_0000], "refused 1\n"),
        after(&[0xC000_0003, 0x3000_0001], "refused 1\n"),
        after(&[0xC000_0005, 0x3000_0001, 0x3000_0001], "refused 1\n"),
        // twice, or not in front; or where the unknowns of an opening should stand
        after(&[0xC000_0003, 0xC000_0003, 0x3000_0001, 0x3000_0001, 0x4000_0001], "refused 1\nrefused 1\n"),
        after(&[0xC000_0003, 0xC000_0003, 0x3000_0001, 0x4000_0001], "refused 1\n"),
        after(&[0x3000_0001, 0xC000_0003, 0x3000_0001, 0x4000_0001], "refused 1\nrefused 1\n"),
        after(&[0x3000_0001, 0x3000_0001, 0xC000_0003, 0x8000_0000], "refused 1\nrefused 7\n"),
        after(&[0xC000_0003, 0x3000_0001, 0x3000_0001, 0xC000_0003], "refused 1\n"),
        (vec![0x1000_000C, 0xC000_0002, 0x9000_0000], "refused 1\nrefused 4\n".to_string()),
        // the modulus is below 2, or does not divide 12
        after(&[0xC000_0000, 0x3000_0001, 0x3000_0001, 0x4000_0001, 0x8000_0000], "refused 15\nrefused 7\n"),
        after(&[0xC000_0001, 0x3000_0001, 0xA000_0001, 0x4000_0001], "refused 15\n"),
        after(&[0xC000_0005, 0xA000_0001, 0x3000_0001, 0xB000_0001], "refused 15\n"),
        after(&[0xC000_0018, 0x3000_0001, 0x3000_0001, 0x4000_0001], "refused 15\n"),
        after(&[0xCFFF_FFFF, 0x3000_0001, 0x3000_0001, 0x4000_0001], "refused 15\n"),
        // a full sheet asks for the shape first, then for the modulus
        overfull(&[0xC000_0003, 0x3000_0001, 0x3000_0001, 0x4000_0001], "refused 5\n"),
        overfull(&[0xC000_0005, 0x3000_0001, 0x3000_0001, 0x4000_0001], "refused 15\n"),
        overfull(&[0xC000_0005, 0x3000_0001, 0x3000_0001, 0x3000_0001], "refused 1\n"),
        overfull(&[0xC000_0005, 0x3000_0001, 0x3000_0001], "refused 1\n"),
        // mod 3 x - y = 1, then mod 4 x + 4y = 6, then mod 12 -x + y = -1; and all struck again but the first
        after(
            &[
                0xC000_0003,
                0x3000_0001,
                0xA000_0001,
                0x4000_0001,
                0x9000_0000,
                0xC000_0004,
                0x3000_0001,
                0x3000_0004,
                0x4000_0006,
                0x9000_0000,
                0xC000_000C,
                0xA000_0001,
                0x3000_0001,
                0xB000_0001,
                0x9000_0000,
                0x8000_0000,
                0x8000_0000,
                0x9000_0000,
            ],
            "added 1\nfrom 0 2\nstep 1 1\nstep 0 3\nadded 2\nfrom 2 1\nstep 4 1\nstep 0 3\n\
             added 3\nfrom 2 1\nstep 4 4\nstruck 2\nstruck 1\nfrom 0 2\nstep 1 1\nstep 0 3\n",
        ),
    ]
}

/// Tapes with strikes at any place, and an answer behind them, with their lines.
pub fn struck_readings() -> Vec<(Vec<u32>, String)> {
    let played = |opening: Vec<u32>, equations: [Vec<u32>; 3], strikes: &[u32], lines: &str| {
        let opened = format!("open {} {}\nadded 1\nadded 2\nadded 3\n", number(opening[0]), number(opening[1]));
        ([&opening[..], &equations.concat(), strikes, &[0x9000_0000]].concat(), opened + lines)
    };
    // mod 5 x = 1, y = 2, z = 3
    let three = |strikes: &[u32], lines: &str| {
        let equations = [[1, 0, 0, 1], [0, 1, 0, 2], [0, 0, 1, 3]].map(|numbers| ledger::equation(&numbers));
        played(ledger::opening(5, 3), equations, strikes, lines)
    };
    // mod 12 x = 2 mod 3, x = 3 mod 4, x = 1 mod 2
    let clock = |strikes: &[u32], lines: &str| {
        let equations = [(3, 2), (4, 3), (2, 1)].map(|(q, right)| ledger::own_equation(q, &[1, right]));
        played(ledger::opening(12, 1), equations, strikes, lines)
    };
    // mod 2 x = 0, y = 1, x = 1
    let none = |strikes: &[u32], lines: &str| {
        let equations = [[1, 0, 0], [0, 1, 1], [1, 0, 1]].map(|numbers| ledger::equation(&numbers));
        played(ledger::opening(2, 2), equations, strikes, lines)
    };
    vec![
        three(&[0x8000_0001], "struck 2\nfrom 0 2 3\nstep 1 0 0\n"),
        three(&[0x8000_0002], "struck 2\nfrom 1 0 3\nstep 0 1 0\n"),
        three(&[0x8000_0003], "struck 2\nfrom 1 2 0\nstep 0 0 1\n"),
        three(&[0x8000_0000], "struck 2\nfrom 1 2 0\nstep 0 0 1\n"),
        three(&[0x8000_0004], "refused 16\nfrom 1 2 3\n"),
        three(&[0x8000_0010, 0x8000_0011, 0x8100_0000, 0x8FFF_FFFF], "refused 16\nrefused 16\nrefused 16\nrefused 16\nfrom 1 2 3\n"),
        // the third line is the second once the second is struck, and no longer the third
        three(&[0x8000_0002, 0x8000_0002], "struck 2\nstruck 1\nfrom 1 0 0\nstep 0 1 0\nstep 0 0 1\n"),
        three(&[0x8000_0002, 0x8000_0003], "struck 2\nrefused 16\nfrom 1 0 3\nstep 0 1 0\n"),
        // whatever the place, 7 where no equation is left
        three(
            &[0x8000_0001, 0x8000_0001, 0x8000_0001, 0x8000_0001, 0x8FFF_FFFF, 0x8000_0000],
            "struck 2\nstruck 1\nstruck 0\nrefused 7\nrefused 7\nrefused 7\nfrom 0 0 0\nstep 1 0 0\nstep 0 1 0\nstep 0 0 1\n",
        ),
        // the lines behind keep their own modulus
        clock(&[0x8000_0001], "struck 2\nfrom 3\nstep 4\n"),
        clock(&[0x8000_0002], "struck 2\nfrom 5\nstep 6\n"),
        clock(&[0x8000_0003], "struck 2\nfrom 11\n"),
        // and multipliers are those for the lines left
        none(&[], "none 1 0 1\n"),
        none(&[0x8000_0001], "struck 2\nfrom 1 1\n"),
        none(&[0x8000_0002], "struck 2\nnone 1 1\n"),
        none(&[0x8000_0003], "struck 2\nfrom 0 1\n"),
    ]
}

/// Tapes with claims that are right but long, and with some that are not, with their lines.
pub fn long_readings() -> Vec<(Vec<u32>, String)> {
    let played = |opening: Vec<u32>, equations: &[Vec<u32>], claims: &[(&[&[u32]], &str)]| {
        let opened = format!("open {} {}\n", number(opening[0]), number(opening[1]));
        let added: String = (1..=equations.len()).map(|held| format!("added {held}\n")).collect();
        let marked = |vectors: &[&[u32]]| ledger::claim(&vectors.iter().map(|v| v.to_vec()).collect::<Vec<Vec<u32>>>());
        let words: Vec<u32> = claims.iter().flat_map(|(vectors, _)| marked(vectors)).collect();
        let lines: String = claims.iter().map(|(_, said)| line(said, &[])).collect();
        ([&opening[..], &equations.concat(), &words].concat(), opened + &added + &lines)
    };
    vec![
        // x + 2y = 0 mod 4: twice 2 1 is 0 2
        played(
            ledger::opening(4, 2),
            &[ledger::equation(&[1, 2, 0])],
            &[
                (&[&[0, 0], &[2, 1], &[0, 2]], "long"),
                (&[&[0, 0], &[0, 2], &[2, 1]], "long"),
                (&[&[0, 0], &[2, 1]], "pass"),
                (&[&[0, 0], &[2, 3]], "pass"),
                (&[&[2, 1], &[2, 3], &[0, 0]], "long"),
                (&[&[0, 0], &[0, 2], &[0, 2]], "fail"),
                (&[&[1, 0], &[2, 3], &[0, 0]], "fail"),
                (&[], "fail"),
                (&[&[0, 0]], "fail"),
            ],
        ),
        // x = 5 mod 6
        played(
            ledger::opening(6, 1),
            &[ledger::equation(&[1, 5])],
            &[(&[&[5]], "pass"), (&[&[5], &[0]], "long"), (&[&[5], &[0], &[0]], "long"), (&[&[4], &[0]], "fail"), (&[], "fail")],
        ),
        // no equations mod 6
        played(
            ledger::opening(6, 1),
            &[],
            &[
                (&[&[0], &[1], &[2]], "long"),
                (&[&[0], &[0], &[1]], "long"),
                (&[&[0], &[1], &[1]], "long"),
                (&[&[0], &[2], &[3]], "pass"),
                (&[&[0], &[1]], "pass"),
                (&[&[0], &[2], &[3], &[4]], "long"),
                (&[&[0], &[2], &[4]], "fail"),
            ],
        ),
        // x = 1 mod 2 on a sheet mod 12: 4 and 6 lead to all even numbers, and neither to the other
        played(
            ledger::opening(12, 1),
            &[ledger::own_equation(2, &[1, 1])],
            &[(&[&[1], &[4], &[6]], "pass"), (&[&[1], &[10], &[4]], "long"), (&[&[1], &[4], &[8]], "fail")],
        ),
        // mod 2 x = 0 and x = 1: no claim but one is right
        played(
            ledger::opening(2, 1),
            &[ledger::equation(&[1, 0]), ledger::equation(&[1, 1])],
            &[(&[], "pass"), (&[&[0], &[0]], "fail"), (&[&[0]], "fail")],
        ),
    ]
}

/// Equations in one unknown on a sheet mod m, each with its own modulus, by their words, and the lines of their answer. No
/// multipliers are among them.
pub const OWN: [(u32, &[[u32; 3]], &str); 15] = [
    (12, &[[0xC000_0003, 0x3000_0001, 0x4000_0002]], "from 2\nstep 3\n"),
    (12, &[[0xC000_0003, 0x3000_0001, 0x4000_0002], [0xC000_0004, 0x3000_0001, 0x4000_0003]], "from 11\n"),
    (12, &[[0xC000_0004, 0x3000_0001, 0x4000_0003], [0xC000_0003, 0x3000_0001, 0x4000_0002]], "from 11\n"),
    // minus 1 mod 3 is 2, not 11; and 11 mod 3 is 2, too
    (12, &[[0xC000_0003, 0x3000_0001, 0xB000_0001]], "from 2\nstep 3\n"),
    (12, &[[0xC000_0003, 0xA000_0001, 0x4000_0001]], "from 2\nstep 3\n"),
    (12, &[[0xC000_0003, 0x3000_000B, 0x4000_0001]], "from 2\nstep 3\n"),
    // 4 mod 4 is 0, though it is not mod 12
    (12, &[[0xC000_0004, 0x3000_0004, 0x4000_0008]], "from 0\nstep 1\n"),
    (12, &[[0xC000_0006, 0x3000_0002, 0x4000_0004]], "from 2\nstep 3\n"),
    (12, &[[0xC000_0006, 0x3000_0003, 0x4000_0003], [0xC000_0003, 0x3000_0002, 0x4000_0002]], "from 1\nstep 6\n"),
    // the plain line
    (12, &[[0xC000_000C, 0x3000_0004, 0x4000_0008]], "from 2\nstep 3\n"),
    (12, &[[0xC000_000C, 0x3000_0001, 0xB000_0001]], "from 11\n"),
    (2, &[[0xC000_0002, 0x3000_0001, 0xB000_0001]], "from 1\n"),
    (65_535, &[[0xC000_00FF, 0x3000_0001, 0xB000_0001]], "from 254\nstep 255\n"),
    // the largest number is 2^28 - 1; mod 257, 2^8 is -1, and mod 32,767, 2^15 is 1
    (65_535, &[[0xC000_0101, 0x3000_0001, 0x4FFF_FFFF]], "from 240\nstep 257\n"),
    (65_534, &[[0xC000_7FFF, 0x3000_0001, 0x4FFF_FFFF]], "from 8191\nstep 32767\n"),
];

/// Such a tape and all its lines.
pub fn own_tape(m: u32, equations: &[[u32; 3]], answer: &str) -> (Vec<u32>, String) {
    let words = [&ledger::opening(m, 1)[..], &equations.concat(), &[word(ANSWER, 0)]].concat();
    let added: String = (1..=equations.len()).map(|held| format!("added {held}\n")).collect();
    (words, format!("open {m} 1\n{added}{answer}"))
}
