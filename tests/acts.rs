//! Lists of direct calls on a sheet against the reference, which keeps a plain list and tries all vectors. Multipliers, and the
//! solution that a claim misses, are left free, so they are compared by their property alone.
#![allow(dead_code)]

use crate::exercises::{self, chance, pick};
use crate::face::{untouched, LONGEST_WORDS};
use crate::grammar;
use crate::ledger::{self, Call, Ledger, Reason, Said, Solved};
use crate::random::Random;
use crate::reference::{Answer, System};
use crate::sheet::{Act, Desk, Outcome, Reply};
use crate::{shown, spelling};
use std::collections::BTreeSet;

pub fn open(m: u32, n: u32) -> Act {
    Act::Open(ledger::opening(m, n))
}

/// Numbers below 0 go with a minus sign.
pub fn add(numbers: &[i64]) -> Act {
    Act::Add(ledger::equation(numbers))
}

/// The same with a modulus of its own.
pub fn add_own(q: u32, numbers: &[i64]) -> Act {
    Act::Add(ledger::own_equation(q, numbers))
}

pub fn add_text(text: &str) -> Act {
    Act::AddText(text.as_bytes().to_vec())
}

pub fn answer(length: usize) -> Act {
    Act::Answer(untouched(length))
}

pub fn mark(vectors: &[Vec<u32>]) -> Act {
    Act::Mark(ledger::claim(vectors))
}

/// The words of a class into so many bytes, which hold anything.
pub fn class(random: &mut Random, words: &[u32], bytes: usize) -> Act {
    Act::Class(words.to_vec(), (0..bytes).map(|_| random.bits() as u8).collect())
}

/// The reason of a claim, with an `at` and a buffer of these lengths, in which no two numbers are the same.
pub fn reason(words: &[u32], at: usize, out: usize) -> Act {
    Act::Reason(words.to_vec(), untouched(at + out).split_off(out), untouched(out))
}

/// An opening, and a call for each equation.
pub fn entering(system: &System) -> Vec<Act> {
    let adding = system.equations.iter().map(|line| Act::Add(ledger::line_words(system.m, line)));
    [open(system.m, system.n as u32)].into_iter().chain(adding).collect()
}

/// What a call on this sheet says, also where all vectors cannot be tried: marks and reasons are then found by plugging in.
fn settled(said: Said, call: &Call, before: &Ledger) -> Said {
    let Ledger::Opened(system) = before else { return said };
    let reason = |words: &[u32]| shown::reason(system, &ledger::vectors_in(system.n, words));
    let mark = |said: Said, words: &[u32]| match said {
        Said::SomeMark => match reason(words) {
            None => Said::Passed,
            Some(Reason::Superfluous { .. }) => Said::Long,
            Some(_) => Said::Failed,
        },
        said => said,
    };
    match (said, call) {
        (said, Call::Mark(words)) => mark(said, words),
        (Said::Classed(all), Call::Class(words, _)) => {
            let claims = ledger::claims(system.n, words);
            Said::Classed(all.into_iter().zip(claims).map(|(said, claim)| mark(said, &claim)).collect())
        }
        (Said::SomeReason, Call::Reason(words, ..)) => Said::Reasoned(reason(words)),
        (said, _) => said,
    }
}

/// Why the reply is not that of a call which the reference answers so, where `before` is the ledger that it found.
fn wrong_reply(act: &Act, reply: &Reply, said: &Said, before: &Ledger) -> Option<String> {
    let old = if let Act::Answer(buffer) | Act::Reason(_, _, buffer) = act { buffer.clone() } else { vec![] };
    let old_marks = if let Act::Class(_, marks) = act { marks.clone() } else { vec![] };
    let old_at = if let Act::Reason(_, at, _) = act { at.clone() } else { vec![] };
    let expected = match (said, reply.outcome) {
        (Said::Answered(solved), outcome) => return wrong_answer(solved, outcome, &old, &reply.buffer, before),
        (Said::Classed(said), outcome) => return wrong_marks(said, outcome, &old_marks, &reply.marks),
        (Said::Reasoned(reason), _) => return wrong_reason(act, *reason, reply, before),
        (Said::Opened { .. }, _) => Outcome::Holds(0),
        (Said::Added(held) | Said::Struck(held), _) => Outcome::Holds(*held),
        (Said::Passed, _) => Outcome::Pass,
        (Said::Long, _) => Outcome::Long,
        (Said::Failed, _) => Outcome::Fail,
        (Said::Refused(number), _) => Outcome::Refused(*number),
        (Said::SomeMark | Said::SomeReason, _) => unreachable!("settled"),
    };
    let good = Reply { outcome: expected, buffer: old, marks: old_marks, at: old_at };
    (*reply != good).then(|| format!("{reply:x?} is not {good:x?}"))
}

/// Why an answer is wrong: its block, its length, or a buffer word past it. Where not all vectors can be tried, how long the buffer must
/// be is known from the answer of milebadger_solve, and where there is a solution the block too.
fn wrong_answer(solved: &Solved, outcome: Outcome, old: &[u32], buffer: &[u32], before: &Ledger) -> Option<String> {
    let Ledger::Opened(system) = before else { unreachable!("question 4") };
    if *solved == Solved::Unknown {
        let known = shown::solved(system);
        let short = old.len() < ledger::block_room(system, known.as_ref());
        let expected = known.map(|answer| ledger::claim(&ledger::vectors_of(&answer)));
        match (outcome, expected) {
            (Outcome::Refused(8), _) if short && buffer == old => return None,
            (Outcome::Wrote(length), Some(block)) if !short && buffer[..length] != block => {
                return Some(format!("{buffer:x?} where milebadger_solve says {block:x?}"))
            }
            (Outcome::Wrote(_), _) if !short => {}
            _ => return Some(format!("{outcome:?} for a buffer of {} words", old.len())),
        }
    }
    match outcome {
        Outcome::Wrote(length) if 0 < length && length <= old.len() => {
            if buffer[length..] != old[length..] {
                return Some(format!("{buffer:x?} was changed behind word {length}"));
            }
            ledger::wrong_block(system, &buffer[..length])
        }
        _ => Some(format!("{outcome:?} where {solved:?} is the answer")),
    }
}

/// Why an accepted class is wrong: the number of its claims, a mark, or a byte past them.
fn wrong_marks(said: &[Said], outcome: Outcome, old: &[u8], marks: &[u8]) -> Option<String> {
    let count = said.len();
    if outcome != Outcome::Marked(count) {
        return Some(format!("{outcome:?} where {count} claims are marked"));
    }
    if marks[count..] != old[count..] {
        return Some(format!("{marks:?} was changed behind byte {count}, it was {old:?}"));
    }
    let wrong = (0..count).find(|&place| !is_mark(&said[place], marks[place]))?;
    Some(format!("claim {wrong} has the mark {}, where {:?} is right", marks[wrong], said[wrong]))
}

/// Why the reply to a call for a reason is wrong.
fn wrong_reason(act: &Act, reason: Option<Reason>, reply: &Reply, before: &Ledger) -> Option<String> {
    let (Act::Reason(words, at, out), Ledger::Opened(system)) = (act, before) else { unreachable!("question 4") };
    shown::wrong(system, &ledger::vectors_in(system.n, words), reason, at, out, reply)
}

/// Why a call for a reason does not go with the mark of the same claim on a sheet with these numbers: 0 exactly where it passes, 6
/// where it is long, and "the questions are those of marking", then 8.
fn wrong_verdict(numbers: &[u32], words: &[u32], outcome: Outcome) -> Result<(), String> {
    let mark = Desk::with(numbers).act(&Act::Mark(words.to_vec()))?.outcome;
    let good = match (mark, outcome) {
        (Outcome::Pass, Outcome::Reason(number)) => number == 0,
        (Outcome::Long, Outcome::Reason(number)) => number == 6,
        (Outcome::Fail, Outcome::Reason(number)) => (1..=5).contains(&number),
        (Outcome::Pass | Outcome::Long | Outcome::Fail, outcome) => outcome == Outcome::Refused(8),
        (mark, outcome) => mark == outcome,
    };
    good.then_some(()).ok_or(format!("{outcome:?} for the reason of a claim that has the mark {mark:?}"))
}

/// "A byte per claim receives 0 fail, 1 pass or the refusal number plus 100", and "`long` .. 2 in the class bytes".
fn is_mark(said: &Said, mark: u8) -> bool {
    match said {
        Said::Failed => mark == 0,
        Said::Passed => mark == 1,
        Said::Long => mark == 2,
        Said::Refused(number) => mark as u32 == number + 100,
        _ => unreachable!("no mark says {said:?}"),
    }
}

/// The bytes "that marking each claim singly would give, in that order", on a sheet with these numbers.
pub fn marked_singly(numbers: &[u32], claims: &[Vec<u32>]) -> Result<Vec<u8>, String> {
    let mut desk = Desk::with(numbers);
    let mut byte = |claim: &Vec<u32>| match desk.act(&Act::Mark(claim.clone()))?.outcome {
        Outcome::Fail => Ok(0),
        Outcome::Pass => Ok(1),
        Outcome::Long => Ok(2),
        Outcome::Refused(number) => Ok(100 + number as u8),
        other => Err(format!("{other:?} for a mark")),
    };
    claims.iter().map(&mut byte).collect()
}

/// Which call was refused with which number.
pub type Tally = BTreeSet<(&'static str, u32)>;

/// "Questions, in order, and the number when the answer is no": every refusal that a direct call can give.
pub fn all_refusals() -> Tally {
    let refusals: [(&str, &[u32]); 8] = [
        ("open", &[17, 1, 2, 3]),
        ("add", &[4, 17, 1, 15, 5]),
        ("add text", &[4, 11, 12, 13, 5]),
        ("strike", &[4, 7, 16]),
        ("answer", &[4, 8]),
        ("mark", &[4, 17, 1, 6]),
        ("class", &[4, 14, 8]),
        ("reason", &[4, 17, 1, 6, 8]),
    ];
    refusals.iter().flat_map(|(name, numbers)| numbers.iter().map(|&number| (*name, number))).collect()
}

/// Makes a call on a sheet that reads as this ledger, and in the ledger. It does what the reference says, or it is said why not; the
/// claims of a class are marked singly too, and a claim with a reason once more. A refusal goes to the tally.
pub fn step(desk: &mut Desk, ledger: &mut Ledger, act: &Act, tally: &mut Tally) -> Result<Reply, String> {
    let call = match act {
        Act::Open(words) => Call::Open(words.clone()),
        Act::Add(words) => Call::Add(words.clone()),
        Act::AddText(text) => Call::AddText(grammar::read(text)),
        Act::Strike(place) => Call::Strike(*place),
        Act::Answer(buffer) => Call::Answer(buffer.len()),
        Act::Mark(words) => Call::Mark(words.clone()),
        Act::MarkBlock => Call::Mark(desk.block().to_vec()),
        Act::Class(words, marks) => Call::Class(words.clone(), marks.len()),
        Act::Reason(words, at, out) => Call::Reason(words.clone(), at.len(), out.len()),
    };
    let before = ledger.clone();
    let said = settled(ledger.run(&call), &call, &before);
    let reply = desk.act(act)?;
    if let Some(why) = wrong_reply(act, &reply, &said, &before) {
        return Err(format!("{why}, ledger {before:?}"));
    }
    if let Said::Refused(number) = said {
        tally.insert((call.name(), number));
    }
    if let (Act::Class(words, _), Outcome::Marked(count), Ledger::Opened(system)) = (act, reply.outcome, &before) {
        let singly = marked_singly(desk.numbers(), &ledger::claims(system.n, words))?;
        if singly != reply.marks[..count] {
            return Err(format!("{:?} for a class whose claims get {singly:?} singly, ledger {before:?}", reply.marks));
        }
    }
    if let Act::Reason(words, ..) = act {
        wrong_verdict(desk.numbers(), words, reply.outcome)?;
    }
    Ok(reply)
}

/// A desk with a sheet that holds these equations.
pub fn entered(system: &System) -> Desk {
    let mut desk = Desk::fresh();
    for act in entering(system) {
        assert!(matches!(desk.act(&act).unwrap().outcome, Outcome::Holds(_)), "{act:x?}");
    }
    desk
}

/// The reply to a call on a sheet that holds these equations, which does what the reference says.
pub fn replied(desk: &mut Desk, system: &System, act: &Act, seed: u64) -> Reply {
    let reply = step(desk, &mut Ledger::Opened(system.clone()), act, &mut Tally::new());
    reply.unwrap_or_else(|why| panic!("{act:x?}: {why} (seed {seed})\n{system:?}"))
}

/// Every call of the list, the first of them on a fresh sheet, does what the reference says. The refusals go to the tally.
pub fn expect(acts: &[Act], seed: u64, tally: &mut Tally) -> Vec<Reply> {
    let (mut desk, mut ledger) = (Desk::fresh(), Ledger::Unopened);
    let mut replies = vec![];
    for (place, act) in acts.iter().enumerate() {
        match step(&mut desk, &mut ledger, act, tally) {
            Ok(reply) => replies.push(reply),
            Err(why) => panic!("call {place}, {act:x?}: {why} (seed {seed})\ncalls: {acts:x?}"),
        }
    }
    replies
}

/// The outcomes alone of a list that does what the reference says.
pub fn outcomes(acts: &[Act]) -> Vec<Outcome> {
    expect(acts, 0, &mut Tally::new()).iter().map(|reply| reply.outcome).collect()
}

/// The outcome of the last call of such a list.
pub fn last(acts: &[Act]) -> Outcome {
    *outcomes(acts).last().unwrap()
}

/// The numbers of the block that an answer wrote.
pub fn answered(reply: &Reply) -> Vec<u32> {
    let Outcome::Wrote(length) = reply.outcome else { panic!("{:?}", reply.outcome) };
    ledger::joined(&reply.buffer[..length]).iter().map(|word| word.number).collect()
}

/// A sheet for which all vectors can be tried, with some equations.
pub fn random_system(random: &mut Random) -> System {
    let (m, n) = exercises::small_shape(random);
    let mut system = System::empty(m, n as usize);
    for _ in 0..random.below(5) {
        let mut sheet = Ledger::Opened(system.clone());
        sheet.run(&Call::Add(exercises::equation(random, &system)));
        let Ledger::Opened(grown) = sheet else { unreachable!() };
        system = grown;
    }
    system
}

/// The same with its answer, which it has.
pub fn random_solvable(random: &mut Random) -> (System, Answer) {
    loop {
        let system = random_system(random);
        if let Solved::Vectors(answer) = ledger::solve(&system) {
            return (system, answer);
        }
    }
}

pub fn random_unsolvable(random: &mut Random) -> System {
    loop {
        let system = random_system(random);
        if ledger::solve(&system) == Solved::Nothing {
            return system;
        }
    }
}

/// Moduli above 65,535: around 2^16 and 2^28, primes, the largest power of 2, one with many divisors, and the largest.
pub const WIDE: [u32; 12] = [
    65_536,
    65_537,
    (1 << 28) - 1,
    1 << 28,
    (1 << 28) + 1,
    (1 << 28) + 2,
    1 << 31,
    3_234_846_615,
    4_026_531_840,
    4_294_967_291,
    4_294_967_294,
    u32::MAX,
];

/// A sheet that has too many vectors to try, in most cases. Where its right sides are made to fit, it has a solution. Half of the
/// sheets are written with residues, the others with minus signs and numbers of any size; in half of them some equations have a
/// modulus of their own.
pub fn full_size_system(random: &mut Random, fits: bool) -> System {
    let wide = pick(random, &WIDE);
    let m = pick(random, &[2, 3, 4, 12, 60, 30_030, 32_768, 65_521, 65_535, wide, wide, wide]);
    let (n, signed, mixed) = (pick(random, &[5, 8, 15, 16]), chance(random, 2), chance(random, 2));
    let solution: Vec<u32> = (0..n).map(|_| random.below(m as u64) as u32).collect();
    let mut system = System::empty(m, n);
    for _ in 0..random.below(17) {
        let q = if mixed && chance(random, 2) { exercises::divisor(random, m) } else { m };
        let mut equation: Vec<u32> = (0..n).map(|_| if chance(random, 2) { 0 } else { random.below(q as u64) as u32 }).collect();
        let right: u128 = equation.iter().zip(&solution).map(|(&a, &x)| a as u128 * x as u128).sum();
        equation.push(if fits { (right % q as u128) as u32 } else { random.below(q as u64) as u32 });
        let number = |x: &u32| if signed { exercises::written(random, q, *x) } else { *x as i64 };
        system.add(q, equation.iter().map(number).collect());
    }
    system
}

/// A call on a sheet that reads as this ledger. A sheet that is being filled gets many equations.
pub fn random_act(random: &mut Random, ledger: &Ledger, filling: bool) -> Act {
    let unopened = System::empty(7, 2);
    let system = if let Ledger::Opened(system) = ledger { system } else { &unopened };
    let choice = random.below(if filling { 66 } else { 30 });
    match choice {
        0 => Act::Open(exercises::opening(random)),
        1 if *ledger == Ledger::Unopened => Act::Open(exercises::opening(random)),
        1..=4 => Act::Strike(place(random, system.equations.len())),
        5..=9 => answer(buffer_length(random, system)),
        10..=11 => Act::MarkBlock,
        12..=17 => Act::Mark(exercises::claim(random, system)),
        18..=19 => Act::AddText(spelling::text(random, system.n)),
        20..=21 => {
            let words = exercises::class(random, system);
            let bytes = marks_length(random, ledger::claims(system.n, &words).len());
            class(random, &words, bytes)
        }
        22..=25 => {
            let words = exercises::claim(random, system);
            let (at, out) = (places_length(random), shown_length(random, system, &words));
            reason(&words, at, out)
        }
        _ if filling && chance(random, 3) => Act::AddText(spelling::text(random, system.n)),
        _ => Act::Add(exercises::equation(random, system)),
    }
}

/// Places beyond the lines of every sheet; the low 8, 16 or 28 bits of some are 0, or the place of a line.
pub const FAR_PLACES: [u32; 8] = [17, (1 << 8) + 1, 1 << 16, (1 << 28) - 1, 1 << 28, (1 << 28) + 1, 1 << 31, u32::MAX];

/// A place on a sheet that holds so many lines: mostly one of theirs, or 0; the one behind them, or any.
pub fn place(random: &mut Random, held: usize) -> u32 {
    match random.below(12) {
        0 => held as u32 + 1,
        1 => pick(random, &FAR_PLACES),
        2 => random.any_length(),
        3..=5 => 0,
        _ => 1 + random.below(held.max(1) as u64) as u32,
    }
}

/// Exactly as many bytes as there are claims, one less, somewhat more, or any number.
fn marks_length(random: &mut Random, claims: usize) -> usize {
    match random.below(6) {
        0 => claims.saturating_sub(1),
        1 => random.below(70) as usize,
        2 => claims + 1 + random.below(4) as usize,
        _ => claims,
    }
}

/// The three numbers that a reason writes to `at`, or fewer, or more.
fn places_length(random: &mut Random) -> usize {
    match random.below(6) {
        0 => random.below(3) as usize,
        1 => 3 + random.below(3) as usize,
        _ => 3,
    }
}

/// Exactly as long as the words of the claim's reason, one word shorter, somewhat longer, or any length.
fn shown_length(random: &mut Random, system: &System, words: &[u32]) -> usize {
    let claimed = Ledger::Opened(system.clone()).run(&Call::Mark(words.to_vec()));
    let formed = !matches!(claimed, Said::Refused(_));
    let exact = formed.then(|| ledger::reason_room(system, words)).flatten().unwrap_or(16 * ledger::counted(system.m));
    match random.below(6) {
        0 => exact.saturating_sub(1),
        1 => random.below(36) as usize,
        2 => exact + 1 + random.below(4) as usize,
        _ => exact,
    }
}

/// Exactly as long as the block, one word shorter, somewhat longer, or any length.
fn buffer_length(random: &mut Random, system: &System) -> usize {
    let exact = ledger::block_length(system).unwrap_or(LONGEST_WORDS);
    match random.below(6) {
        0 => exact - 1,
        1 => random.below(LONGEST_WORDS as u64 + 3) as usize,
        2 => exact + 1 + random.below(4) as usize,
        _ => exact,
    }
}
