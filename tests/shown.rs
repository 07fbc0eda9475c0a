//! What a reason says and shows. Where there are too many vectors to try, a reason is found by plugging in: a solution, multipliers
//! under which the equations contradict each other, or multipliers under which every step of a claim is 0 and the way to a vector is
//! not. milebadger_solve proposes them, and nothing is believed of them but what is seen here.
#![allow(dead_code)]

use crate::exercises::plus;
use crate::face::{self, LONGEST_BLOCK};
use crate::ledger::{self, Reason, ENTRY, MULTIPLIER};
use crate::reference::{Answer, System};
use crate::sheet::{Outcome, Reply};

/// A solution, and steps from it to others; none where multipliers refute the equations. Each is plugged in.
pub fn solved(system: &System) -> Option<Answer> {
    let reply = face::solve(system.m, system.n as u32, &system.lines(), LONGEST_BLOCK);
    let block = &reply.memory[..usize::try_from(reply.result).expect("a refusal")];
    if block[0] == 0 {
        assert!(system.refuted_by(&block[1..]), "{system:?}: {block:?} refutes nothing");
        return None;
    }
    let mut vectors = block[1..].chunks(system.n).map(|v| v.to_vec());
    let answer = Answer { start: vectors.next().unwrap(), steps: vectors.collect() };
    let homogeneous = system.homogeneous();
    let good = system.solved_by(&answer.start) && answer.steps.iter().all(|step| homogeneous.solved_by(step));
    assert!(good, "{system:?}: {answer:?} does not solve");
    Some(answer)
}

/// Whether the claim describes v: with an unknown for the coefficient of each step, each entry of the way from the start to v is an
/// equation. Coefficients solve them, or multipliers refute them.
pub fn describes(m: u32, vectors: &[Vec<u32>], v: &[u32]) -> bool {
    let (start, steps) = (&vectors[0], &vectors[1..]);
    let entry = |j: usize| steps.iter().map(|step| step[j] as i64).chain([v[j] as i64 - start[j] as i64]).collect();
    let ways = System::plain(m, steps.len(), (0..v.len()).map(entry).collect());
    if steps.is_empty() {
        v == start
    } else {
        solved(&ways).is_some()
    }
}

/// The number of the first step that is a combination of the others, from 1: coefficients show it, or multipliers that it is none.
pub fn superfluous(m: u32, vectors: &[Vec<u32>]) -> Option<usize> {
    (1..vectors.len()).find(|&step| describes(m, &ledger::others(vectors, step), &vectors[step]))
}

/// The reason for a claim about equations with this answer, a start and steps that lead to all solutions; or with none. Nothing is
/// missed where the claim describes the start and what is one step away from it, and so all.
pub fn reason_given(system: &System, answer: Option<&Answer>, vectors: &[Vec<u32>]) -> Option<Reason> {
    let Some(answer) = answer else { return (!vectors.is_empty()).then_some(Reason::Unsolvable) };
    if vectors.is_empty() {
        return Some(Reason::Solvable);
    }
    ledger::fault(system, vectors)
        .or_else(|| misses(system.m, answer, vectors).then_some(Reason::Misses))
        .or_else(|| superfluous(system.m, vectors).map(|step| Reason::Superfluous { step }))
}

/// Whether the claim does not describe all that the answer does.
pub fn misses(m: u32, answer: &Answer, vectors: &[Vec<u32>]) -> bool {
    let missed = |v: &[u32]| !describes(m, vectors, v);
    missed(&answer.start) || answer.steps.iter().any(|step| missed(&plus(m, &answer.start, 1, step)))
}

/// The reason by the answer of milebadger_solve: that its steps lead to all solutions is seen in the tests of systems.
pub fn reason(system: &System, vectors: &[Vec<u32>]) -> Option<Reason> {
    reason_given(system, solved(system).as_ref(), vectors)
}

/// Why a reply is not that of a call for this reason of a claim, or of none, with this content of `at` and of the buffer before it.
pub fn wrong(
    system: &System,
    vectors: &[Vec<u32>],
    reason: Option<Reason>,
    at: &[u32],
    out: &[u32],
    reply: &Reply,
) -> Option<String> {
    let ([number, step, equation], room) = reason.map_or(([0; 3], 0), |reason| (reason.numbers(), reason.room(system)));
    let say = |what: &str| Some(format!("{what}: {reply:x?} for {reason:?} of {vectors:?}, with {at:x?} and {out:x?} before"));
    if at.len() < 3 || out.len() < room {
        let good = Reply { outcome: Outcome::Refused(8), buffer: out.to_vec(), marks: vec![], at: at.to_vec() };
        return if *reply == good { None } else { say("not refused as it should be") };
    }
    if reply.outcome != Outcome::Reason(number) {
        return say("another result");
    }
    // "Writers put it in only for numbers of 2^28 or more": fewer words may be written than are asked for
    let count = reply.at[2] as usize;
    if count > room || reply.at != [&[step, equation, count as u32], &at[3..]].concat() {
        return say("another step, equation or number of words, or something behind them");
    }
    if reply.buffer.len() != out.len() || reply.buffer[count..] != out[count..] {
        return say("written behind the words");
    }
    match reason {
        Some(reason) if !is_shown(system, vectors, reason, &reply.buffer[..count]) => say("words that do not show it"),
        _ => None,
    }
}

/// Whether the words show the reason: "a solution", "multipliers", "a solution that the claim does not describe", or nothing. The
/// first is free too, but the header names it: the starting vector of the answer.
fn is_shown(system: &System, vectors: &[Vec<u32>], reason: Reason, words: &[u32]) -> bool {
    let numbers: Vec<u32> = ledger::joined(words).iter().map(|word| word.number).collect();
    let all = |kind: u32| {
        let written: Vec<u32> = numbers.iter().flat_map(|&x| ledger::written(kind, x)).collect();
        words == written && numbers.len() == reason.shown(system) && numbers.iter().all(|&x| x < system.m)
    };
    let few = ledger::can_try(system.m, system.n);
    match reason {
        Reason::Solvable if few => all(ENTRY) && ledger::solutions(system).first() == Some(&numbers),
        Reason::Solvable => all(ENTRY) && solved(system).is_some_and(|answer| answer.start == numbers),
        Reason::Unsolvable => all(MULTIPLIER) && system.refuted_by(&numbers),
        Reason::Breaks { .. } | Reason::Changes { .. } | Reason::Superfluous { .. } => words.is_empty(),
        Reason::Misses if few => {
            all(ENTRY) && system.solved_by(&numbers) && !ledger::described(system.m, vectors).contains(&numbers)
        }
        Reason::Misses => all(ENTRY) && system.solved_by(&numbers) && !describes(system.m, vectors, &numbers),
    }
}
