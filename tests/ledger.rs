//! The paper's words, ledger, questions and marking once more in plain Rust. It keeps a plain list of equations and tries
//! all vectors and all combinations; where those are too many it says so, and the tests then look at what can be seen without.
#![allow(dead_code)]

use crate::grammar::Typed;
use crate::reference::{self, Answer, Line, System};
pub use crate::reference::{counted, front, joined, written, Word, TOP};
use std::collections::BTreeSet;

/// "A word has 32 bits: the top 4 are its kind, the low 28 its number." Larger numbers are `written`.
pub fn word(kind: u32, number: u32) -> u32 {
    assert!(kind < 16 && number < 1 << 28);
    (kind << 28) + number
}

pub fn kind(word: u32) -> u32 {
    word >> 28
}

pub fn number(word: u32) -> u32 {
    word & 0x0FFF_FFFF
}

/// "Kinds: 1 modulus; 2 unknowns; 3 coefficient; 4 right side; 5 head; 6 vector entry; 7 multiplier; 8 strike; 9 answer."
pub const MODULUS: u32 = 1;
pub const UNKNOWNS: u32 = 2;
pub const COEFFICIENT: u32 = 3;
pub const RIGHT: u32 = 4;
pub const HEAD: u32 = 5;
pub const ENTRY: u32 = 6;
pub const MULTIPLIER: u32 = 7;
pub const STRIKE: u32 = 8;
pub const ANSWER: u32 = 9;

/// "Kinds 10 and 11 become a negative coefficient and a negative right side."
pub const MINUS_COEFFICIENT: u32 = 10;
pub const MINUS_RIGHT: u32 = 11;

/// "A word of kind 12 with q precedes the equation."
pub const OWN_MODULUS: u32 = 12;

/// The largest number of a word without one of kind 13 in front: of 28 bits.
pub const LARGEST_ALONE: u32 = (1 << 28) - 1;

/// "Tape signs of S-3 apply to the 32-bit number": the largest that an equation's word has with one of kind 13 in front.
pub const LARGEST: i64 = u32::MAX as i64;

/// "Open: kinds 1, 2."
pub fn opening(m: u32, n: u32) -> Vec<u32> {
    [written(MODULUS, m), vec![word(UNKNOWNS, n)]].concat()
}

/// "Equation: n of kind 3, one of kind 4": these numbers, those below 0 with kinds 10 and 11.
pub fn equation(numbers: &[i64]) -> Vec<u32> {
    let signed = |plus: u32, minus: u32, number: i64| {
        assert!(number.abs() <= LARGEST);
        written(if number < 0 { minus } else { plus }, number.unsigned_abs() as u32)
    };
    let (right, coefficients) = numbers.split_last().expect("an equation has a right side");
    let coefficients = coefficients.iter().map(|&a| signed(COEFFICIENT, MINUS_COEFFICIENT, a));
    coefficients.chain([signed(RIGHT, MINUS_RIGHT, *right)]).flatten().collect()
}

/// The same with a modulus of its own in front.
pub fn own_equation(q: u32, numbers: &[i64]) -> Vec<u32> {
    [written(OWN_MODULUS, q), equation(numbers)].concat()
}

/// The words of a line on a sheet mod m: the modulus stands there where it is another than m.
pub fn line_words(m: u32, line: &Line) -> Vec<u32> {
    if line.q == m {
        equation(&line.numbers)
    } else {
        own_equation(line.q, &line.numbers)
    }
}

/// An equation's own modulus, or that of the sheet, "without it"; and the words behind it.
pub fn parted(m: u32, memory: &[u32]) -> (u32, Vec<Word>) {
    let words = joined(memory);
    match words[..] {
        [first, ref behind @ ..] if first.kind == OWN_MODULUS => (first.number, behind.to_vec()),
        _ => (m, words),
    }
}

/// The whole number that a word of an equation stands for.
pub fn whole(word: Word) -> i64 {
    let size = word.number as i64;
    if [MINUS_COEFFICIENT, MINUS_RIGHT].contains(&word.kind) {
        -size
    } else {
        size
    }
}

/// "Claim: a head, then head number times n entries": these vectors, or none of them.
pub fn claim(vectors: &[Vec<u32>]) -> Vec<u32> {
    [word(HEAD, vectors.len() as u32)].into_iter().chain(vectors.iter().flatten().flat_map(|&x| written(ENTRY, x))).collect()
}

/// The first of the words in this memory.
pub fn first(memory: &[u32]) -> Word {
    joined(&memory[..front(memory, 1)])[0]
}

/// "They come as words one after another .. Each claim's length is taken as on the tape; a word of another kind where a head should
/// stand is a claim of one word": the memory of each claim, of which the last may be cut short. A word of kind 13 "counts as part" of
/// the next one "wherever a .. claim's words are counted".
pub fn claims(n: usize, memory: &[u32]) -> Vec<Vec<u32>> {
    let (mut claims, mut rest) = (vec![], memory);
    while !rest.is_empty() {
        let head = first(rest);
        let entries = if head.kind == HEAD && head.number <= 17 { head.number as usize * n } else { 0 };
        let (claim, behind) = rest.split_at(front(rest, 1 + entries));
        claims.push(claim.to_vec());
        rest = behind;
    }
    claims
}

/// The vectors of an answer: the start, then the steps.
pub fn vectors_of(answer: &Answer) -> Vec<Vec<u32>> {
    [&answer.start].into_iter().chain(&answer.steps).cloned().collect()
}

fn kinds(words: &[Word]) -> Vec<u32> {
    words.iter().map(|word| word.kind).collect()
}

fn numbers(words: &[Word]) -> Vec<u32> {
    words.iter().map(|word| word.number).collect()
}

/// No "kind 13 word with number 0 or above 15, or not right before a word of kinds 1, 3, 4, 6, 7, 10, 11 or 12".
fn is_joined(memory: &[u32]) -> bool {
    joined(memory).iter().all(|word| word.kind != TOP)
}

fn is_opening(memory: &[u32]) -> bool {
    kinds(&joined(memory)) == [MODULUS, UNKNOWNS]
}

/// Kinds 10 and 11 "may stand wherever 3 and 4 may"; kind 12 just in front, and once.
fn is_equation(n: usize, memory: &[u32]) -> bool {
    match kinds(&parted(0, memory).1).split_last() {
        Some((right, coefficients)) => {
            coefficients.len() == n
                && coefficients.iter().all(|kind| [COEFFICIENT, MINUS_COEFFICIENT].contains(kind))
                && [RIGHT, MINUS_RIGHT].contains(right)
        }
        None => false,
    }
}

/// "Q below 2 or not dividing m": neither of them.
pub fn is_own_modulus(m: u32, q: u32) -> bool {
    q >= 2 && m % q == 0
}

/// "0 claims no solution and describes no vector, 1..17 is a starting vector with its steps."
fn is_claim(n: usize, memory: &[u32]) -> bool {
    let words = joined(memory);
    match words.first() {
        Some(head) if head.kind == HEAD && head.number <= 17 => kinds(&words[1..]) == vec![ENTRY; head.number as usize * n],
        _ => false,
    }
}

/// A call with its arguments other than the sheet; of its words, the memory that they lie in. A typed equation has what its text says, if
/// it says anything; a strike has its place, which is its word's number on tape; an answer has the length of its buffer, or its word on
/// tape; a class has the number of its bytes too, and a reason the lengths of its `at` and its buffer.
#[derive(Clone, Debug, PartialEq)]
pub enum Call {
    Open(Vec<u32>),
    Add(Vec<u32>),
    AddText(Option<Typed>),
    Strike(u32),
    Answer(usize),
    Mark(Vec<u32>),
    Class(Vec<u32>, usize),
    Reason(Vec<u32>, usize, usize),
    AnswerFromTape(u32),
    Meaningless(Vec<u32>),
}

impl Call {
    pub fn name(&self) -> &'static str {
        match self {
            Call::Open(_) => "open",
            Call::Add(_) => "add",
            Call::AddText(_) => "add text",
            Call::Strike(_) => "strike",
            Call::Answer(_) => "answer",
            Call::Mark(_) => "mark",
            Call::Class(..) => "class",
            Call::Reason(..) => "reason",
            Call::AnswerFromTape(_) => "answer from tape",
            Call::Meaningless(_) => "meaningless word",
        }
    }
}

/// What the reference knows of an answer. "Which multipliers, is left free."
#[derive(Clone, Debug, PartialEq)]
pub enum Solved {
    Vectors(Answer),
    Nothing,
    /// There are too many vectors to try.
    Unknown,
}

/// Why a claim does not pass. "Steps and equations count from 1."
#[derive(Clone, Copy, Debug, Eq, Ord, PartialEq, PartialOrd)]
pub enum Reason {
    /// "None was claimed but here is a solution."
    Solvable,
    /// "There is none, here are multipliers."
    Unsolvable,
    /// "The start breaks an equation, the first such."
    Breaks { equation: usize },
    /// "A step changes an equation's left side, giving the first step, and for it the first such equation."
    Changes { step: usize, equation: usize },
    /// "A solution that the claim does not describe."
    Misses,
    /// "For a long claim, the number of its first superfluous step."
    Superfluous { step: usize },
}

impl Reason {
    /// Its number in that order, its step and its equation; 0 where it has none.
    pub fn numbers(self) -> [u32; 3] {
        match self {
            Reason::Solvable => [1, 0, 0],
            Reason::Unsolvable => [2, 0, 0],
            Reason::Breaks { equation } => [3, 0, equation as u32],
            Reason::Changes { step, equation } => [4, step as u32, equation as u32],
            Reason::Misses => [5, 0, 0],
            Reason::Superfluous { step } => [6, step as u32, 0],
        }
    }

    /// "It writes words of kinds 6 and 7 as the answer does", and for a long claim "no words": how many numbers they have.
    pub fn shown(self, system: &System) -> usize {
        match self {
            Reason::Solvable | Reason::Misses => system.n,
            Reason::Unsolvable => system.equations.len(),
            Reason::Breaks { .. } | Reason::Changes { .. } | Reason::Superfluous { .. } => 0,
        }
    }

    /// How long a buffer question 8 asks for.
    pub fn room(self, system: &System) -> usize {
        self.shown(system) * counted(system.m)
    }
}

/// What a call says.
#[derive(Clone, Debug, PartialEq)]
pub enum Said {
    Opened {
        m: u32,
        n: usize,
    },
    Added(usize),
    Struck(usize),
    Answered(Solved),
    Passed,
    /// "Right but long."
    Long,
    Failed,
    /// There are too many vectors to try.
    SomeMark,
    /// What marking each claim singly says.
    Classed(Vec<Said>),
    /// Why the claim does not pass; none where it does.
    Reasoned(Option<Reason>),
    /// There are too many vectors to try.
    SomeReason,
    Refused(u32),
}

/// So many vectors are tried.
pub const MOST_VECTORS: u128 = 5_000;

/// Whether all vectors of n residues can be tried.
pub fn can_try(m: u32, n: usize) -> bool {
    (m as u128).checked_pow(n as u32).is_some_and(|count| count <= MOST_VECTORS)
}

/// The vectors that solve the equations.
pub fn solutions(system: &System) -> BTreeSet<Vec<u32>> {
    reference::vectors(system.m, system.n).filter(|v| system.solved_by(v)).collect()
}

/// "A claim describes its start plus all combinations of its steps, coefficients 0..m-1": each step is taken again and again,
/// until that leads to no other vector; m times a step leads back.
pub fn described(m: u32, vectors: &[Vec<u32>]) -> BTreeSet<Vec<u32>> {
    let mut all: BTreeSet<Vec<u32>> = vectors.iter().take(1).cloned().collect();
    for step in vectors.iter().skip(1) {
        let mut from: Vec<Vec<u32>> = all.iter().cloned().collect();
        while let Some(v) = from.pop() {
            let next: Vec<u32> = v.iter().zip(step).map(|(&x, &y)| ((x as u64 + y as u64) % m as u64) as u32).collect();
            if all.insert(next.clone()) {
                from.push(next);
            }
        }
    }
    all
}

/// 'The ledger is "unopened", or m, n and a list of equations.' The equations are kept as they were written; "the ledger holds
/// residues" is `reduced`.
#[derive(Clone, Debug, PartialEq)]
pub enum Ledger {
    Unopened,
    Opened(System),
}

impl Ledger {
    /// The same with the residues of all numbers.
    pub fn reduced(&self) -> Ledger {
        match self {
            Ledger::Unopened => Ledger::Unopened,
            Ledger::Opened(system) => Ledger::Opened(system.reduced()),
        }
    }

    /// The call's answer, and in the ledger what an accepted call enters.
    pub fn run(&mut self, call: &Call) -> Said {
        if let Some(number) = self.refusal(call) {
            return Said::Refused(number);
        }
        match (call, &mut *self) {
            (Call::Open(words), _) => {
                let words = joined(words);
                let (m, n) = (words[0].number, words[1].number as usize);
                *self = Ledger::Opened(System::empty(m, n));
                Said::Opened { m, n }
            }
            (_, Ledger::Unopened) => unreachable!("question 4"),
            (Call::Add(words), Ledger::Opened(system)) => {
                let (q, behind) = parted(system.m, words);
                system.add(q, behind.iter().map(|&word| whole(word)).collect());
                Said::Added(system.equations.len())
            }
            (Call::AddText(typed), Ledger::Opened(system)) => {
                let typed = typed.as_ref().expect("question 11");
                let numbers = typed.numbers(system.m, system.n);
                // "For typed text, q is m"
                system.add(system.m, numbers.iter().map(|&number| number as i64).collect());
                Said::Added(system.equations.len())
            }
            (Call::Strike(place), Ledger::Opened(system)) => {
                // "1 for the first; 0 means the last. Later lines close up in order"
                let place = if *place == 0 { system.equations.len() } else { *place as usize };
                system.equations.remove(place - 1);
                Said::Struck(system.equations.len())
            }
            (Call::Answer(_) | Call::AnswerFromTape(_), Ledger::Opened(system)) => Said::Answered(solve(system)),
            (Call::Mark(words), Ledger::Opened(system)) => mark(system, words),
            (Call::Class(words, _), Ledger::Opened(system)) => {
                let claims = claims(system.n, words);
                Said::Classed(claims.into_iter().map(|claim| self.run(&Call::Mark(claim))).collect())
            }
            (Call::Reason(words, ..), Ledger::Opened(system)) => match can_try(system.m, system.n) {
                true => Said::Reasoned(reason(system, &vectors_in(system.n, words))),
                false => Said::SomeReason,
            },
            (Call::Meaningless(_), _) => unreachable!("refused with 1"),
        }
    }

    /// The number of the question that turns the call away. The buffer of an answer or a reason that is unknown is taken to be long
    /// enough.
    fn refusal(&self, call: &Call) -> Option<u32> {
        let questions: &[u32] = match call {
            Call::Open(_) => &[17, 1, 2, 3],
            Call::Add(_) => &[4, 17, 1, 15, 5],
            Call::AddText(_) => &[4, 11, 12, 13, 5],
            Call::Strike(_) => &[4, 7, 16],
            Call::Answer(_) => &[4, 8],
            Call::AnswerFromTape(_) => &[4, 1],
            Call::Mark(_) => &[4, 17, 1, 6],
            Call::Class(..) => &[4, 14, 8],
            Call::Reason(..) => &[4, 17, 1, 6, 8],
            Call::Meaningless(_) => &[17, 1],
        };
        questions.iter().copied().find(|&question| !self.yes(question, call))
    }

    /// The answer to one question; those before it were answered with yes.
    fn yes(&self, question: u32, call: &Call) -> bool {
        let system = || match self {
            Ledger::Opened(system) => system,
            Ledger::Unopened => unreachable!("question 4 comes first"),
        };
        match (question, call) {
            (17, Call::Open(words) | Call::Add(words) | Call::Mark(words) | Call::Reason(words, ..)) => is_joined(words),
            (17, Call::Meaningless(words)) => is_joined(words),
            (1, Call::Open(words)) => is_opening(words),
            (2, Call::Open(words)) => reference::is_modulus(joined(words)[0].number),
            (3, Call::Open(words)) => (1..=16).contains(&joined(words)[1].number),
            (4, _) => matches!(self, Ledger::Opened(_)),
            (1, Call::Add(words)) => is_equation(system().n, words),
            (15, Call::Add(words)) => is_own_modulus(system().m, parted(system().m, words).0),
            (5, Call::Add(_) | Call::AddText(_)) => system().equations.len() < 16,
            (11, Call::AddText(typed)) => typed.is_some(),
            (12, Call::AddText(Some(typed))) => typed.unknowns().iter().all(|&j| j <= system().n),
            (13, Call::AddText(Some(typed))) => typed.linear(),
            (1, Call::AnswerFromTape(word)) => number(*word) == 0,
            (7, Call::Strike(_)) => !system().equations.is_empty(),
            (16, Call::Strike(place)) => *place as usize <= system().equations.len(),
            (8, Call::Answer(length)) => block_length(system()).is_none_or(|block| block <= *length),
            (1, Call::Mark(words) | Call::Reason(words, ..)) => is_claim(system().n, words),
            (6, Call::Mark(words) | Call::Reason(words, ..)) => joined(words)[1..].iter().all(|word| word.number < system().m),
            (14, Call::Class(words, _)) => claims(system().n, words).len() <= 64,
            (8, Call::Class(words, bytes)) => claims(system().n, words).len() <= *bytes,
            (8, Call::Reason(words, at, out)) => *at >= 3 && reason_room(system(), words).is_none_or(|room| room <= *out),
            (1, Call::Meaningless(_)) => false,
            _ => unreachable!("{call:?} has no question {question}"),
        }
    }
}

/// The question that turns a call of milebadger_sheet_for away, where there is one: "those of open, then of a claim's kind 13 words,
/// shape and entries, then 8".
pub fn sheet_for_refusal(m: u32, n: u32, claim: &[u32], length: usize) -> Option<u32> {
    let yes = |question: u32| match question {
        2 => reference::is_modulus(m),
        3 => (1..=16).contains(&n),
        17 => is_joined(claim),
        1 => is_claim(n as usize, claim),
        6 => joined(claim)[1..].iter().all(|word| word.number < m),
        _ => length >= sheet_room(n as usize),
    };
    [2, 3, 17, 1, 6, 8].into_iter().find(|&question| !yes(question))
}

/// "A buffer of fewer than 2·n·(n+1) words" is too short, whatever is written.
pub fn sheet_room(n: usize) -> usize {
    2 * n * (n + 1)
}

/// The answer by trying all vectors.
pub fn solve(system: &System) -> Solved {
    if !can_try(system.m, system.n) {
        return Solved::Unknown;
    }
    match reference::answer(system) {
        Some(answer) => Solved::Vectors(answer),
        None => Solved::Nothing,
    }
}

/// How long a buffer question 8 asks for, where the answer is known.
pub fn block_length(system: &System) -> Option<usize> {
    match solve(system) {
        Solved::Vectors(answer) => Some(block_room(system, Some(&answer))),
        Solved::Nothing => Some(block_room(system, None)),
        Solved::Unknown => None,
    }
}

/// The same for this answer: the block's words as they are written, or a head, and for each equation a multiplier, "which counts two
/// words when m is above 2^28".
pub fn block_room(system: &System, answer: Option<&Answer>) -> usize {
    match answer {
        Some(answer) => claim(&vectors_of(answer)).len(),
        None => 1 + system.equations.len() * counted(system.m),
    }
}

/// Fail if the described vectors are not those that solve the ledger's equations. "Long .. where the described set is right but some
/// step is itself a combination of the others"; pass "then means right set and no such step".
fn mark(system: &System, words: &[u32]) -> Said {
    if !can_try(system.m, system.n) {
        return Said::SomeMark;
    }
    let vectors = vectors_in(system.n, words);
    if described(system.m, &vectors) != solutions(system) {
        Said::Failed
    } else if superfluous(system.m, &vectors).is_some() {
        Said::Long
    } else {
        Said::Passed
    }
}

/// The number of the first step that "is itself a combination of the others", from 1: it is among all that the other steps lead to
/// from zeros, the later ones too. A claim without steps has none.
pub fn superfluous(m: u32, vectors: &[Vec<u32>]) -> Option<usize> {
    (1..vectors.len()).find(|&step| described(m, &others(vectors, step)).contains(&vectors[step]))
}

/// Zeros in the place of the start, and all steps but this one.
pub fn others(vectors: &[Vec<u32>], step: usize) -> Vec<Vec<u32>> {
    let mut others = reference::without(vectors, step);
    others[0].fill(0);
    others
}

/// The vectors of a claim: a start and steps, or none.
pub fn vectors_in(n: usize, memory: &[u32]) -> Vec<Vec<u32>> {
    numbers(&joined(memory)[1..]).chunks(n).map(|v| v.to_vec()).collect()
}

/// "The tool gives the first of these that holds", by trying all vectors; for a right claim the first superfluous step, if there is one.
/// "A passed claim gives no reason."
pub fn reason(system: &System, vectors: &[Vec<u32>]) -> Option<Reason> {
    let solutions = solutions(system);
    if vectors.is_empty() {
        return (!solutions.is_empty()).then_some(Reason::Solvable);
    }
    if solutions.is_empty() {
        return Some(Reason::Unsolvable);
    }
    let described = described(system.m, vectors);
    fault(system, vectors)
        .or(solutions.iter().any(|v| !described.contains(v)).then_some(Reason::Misses))
        .or_else(|| superfluous(system.m, vectors).map(|step| Reason::Superfluous { step }))
}

/// The first equation that the start breaks; else the first step that changes a left side, and for it the first equation: behind the
/// step it differs from what it was at the start, and not by a multiple of the equation's modulus.
pub fn fault(system: &System, vectors: &[Vec<u32>]) -> Option<Reason> {
    let (start, numbers) = (&vectors[0], 1..=system.equations.len());
    if let Some(equation) = numbers.clone().find(|&equation| !system.only(equation).solved_by(start)) {
        return Some(Reason::Breaks { equation });
    }
    for step in 1..vectors.len() {
        let behind: Vec<u64> = start.iter().zip(&vectors[step]).map(|(&x, &y)| x as u64 + y as u64).collect();
        let changes = |equation: &usize| {
            let line = &system.equations[equation - 1];
            (line.left(&behind) - line.left(start)) % line.q as i128 != 0
        };
        if let Some(equation) = numbers.clone().find(changes) {
            return Some(Reason::Changes { step, equation });
        }
    }
    None
}

/// How long a buffer question 8 asks for, where the reason of a claim is known.
pub fn reason_room(system: &System, memory: &[u32]) -> Option<usize> {
    let known = can_try(system.m, system.n);
    known.then(|| reason(system, &vectors_in(system.n, memory)).map_or(0, |reason| reason.room(system)))
}

/// Why a block of words is not the answer to the equations, if it is not.
pub fn wrong_block(system: &System, block: &[u32]) -> Option<String> {
    let words = joined(block);
    let (head, behind) = (words[0], &words[1..]);
    if head.number == 0 {
        let multipliers = behind.iter().flat_map(|word| written(MULTIPLIER, word.number));
        let good = block == [word(HEAD, 0)].into_iter().chain(multipliers).collect::<Vec<u32>>();
        return (!good || !system.refuted_by(&numbers(behind))).then(|| format!("{block:x?} is no certificate for {system:?}"));
    }
    let vectors: Vec<Vec<u32>> = numbers(behind).chunks(system.n).map(|v| v.to_vec()).collect();
    if claim(&vectors) != block || vectors.iter().any(|v| v.len() != system.n) {
        return Some(format!("{block:x?} has not the shape of a block for {system:?}"));
    }
    wrong_vectors(system, &vectors)
}

/// Why a start with steps is not the answer to the equations. Where it is unknown, they must at least solve them.
pub fn wrong_vectors(system: &System, vectors: &[Vec<u32>]) -> Option<String> {
    let good = match solve(system) {
        Solved::Vectors(answer) => vectors_of(&answer) == vectors,
        Solved::Nothing => false,
        Solved::Unknown => {
            let homogeneous = system.homogeneous();
            vectors.iter().flatten().all(|&x| x < system.m)
                && system.solved_by(&vectors[0])
                && vectors[1..].iter().all(|step| homogeneous.solved_by(step))
        }
    };
    (!good).then(|| format!("{vectors:?} is not the answer to {system:?}"))
}

/// Claims whose reasons were worked out by hand: m, n, the equations, the vectors; the reason's number, its step and its equation.
pub const REASONED: [(u32, usize, &[&[i64]], &[&[u32]], [u32; 3]); 72] = [
    // x + 2y = 0 mod 4
    (4, 2, &[&[1, 2, 0]], &[], [1, 0, 0]),
    (4, 2, &[&[1, 2, 0]], &[&[1, 0]], [3, 0, 1]),
    (4, 2, &[&[1, 2, 0]], &[&[0, 0], &[1, 0]], [4, 1, 1]),
    (4, 2, &[&[1, 2, 0]], &[&[0, 0], &[0, 2]], [5, 0, 0]),
    (4, 2, &[&[1, 2, 0]], &[&[0, 0], &[2, 3]], [0, 0, 0]),
    (4, 2, &[&[1, 2, 0]], &[&[0, 0]], [5, 0, 0]),
    // twice 2 1 is 0 2, and three times 2 3 is 2 1; zeros, and a step that is there twice
    (4, 2, &[&[1, 2, 0]], &[&[2, 1], &[2, 1], &[0, 2]], [6, 2, 0]),
    (4, 2, &[&[1, 2, 0]], &[&[2, 1], &[0, 2], &[2, 1]], [6, 1, 0]),
    (4, 2, &[&[1, 2, 0]], &[&[0, 2], &[2, 1], &[2, 3]], [6, 1, 0]),
    (4, 2, &[&[1, 2, 0]], &[&[0, 2], &[2, 1], &[0, 0]], [6, 2, 0]),
    (4, 2, &[&[1, 2, 0]], &[&[0, 2], &[2, 1], &[2, 1]], [6, 1, 0]),
    (4, 2, &[&[1, 2, 0]], &[&[0, 0], &[0, 2], &[0, 2], &[0, 0]], [5, 0, 0]),
    (4, 2, &[&[1, 2, 0]], &[&[1, 0], &[2, 1], &[2, 1]], [3, 0, 1]),
    (4, 2, &[&[1, 2, 0]], &[&[0, 0], &[2, 1], &[2, 1], &[1, 0]], [4, 3, 1]),
    // a start that breaks it, before a step that changes it; two steps that do
    (4, 2, &[&[1, 2, 0]], &[&[1, 0], &[1, 0]], [3, 0, 1]),
    (4, 2, &[&[1, 2, 0]], &[&[0, 0], &[2, 3], &[0, 1], &[1, 0]], [4, 2, 1]),
    // a step that itself solves -3x = 2 mod 4, which is x = 2, and changes the left side
    (4, 1, &[&[-3, 2]], &[&[2], &[2]], [4, 1, 1]),
    (4, 1, &[&[-3, 2]], &[&[2], &[0]], [6, 1, 0]),
    // a sum of products that is a multiple of m, and not 0
    (4, 2, &[&[7, -2, 0]], &[&[0, 0], &[2, 3]], [0, 0, 0]),
    // 2x = 1 mod 4: before the start is looked at
    (4, 2, &[&[2, 0, 1]], &[&[3, 3], &[1, 0]], [2, 0, 0]),
    (4, 2, &[&[2, 0, 1]], &[&[0, 0]], [2, 0, 0]),
    (4, 2, &[&[2, 0, 1]], &[], [0, 0, 0]),
    (2, 2, &[&[1, 1, 1], &[1, 1, 0]], &[&[0, 1], &[1, 1]], [2, 0, 0]),
    (2, 2, &[&[1, 1, 1], &[1, 1, 0]], &[&[0, 1], &[1, 1], &[0, 0]], [2, 0, 0]),
    // the first such equation
    (4, 2, &[&[1, 2, 0], &[2, 0, 0]], &[&[0, 0], &[2, 1], &[1, 0]], [4, 2, 1]),
    (4, 2, &[&[2, 0, 0], &[1, 2, 0]], &[&[0, 0], &[2, 1], &[2, 0]], [4, 2, 2]),
    (4, 2, &[&[2, 0, 0], &[0, 1, 0]], &[&[2, 1]], [3, 0, 2]),
    (4, 2, &[&[2, 0, 0], &[0, 1, 0]], &[&[1, 1]], [3, 0, 1]),
    // the second equation for the first step, and not the first one for the second
    (4, 2, &[&[2, 0, 0], &[0, 1, 0]], &[&[0, 0], &[0, 1], &[1, 0]], [4, 1, 2]),
    // an equation of zeros is broken by nothing, 0 = 1 by everything
    (4, 2, &[&[0, 0, 0], &[1, 2, 0]], &[&[1, 0]], [3, 0, 2]),
    (4, 2, &[&[0, 0, 1], &[1, 2, 0]], &[&[1, 0]], [2, 0, 0]),
    (4, 2, &[&[0, 0, 1], &[1, 2, 0]], &[], [0, 0, 0]),
    // no equations
    (2, 1, &[], &[], [1, 0, 0]),
    (2, 1, &[], &[&[1]], [5, 0, 0]),
    (2, 1, &[], &[&[1], &[1]], [0, 0, 0]),
    (2, 1, &[], &[&[1], &[1], &[1]], [6, 1, 0]),
    // mod 6 with x = 5, and without equations: 2 and 3 lead everywhere, and neither leads to the other
    (6, 1, &[&[1, 5]], &[&[5]], [0, 0, 0]),
    (6, 1, &[&[1, 5]], &[&[5], &[0]], [6, 1, 0]),
    (6, 1, &[], &[&[0], &[1], &[2]], [6, 2, 0]),
    (6, 1, &[], &[&[0], &[2], &[1]], [6, 1, 0]),
    (6, 1, &[], &[&[0], &[0], &[1]], [6, 1, 0]),
    (6, 1, &[], &[&[0], &[1], &[1]], [6, 1, 0]),
    (6, 1, &[], &[&[0], &[2], &[3]], [0, 0, 0]),
    (6, 1, &[], &[&[0], &[4], &[3], &[2]], [6, 1, 0]),
    (6, 1, &[], &[&[0], &[3], &[4], &[5]], [6, 1, 0]),
    (6, 1, &[], &[&[0], &[2], &[4]], [5, 0, 0]),
    // 1 follows from 2 and 3 together, and from neither alone
    (6, 1, &[], &[&[0], &[1], &[2], &[3]], [6, 1, 0]),
    // mod 30 any two of 6, 10 and 15 have a common divisor with 30, and all three have none
    (30, 1, &[], &[&[7], &[6], &[10], &[15]], [0, 0, 0]),
    (30, 1, &[], &[&[7], &[6], &[10], &[15], &[12]], [6, 1, 0]),
    (30, 1, &[], &[&[7], &[6], &[10], &[15], &[20], &[18]], [6, 1, 0]),
    (30, 1, &[], &[&[7], &[12], &[18], &[10], &[15]], [6, 1, 0]),
    (30, 1, &[], &[&[7], &[6], &[10]], [5, 0, 0]),
    (30, 1, &[], &[&[0], &[1], &[6], &[10], &[15]], [6, 1, 0]),
    (30, 2, &[], &[&[0, 0], &[0, 1], &[6, 0], &[10, 0], &[1, 0], &[15, 0]], [6, 2, 0]),
    // 1 1 1 is the sum of the three, and each of them is 1 1 1 less the other two
    (3, 3, &[], &[&[0, 1, 2], &[1, 0, 0], &[0, 1, 0], &[0, 0, 1]], [0, 0, 0]),
    (3, 3, &[], &[&[0, 1, 2], &[1, 0, 0], &[0, 1, 0], &[0, 0, 1], &[1, 1, 1]], [6, 1, 0]),
    (3, 3, &[], &[&[0, 1, 2], &[1, 0, 0], &[0, 1, 0], &[0, 0, 1], &[0, 1, 1]], [6, 2, 0]),
    (3, 3, &[], &[&[0, 1, 2], &[1, 0, 0], &[0, 1, 0], &[0, 0, 1], &[0, 0, 2]], [6, 3, 0]),
    // mod 4, 2 0 follows from 1 0 and not the other way round
    (4, 2, &[], &[&[3, 3], &[1, 0], &[0, 1], &[2, 0]], [6, 3, 0]),
    (4, 2, &[], &[&[3, 3], &[2, 0], &[0, 1], &[1, 0]], [6, 1, 0]),
    (4, 2, &[], &[&[3, 3], &[1, 0], &[0, 1], &[2, 1]], [6, 2, 0]),
    // 2x + 3y = 5 mod 12
    (12, 2, &[&[2, 3, 5]], &[&[1, 1], &[0, 4]], [5, 0, 0]),
    // 8 times 3 2 is 0 4
    (12, 2, &[&[2, 3, 5]], &[&[1, 1], &[0, 4], &[3, 2]], [6, 1, 0]),
    (12, 2, &[&[2, 3, 5]], &[&[1, 1], &[3, 2], &[0, 4]], [6, 2, 0]),
    (12, 2, &[&[2, 3, 5]], &[&[1, 1], &[3, 2]], [0, 0, 0]),
    // 3 times 3 2 and 4 times it are two steps that say what it says
    (12, 2, &[&[2, 3, 5]], &[&[1, 1], &[9, 6], &[0, 8]], [0, 0, 0]),
    (12, 2, &[&[2, 3, 5]], &[&[1, 1], &[9, 6], &[0, 8], &[6, 0]], [6, 3, 0]),
    (12, 2, &[&[2, 3, 5]], &[&[1, 1], &[0, 4], &[3, 3]], [4, 2, 1]),
    // -x = 1 mod 65,535
    (65_535, 1, &[&[-1, 1]], &[&[65_534]], [0, 0, 0]),
    (65_535, 1, &[&[-1, 1]], &[&[65_534], &[0]], [6, 1, 0]),
    (65_535, 1, &[&[-1, 1]], &[&[1]], [3, 0, 1]),
    (65_535, 1, &[&[-1, 1]], &[&[65_534], &[0], &[1]], [4, 2, 1]),
];

/// A row of that table as equations and vectors.
pub fn posed(m: u32, n: usize, equations: &[&[i64]], vectors: &[&[u32]]) -> (System, Vec<Vec<u32>>) {
    let system = System::plain(m, n, equations.iter().map(|equation| equation.to_vec()).collect());
    (system, vectors.iter().map(|v| v.to_vec()).collect())
}

/// Claims about equations with a modulus of their own, in front of each, with reasons that were worked out by hand.
pub const OWN_REASONED: [(u32, usize, &[(u32, &[i64])], &[&[u32]], [u32; 3]); 44] = [
    // mod 3 x = 2, on a sheet mod 12: 2, 5, 8 and 11
    (12, 1, &[(3, &[1, 2])], &[], [1, 0, 0]),
    (12, 1, &[(3, &[1, 2])], &[&[2], &[3]], [0, 0, 0]),
    (12, 1, &[(3, &[1, 2])], &[&[11], &[9]], [0, 0, 0]),
    (12, 1, &[(3, &[1, 2])], &[&[11], &[9], &[6]], [6, 2, 0]),
    (12, 1, &[(3, &[1, 2])], &[&[5], &[6], &[9]], [6, 1, 0]),
    (12, 1, &[(3, &[1, 2])], &[&[5], &[6], &[0]], [5, 0, 0]),
    (12, 1, &[(3, &[1, 2])], &[&[2]], [5, 0, 0]),
    (12, 1, &[(3, &[1, 2])], &[&[2], &[6]], [5, 0, 0]),
    (12, 1, &[(3, &[1, 2])], &[&[3], &[3]], [3, 0, 1]),
    (12, 1, &[(3, &[1, 2])], &[&[2], &[3], &[4]], [4, 2, 1]),
    // and mod 4 x = 3 beside it: 11 alone
    (12, 1, &[(3, &[1, 2]), (4, &[1, 3])], &[], [1, 0, 0]),
    (12, 1, &[(3, &[1, 2]), (4, &[1, 3])], &[&[11]], [0, 0, 0]),
    (12, 1, &[(3, &[1, 2]), (4, &[1, 3])], &[&[11], &[0]], [6, 1, 0]),
    (12, 1, &[(3, &[1, 2]), (4, &[1, 3])], &[&[3]], [3, 0, 1]),
    (12, 1, &[(3, &[1, 2]), (4, &[1, 3])], &[&[2], &[3]], [3, 0, 2]),
    (12, 1, &[(3, &[1, 2]), (4, &[1, 3])], &[&[11], &[4]], [4, 1, 1]),
    (12, 1, &[(3, &[1, 2]), (4, &[1, 3])], &[&[11], &[0], &[6]], [4, 2, 2]),
    // a step that is not 0 mod 12 changes nothing mod 2
    (12, 1, &[(2, &[1, 1])], &[&[1], &[2]], [0, 0, 0]),
    // 4 times 10 is 4; 4 and 6 lead to all even numbers, and neither to the other
    (12, 1, &[(2, &[1, 1])], &[&[1], &[10], &[4]], [6, 2, 0]),
    (12, 1, &[(2, &[1, 1])], &[&[1], &[4], &[6]], [0, 0, 0]),
    (12, 1, &[(2, &[1, 1])], &[&[1], &[4], &[6], &[8]], [6, 1, 0]),
    (12, 1, &[(2, &[1, 1])], &[&[1], &[4]], [5, 0, 0]),
    (12, 1, &[(2, &[1, 1])], &[&[1], &[2], &[3]], [4, 2, 1]),
    // mod 3 x = 1 and x = 2
    (12, 1, &[(3, &[1, 1]), (3, &[1, 2])], &[], [0, 0, 0]),
    (12, 1, &[(3, &[1, 1]), (3, &[1, 2])], &[&[1], &[3]], [2, 0, 0]),
    // mod 4 x = 3 and mod 6 x = 2: one is odd and the other even
    (12, 1, &[(4, &[1, 3]), (6, &[1, 2])], &[], [0, 0, 0]),
    (12, 1, &[(4, &[1, 3]), (6, &[1, 2])], &[&[3]], [2, 0, 0]),
    // mod 4 x = 3 and mod 6 x = 5 agree about that: 11
    (12, 1, &[(4, &[1, 3]), (6, &[1, 5])], &[&[11]], [0, 0, 0]),
    // minus 1 mod 3 is 2: minus x = 1 is x = 2
    (12, 1, &[(3, &[-1, 1])], &[&[11], &[3]], [0, 0, 0]),
    (12, 1, &[(3, &[1, -1])], &[&[11]], [5, 0, 0]),
    // a modulus of its own that is the sheet's
    (12, 1, &[(12, &[4, 8])], &[&[2], &[3]], [0, 0, 0]),
    (12, 1, &[(12, &[4, 6])], &[&[2], &[3]], [2, 0, 0]),
    // mod 3 it is 0 = 1 where all coefficients are multiples of 3
    (12, 2, &[(3, &[3, -6, 1])], &[&[0, 0]], [2, 0, 0]),
    // mod 2 x + y = 1, and mod 3 x - y = 1
    (12, 2, &[(2, &[1, 1, 1]), (3, &[1, -1, 1])], &[&[1, 0], &[1, 1], &[0, 6]], [0, 0, 0]),
    (12, 2, &[(2, &[1, 1, 1]), (3, &[1, -1, 1])], &[&[1, 0], &[6, 0], &[1, 1], &[0, 6]], [6, 1, 0]),
    (12, 2, &[(2, &[1, 1, 1]), (3, &[1, -1, 1])], &[&[1, 0], &[1, 1], &[0, 6], &[2, 2]], [6, 3, 0]),
    (12, 2, &[(2, &[1, 1, 1]), (3, &[1, -1, 1])], &[&[1, 0], &[1, 1]], [5, 0, 0]),
    (12, 2, &[(2, &[1, 1, 1]), (3, &[1, -1, 1])], &[&[1, 0], &[1, 1], &[0, 2]], [4, 2, 2]),
    (12, 2, &[(2, &[1, 1, 1]), (3, &[1, -1, 1])], &[&[1, 0], &[1, 1], &[0, 3]], [4, 2, 1]),
    (12, 2, &[(2, &[1, 1, 1]), (3, &[1, -1, 1])], &[&[1, 2], &[1, 1], &[0, 6]], [3, 0, 2]),
    (65_535, 1, &[(255, &[1, -1])], &[&[254], &[255]], [0, 0, 0]),
    (65_535, 1, &[(255, &[1, -1])], &[&[254], &[255], &[510]], [6, 1, 0]),
    (65_535, 1, &[(255, &[1, -1])], &[&[254], &[255], &[765]], [6, 1, 0]),
    (65_535, 1, &[(255, &[1, -1])], &[&[254], &[255], &[65_280]], [6, 1, 0]),
];

/// A row of that table.
pub fn posed_own(m: u32, n: usize, equations: &[(u32, &[i64])], vectors: &[&[u32]]) -> (System, Vec<Vec<u32>>) {
    let mut system = System::empty(m, n);
    equations.iter().for_each(|(q, numbers)| system.add(*q, numbers.to_vec()));
    (system, vectors.iter().map(|v| v.to_vec()).collect())
}
