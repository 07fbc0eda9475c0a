//! The calls on a sheet as Rust sees them. The sheet, the words, the text, the buffer, the marks and the `at` of a reason lie in
//! memory with a guard on both sides, and after each call everything that it may not write is compared with what it was.
#![allow(dead_code)]

use crate::face::{GUARD, GUARDS};

/// How many numbers a sheet has.
pub const NUMBERS: usize = 291;

/// The header's milebadger_sheet.
#[repr(C)]
pub struct Sheet {
    numbers: [u32; NUMBERS],
}

extern "C" {
    fn milebadger_open(sheet: *mut Sheet, words: *const u32, words_len: usize) -> i64;
    fn milebadger_add(sheet: *mut Sheet, words: *const u32, words_len: usize) -> i64;
    fn milebadger_add_text(sheet: *mut Sheet, text: *const u8, text_len: usize) -> i64;
    fn milebadger_strike(sheet: *mut Sheet, place: u32) -> i64;
    fn milebadger_answer(sheet: *const Sheet, out: *mut u32, out_len: usize) -> i64;
    fn milebadger_mark(sheet: *const Sheet, words: *const u32, words_len: usize) -> i64;
    fn milebadger_class(sheet: *const Sheet, words: *const u32, words_len: usize, marks: *mut u8, marks_len: usize) -> i64;
    fn milebadger_reason(
        sheet: *const Sheet,
        words: *const u32,
        words_len: usize,
        at: *mut u32,
        at_len: usize,
        out: *mut u32,
        out_len: usize,
    ) -> i64;
}

/// A call on the sheet with its arguments.
#[derive(Clone, Debug, PartialEq)]
pub enum Act {
    Open(Vec<u32>),
    Add(Vec<u32>),
    AddText(Vec<u8>),
    /// At this place.
    Strike(u32),
    /// Into a buffer with this content.
    Answer(Vec<u32>),
    Mark(Vec<u32>),
    /// The words that the last accepted answer wrote, marked where they lie.
    MarkBlock,
    /// The words of all claims, into bytes with this content.
    Class(Vec<u32>, Vec<u8>),
    /// The words of a claim, with this content of the header's `at`, and into a buffer with this one.
    Reason(Vec<u32>, Vec<u32>, Vec<u32>),
}

impl Act {
    fn changes_the_sheet(&self) -> bool {
        matches!(self, Act::Open(_) | Act::Add(_) | Act::AddText(_) | Act::Strike(_))
    }
}

/// What a call gave back.
#[derive(Clone, Copy, Debug, PartialEq)]
pub enum Outcome {
    Refused(u32),
    Holds(usize),
    Wrote(usize),
    Pass,
    Long,
    Fail,
    /// So many claims of a class.
    Marked(usize),
    /// A reason's number, or 0 for a claim that passes.
    Reason(u32),
}

/// An outcome, the whole buffer after an answer or a reason, all bytes after a class, and all numbers of `at` after a reason.
#[derive(Clone, Debug, PartialEq)]
pub struct Reply {
    pub outcome: Outcome,
    pub buffer: Vec<u32>,
    pub marks: Vec<u8>,
    pub at: Vec<u32>,
}

/// What the result says, where the call may have it at all.
fn read(act: &Act, result: i64) -> Option<Outcome> {
    match (act, result) {
        (_, -8..=-1) | (Act::AddText(_), -13..=-11) => Some(Outcome::Refused(-result as u32)),
        (Act::Class(..), -14) | (Act::Add(_), -15) | (Act::Strike(_), -16) => Some(Outcome::Refused(-result as u32)),
        (Act::Open(_) | Act::Add(_) | Act::Mark(_) | Act::MarkBlock | Act::Reason(..), -17) => Some(Outcome::Refused(17)),
        (Act::Open(_), 0) => Some(Outcome::Holds(0)),
        (Act::Add(_) | Act::AddText(_) | Act::Strike(_), 0..=16) => Some(Outcome::Holds(result as usize)),
        (Act::Answer(buffer), 1..) if result <= buffer.len() as i64 => Some(Outcome::Wrote(result as usize)),
        (Act::Mark(_) | Act::MarkBlock, 1) => Some(Outcome::Pass),
        (Act::Mark(_) | Act::MarkBlock, 2) => Some(Outcome::Long),
        (Act::Mark(_) | Act::MarkBlock, 0) => Some(Outcome::Fail),
        (Act::Class(_, marks), 0..) if result <= marks.len() as i64 => Some(Outcome::Marked(result as usize)),
        (Act::Reason(..), 0..=6) => Some(Outcome::Reason(result as u32)),
        _ => None,
    }
}

/// Numbers or bytes with a guard on both sides.
#[derive(Clone, PartialEq)]
struct Lent<T> {
    guard: T,
    all: Vec<T>,
}

impl Lent<u32> {
    fn numbers(numbers: &[u32]) -> Lent<u32> {
        Lent::new(GUARD, numbers)
    }

    /// Beside the claims of a class, or one claim, there are entries, with which the last one would be whole where it breaks off, and a
    /// word of kind 13 behind all would be good.
    fn claims(words: &[u32]) -> Lent<u32> {
        Lent::new(6 << 28, words)
    }

    /// Beside an equation there are right sides, and beside an opening unknowns, for the same reason.
    fn words(act: &Act, words: &[u32]) -> Lent<u32> {
        Lent::new(if matches!(act, Act::Add(_)) { 4 << 28 } else { 2 << 28 | 1 }, words)
    }

    /// A reason's `at` and its buffer.
    fn shown(act: &Act) -> [Lent<u32>; 2] {
        match act {
            Act::Reason(_, at, out) => [Lent::numbers(at), Lent::numbers(out)],
            _ => [Lent::numbers(&[]), Lent::numbers(&[])],
        }
    }
}

impl Lent<u8> {
    /// Beside the text there are digits, with which it would say something else; beside marks there are bytes that are none.
    fn bytes(act: &Act) -> Lent<u8> {
        match act {
            Act::AddText(text) => Lent::new(b'1', text),
            Act::Class(_, marks) => Lent::new(0xFA, marks),
            _ => Lent::new(b'1', &[]),
        }
    }
}

impl<T: Copy + PartialEq> Lent<T> {
    fn new(guard: T, own: &[T]) -> Lent<T> {
        Lent { guard, all: [&[guard; GUARDS], own, &[guard; GUARDS]].concat() }
    }

    fn own(&self) -> &[T] {
        &self.all[GUARDS..self.all.len() - GUARDS]
    }

    fn start(&mut self) -> *mut T {
        self.all[GUARDS..].as_mut_ptr()
    }

    fn guarded(&self) -> bool {
        *self == Lent::new(self.guard, self.own())
    }
}

/// A sheet that lies on a desk, beside the buffer of the last accepted answer.
pub struct Desk {
    sheet: Lent<u32>,
    buffer: Lent<u32>,
    wrote: usize,
}

impl Desk {
    /// "Zeroed memory is a fresh, unopened sheet."
    pub fn fresh() -> Desk {
        Desk::with(&[0; NUMBERS])
    }

    /// A sheet with these numbers.
    pub fn with(numbers: &[u32]) -> Desk {
        assert_eq!(numbers.len(), NUMBERS);
        Desk { sheet: Lent::numbers(numbers), buffer: Lent::numbers(&[]), wrote: 0 }
    }

    pub fn numbers(&self) -> &[u32] {
        self.sheet.own()
    }

    /// The words that the last accepted answer wrote.
    pub fn block(&self) -> &[u32] {
        &self.buffer.own()[..self.wrote]
    }

    /// Makes the call, or says what is wrong with its result or with the memory after it.
    pub fn act(&mut self, act: &Act) -> Result<Reply, String> {
        let before = self.sheet.clone();
        let mut lent = match act {
            Act::Answer(words) => Lent::numbers(words),
            Act::Open(words) | Act::Add(words) => Lent::words(act, words),
            Act::Mark(words) | Act::Class(words, _) | Act::Reason(words, ..) => Lent::claims(words),
            Act::AddText(_) | Act::Strike(_) => Lent::numbers(&[]),
            Act::MarkBlock => std::mem::replace(&mut self.buffer, Lent::numbers(&[])),
        };
        let (mut bytes, [mut at, mut out]) = (Lent::bytes(act), Lent::shown(act));
        let (old, old_bytes, old_shown) = (lent.clone(), bytes.clone(), [at.clone(), out.clone()]);
        let len = if *act == Act::MarkBlock { self.wrote } else { old.own().len() };
        let result = call(act, self.sheet.start() as *mut Sheet, lent.start(), len, bytes.start(), at.start(), out.start());
        let outcome = read(act, result).ok_or(format!("no call has the result {result}"))?;
        let refused = matches!(outcome, Outcome::Refused(_));
        let (answers, marks) = (matches!(act, Act::Answer(_)), matches!(act, Act::Class(..)));
        let faults = [
            ("written beside the sheet", !self.sheet.guarded()),
            ("the sheet was written", self.sheet != before && (refused || !act.changes_the_sheet())),
            ("written beside the words or the buffer", !lent.guarded()),
            ("the words or the buffer were written", lent != old && (refused || !answers)),
            ("written beside the text or the marks", !bytes.guarded()),
            ("the text or the marks were written", bytes != old_bytes && (refused || !marks)),
            ("written beside `at` or the words of a reason", !at.guarded() || !out.guarded()),
            ("`at` or the words of a reason were written", [&at, &out] != old_shown.each_ref() && refused),
        ];
        if let Some((fault, _)) = faults.iter().find(|(_, found)| *found) {
            return Err(format!("{fault} at {outcome:?}"));
        }
        let buffer = if answers { lent.own().to_vec() } else { out.own().to_vec() };
        let marks = if marks { bytes.own().to_vec() } else { vec![] };
        let at = at.own().to_vec();
        match (act, outcome) {
            (Act::Answer(_), Outcome::Wrote(length)) => (self.buffer, self.wrote) = (lent, length),
            (Act::MarkBlock, _) => self.buffer = lent,
            _ => {}
        }
        Ok(Reply { outcome, buffer, marks, at })
    }
}

/// The call itself, with words or a buffer of this length at `memory`, its text or its marks at `bytes`, and what a reason writes at
/// `at` and `out`.
fn call(act: &Act, sheet: *mut Sheet, memory: *mut u32, len: usize, bytes: *mut u8, at: *mut u32, out: *mut u32) -> i64 {
    unsafe {
        match act {
            Act::Open(_) => milebadger_open(sheet, memory, len),
            Act::Add(_) => milebadger_add(sheet, memory, len),
            Act::AddText(text) => milebadger_add_text(sheet, bytes, text.len()),
            Act::Strike(place) => milebadger_strike(sheet, *place),
            Act::Answer(_) => milebadger_answer(sheet, memory, len),
            Act::Mark(_) | Act::MarkBlock => milebadger_mark(sheet, memory, len),
            Act::Class(_, marks) => milebadger_class(sheet, memory, len, bytes, marks.len()),
            Act::Reason(_, old_at, old_out) => milebadger_reason(sheet, memory, len, at, old_at.len(), out, old_out.len()),
        }
    }
}
