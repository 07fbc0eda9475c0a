//! The calls of include/milebadger.h that have no sheet, as Rust sees them. Each gets memory with a guard on both sides, filled
//! with numbers that differ from place to place, so that a number written, moved or cleared anywhere shows.
#![allow(dead_code)]

extern "C" {
    fn milebadger_version() -> u32;
    fn milebadger_gcd(a: u32, b: u32, out: *mut u32, out_len: usize) -> i64;
    fn milebadger_congruence(a: i32, b: i32, m: u32, out: *mut u32, out_len: usize) -> i64;
    fn milebadger_solve(m: u32, n: u32, lines: *const u32, lines_len: usize, out: *mut u32, out_len: usize) -> i64;
    fn milebadger_safe(
        m: u32,
        rows: u32,
        columns: u32,
        values: *const u32,
        values_len: usize,
        out: *mut u32,
        out_len: usize,
    ) -> i64;
    fn milebadger_tape(tape: *const u8, tape_len: usize, out: *mut u8, out_len: usize) -> i64;
    fn milebadger_sheet_for(m: u32, n: u32, claim: *const u32, claim_len: usize, out: *mut u32, out_len: usize) -> i64;
}

/// What a call gave back: its result, and the lent memory after it.
#[derive(Clone, Debug, PartialEq)]
pub struct Reply {
    pub result: i64,
    pub memory: Vec<u32>,
}

/// What lent memory of this length holds before a call.
pub fn untouched(len: usize) -> Vec<u32> {
    (0..len as u32).map(|place| 0xC0DE_0000 + place).collect()
}

/// The reply of a call that refuses, or has nothing to write.
pub fn silent(result: i64, len: usize) -> Reply {
    Reply { result, memory: untouched(len) }
}

/// The reply of a call that has these numbers to write: minus 8 where they do not fit.
pub fn writing(result: i64, numbers: &[u32], len: usize) -> Reply {
    if len < numbers.len() {
        return silent(-8, len);
    }
    let mut memory = untouched(len);
    memory[..numbers.len()].copy_from_slice(numbers);
    Reply { result, memory }
}

pub const GUARD: u32 = 0xFACE_FACE;

/// As many as a class has marks: all of them written in front of the lent bytes or behind them show.
pub const GUARDS: usize = 64;

fn lend(len: usize, call: impl FnOnce(*mut u32, usize) -> i64) -> Reply {
    let mut all = vec![GUARD; GUARDS];
    all.extend(untouched(len));
    all.extend([GUARD; GUARDS]);
    let result = call(all[GUARDS..].as_mut_ptr(), len);
    assert_eq!(all[..GUARDS], [GUARD; GUARDS], "written in front of the lent memory");
    assert_eq!(all[GUARDS + len..], [GUARD; GUARDS], "written behind the lent memory");
    Reply { result, memory: all[GUARDS..GUARDS + len].to_vec() }
}

pub fn version() -> u32 {
    unsafe { milebadger_version() }
}

pub fn gcd(a: u32, b: u32, len: usize) -> Reply {
    lend(len, |out, len| unsafe { milebadger_gcd(a, b, out, len) })
}

pub fn congruence(a: i32, b: i32, m: u32, len: usize) -> Reply {
    lend(len, |out, len| unsafe { milebadger_congruence(a, b, m, out, len) })
}

/// Calls with numbers to read, which have a guard on both sides too and must be the same afterwards.
fn reading(guard: u32, numbers: &[u32], call: impl FnOnce(*const u32, usize) -> Reply) -> Reply {
    let mut lent = vec![guard; GUARDS];
    lent.extend(numbers);
    lent.extend([guard; GUARDS]);
    let before = lent.clone();
    let reply = call(lent[GUARDS..].as_ptr(), numbers.len());
    assert_eq!(lent, before, "what was to be read was written");
    reply
}

pub fn solve(m: u32, n: u32, lines: &[u32], len: usize) -> Reply {
    reading(GUARD, lines, |lines, count| lend(len, |out, len| unsafe { milebadger_solve(m, n, lines, count, out, len) }))
}

/// Beside the values there are entries, with which a word of kind 13 that is the last one would be good.
pub fn safe(m: u32, rows: u32, columns: u32, values: &[u32], len: usize) -> Reply {
    reading(6 << 28, values, |values, count| {
        lend(len, |out, len| unsafe { milebadger_safe(m, rows, columns, values, count, out, len) })
    })
}

/// Beside the claim there are entries, with which one that breaks off would be whole, and a word of kind 13 behind all would be good.
pub fn sheet_for(m: u32, n: u32, claim: &[u32], len: usize) -> Reply {
    reading(6 << 28, claim, |claim, count| lend(len, |out, len| unsafe { milebadger_sheet_for(m, n, claim, count, out, len) }))
}

/// The same on memory as it is lent, with nothing beside it: whoever watches the memory sees what else is read or written.
pub fn sheet_for_bare(m: u32, n: u32, claim: &[u32], out: &mut [u32]) -> i64 {
    unsafe { milebadger_sheet_for(m, n, claim.as_ptr(), claim.len(), out.as_mut_ptr(), out.len()) }
}

/// The longest answer block: a head, a start and 16 steps of 16 numbers.
pub const LONGEST_BLOCK: usize = 1 + 17 * 16;

/// The same in words, of which each number but the head may take two.
pub const LONGEST_WORDS: usize = 1 + 2 * 17 * 16;

/// What the tape's call gave back: its result, and the lent bytes after it.
#[derive(Clone, Debug, PartialEq)]
pub struct Printed {
    pub result: i64,
    pub memory: Vec<u8>,
}

/// What lent bytes hold before a call; none of them is a byte of a line.
pub fn untouched_bytes(len: usize) -> Vec<u8> {
    (0..len).map(|place| 0x80 + (place % 127) as u8).collect()
}

pub fn tape(tape: &[u8], len: usize) -> Printed {
    const GUARD: [u8; 16] = [0xFA; 16];
    let given = tape.to_vec();
    let mut lent = [&GUARD[..], &untouched_bytes(len), &GUARD].concat();
    let before = given.clone();
    let result = unsafe { milebadger_tape(given.as_ptr(), tape.len(), lent[16..].as_mut_ptr(), len) };
    assert_eq!(given, before, "the tape was written");
    assert_eq!(lent[..16], GUARD, "written in front of the lent memory");
    assert_eq!(lent[16 + len..], GUARD, "written behind the lent memory");
    Printed { result, memory: lent[16..16 + len].to_vec() }
}
