//! A sheet, and the calls on it that several benchmarks make.
#![allow(dead_code)]

/// The header's milebadger_sheet.
#[repr(C)]
#[derive(Clone, Copy, PartialEq)]
pub struct Sheet {
    numbers: [u32; 291],
}

extern "C" {
    fn milebadger_open(sheet: *mut Sheet, words: *const u32, words_len: usize) -> i64;
    pub fn milebadger_add(sheet: *mut Sheet, words: *const u32, words_len: usize) -> i64;
    pub fn milebadger_answer(sheet: *const Sheet, out: *mut u32, out_len: usize) -> i64;
    pub fn milebadger_mark(sheet: *const Sheet, words: *const u32, words_len: usize) -> i64;
    pub fn milebadger_reason(
        sheet: *const Sheet,
        words: *const u32,
        words_len: usize,
        at: *mut u32,
        at_len: usize,
        out: *mut u32,
        out_len: usize,
    ) -> i64;
}

pub fn word(kind: u32, number: u64) -> u32 {
    kind << 28 | number as u32
}

/// A word of any number, with one of kind 13 in front from 2^28 on.
pub fn written(kind: u32, number: u64) -> Vec<u32> {
    let low = word(kind, number % (1 << 28));
    if number < 1 << 28 {
        vec![low]
    } else {
        vec![word(13, number >> 28), low]
    }
}

pub fn opening(m: u64, n: usize) -> Vec<u32> {
    [written(1, m), vec![word(2, n as u64)]].concat()
}

/// The words of a line: its coefficients, and its right side behind them.
pub fn line(numbers: &[u64]) -> Vec<u32> {
    let (&right, coefficients) = numbers.split_last().unwrap();
    coefficients.iter().flat_map(|&a| written(3, a)).chain(written(4, right)).collect()
}

/// A sheet with the words of this opening and of these lines, which are accepted.
pub fn filled(opening: &[u32], lines: &[Vec<u32>]) -> Sheet {
    let mut sheet = Sheet { numbers: [0; 291] };
    assert_eq!(unsafe { milebadger_open(&mut sheet, opening.as_ptr(), opening.len()) }, 0);
    for (line, held) in lines.iter().zip(1..) {
        assert_eq!(unsafe { milebadger_add(&mut sheet, line.as_ptr(), line.len()) }, held);
    }
    sheet
}

/// The block that the sheet's answer writes.
pub fn block(sheet: &Sheet) -> Vec<u32> {
    let mut block = vec![0; 545];
    let wrote = unsafe { milebadger_answer(sheet, block.as_mut_ptr(), block.len()) };
    block.truncate(usize::try_from(wrote).expect("a refusal"));
    block
}
