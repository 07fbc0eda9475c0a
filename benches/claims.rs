//! What the benchmarks of claims share: sheets with many solutions, claims about them that are right in a form of their own, and the
//! clock for two calls by turns.
#![allow(dead_code)]

use crate::random::Random;
use crate::sheet::{self, word, Sheet};
use std::time::Instant;

/// Sheets with 64 claims each, so that no branch is learnt by heart.
pub const SHEETS: usize = 8;
pub const CLAIMS: usize = 64;

/// Sheets with as many dense lines as unknowns. A divisor of the modulus m is a factor of all coefficients, so that there is a step
/// for each unknown; 0 says that half of the lines are combinations of the others, and so are half of the steps.
#[derive(Clone, Copy)]
pub struct Shape {
    pub m: u64,
    pub factor: u64,
    pub n: usize,
}

/// v + t·w mod m
pub fn plus(m: u64, v: &[u64], t: u64, w: &[u64]) -> Vec<u64> {
    v.iter().zip(w).map(|(x, y)| (x + t * y) % m).collect()
}

/// Any combination of these vectors, which are not none.
fn combination(m: u64, vectors: &[Vec<u64>], random: &mut Random) -> Vec<u64> {
    let zeros = vec![0; vectors[0].len()];
    vectors.iter().fold(zeros, |sum, v| plus(m, &sum, random.below(m), v))
}

/// The greatest common divisor.
pub fn divisor(a: u64, b: u64) -> u64 {
    if b == 0 {
        a
    } else {
        divisor(b, a % b)
    }
}

impl Shape {
    /// The lines of a sheet, with the right sides that a solution gives them.
    pub fn lines(self, random: &mut Random) -> Vec<Vec<u64>> {
        let Shape { m, factor, n } = self;
        let solution: Vec<u64> = (0..n).map(|_| random.below(m)).collect();
        let mut lines: Vec<Vec<u64>> = vec![];
        for i in 0..n {
            lines.push(match factor {
                0 if i >= n / 2 => combination(m, &lines[..n / 2], random),
                factor => (0..n).map(|_| random.below(m) * factor.max(1) % m).collect(),
            });
        }
        for line in &mut lines {
            line.push(line.iter().zip(&solution).map(|(a, x)| a * x).sum::<u64>() % m);
        }
        lines
    }

    pub fn sheet(self, lines: &[Vec<u64>]) -> Sheet {
        let lines: Vec<Vec<u32>> = lines.iter().map(|line| sheet::line(line)).collect();
        sheet::filled(&sheet::opening(self.m, self.n), &lines)
    }

    /// The starting vector and the steps that the sheet's answer has.
    pub fn answer(self, sheet: &Sheet) -> Vec<Vec<u64>> {
        let numbers: Vec<u64> = sheet::block(sheet)[1..].iter().map(|&word| (word & 0x0FFF_FFFF) as u64).collect();
        numbers.chunks(self.n).map(|v| v.to_vec()).collect()
    }

    /// The n + 1 vectors of a right claim: any solution, and the answer's steps, each times a unit and with any multiples of all
    /// others added. Where there are fewer than n, others follow from them, and the claim is long; it takes n of them where there is a
    /// factor, and the claim passes.
    pub fn right_claim(self, answer: &[Vec<u64>], random: &mut Random) -> Vec<Vec<u64>> {
        let Shape { m, n, .. } = self;
        let mut steps = answer[1..].to_vec();
        for i in 0..steps.len() {
            let unit = (0..).map(|_| 1 + random.below(m - 1)).find(|&unit| divisor(unit, m) == 1).unwrap();
            steps[i] = plus(m, &vec![0; n], unit, &steps[i]);
            for j in (0..steps.len()).filter(|&j| j != i) {
                steps[i] = plus(m, &steps[i], random.below(m), &steps[j]);
            }
        }
        let start = plus(m, &answer[0], 1, &combination(m, &steps, random));
        while steps.len() < n {
            steps.push(combination(m, &steps, random));
        }
        [vec![start], steps].concat()
    }
}

/// The words of a claim.
pub fn words(vectors: &[Vec<u64>]) -> Vec<u32> {
    [word(5, vectors.len() as u64)].into_iter().chain(vectors.iter().flatten().map(|&x| word(6, x))).collect()
}

/// Microseconds for each of so many claims, where a call takes this many of them.
fn each(count: usize, taken: usize, mut call: impl FnMut(usize)) -> f64 {
    let start = Instant::now();
    for first in (0..count).step_by(taken) {
        call(first);
    }
    start.elapsed().as_secs_f64() * 1e6 / count as f64
}

/// Microseconds per claim, done in two ways by turns: the medians of 9 runs each, which take some 20 milliseconds in the second way.
/// A call begins with this claim of all and takes so many.
pub fn by_turns<Way: Copy>(ways: [Way; 2], taken: usize, mut call: impl FnMut(Way, usize)) -> [f64; 2] {
    let mut time = |way, count| each(count, taken, |first| call(way, first));
    let all = SHEETS * CLAIMS;
    let count = all * ((20_000.0 / (all as f64 * time(ways[1], all))) as usize + 1);
    let mut runs = [vec![], vec![]];
    for _ in 0..9 {
        for (way, runs) in ways.iter().zip(&mut runs) {
            runs.push(time(*way, count));
        }
    }
    runs.map(|mut runs| {
        runs.sort_by(f64::total_cmp);
        runs[4]
    })
}
