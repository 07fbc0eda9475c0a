//! Large sheets of which all solutions are known, because they are made from them.
#![allow(dead_code)]

use crate::exercises::{self, chance, pick, plus};
use crate::random::Random;
use crate::reference::{divisor_by_halving, Answer, System};

/// A divisor of m, 1 and m as often as others.
pub fn any_divisor(random: &mut Random, m: u32) -> u32 {
    let one = divisor_by_halving(random.below(m as u64) as u32, m);
    pick(random, &[1, one, m / one, m])
}

/// The sum of products mod m.
fn product(m: u32, v: &[u32], w: &[u32]) -> u32 {
    (v.iter().zip(w).map(|(&x, &y)| x as u128 * y as u128).sum::<u128>() % m as u128) as u32
}

/// t·v mod m
pub fn times(m: u32, t: u32, v: &[u32]) -> Vec<u32> {
    plus(m, &vec![0; v.len()], t as u64, v)
}

pub fn any_vector(random: &mut Random, m: u32, n: usize) -> Vec<u32> {
    (0..n).map(|_| random.below(m as u64) as u32).collect()
}

/// A line mod m, with a divisor of m that divides all its numbers. With both sides divided by it, or by a divisor of it, the line says
/// the same mod what is left of m.
struct Shared {
    divisor: u32,
    numbers: Vec<u32>,
}

/// Each line gets multiples of others, so that the same vectors solve them, and its divisor still divides it.
fn mixed(random: &mut Random, m: u32, lines: &mut [Shared]) {
    for _ in 0..4 * lines.len() {
        let (i, j) = (random.below(lines.len() as u64) as usize, random.below(lines.len() as u64) as usize);
        if i != j {
            let (own, other) = (lines[i].divisor, lines[j].divisor);
            let least = own / divisor_by_halving(own, other);
            lines[i].numbers = plus(m, &lines[i].numbers, least as u64 * random.below(m as u64), &lines[j].numbers);
        }
    }
}

/// A line that nothing solves beside this one, which has these numbers mod m with this divisor: mod a divisor q of what is left of m,
/// its left side would be something else too.
fn contradiction(random: &mut Random, m: u32, line: &Shared) -> Shared {
    let q = exercises::divisor(random, m / line.divisor);
    let mut numbers: Vec<u32> = line.numbers.iter().map(|x| x / line.divisor).collect();
    let right = numbers.last_mut().expect("a right side");
    *right = plus(m, &[*right], 1 + random.below(q as u64 - 1), &[1])[0];
    Shared { divisor: m / q, numbers: times(m, m / q, &numbers) }
}

/// Equations that are made from their solutions, and these: a start, with steps that lead to all of them. `rows` and `columns` are
/// inverse to each other mod m. With y for the products of the rows with x, the equations say that d·y is what it is at the start, with
/// a divisor d of m for each row: so x is the start plus multiples of m / d times the columns. Where nothing is to solve them, one more
/// says that a multiple of d, a divisor above 1, is a multiple of d plus 1, or contradicts another. Then they are mixed, and others
/// that follow from them are put between. In half of the sheets lines are then divided, and have a modulus of their own.
pub fn planted(random: &mut Random, m: u32, divisors: &[u32], solvable: bool) -> (System, Answer) {
    let n = divisors.len();
    let units: Vec<Vec<u32>> = (0..n).map(|j| (0..n).map(|i| (i == j) as u32).collect()).collect();
    let (mut rows, mut columns) = (units.clone(), units);
    for _ in 0..4 * n {
        let (i, j, t) = (random.below(n as u64) as usize, random.below(n as u64) as usize, random.below(m as u64));
        if i != j {
            columns[i] = plus(m, &columns[i], t, &columns[j]);
            rows[j] = plus(m, &rows[j], m as u64 - t, &rows[i]);
        }
    }
    let (start, own) = (any_vector(random, m, n), chance(random, 2));
    let mut lines: Vec<Shared> = vec![];
    for (row, &d) in rows.iter().zip(divisors).filter(|(_, &d)| d < m) {
        let numbers = times(m, d, &[&row[..], &[product(m, row, &start)]].concat());
        lines.push(Shared { divisor: if own { d } else { 1 }, numbers });
    }
    if !solvable {
        lines.truncate(15);
        if own && !lines.is_empty() && chance(random, 2) {
            let place = random.below(lines.len() as u64) as usize;
            lines.push(contradiction(random, m, &lines[place]));
        } else {
            let d = divisors.iter().copied().find(|&d| d > 1).unwrap_or(m);
            let mut numbers = times(m, d, &any_vector(random, m, n + 1));
            numbers[n] = plus(m, &[numbers[n]], 1, &[1])[0];
            lines.push(Shared { divisor: 1, numbers });
        }
    }
    mixed(random, m, &mut lines);
    while !lines.is_empty() && lines.len() < 16 && !chance(random, 4) {
        let divisor = if own { any_divisor(random, m) } else { 1 };
        let sum = lines.iter().fold(vec![0; n + 1], |sum, line| plus(m, &sum, random.below(m as u64), &line.numbers));
        let follows = Shared { divisor, numbers: times(m, divisor, &sum) };
        lines.insert(random.below(lines.len() as u64 + 1) as usize, follows);
    }
    let steps = columns.iter().zip(divisors).filter(|(_, &d)| d > 1).map(|(column, &d)| times(m, m / d, column)).collect();
    (divided(random, m, n, &lines), Answer { start, steps })
}

/// The lines as equations, each divided by a divisor of its own, so that a modulus from 2 on is left.
fn divided(random: &mut Random, m: u32, n: usize, lines: &[Shared]) -> System {
    let (mut system, signed) = (System::empty(m, n), chance(random, 2));
    for line in lines {
        let d = any_divisor(random, line.divisor);
        let d = if d == m { 1 } else { d };
        let number = |x: &u32| if signed { exercises::written(random, m / d, x / d) } else { (x / d) as i64 };
        system.add(m / d, line.numbers.iter().map(number).collect());
    }
    system
}
