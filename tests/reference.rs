//! The paper once more in plain Rust: it tries everything, is slow, and shares no code with the product.
#![allow(dead_code)]

/// The greatest number that divides both, found by trying all of them; 0 for the pair (0, 0).
pub fn divisor_by_trying(a: u32, b: u32) -> u32 {
    (1..=a.max(b)).rev().find(|d| a % d == 0 && b % d == 0).unwrap_or(0)
}

/// The same by halving and subtracting (Stein 1967), for numbers that are too large to try all divisors.
pub fn divisor_by_halving(a: u32, b: u32) -> u32 {
    let (mut a, mut b) = (a, b);
    if a == 0 || b == 0 {
        return a + b;
    }
    let mut twos = 0;
    while a % 2 == 0 && b % 2 == 0 {
        a /= 2;
        b /= 2;
        twos += 1;
    }
    while a != b {
        if a % 2 == 0 {
            a /= 2;
        } else if b % 2 == 0 {
            b /= 2;
        } else if a > b {
            a -= b;
        } else {
            b -= a;
        }
    }
    a << twos
}

/// "0 for b = 0, else one more than for the pair (b, a mod b)".
pub fn divisions(a: u32, b: u32) -> u32 {
    if b == 0 {
        0
    } else {
        1 + divisions(b, a % b)
    }
}

/// "At most 5 times the decimal digits of the smaller number, plus 1 (Lamé; 0 counts as no digits)".
pub fn most_divisions(a: u32, b: u32) -> u32 {
    match a.min(b) {
        0 => 1,
        smaller => 5 * smaller.to_string().len() as u32 + 1,
    }
}

/// The answer to one congruence.
#[derive(Clone, Debug, PartialEq)]
pub enum Congruence {
    Refused(u32),
    NoSolution,
    Solutions { least: u32, spacing: u32 },
}

/// "The sheet, claims, safe and one congruence take m in 2..4,294,967,295": of 32 bits, all from 2 on.
pub fn is_modulus(m: u32) -> bool {
    m >= 2
}

/// Whether t solves a·t = b mod m: a·t - b, a whole number, is a multiple of m.
pub fn is_solution(a: i32, b: i32, m: u32, t: u32) -> bool {
    (a as i128 * t as i128 - b as i128) % m as i128 == 0
}

/// "m allowed? 2.", then every t from 0 on, for an m that is not too large to try all. The spacing is the way to the next solution,
/// which may lie past m.
pub fn congruence(a: i32, b: i32, m: u32) -> Congruence {
    if !is_modulus(m) {
        return Congruence::Refused(2);
    }
    assert!(m < 1 << 24);
    let solves = |t: &i64| (a as i64 * t - b as i64) % m as i64 == 0;
    match (0..m as i64).find(solves) {
        None => Congruence::NoSolution,
        Some(least) => {
            let next = (least + 1..).find(solves).unwrap();
            Congruence::Solutions { least: least as u32, spacing: (next - least) as u32 }
        }
    }
}

/// "Brought to its residue, 0..m-1": the number there that differs from this one by a multiple of m.
pub fn residue(m: u32, whole: i64) -> u32 {
    whole.rem_euclid(m as i64) as u32
}

/// An equation: n coefficients and a right side, and the modulus q that it is read by. Its numbers are kept as they were written, as
/// whole numbers with their signs, and nothing here that looks for solutions reduces them.
#[derive(Clone, Debug, PartialEq)]
pub struct Line {
    pub q: u32,
    pub numbers: Vec<i64>,
}

impl Line {
    /// The left side: the sum of coefficient times entry, a whole number.
    pub fn left<T: Copy + Into<u64>>(&self, vector: &[T]) -> i128 {
        vector.iter().zip(&self.numbers).map(|(&x, &a)| x.into() as i128 * a as i128).sum()
    }

    /// "The line holds if both sides agree mod q": their difference, a whole number, is a multiple of q.
    pub fn solved_by(&self, vector: &[u32]) -> bool {
        let right = self.numbers[self.numbers.len() - 1];
        (self.left(vector) - right as i128) % self.q as i128 == 0
    }

    /// "Its numbers become residues mod q."
    pub fn reduced(&self) -> Line {
        Line { q: self.q, numbers: self.numbers.iter().map(|&number| residue(self.q, number) as i64).collect() }
    }
}

/// A list of equations in n unknowns on a sheet mod m; the modulus of each divides m.
#[derive(Clone, Debug, PartialEq)]
pub struct System {
    pub m: u32,
    pub n: usize,
    pub equations: Vec<Line>,
}

impl System {
    pub fn empty(m: u32, n: usize) -> System {
        System { m, n, equations: vec![] }
    }

    /// These equations, without a modulus of their own: "q is m".
    pub fn plain(m: u32, n: usize, equations: Vec<Vec<i64>>) -> System {
        System { m, n, equations: equations.into_iter().map(|numbers| Line { q: m, numbers }).collect() }
    }

    /// The same, of numbers without signs.
    pub fn of(m: u32, n: usize, equations: &[Vec<u32>]) -> System {
        let whole = |equation: &Vec<u32>| equation.iter().map(|&number| number as i64).collect();
        System::plain(m, n, equations.iter().map(whole).collect())
    }

    /// Puts an equation with the modulus q behind the others.
    pub fn add(&mut self, q: u32, numbers: Vec<i64>) {
        self.equations.push(Line { q, numbers });
    }

    /// The same equations written with residues.
    pub fn reduced(&self) -> System {
        System { equations: self.equations.iter().map(Line::reduced).collect(), ..self.clone() }
    }

    /// The equations as milebadger_solve takes them, which knows no modulus but m: both sides times m / q, as residues, one equation
    /// behind the other.
    pub fn lines(&self) -> Vec<u32> {
        let m = self.m as i128;
        let times = |line: &Line, number: i64| (number as i128 * (m / line.q as i128)).rem_euclid(m) as u32;
        self.equations.iter().flat_map(|line| line.numbers.iter().map(move |&number| times(line, number))).collect()
    }

    /// The same equations "with right sides put to 0".
    pub fn homogeneous(&self) -> System {
        let mut equations = self.equations.clone();
        equations.iter_mut().for_each(|line| line.numbers[self.n] = 0);
        System { equations, ..self.clone() }
    }

    /// "A vector solves an equation if the sum of coefficient times entry leaves the right side", each mod its q.
    pub fn solved_by(&self, vector: &[u32]) -> bool {
        self.equations.iter().all(|line| line.solved_by(vector))
    }

    /// The equation with this number, "from 1", alone.
    pub fn only(&self, number: usize) -> System {
        System { equations: vec![self.equations[number - 1].clone()], ..self.clone() }
    }

    /// "Multipliers, one residue for each equation, such that the equations so multiplied add up mod m to zero coefficients and a
    /// non-zero right side"; they "apply to the line with both sides times m/q, still mod m".
    pub fn refuted_by(&self, multipliers: &[u32]) -> bool {
        let times = |line: &Line, j: usize| (self.m / line.q) as i128 * line.numbers[j] as i128;
        let is_multiple = |j: usize| -> bool {
            let sum: i128 = multipliers.iter().zip(&self.equations).map(|(&c, line)| c as i128 * times(line, j)).sum();
            sum % self.m as i128 == 0
        };
        multipliers.len() == self.equations.len()
            && multipliers.iter().all(|&c| c < self.m)
            && (0..self.n).all(is_multiple)
            && !is_multiple(self.n)
    }
}

/// Every equation in n unknowns that a sheet mod m can hold, written with residues.
pub fn every_line(m: u32, n: usize) -> Vec<Line> {
    let whole = |numbers: Vec<u32>| numbers.into_iter().map(|number| number as i64).collect();
    let of = |q: u32| vectors(q, n + 1).map(move |numbers| Line { q, numbers: whole(numbers) });
    (2..=m).filter(|q| m % q == 0).flat_map(of).collect()
}

/// The vectors of n residues in dictionary order.
pub fn vectors(m: u32, n: usize) -> impl Iterator<Item = Vec<u32>> {
    let mut next = Some(vec![0; n]);
    std::iter::from_fn(move || {
        let vector = next.take()?;
        next = (0..n).rev().find(|&j| vector[j] + 1 < m).map(|j| {
            let mut following = vector.clone();
            following[j] += 1;
            following[j + 1..].fill(0);
            following
        });
        Some(vector)
    })
}

/// Whether v is "a combination of the others": every coefficient from 0 to m-1 is tried for each of them.
pub fn combines(m: u32, others: &[Vec<u32>], v: &[u32]) -> bool {
    let sum = |coefficients: &[u32], j: usize| -> u64 {
        coefficients.iter().zip(others).map(|(&t, other)| t as u64 * other[j] as u64).sum()
    };
    vectors(m, others.len()).any(|coefficients| (0..v.len()).all(|j| sum(&coefficients, j) % m as u64 == v[j] as u64))
}

/// Everything but this one, in order.
pub fn without<T: Clone>(all: &[T], place: usize) -> Vec<T> {
    all.iter().enumerate().filter(|(i, _)| *i != place).map(|(_, one)| one.clone()).collect()
}

/// "Some step is itself a combination of the others": the numbers of all such steps, from 1.
pub fn superfluous_by_trying(m: u32, steps: &[Vec<u32>]) -> Vec<usize> {
    (0..steps.len()).filter(|&i| combines(m, &without(steps, i), &steps[i])).map(|i| i + 1).collect()
}

/// The answer to a list of equations where there is a solution.
#[derive(Clone, Debug, PartialEq)]
pub struct Answer {
    pub start: Vec<u32>,
    pub steps: Vec<Vec<u32>>,
}

/// "Starting vector: the first solution in dictionary order. Step at place j: among the vectors that solve all the equations with
/// right sides put to 0, and whose first non-zero entry is at j, the first in dictionary order." None where nothing solves them.
pub fn answer(system: &System) -> Option<Answer> {
    let start = vectors(system.m, system.n).find(|v| system.solved_by(v))?;
    let homogeneous = system.homogeneous();
    let mut steps = vec![None; system.n];
    for v in vectors(system.m, system.n) {
        if let Some(j) = v.iter().position(|&x| x != 0) {
            if steps[j].is_none() && homogeneous.solved_by(&v) {
                steps[j] = Some(v);
            }
        }
    }
    Some(Answer { start, steps: steps.into_iter().flatten().collect() })
}

/// The question that turns a call of milebadger_solve away, where there is one. The paper has no such call; it asks what the header
/// says, in that order, with the numbers that the paper gives to questions of the same kind.
pub fn solve_refusal(m: u32, n: u32, lines: &[u32]) -> Option<u32> {
    let questions = [
        (2, m >= 2),
        (3, (1..=16).contains(&n)),
        (1, lines.len() as u64 % (n as u64 + 1) == 0),
        (5, lines.len() as u64 / (n as u64 + 1) <= 16),
        (6, lines.iter().all(|&number| number < m)),
    ];
    questions.iter().find(|(_, yes)| !yes).map(|&(number, _)| number)
}

/// A safe: the values of its locks, row after row.
#[derive(Clone, Debug)]
pub struct Safe {
    pub m: u32,
    pub rows: usize,
    pub columns: usize,
    pub values: Vec<u32>,
}

impl Safe {
    fn plus(&self, x: u32, t: u32) -> u32 {
        ((x as u64 + t as u64) % self.m as u64) as u32
    }

    /// "Turning a lock by t adds t to each lock in its row and column, itself once": every row and column is gone through, as the
    /// sentence reads, and each turn is made in its turn.
    pub fn after(&self, turns: &[u32]) -> Vec<u32> {
        let mut locks: Vec<Vec<u32>> = self.values.chunks(self.columns).map(|row| row.to_vec()).collect();
        for row in 0..self.rows {
            for column in 0..self.columns {
                let t = turns[row * self.columns + column];
                for other in 0..self.columns {
                    locks[row][other] = self.plus(locks[row][other], t);
                }
                for other in (0..self.rows).filter(|&other| other != row) {
                    locks[other][column] = self.plus(locks[other][column], t);
                }
            }
        }
        locks.concat()
    }

    /// The turns "bring all to 0".
    pub fn opened_by(&self, turns: &[u32]) -> bool {
        self.after(turns).iter().all(|&value| value == 0)
    }

    /// "The dictionary-first turns .. that bring all to 0, or none", by trying all.
    pub fn turns(&self) -> Option<Vec<u32>> {
        vectors(self.m, self.rows * self.columns).find(|turns| self.opened_by(turns))
    }
}

/// The question about its arguments that turns a call of milebadger_safe away, where there is one: "m? 2. Size? 3. Kind 6, right
/// count? 1. Below m? 6.", and 17 "right before 1".
pub fn safe_refusal(m: u32, rows: u32, columns: u32, values: &[u32]) -> Option<u32> {
    let (locks, words) = (rows as u64 * columns as u64, joined(values));
    let questions = [
        (2, is_modulus(m)),
        (3, rows >= 1 && columns >= 1 && locks <= 16),
        (17, words.iter().all(|word| word.kind != TOP)),
        (1, words.len() as u64 == locks && words.iter().all(|word| word.kind == 6)),
        (6, words.iter().all(|word| word.number < m)),
    ];
    questions.iter().find(|(_, yes)| !yes).map(|&(number, _)| number)
}

/// A word of kind 6, "vector entry", which lies in one place of memory.
pub fn entry(number: u32) -> u32 {
    assert!(number < 1 << 28);
    6 << 28 | number
}

/// A word: "the top 4 are its kind, the low 28 its number", or 32 of them where "a word of kind 13 carries the top 4 bits".
#[derive(Clone, Copy, Debug, PartialEq)]
pub struct Word {
    pub kind: u32,
    pub number: u32,
}

/// "A word of kind 13 carries the top 4 bits of the next word's number."
pub const TOP: u32 = 13;

/// A place of memory alone.
fn alone(place: u32) -> Word {
    Word { kind: place >> 28, number: place & 0x0FFF_FFFF }
}

/// How many places the first word takes: two where it is "a good kind 13 word" with "the word after it", of which it "counts as part".
/// It is none "with number 0 or above 15, or not right before a word of kinds 1, 3, 4, 6, 7, 10, 11 or 12".
fn first_takes(memory: &[u32]) -> usize {
    let Word { kind, number } = alone(memory[0]);
    let before = memory.get(1).is_some_and(|&next| [1, 3, 4, 6, 7, 10, 11, 12].contains(&(next >> 28)));
    if kind == TOP && (1..=15).contains(&number) && before {
        2
    } else {
        1
    }
}

/// The words that lie in this memory. One of kind 13 among them "breaks the rule" and "counts as a word of its own".
pub fn joined(memory: &[u32]) -> Vec<Word> {
    let (mut words, mut rest) = (vec![], memory);
    while !rest.is_empty() {
        let (own, behind) = rest.split_at(first_takes(rest));
        words.push(match own {
            [top, low] => Word { kind: low >> 28, number: alone(*top).number * (1 << 28) + alone(*low).number },
            _ => alone(own[0]),
        });
        rest = behind;
    }
    words
}

/// How much of the memory its first words take, so many of them, or all that there are if they are fewer.
pub fn front(memory: &[u32], words: usize) -> usize {
    let mut taken = 0;
    for _ in 0..words {
        if taken < memory.len() {
            taken += first_takes(&memory[taken..]);
        }
    }
    taken
}

/// A word as it is written: "writers put it in only for numbers of 2^28 or more".
pub fn written(kind: u32, number: u32) -> Vec<u32> {
    let low = kind << 28 | number % (1 << 28);
    if number < 1 << 28 {
        vec![low]
    } else {
        vec![TOP << 28 | number >> 28, low]
    }
}

/// "For question 8 a multiplier, and an entry that the reason tool shows, counts two words when m is above 2^28."
pub fn counted(m: u32) -> usize {
    if m > 1 << 28 {
        2
    } else {
        1
    }
}
