//! Solves of random systems through milebadger_solve. The script ./bench runs it:
//!     solves list             the names of the cases
//!     solves time CASE        microseconds per solve: the median of 9 runs
//!     solves run CASE COUNT   that many solves, for an instruction counter
mod clock;
#[path = "../tests/random.rs"]
mod random;

use random::Random;

extern "C" {
    fn milebadger_solve(m: u32, n: u32, lines: *const u32, lines_len: usize, out: *mut u32, out_len: usize) -> i64;
}

#[derive(Clone, Copy, PartialEq)]
enum Kind {
    /// Coefficients drawn from all residues, right sides made to fit.
    Dense,
    /// The same with three coefficients in four put to 0.
    Sparse,
    /// Half of the equations are combinations of the others.
    Deficient,
    /// As deficient, and the last of these combinations has another right side.
    Unsolvable,
}

struct Case {
    name: String,
    m: u32,
    n: usize,
    kind: Kind,
}

fn cases() -> Vec<Case> {
    let kinds =
        [("dense", Kind::Dense), ("sparse", Kind::Sparse), ("deficient", Kind::Deficient), ("unsolvable", Kind::Unsolvable)];
    let mut cases = vec![];
    for (word, kind) in kinds {
        for n in [2, 4, 8, 16] {
            cases.push((word, 65_535, n, kind));
        }
    }
    for m in [65_521, 65_536, 1 << 31, u32::MAX, 4_294_967_291] {
        cases.push(("dense", m, 16, Kind::Dense));
    }
    cases.into_iter().map(|(word, m, n, kind)| Case { name: format!("{word}-{n}x{n}-mod-{m}"), m, n, kind }).collect()
}

/// The sum of coefficient times entry, mod m.
fn product(m: u32, coefficients: &[u32], vector: &[u32]) -> u32 {
    (coefficients.iter().zip(vector).map(|(&a, &x)| a as u128 * x as u128).sum::<u128>() % m as u128) as u32
}

/// n equations in n unknowns, one behind the other.
fn lines(case: &Case, random: &mut Random) -> Vec<u32> {
    let (m, n) = (case.m, case.n);
    let solution: Vec<u32> = (0..n).map(|_| random.below(m as u64) as u32).collect();
    let mut equations: Vec<Vec<u32>> = vec![];
    for i in 0..n {
        let mut equation = vec![0; n];
        if i >= n / 2 && matches!(case.kind, Kind::Deficient | Kind::Unsolvable) {
            for earlier in &equations[..n / 2] {
                let factor = random.below(m as u64);
                equation.iter_mut().zip(earlier).for_each(|(x, &y)| *x = ((*x as u64 + factor * y as u64) % m as u64) as u32);
            }
        } else {
            for x in equation.iter_mut() {
                if case.kind != Kind::Sparse || random.below(4) == 0 {
                    *x = random.below(m as u64) as u32;
                }
            }
        }
        equation.push(product(m, &equation, &solution));
        equations.push(equation);
    }
    if case.kind == Kind::Unsolvable {
        let last = &mut equations[n - 1][n];
        *last = (*last + 1) % m;
    }
    equations.concat()
}

/// 64 systems of a case, so that no branch is learnt by heart.
struct Solves {
    m: u32,
    n: usize,
    systems: Vec<Vec<u32>>,
    out: [u32; 273],
}

impl Solves {
    fn new(case: &Case) -> Solves {
        let mut random = Random::new();
        let systems: Vec<Vec<u32>> = (0..64).map(|_| lines(case, &mut random)).collect();
        let mut solves = Solves { m: case.m, n: case.n, systems, out: [0; 273] };
        for i in 0..64 {
            let (result, solvable) = (solves.solve(i), solves.out[0] != 0);
            assert!(result > 0 && solvable == (case.kind != Kind::Unsolvable), "{}: result {result}", case.name);
        }
        solves
    }

    fn solve(&mut self, i: usize) -> i64 {
        let lines = &self.systems[i % self.systems.len()];
        unsafe { milebadger_solve(self.m, self.n as u32, lines.as_ptr(), lines.len(), self.out.as_mut_ptr(), self.out.len()) }
    }
}

fn main() {
    let arguments: Vec<String> = std::env::args().skip(1).collect();
    let case = |name: &str| cases().into_iter().find(|case| case.name == name).expect("no such case");
    match arguments.iter().map(String::as_str).collect::<Vec<_>>()[..] {
        ["list"] => cases().iter().for_each(|case| println!("{}", case.name)),
        ["time", name] => {
            let mut solves = Solves::new(&case(name));
            println!("{:.3}", clock::per_call(|i| solves.solve(i)));
        }
        ["run", name, count] => {
            let mut solves = Solves::new(&case(name));
            for i in 0..count.parse().expect("no count") {
                solves.solve(i);
            }
        }
        _ => panic!("solves list, solves time CASE, or solves run CASE COUNT"),
    }
}
