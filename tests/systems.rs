//! milebadger_solve against trying all vectors; where there are too many, by substitution and by the multipliers' certificate.
//! Multipliers are left free, so they are compared by their property alone.
mod face;
mod random;
mod reference;

use face::LONGEST_BLOCK;
use random::Random;
use reference::{Answer, System};

/// What the call says of a system that it does not refuse.
enum Found {
    Solutions(Answer),
    Multipliers(Vec<u32>),
}

/// The block that the call writes for a system, read back. Its length is the result, and past it the memory keeps its content.
fn solve(system: &System) -> Found {
    let reply = face::solve(system.m, system.n as u32, &system.lines(), LONGEST_BLOCK);
    assert!(reply.result > 0, "{system:?}: {reply:?}");
    let length = reply.result as usize;
    let (block, rest) = reply.memory.split_at(length);
    assert_eq!(rest, &face::untouched(LONGEST_BLOCK)[length..], "{system:?}: {reply:?}");
    let (head, numbers) = (block[0] as usize, &block[1..]);
    if head == 0 {
        assert_eq!(numbers.len(), system.equations.len(), "{system:?}: {reply:?}");
        return Found::Multipliers(numbers.to_vec());
    }
    assert_eq!(numbers.len(), head * system.n, "{system:?}: {reply:?}");
    let mut vectors: Vec<Vec<u32>> = numbers.chunks(system.n).map(|vector| vector.to_vec()).collect();
    let start = vectors.remove(0);
    Found::Solutions(Answer { start, steps: vectors })
}

/// The call must give the answer that trying all vectors gives. Says whether there is a solution.
fn expect(system: &System, seed: u64) -> bool {
    match (solve(system), reference::answer(system)) {
        (Found::Solutions(found), Some(expected)) => {
            assert!(found == expected, "{system:?}: {found:?} is not {expected:?} (seed {seed})");
            true
        }
        (Found::Multipliers(multipliers), None) => {
            assert!(system.refuted_by(&multipliers), "{system:?}: {multipliers:?} refute nothing (seed {seed})");
            false
        }
        (Found::Solutions(found), None) => panic!("{system:?}: {found:?} where there is no solution (seed {seed})"),
        (Found::Multipliers(multipliers), Some(expected)) => panic!("{system:?}: {multipliers:?} is not {expected:?} (seed {seed})"),
    }
}

/// The place of a vector's first non-zero entry.
fn place(vector: &[u32]) -> usize {
    vector.iter().position(|&x| x != 0).expect("a step of zeros")
}

/// Whether v is a combination of the steps: place by place, as much of the step there as its entry allows.
fn combined(m: u32, steps: &[Vec<u32>], v: &[u32]) -> bool {
    let m = m as u64;
    let mut rest: Vec<u64> = v.iter().map(|&x| x as u64).collect();
    for step in steps {
        let j = place(step);
        let coefficient = rest[j] / step[j] as u64;
        for (entry, &x) in rest.iter_mut().zip(step) {
            *entry = (*entry + (m - coefficient * x as u64 % m)) % m;
        }
    }
    rest.iter().all(|&entry| entry == 0)
}

/// What can be seen of an answer without trying all vectors: the start and the steps solve, the steps stand by rising place with
/// entries there that divide m, and start and steps are reduced by the steps behind them, as the first in dictionary order are.
fn expect_sound(system: &System, found: &Answer, seed: u64) {
    let say = |what: &str| format!("{what}: {system:?}: {found:?} (seed {seed})");
    assert!(system.solved_by(&found.start), "{}", say("the start solves nothing"));
    let homogeneous = system.homogeneous();
    for step in &found.steps {
        assert!(homogeneous.solved_by(step), "{}", say("a step leads away"));
        assert!(system.m % step[place(step)] == 0, "{}", say("a step's entry does not divide m"));
    }
    let places: Vec<usize> = found.steps.iter().map(|step| place(step)).collect();
    assert!(places.windows(2).all(|pair| pair[0] < pair[1]), "{}", say("places do not rise"));
    for vector in std::iter::once(&found.start).chain(&found.steps) {
        assert!(vector.iter().all(|&x| x < system.m), "{}", say("an entry is no residue"));
        for step in &found.steps {
            let j = place(step);
            assert!(step == vector || vector[j] < step[j], "{}", say("a step fits in once more"));
        }
    }
}

/// A vector of n numbers below m, most of them 0 where it is sparse.
fn random_vector(random: &mut Random, m: u32, n: usize, sparse: bool) -> Vec<u32> {
    (0..n).map(|_| if sparse && random.below(4) != 0 { 0 } else { random.below(m as u64) as u32 }).collect()
}

/// A system of any kind: dense or sparse, right sides free or made to fit, equations repeated, multiplied or added to others.
fn random_system(random: &mut Random, m: u32, n: usize, k: usize) -> System {
    let (sparse, solvable) = (random.below(2) == 0, random.below(2) == 0);
    let solution = random_vector(random, m, n, false);
    let mut equations: Vec<Vec<u32>> = vec![];
    for i in 0..k {
        let mut equation = random_vector(random, m, n, sparse);
        equation.push(if solvable { product(m, &equation, &solution) } else { random.below(m as u64) as u32 });
        if i > 0 && random.below(4) == 0 {
            let (earlier, factor) = (random.below(i as u64) as usize, random.below(m as u64));
            let keep = random.below(2);
            for (entry, &x) in equation.iter_mut().zip(&equations[earlier]) {
                *entry = ((*entry as u64 * keep + factor * x as u64) % m as u64) as u32;
            }
        }
        equations.push(equation);
    }
    System::of(m, n, &equations)
}

/// The sum of coefficient times entry, mod m.
fn product(m: u32, coefficients: &[u32], vector: &[u32]) -> u32 {
    (coefficients.iter().zip(vector).map(|(&a, &x)| a as u128 * x as u128).sum::<u128>() % m as u128) as u32
}

/// A residue that has an inverse mod m.
fn random_unit(random: &mut Random, m: u32) -> u32 {
    loop {
        let unit = 1 + random.below(m as u64 - 1) as u32;
        if reference::divisor_by_halving(unit, m) == 1 {
            return unit;
        }
    }
}

#[test]
fn every_tiny_system_gets_its_answer() {
    for (n, k, largest) in [(1, 1, 12), (1, 2, 8), (2, 1, 7), (2, 2, 3), (3, 1, 4)] {
        for m in 2..=largest {
            for numbers in reference::vectors(m, k * (n + 1)) {
                let equations: Vec<Vec<u32>> = numbers.chunks(n + 1).map(|equation| equation.to_vec()).collect();
                expect(&System::of(m, n, &equations), 0);
            }
        }
    }
}

#[test]
fn random_small_systems_get_their_answers() {
    let mut random = Random::new();
    let (mut solvable, mut unsolvable) = (0, 0);
    for m in 2..=12 {
        for n in 1..=3 {
            for round in 0..600 {
                let system = random_system(&mut random, m, n, round % 6);
                if expect(&system, random.seed) {
                    solvable += 1;
                } else {
                    unsolvable += 1;
                }
            }
        }
    }
    assert!(solvable > 5_000 && unsolvable > 2_000, "{solvable} solvable, {unsolvable} unsolvable");
}

#[test]
fn random_systems_of_larger_moduli_get_their_answers() {
    let mut random = Random::new();
    for _ in 0..400 {
        let (m, k) = (13 + random.below(100_000) as u32, random.below(4) as usize);
        let system = random_system(&mut random, m, 1, k);
        expect(&system, random.seed);
    }
    for _ in 0..60 {
        let (m, k) = (13 + random.below(200) as u32, random.below(4) as usize);
        let system = random_system(&mut random, m, 2, k);
        expect(&system, random.seed);
    }
}

#[test]
fn a_solution_has_just_one_writing_and_there_are_as_many_as_the_ranges_allow() {
    let mut random = Random::new();
    for _ in 0..300 {
        let (m, n) = (2 + random.below(9) as u32, 1 + random.below(3) as usize);
        let k = random.below(3) as usize;
        let system = random_system(&mut random, m, n, k);
        if let Found::Solutions(found) = solve(&system) {
            let solutions: Vec<Vec<u32>> = reference::vectors(m, n).filter(|v| system.solved_by(v)).collect();
            let ranges: Vec<u32> = found.steps.iter().map(|step| m / step[place(step)]).collect();
            let mut written: Vec<Vec<u32>> = vec![found.start.clone()];
            for (step, &range) in found.steps.iter().zip(&ranges) {
                written = written
                    .iter()
                    .flat_map(|v| (0..range).map(move |t| v.iter().zip(step).map(|(x, y)| (x + t * y) % m).collect()))
                    .collect();
            }
            written.sort();
            assert_eq!(written, solutions, "{system:?}: {found:?} (seed {})", random.seed);
        }
    }
}

/// Moduli of the full-size systems: the sheet's largest, its neighbour, the last that sums of products are made for in one way and the
/// first for another, the largest power of 2, the largest number, and primes.
const MODULI: [u32; 10] = [65_535, 65_536, 1 << 24, (1 << 24) + 1, 1 << 31, u32::MAX, 2, 65_521, 4_294_967_291, 12];

#[test]
fn full_size_systems_are_right_by_substitution_and_by_certificate() {
    let mut random = Random::new();
    for m in MODULI {
        for round in 0..60 {
            let (n, k) = if round < 30 { (16, 16) } else { (1 + random.below(16) as usize, random.below(17) as usize) };
            let system = random_system(&mut random, m, n, k);
            match solve(&system) {
                Found::Solutions(found) => expect_sound(&system, &found, random.seed),
                Found::Multipliers(multipliers) => {
                    assert!(system.refuted_by(&multipliers), "{system:?}: {multipliers:?} (seed {})", random.seed)
                }
            }
        }
    }
}

#[test]
fn full_size_systems_with_known_solutions_reach_all_of_them() {
    let mut random = Random::new();
    for m in MODULI {
        for round in 0..40 {
            let (n, free) = (16, round % 5);
            // Each free column is minus the others' combination by its own kernel vector, which has 1 there.
            let mut kernel: Vec<Vec<u32>> = vec![];
            for f in 0..free {
                let mut vector = random_vector(&mut random, m, n, round % 2 == 0);
                (0..free).for_each(|other| vector[other * 3] = (other == f) as u32);
                kernel.push(vector);
            }
            let solution = random_vector(&mut random, m, n, false);
            let mut equations = vec![];
            for _ in 0..16 {
                let mut equation = random_vector(&mut random, m, n, round % 3 == 0);
                (0..free).for_each(|f| equation[f * 3] = 0);
                let columns: Vec<u32> = kernel.iter().map(|v| (m - product(m, &equation, v)) % m).collect();
                columns.iter().enumerate().for_each(|(f, &column)| equation[f * 3] = column);
                equation.push(product(m, &equation, &solution));
                equations.push(equation);
            }
            let system = System::of(m, n, &equations);
            let Found::Solutions(found) = solve(&system) else {
                panic!("{system:?}: none, where {solution:?} is one (seed {})", random.seed)
            };
            expect_sound(&system, &found, random.seed);
            let difference: Vec<u32> =
                solution.iter().zip(&found.start).map(|(&x, &y)| ((x as u64 + m as u64 - y as u64) % m as u64) as u32).collect();
            for v in kernel.iter().chain([&difference]) {
                assert!(combined(m, &found.steps, v), "{system:?}: {found:?} misses {v:?} (seed {})", random.seed);
            }
        }
    }
}

#[test]
fn the_block_depends_on_the_solutions_alone() {
    let mut random = Random::new();
    for round in 0..200 {
        let m = if round % 2 == 0 { 2 + random.below(30) as u32 } else { MODULI[round / 2 % MODULI.len()] };
        let (n, k) = (1 + random.below(16) as usize, 1 + random.below(12) as usize);
        let system = random_system(&mut random, m, n, k);
        let mut other = system.clone();
        other.equations.reverse();
        other.equations.push(system.equations[0].clone());
        let last = other.equations[0].clone();
        let sum = last.numbers.iter().zip(&system.equations[0].numbers).map(|(&x, &y)| (x + y) % m as i64).collect();
        other.add(m, sum);
        let unit = random_unit(&mut random, m) as u64;
        other.equations[0].numbers.iter_mut().for_each(|entry| *entry = (*entry as u64 * unit % m as u64) as i64);
        match (solve(&system), solve(&other)) {
            (Found::Solutions(one), Found::Solutions(two)) => {
                assert_eq!(one, two, "{system:?} and {other:?} (seed {})", random.seed)
            }
            (Found::Multipliers(one), Found::Multipliers(two)) => {
                assert!(system.refuted_by(&one), "{system:?}: {one:?} (seed {})", random.seed);
                assert!(other.refuted_by(&two), "{other:?}: {two:?} (seed {})", random.seed);
            }
            _ => panic!("{system:?} and {other:?} differ (seed {})", random.seed),
        }
    }
}

fn system(m: u32, n: usize, equations: &[&[i64]]) -> System {
    System::plain(m, n, equations.iter().map(|equation| equation.to_vec()).collect())
}

/// The call's block for a solvable system, as a start and steps.
fn solutions(system: &System) -> (Vec<u32>, Vec<Vec<u32>>) {
    match solve(system) {
        Found::Solutions(found) => (found.start, found.steps),
        Found::Multipliers(multipliers) => panic!("{system:?}: {multipliers:?}"),
    }
}

fn refuted(system: &System) -> bool {
    matches!(solve(system), Found::Multipliers(multipliers) if system.refuted_by(&multipliers))
}

#[test]
fn the_examples_of_the_paper_come_out() {
    assert_eq!(solutions(&system(12, 1, &[&[4, 8]])), (vec![2], vec![vec![3]]));
    assert!(refuted(&system(12, 1, &[&[4, 6]])));
    assert!(system(12, 1, &[&[4, 6]]).refuted_by(&[3]));
    assert!(!system(12, 1, &[&[4, 6]]).refuted_by(&[6]));
    assert_eq!(solutions(&system(12, 2, &[&[2, 3, 5]])), (vec![1, 1], vec![vec![3, 2], vec![0, 4]]));
    assert_eq!(solutions(&system(6, 2, &[&[2, 3, 1]])), (vec![2, 1], vec![vec![3, 0], vec![0, 2]]));
    assert_eq!(solutions(&system(4, 2, &[&[1, 2, 0]])), (vec![0, 0], vec![vec![2, 1], vec![0, 2]]));
    assert_eq!(solutions(&system(6, 1, &[&[2, 4], &[3, 3]])), (vec![5], vec![]));
    assert!(refuted(&system(6, 1, &[&[2, 4], &[3, 3], &[1, 0]])));
    assert!(system(6, 1, &[&[2, 4], &[3, 3], &[1, 0]]).refuted_by(&[0, 1, 3]));
    assert_eq!(solutions(&system(65_535, 1, &[&[65_534, 1]])), (vec![65_534], vec![]));
}

#[test]
fn an_equation_of_zeros_changes_nothing_and_zeros_with_a_right_side_have_no_solution() {
    let mut random = Random::new();
    for _ in 0..200 {
        let (m, n, k) = (2 + random.below(60) as u32, 1 + random.below(16) as usize, random.below(15) as usize);
        let before = random_system(&mut random, m, n, k);
        let mut after = before.clone();
        after.add(m, vec![0; n + 1]);
        match (solve(&before), solve(&after)) {
            (Found::Solutions(one), Found::Solutions(two)) => assert_eq!(one, two, "{before:?} (seed {})", random.seed),
            (Found::Multipliers(_), Found::Multipliers(two)) => assert!(after.refuted_by(&two), "{after:?}: {two:?}"),
            _ => panic!("{before:?} (seed {})", random.seed),
        }
        after.equations.last_mut().unwrap().numbers[n] = 1 + random.below(m as u64 - 1) as i64;
        assert!(refuted(&after), "{after:?} (seed {})", random.seed);
    }
}

#[test]
fn no_equations_give_zeros_and_the_unit_vectors() {
    for m in [2, 3, 12, 65_535, u32::MAX] {
        for n in 1..=16 {
            let units = (0..n).map(|j| (0..n).map(|i| (i == j) as u32).collect()).collect();
            assert_eq!(solutions(&system(m, n, &[])), (vec![0; n], units), "m {m}, n {n}");
        }
    }
}

#[test]
fn questions_are_asked_in_their_order() {
    let mut random = Random::new();
    for _ in 0..20_000 {
        let m = [0, 1, 2, 3, 7, 65_536, u32::MAX][random.below(7) as usize];
        let n = [0, 1, 2, 3, 16, 17, 18, u32::MAX][random.below(8) as usize];
        let width = if n <= 18 { n as u64 + 1 } else { 5 };
        let length = random.below(19) * width + (random.below(3) == 0) as u64 * random.below(width);
        let below = if random.below(2) == 0 { (m as u64).max(1) } else { m as u64 + 1 };
        let lines: Vec<u32> = (0..length).map(|_| random.below(below).min(u32::MAX as u64) as u32).collect();
        for len in [0, LONGEST_BLOCK] {
            let found = face::solve(m, n, &lines, len);
            let seed = random.seed;
            match reference::solve_refusal(m, n, &lines) {
                Some(number) => {
                    let expected = face::silent(-(number as i64), len);
                    assert!(found == expected, "m {m}, n {n}, {lines:?}: {found:?} is not {expected:?} (seed {seed})")
                }
                None if len == 0 => assert_eq!(found, face::silent(-8, 0), "m {m}, n {n}, {lines:?} (seed {seed})"),
                None => assert!(found.result > 0, "m {m}, n {n}, {lines:?}: {found:?} (seed {seed})"),
            }
        }
    }
}

#[test]
fn memory_too_short_for_the_block_gets_minus_8_and_keeps_its_content() {
    let mut random = Random::new();
    for _ in 0..60 {
        let (m, n, k) = (2 + random.below(30) as u32, 1 + random.below(16) as usize, random.below(17) as usize);
        let system = random_system(&mut random, m, n, k);
        let whole = face::solve(m, n as u32, &system.lines(), LONGEST_BLOCK);
        let length = whole.result as usize;
        for len in 0..LONGEST_BLOCK + 3 {
            let found = face::solve(m, n as u32, &system.lines(), len);
            let expected = face::writing(whole.result, &whole.memory[..length], len);
            assert!(found == expected, "{system:?} into {len}: {found:?} is not {expected:?} (seed {})", random.seed);
        }
    }
}
