//! Euclid's chain alone, through milebadger_gcd, and the chain with cofactors, through milebadger_congruence. The script ./bench
//! runs it:
//!     chain list             the names of the cases, each with its call's name in front
//!     chain time CASE        microseconds per call: the median of 9 runs
//!     chain run CASE COUNT   that many calls, for an instruction counter
mod clock;
#[path = "../tests/random.rs"]
mod random;

use random::Random;

extern "C" {
    fn milebadger_gcd(a: u32, b: u32, out: *mut u32, out_len: usize) -> i64;
    fn milebadger_congruence(a: i32, b: i32, m: u32, out: *mut u32, out_len: usize) -> i64;
}

const CASES: [&str; 4] = ["gcd-16-bits", "gcd-32-bits", "gcd-longest", "congruence-16-bits"];

/// The arguments of 64 calls, so that no branch is learnt by heart, and the memory that is lent for them.
struct Chains {
    congruence: bool,
    numbers: Vec<[u32; 3]>,
    out: [u32; 2],
}

impl Chains {
    fn new(name: &str) -> Chains {
        let mut random = Random::new();
        let mut below = |n: u64| random.below(n) as u32;
        let numbers = (0..64)
            .map(|_| match name {
                "gcd-16-bits" => [below(1 << 16), below(1 << 16), 0],
                "gcd-32-bits" => [below(1 << 32), below(1 << 32), 0],
                // the last two Fibonacci numbers of 32 bits: 45 divisions, each with quotient 1
                "gcd-longest" => [2_971_215_073, 1_836_311_903, 0],
                "congruence-16-bits" => {
                    let m = 2 + below(65_534);
                    [below(m as u64), below(m as u64), m]
                }
                _ => panic!("no such case"),
            })
            .collect();
        let mut chains = Chains { congruence: name.starts_with("congruence"), numbers, out: [0; 2] };
        for i in 0..64 {
            let ([a, b, m], result) = (chains.numbers[i], chains.call(i));
            let [first, second] = chains.out;
            if chains.congruence {
                let wrong = |t: u32| a as u64 * t as u64 % m as u64 != b as u64;
                assert!(if result == 1 { !wrong(first) && (0..first).all(wrong) } else { result == 0 && (0..m).all(wrong) });
            } else {
                assert!(result == 1 && (first, second) == chain(a, b), "{a} {b}: {first} {second}");
            }
        }
        chains
    }

    fn call(&mut self, i: usize) -> i64 {
        let [a, b, m] = self.numbers[i % 64];
        unsafe {
            if self.congruence {
                milebadger_congruence(a as i32, b as i32, m, self.out.as_mut_ptr(), 2)
            } else {
                milebadger_gcd(a, b, self.out.as_mut_ptr(), 2)
            }
        }
    }
}

/// Divisor and number of divisions, by the definition.
fn chain(a: u32, b: u32) -> (u32, u32) {
    if b == 0 {
        return (a, 0);
    }
    let (divisor, divisions) = chain(b, a % b);
    (divisor, divisions + 1)
}

fn main() {
    let arguments: Vec<String> = std::env::args().skip(1).collect();
    match arguments.iter().map(String::as_str).collect::<Vec<_>>()[..] {
        ["list"] => CASES.iter().for_each(|name| println!("{name}")),
        ["time", name] => {
            let mut chains = Chains::new(name);
            println!("{:.3}", clock::per_call(|i| chains.call(i)));
        }
        ["run", name, count] => {
            let mut chains = Chains::new(name);
            for i in 0..count.parse().expect("no count") {
                chains.call(i);
            }
        }
        _ => panic!("chain list, chain time CASE, or chain run CASE COUNT"),
    }
}
