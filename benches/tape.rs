//! Writes a tape of so many bytes to standard output: a sheet of 16 unknowns mod 65,535, equations, and answers to the end.
//!     tape dense BYTES   16 random equations: the most work for each answer
//!     tape free BYTES    no equations: the most lines for each answer
#[path = "../tests/random.rs"]
mod random;

use random::Random;
use std::io::Write;

const MODULUS: u32 = 65_535;
const UNKNOWNS: u32 = 16;

fn main() {
    let arguments: Vec<String> = std::env::args().skip(1).collect();
    let [kind, bytes] = &arguments[..] else { panic!("tape dense BYTES, or tape free BYTES") };
    let mut words = vec![1 << 28 | MODULUS, 2 << 28 | UNKNOWNS];
    if kind == "dense" {
        let mut random = Random::new();
        for _ in 0..16 {
            words.extend((0..UNKNOWNS).map(|_| 3 << 28 | random.below(MODULUS as u64) as u32));
            words.push(4 << 28 | random.below(MODULUS as u64) as u32);
        }
    }
    words.resize(bytes.parse::<usize>().expect("no number of bytes") / 4, 9 << 28);
    let tape: Vec<u8> = words.iter().flat_map(|word| word.to_le_bytes()).collect();
    std::io::stdout().write_all(&tape).expect("standard output is shut");
}
