//! Random numbers from a seed that a failing test prints (Marsaglia's xorshift64*). MILEBADGER_SEED sets another seed.
#![allow(dead_code)]

pub struct Random {
    pub seed: u64,
    state: u64,
}

impl Random {
    pub fn new() -> Random {
        let seed = match std::env::var("MILEBADGER_SEED") {
            Ok(text) => text.parse().expect("MILEBADGER_SEED is no number"),
            Err(_) => 1_234_567,
        };
        Random { seed, state: seed.wrapping_mul(2).wrapping_add(1) }
    }

    pub fn bits(&mut self) -> u64 {
        self.state ^= self.state >> 12;
        self.state ^= self.state << 25;
        self.state ^= self.state >> 27;
        self.state.wrapping_mul(0x2545_F491_4F6C_DD1D)
    }

    /// A number below n.
    pub fn below(&mut self, n: u64) -> u64 {
        (self.bits() >> 11) % n
    }

    /// A 32-bit number; every length in bits is as likely as every other.
    pub fn any_length(&mut self) -> u32 {
        let length = self.below(33);
        self.below(1 << length) as u32
    }
}

/// Numbers at which 32-bit arithmetic goes wrong first: around 0, the powers of 2 and 10, and the largest modulus.
pub fn boundaries() -> Vec<u32> {
    let mut numbers = vec![];
    let tens = (0..10).map(|k| 10u64.pow(k));
    let twos = (0..33).map(|k| 1u64 << k);
    for center in tens.chain(twos).chain([65_535]) {
        for number in center.saturating_sub(1)..=center + 1 {
            if number <= u32::MAX as u64 {
                numbers.push(number as u32);
            }
        }
    }
    numbers.sort();
    numbers.dedup();
    numbers
}
