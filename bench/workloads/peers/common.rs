//! What the peers share with the programs of `ours/`.
use std::time::Instant;

/// The generator xorshift64*.
pub struct Random(pub u64);

impl Random {
    pub fn next(&mut self) -> u64 {
        let mut x = self.0;
        x ^= x >> 12;
        x ^= x << 25;
        x ^= x >> 27;
        self.0 = x;
        x.wrapping_mul(0x2545_f491_4f6c_dd1d)
    }

    pub fn below(&mut self, n: u64) -> u64 {
        ((self.next() >> 32) * n) >> 32
    }
}

pub fn with(sum: u64, value: u64) -> u64 {
    sum.wrapping_mul(31).wrapping_add(value)
}

/// Notes what a piece of the run took.
pub fn lap(start: &mut Instant, times: &mut Vec<u64>) {
    times.push(start.elapsed().as_nanos() as u64);
    *start = Instant::now();
}

pub fn print(name: &str, times: &[u64]) {
    for time in times {
        println!("{name} {time}");
    }
}
