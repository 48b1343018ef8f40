//! The one generator of test inputs, for the stored answers, the differential runs and the benchmark.
//! SplitMix64 (Steele, Lea, Flood 2014): the state grows by 0x9E3779B97F4A7C15 modulo 2^64, and each
//! new state is mixed by two shifts and multiplications into a number. A draw uses one number, or as
//! many as its comment says, so a list of cases is settled by its seed alone.

#![allow(dead_code)]

pub struct Draw {
    state: u64,
}

impl Draw {
    pub fn new(seed: u64) -> Self {
        Draw { state: seed }
    }

    /// A generator of its own for each name, so that a new list of cases leaves the others as they are.
    pub fn named(seed: u64, name: &str) -> Self {
        let mut d = Draw::new(seed);
        for b in name.bytes() {
            d.state = d.state.wrapping_mul(257).wrapping_add(b as u64);
            d.word();
        }
        d
    }

    /// Any 64 bits.
    pub fn word(&mut self) -> u64 {
        self.state = self.state.wrapping_add(0x9E37_79B9_7F4A_7C15);
        let mut z = self.state;
        z = (z ^ (z >> 30)).wrapping_mul(0xBF58_476D_1CE4_E5B9);
        z = (z ^ (z >> 27)).wrapping_mul(0x94D0_49BB_1331_11EB);
        z ^ (z >> 31)
    }

    /// 0 to n - 1.
    pub fn below(&mut self, n: u64) -> u64 {
        self.word() % n
    }

    /// low to high, both among them.
    pub fn between(&mut self, low: i64, high: i64) -> i64 {
        low + self.below((high - low) as u64 + 1) as i64
    }

    /// One of a list.
    pub fn one_of<T: Copy>(&mut self, list: &[T]) -> T {
        list[self.below(list.len() as u64) as usize]
    }

    /// A number of any magnitude, small and large ones alike (three numbers): 0 to 64 random bits,
    /// read as a signed number.
    pub fn any_i64(&mut self) -> i64 {
        let kept = self.below(65) as u32;
        let bits = self.word();
        let size = if kept == 0 { 0 } else { bits >> (64 - kept) };
        if self.below(2) == 0 { size as i64 } else { (size as i64).wrapping_neg() }
    }

    /// A float from 0 to 1, both among them, that is a whole number of 2^-24 (one number).
    pub fn unit(&mut self) -> f32 {
        self.below((1 << 24) + 1) as f32 / (1 << 24) as f32
    }
}

/// Whole numbers at which machine arithmetic changes: those up to 2, and each power of two and its
/// neighbours, with both signs, and the two ends.
pub fn edges(exponents: &[u32]) -> Vec<i64> {
    let mut list = vec![0, 1, 2, i64::MAX];
    for &e in exponents {
        let p = 1i64 << e;
        list.extend([p - 1, p, p + 1]);
    }
    let negative: Vec<i64> = list.iter().map(|x| -x).collect();
    list.extend(negative);
    list.push(i64::MIN);
    list.sort();
    list.dedup();
    list
}
