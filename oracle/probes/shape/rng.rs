pub mod probe {
    use super::{Rng, SplitMix64};

    /// The generator's four words.
    pub fn state(rng: &Rng) -> [u64; 4] {
        rng.state
    }

    /// A generator that stands at four given words.
    pub fn with_state(state: [u64; 4]) -> Rng {
        Rng { state, cached_normal: None }
    }

    /// The first `n` numbers of SplitMix64.
    pub fn split_mix(seed: u64, n: usize) -> Vec<u64> {
        let mut s = SplitMix64 { state: seed };
        (0..n).map(|_| s.next()).collect()
    }
}
