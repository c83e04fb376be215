//! A seeded stream of numbers (splitmix64): the same on every machine.
pub struct Random(u64);

impl Random {
    /// The stream of one case: it depends on the seed, the kind and the case's number alone.
    pub fn of_case(seed: u64, kind: &str, index: usize) -> Random {
        let mut r = Random(seed);
        for byte in kind.bytes().map(u64::from).chain([index as u64]) {
            r.0 = r.next() ^ byte;
        }
        r
    }

    pub fn next(&mut self) -> u64 {
        self.0 = self.0.wrapping_add(0x9e37_79b9_7f4a_7c15);
        let mut z = self.0;
        z = (z ^ (z >> 30)).wrapping_mul(0xbf58_476d_1ce4_e5b9);
        z = (z ^ (z >> 27)).wrapping_mul(0x94d0_49bb_1331_11eb);
        z ^ (z >> 31)
    }

    /// 0 to n - 1
    pub fn below(&mut self, n: usize) -> usize {
        (self.next() % n as u64) as usize
    }

    /// lo to hi, both included
    pub fn between(&mut self, lo: i32, hi: i32) -> i32 {
        lo + self.below((hi - lo + 1) as usize) as i32
    }

    /// one time in n
    pub fn one_in(&mut self, n: usize) -> bool {
        self.below(n) == 0
    }

    pub fn of<T: Copy>(&mut self, choices: &[T]) -> T {
        choices[self.below(choices.len())]
    }

    /// 0 to 1, 1 left out
    pub fn unit(&mut self) -> f64 {
        (self.next() >> 11) as f64 / (1u64 << 53) as f64
    }

    /// -1 to 1
    pub fn signed(&mut self) -> f64 {
        2.0 * self.unit() - 1.0
    }
}

/// The f64 nearest to 10^k.
pub fn ten_to(k: i32) -> f64 {
    format!("1e{k}").parse().unwrap()
}
