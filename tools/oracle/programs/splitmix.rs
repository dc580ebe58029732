//! Steele, Lea and Flood's SplitMix64: a small generator for test inputs.

pub struct SplitMix64(u64);

impl SplitMix64 {
    /// A stream of its own for each line, so that any piece of the lines can be made alone.
    pub fn for_line(seed: u64, line: u64) -> Self {
        let mut stream = Self(seed);
        let start = stream.next_word() ^ line;
        Self(Self(start).next_word())
    }

    pub fn next_word(&mut self) -> u64 {
        self.0 = self.0.wrapping_add(0x9e37_79b9_7f4a_7c15);
        let mut z = self.0;
        z = (z ^ (z >> 30)).wrapping_mul(0xbf58_476d_1ce4_e5b9);
        z = (z ^ (z >> 27)).wrapping_mul(0x94d0_49bb_1331_11eb);
        z ^ (z >> 31)
    }

    /// A number from 0 to n - 1.
    pub fn below(&mut self, n: u64) -> u64 {
        self.next_word() % n
    }

    /// A number from low to high, both included.
    pub fn between(&mut self, low: i64, high: i64) -> i64 {
        low + self.below((high - low + 1) as u64) as i64
    }

    /// A number of at most `bits` bits, every length equally likely.
    pub fn sized(&mut self, bits: u64) -> u64 {
        let length = self.below(bits + 1);
        if length == 0 { 0 } else { self.next_word() >> (64 - length) }
    }

    pub fn pick<T: Copy>(&mut self, list: &[T]) -> T {
        list[self.below(list.len() as u64) as usize]
    }
}
