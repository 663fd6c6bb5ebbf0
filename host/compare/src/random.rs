//! A seeded generator of numbers (splitmix64), so that each run can be repeated.

/// The generator's state.
#[derive(Clone, Debug)]
pub struct Random(u64);

impl Random {
    /// A generator; equal seeds give equal numbers.
    pub fn new(seed: u64) -> Self {
        Random(seed)
    }

    /// Any 64-bit number, each as likely as any other.
    pub fn any(&mut self) -> u64 {
        self.0 = self.0.wrapping_add(0x9E37_79B9_7F4A_7C15);
        let mut mixed = self.0;
        mixed = (mixed ^ mixed >> 30).wrapping_mul(0xBF58_476D_1CE4_E5B9);
        mixed = (mixed ^ mixed >> 27).wrapping_mul(0x94D0_49BB_1331_11EB);
        mixed ^ mixed >> 31
    }

    /// A number below `n`, which is not 0.
    pub fn below(&mut self, n: usize) -> usize {
        (self.any() % n as u64) as usize
    }

    /// True once in `n` times.
    pub fn one_in(&mut self, n: usize) -> bool {
        self.below(n) == 0
    }

    /// One of the choices, of which there is at least one.
    pub fn pick<T: Copy>(&mut self, choices: &[T]) -> T {
        choices[self.below(choices.len())]
    }

    /// A number near an edge of its type as often as not.
    pub fn number(&mut self) -> u64 {
        let near = self.any() % 5;
        match self.below(8) {
            0 => near,
            1 => near.wrapping_neg(),
            2 => (1_u64 << 63).wrapping_add(near).wrapping_sub(2),
            3 => 1 << self.below(64),
            4 => (1_u64 << 32).wrapping_add(near).wrapping_sub(2),
            _ => self.any(),
        }
    }

    /// A number that is rarely 0.
    pub fn time(&mut self) -> u64 {
        if self.one_in(24) {
            return 0;
        }
        self.number().max(1)
    }

    /// `n` octets: any, all equal, or mostly zero.
    pub fn octets(&mut self, n: usize) -> Vec<u8> {
        let mut octets = vec![self.pick(&[0, 0, 0xFF, 0xA5]); n];
        if self.one_in(2) {
            for chunk in octets.chunks_mut(8) {
                chunk.copy_from_slice(&self.any().to_le_bytes()[..chunk.len()]);
            }
        } else if n > 0 {
            for _ in 0..self.below(4) {
                let at = self.below(n);
                octets[at] = self.any() as u8;
            }
        }
        octets
    }

    /// `n` numbers, of octets as [`Self::octets`] draws them.
    pub fn numbers(&mut self, n: usize) -> Vec<u64> {
        let octets = self.octets(8 * n);
        octets.as_chunks().0.iter().map(|octets| u64::from_le_bytes(*octets)).collect()
    }

    /// Mostly `size`, else another size near it.
    pub fn size(&mut self, size: usize) -> usize {
        if !self.one_in(20) {
            return size;
        }
        self.pick(&[0, size - 1, size + 1, size / 2, 2 * size])
    }
}
