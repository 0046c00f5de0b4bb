//! Where inputs come from: random numbers from a fixed seed, and all the strings over a pool.

/// A xorshift generator.
pub struct Random(u64);

impl Random {
    pub fn new() -> Self {
        Random(0x0123_4567_89ab_cdef)
    }

    /// A generator of its own, for a family of its own.
    pub fn seeded(seed: u64) -> Self {
        let mut random = Random(seed.wrapping_mul(0x9e37_79b9_7f4a_7c15) | 1);
        for _ in 0..8 {
            random.next();
        }
        random
    }

    fn next(&mut self) -> u64 {
        self.0 ^= self.0 << 13;
        self.0 ^= self.0 >> 7;
        self.0 ^= self.0 << 17;
        self.0
    }

    /// A number from 0 to `past` - 1.
    pub fn below(&mut self, past: usize) -> usize {
        ((self.next() >> 16) % past as u64) as usize
    }

    pub fn pick<T: Copy>(&mut self, pool: &[T]) -> T {
        pool[self.below(pool.len())]
    }

    /// Whether it is one time of so many.
    pub fn once_in(&mut self, times: usize) -> bool {
        self.below(times) == 0
    }

    pub fn byte(&mut self) -> u8 {
        (self.next() >> 16) as u8
    }

    pub fn unit(&mut self) -> u16 {
        (self.next() >> 16) as u16
    }

    pub fn bytes(&mut self, count: usize) -> Vec<u8> {
        (0..count).map(|_| self.byte()).collect()
    }
}

/// Every byte, in order.
pub fn all_bytes() -> Vec<u8> {
    (0..=u8::MAX).collect()
}

/// The units' bytes, the low byte of each first.
pub fn bytes_of(units: &[u16]) -> Vec<u8> {
    units.iter().flat_map(|unit| unit.to_le_bytes()).collect()
}

/// Calls `each` with every string of `length` items of the pool.
pub fn every<T: Copy>(pool: &[T], length: u32, mut each: impl FnMut(&[T])) {
    let mut string = vec![pool[0]; length as usize];
    for number in 0..pool.len().pow(length) {
        let mut rest = number;
        for item in string.iter_mut().rev() {
            *item = pool[rest % pool.len()];
            rest /= pool.len();
        }
        each(&string);
    }
}
