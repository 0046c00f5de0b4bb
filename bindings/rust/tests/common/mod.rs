//! DROMs to try, and random numbers from a fixed seed.
#![allow(dead_code, reason = "each test takes what it needs")]

pub const LENT: u8 = 0xa5;

/// A header of zeros but for version and length, and a body.
pub fn drom(version: u8, body: &[u8]) -> Vec<u8> {
    let mut drom = vec![0; if version < 3 { 22 } else { 16 }];
    drom.extend(body);
    drom[13] = version;
    let length = (drom.len() - 13) as u16;
    drom[14..16].copy_from_slice(&length.to_le_bytes());
    drom
}

/// A record buffer in which every byte that is written shows.
pub fn buffer() -> Vec<u8> {
    vec![LENT; drom::ROOM]
}

/// A xorshift generator.
pub struct Random(u64);

impl Random {
    pub fn new(seed: u64) -> Self {
        Random(seed << 32 | 0x9e37_79b9)
    }

    pub fn below(&mut self, past: usize) -> usize {
        self.0 ^= self.0 << 13;
        self.0 ^= self.0 >> 7;
        self.0 ^= self.0 << 17;
        ((self.0 >> 16) % past as u64) as usize
    }

    pub fn bytes(&mut self, count: usize) -> Vec<u8> {
        (0..count).map(|_| self.below(256) as u8).collect()
    }
}

/// A body of random entries, of which some are refused.
pub fn random_body(random: &mut Random) -> Vec<u8> {
    let mut body = Vec::new();
    for _ in 0..random.below(12) {
        let length = 1 + random.below(20);
        let mut entry = random.bytes(length);
        entry[0] = if random.below(40) == 0 { random.below(256) as u8 } else { length as u8 };
        if let Some(kind) = entry.get_mut(1) {
            *kind = if random.below(2) == 0 { *kind | 0x80 } else { *kind % 0x14 };
        }
        body.extend(entry);
    }
    body
}
