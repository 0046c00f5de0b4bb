//! Fields of so many bits each, packed into bytes, the most significant bit first.

/// Packs fields. Bytes are whole once the widths add up to eights.
#[derive(Default)]
pub struct Packer {
    bytes: Vec<u8>,
    pending: u64,
    width: u32,
}

impl Packer {
    pub fn put(&mut self, value: u32, width: u32) -> &mut Self {
        self.pending = self.pending << width | u64::from(value);
        self.width += width;
        while self.width >= 8 {
            self.width -= 8;
            self.bytes.push((self.pending >> self.width) as u8);
            self.pending &= (1 << self.width) - 1;
        }
        self
    }

    pub fn put_bytes(&mut self, bytes: &[u8]) -> &mut Self {
        for &byte in bytes {
            self.put(byte.into(), 8);
        }
        self
    }

    /// A length of eight bits, and the bytes.
    pub fn put_text(&mut self, text: &[u8]) -> &mut Self {
        self.put(text.len() as u32, 8).put_bytes(text)
    }

    pub fn into_bytes(self) -> Vec<u8> {
        assert_eq!(self.width, 0, "fields that do not end with a byte");
        self.bytes
    }
}

/// Takes fields off again. What is not there reads as zero bits.
pub struct Unpacker<'a> {
    bytes: &'a [u8],
    at: usize,
}

impl<'a> Unpacker<'a> {
    pub fn new(bytes: &'a [u8]) -> Self {
        Unpacker { bytes, at: 0 }
    }

    pub fn take(&mut self, width: u32) -> u32 {
        (0..width).fold(0, |value, _| value << 1 | self.bit())
    }

    pub fn flag(&mut self) -> bool {
        self.bit() == 1
    }

    fn bit(&mut self) -> u32 {
        let byte = self.bytes.get(self.at / 8).copied().unwrap_or(0);
        let bit = byte >> (7 - self.at % 8) & 1;
        self.at += 1;
        bit.into()
    }

    /// The next bytes, from a byte's front on.
    pub fn take_bytes(&mut self, count: usize) -> &'a [u8] {
        let from = self.at.div_ceil(8).min(self.bytes.len());
        let to = (from + count).min(self.bytes.len());
        self.at = 8 * (from + count);
        &self.bytes[from..to]
    }

    /// A length of eight bits, and so many bytes.
    pub fn take_text(&mut self) -> &'a [u8] {
        let length = self.take(8) as usize;
        self.take_bytes(length)
    }

    /// How many bytes the fields so far came from.
    pub fn used(&self) -> usize {
        self.at.div_ceil(8)
    }
}
