//! A record buffer to lend, in which every byte that was written shows.

/// What each byte holds before it is lent.
pub const LENT: u8 = 0xa5;

/// The largest room that is lent, and the bytes behind it that are looked at too.
const MOST: usize = 16_400;
const BEHIND: usize = 64;

static CLEAN: [u8; MOST + BEHIND] = [LENT; MOST + BEHIND];

pub struct Lent(Vec<u8>);

impl Lent {
    pub fn new() -> Self {
        Lent(CLEAN.to_vec())
    }

    pub fn room(&mut self, room: usize) -> &mut [u8] {
        &mut self.0[..room.min(MOST)]
    }

    /// Looks whether the buffer holds these records and is otherwise as it was lent.
    pub fn check(&self, records: &[u8]) -> Result<(), String> {
        let (front, rest) = self.0.split_at(records.len());
        if front == records && *rest == CLEAN[..rest.len()] {
            return Ok(());
        }
        let end = self.0.iter().rposition(|&byte| byte != LENT).map_or(0, |last| last + 1);
        Err(format!(
            "expected the records {records:02x?}, the buffer holds {:02x?}",
            &self.0[..end]
        ))
    }

    /// Has the first bytes hold again what they held before. The others were looked at.
    pub fn clean(&mut self, count: usize) {
        self.0[..count].fill(LENT);
    }
}
