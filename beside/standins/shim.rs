//! The way in: `Drom::parse` can be called in its own crate only.

use crate::debugfs::Adapter;
use crate::drom::Drom;

pub fn parse(bytes: &[u8], adapters: &[Adapter]) -> std::io::Result<Drom> {
    Drom::parse(bytes, adapters)
}
