//! The root of the crate that the customer's `drom.rs` is compiled in, unchanged. `drom` and `util` are
//! the customer's; the rest stands in for what is not in the text.

pub mod debugfs;
pub mod drom;
pub mod shim;
pub mod util;

/// A version of a specification or a firmware: `drom.rs` fills both numbers in.
#[derive(Clone, Debug, PartialEq)]
pub struct Version {
    pub major: u8,
    pub minor: u8,
}
