//! Reads the device ROM (DROM) of a Thunderbolt dock, by the proved library `libcapi.a`.
//!
//! Any bytes end in an answer: a report, or a refusal with a number and an offset. No call here asks
//! anything of its caller, none panics, and each says what it leaves of the memory that it was lent.
//!
//! ```
//! let mut drom = [0; 19];
//! drom[13] = 3; // the version
//! drom[14] = 6; // the size from the version on
//! drom[16..].copy_from_slice(&[0x03, 0x08, 0x06]); // one entry, of kind TMU
//!
//! let mut records = [0; drom::ROOM];
//! let report = drom::read(&[], &drom, &mut records);
//! assert_eq!((report.number, report.records), (0, 1));
//! assert_eq!(records[..report.bytes], [0x0a, 0x00, 0x80, 0x18, 0x02, 0x01]);
//! ```
//!
//! # Numbers
//!
//! | No. | When |
//! |---|---|
//! | 0 | accepted |
//! | 1 | fewer than 16 bytes |
//! | 2 | the length in the header is not the size |
//! | 3 | a Thunderbolt 3 header (version below 3) in fewer than 22 bytes |
//! | 4 | a record buffer below [`ROOM`] bytes |
//! | 5 | a list of adapters with an odd number of bytes |
//! | 6 | an entry of length 0 |
//! | 7 | an entry runs past the end |
//! | 8 | an entry is too short for its kind |
//! | 9 | an ASCII name without a zero byte |
//! | 10 | an ASCII name that is not UTF-8 |
//! | 11 | a UTF-16 text with an odd number of bytes |
//! | 12 | a piece goes beyond the announced size |
//! | 13 | finished before all bytes are in |
//! | 18 | a state that no opening and no feed leaves |

mod feed;
mod ffi;
mod parts;
mod read;
mod sums;

pub use feed::{Feed, STATE};
pub use parts::{body, entry, header, whole};
pub use read::{Adapter, Report, read, read_listed};
pub use sums::{CRC32_START, TextRefusal, crc8, crc32, crc32_more, is_utf8, utf16_ascii};

/// The bytes of a record buffer that hold the records of any DROM.
pub const ROOM: usize = 16_368;
