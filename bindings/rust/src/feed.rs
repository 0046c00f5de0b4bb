//! A DROM that comes in pieces, cut anywhere.

use crate::{Report, ffi};

/// The bytes of a [`Feed`].
pub const STATE: usize = 388;

/// A DROM that is being fed. It is plain data: a copy of it goes on from where it was copied.
///
/// ```
/// # let whole = [0, 0, 0, 0, 0, 0, 0, 0, 0, 0, 0, 0, 0, 3, 4, 0, 1];
/// let mut records = [0; drom::ROOM];
/// let (mut feed, _) = drom::Feed::open(&[], whole.len(), &records);
/// for piece in whole.chunks(5) {
///     feed.feed(piece, &mut records);
/// }
/// let report = feed.finish();
/// assert_eq!((report.number, report.records), (0, 1));
/// ```
#[derive(Clone, Copy, Debug, PartialEq, Eq)]
pub struct Feed([u8; STATE]);

impl Feed {
    /// Opens a DROM of `announced` bytes, with its adapters as bytes, as for [`read`](crate::read).
    ///
    /// Beside it the number: 5, 4 or 1, tested in this order, or 0. A refused opening takes no byte,
    /// and [`finish`](Self::finish) tells its number. Of `records` only the length is looked at.
    pub fn open(list: &[u8], announced: usize, records: &[u8]) -> (Self, u8) {
        let mut state = [0; STATE];
        // SAFETY: each pointer and length are those of one slice, lent until the call is over; the
        // library reads and writes nothing outside of them. So it is for every call below.
        let number = unsafe {
            ffi::drom_open(
                list.as_ptr(),
                list.len(),
                announced,
                records.as_ptr(),
                records.len(),
                state.as_mut_ptr(),
                state.len(),
            )
        };
        debug_assert_ne!(number, ffi::LENT_TOO_SHORT);
        (Feed(state), number)
    }

    /// Takes a piece in, which may be empty, and writes the records of the entries that it completes
    /// behind the [`record_bytes`](Self::record_bytes) so far. Every other byte of `records` is as it
    /// was.
    ///
    /// Answers 0; or 18 for a state that no opening and no feed leaves, 4 for `records` below
    /// [`ROOM`](crate::ROOM), 12 for a piece that goes beyond the announced size, in this order, and
    /// then nothing is changed, neither the state nor `records`.
    pub fn feed(&mut self, piece: &[u8], records: &mut [u8]) -> u8 {
        let Feed(state) = self;
        let number = unsafe {
            ffi::drom_feed(
                state.as_mut_ptr(),
                state.len(),
                piece.as_ptr(),
                piece.len(),
                records.as_mut_ptr(),
                records.len(),
            )
        };
        debug_assert_ne!(number, ffi::LENT_TOO_SHORT);
        number
    }

    /// The report that [`read`](crate::read) gives for the pieces joined; or number 18 for a state that
    /// no opening and no feed leaves, or 13 while bytes are missing. Changes nothing: feeding may go on
    /// after 13, and asked again it says the same.
    pub fn finish(&self) -> Report {
        let Feed(state) = self;
        let mut report = [0; ffi::REPORT];
        // The answer is the report's number. Of a state made up it may be any, also that of too short a report.
        unsafe { ffi::drom_finish(state.as_ptr(), state.len(), report.as_mut_ptr(), report.len()) };
        Report::from_bytes(&report)
    }

    /// How many records were written so far.
    pub fn record_count(&self) -> usize {
        let Feed(state) = self;
        unsafe { ffi::drom_record_count(state.as_ptr(), state.len()) }
    }

    /// How many bytes these records have.
    pub fn record_bytes(&self) -> usize {
        let Feed(state) = self;
        unsafe { ffi::drom_record_bytes(state.as_ptr(), state.len()) }
    }

    /// The state as bytes, to be kept and to go on from later.
    pub fn as_bytes(&self) -> &[u8; STATE] {
        &self.0
    }

    /// A state of any bytes. Where no opening and no feed leaves such a state, the answers may be 18,
    /// and no call does harm.
    pub fn from_bytes(bytes: [u8; STATE]) -> Self {
        Feed(bytes)
    }
}
