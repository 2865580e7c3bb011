//! The engine's C interface as it is called here: a replay by what it is asked.

use crate::reference::replay::Asked;

pub use interface::{check, order, panel, records, route, search, write};

/// The reads of a recorded page list.
pub fn replay(asked: Asked, answer: &mut [u32]) -> u32 {
    interface::replay(asked.list, asked.pages, asked.frames, asked.distances, asked.threshold, answer)
}

/// The bytes of a table in its own memory: a list that overlaps it.
pub fn bytes_of(table: &[u32]) -> &[u8] {
    // SAFETY: a number of 32 bits is four bytes of any value, which are borrowed for as long as the table is.
    unsafe { std::slice::from_raw_parts(table.as_ptr().cast(), size_of_val(table)) }
}
