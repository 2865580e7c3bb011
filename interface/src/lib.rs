//! The engine's C interface (`include/yard.h`) for Rust programs: its numbers, what its calls are given, and the calls
//! on slices. Every call but the panel's returns 0 or the refusal's number, and leaves the numbers of its answer in the
//! first four entries of `answer`, as the header says.

mod calls;

pub use calls::{check, order, panel, records, replay, route, search, write};

/// The limits of a map.
pub const MAX_STATIONS: usize = 2048;
pub const MAX_PAGES: usize = 240;
pub const PAGE_BYTES: usize = 256;
pub const MAX_IMAGE_BYTES: usize = 63_492;
/// The heading of an image has so many bytes; behind it stands the directory.
pub const HEADING_BYTES: usize = 4;
/// Room for the records of every map.
pub const MAX_RECORDS: usize = 12_240;
/// The most frames of a store.
pub const MAX_FRAMES: usize = 64;

/// The entries of a station that was not reached, and the predecessor of the source.
pub const NO_TIME: u32 = 4_294_967_295;
pub const NO_MOVES: u16 = 65_535;
pub const NO_PREDECESSOR: u16 = 65_535;
pub const SOURCE: u16 = 65_534;

/// The length in bytes of an image of so many stations and pages.
pub fn image_bytes(stations: usize, pages: usize) -> usize {
    HEADING_BYTES + stations + PAGE_BYTES * pages
}

#[derive(Clone, Copy, Debug, PartialEq, Eq)]
pub enum Search {
    Plain,
    Df,
}

/// What a search is asked: the station to start from, and the length of the strip in decimetres.
#[derive(Clone, Copy, Debug, PartialEq, Eq)]
pub struct Query {
    pub source: u16,
    pub strip: u16,
}

/// The five tables lent to a search.
pub struct Tables<'a> {
    pub times: &'a mut [u32],
    pub moves: &'a mut [u16],
    pub preds: &'a mut [u16],
    pub marks: &'a mut [u8],
    pub list: &'a mut [u8],
}

/// A move record: "from, target, time, limit; limit 0 means `02`". In C it is four numbers of 16 bits in this order.
#[repr(C)]
#[derive(Clone, Copy, Debug, Default, PartialEq, Eq)]
pub struct Record {
    pub from: u16,
    pub target: u16,
    pub time: u16,
    pub limit: u16,
}

impl Record {
    /// What records are ordered by.
    pub fn key(self) -> (u16, u16) {
        (self.from, self.target)
    }
}

/// What the map writer takes beside the buffer: "a lent list of move records, N, P, a directory".
#[derive(Clone, Copy)]
pub struct Drawing<'a> {
    pub records: &'a [Record],
    pub stations: u16,
    pub pages: u16,
    pub directory: &'a [u8],
}
