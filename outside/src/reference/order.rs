//! "Order of maps" of document 02. What a map is ordered by is collected whole, N and a sorted list of its moves, and
//! compared as Rust itself compares numbers, tuples and lists. No two pages are ever read side by side.

use super::image::{self, Image, Move, Station};
use super::Answer;
use std::cmp::Ordering;

/// What maps are ordered by: "by N, then by their records as a list, record by record on (from, target, time, limit)".
/// The limit of `02` is 0, as in a record. As it is derived, the order goes by N first; that of lists goes by the first
/// entries that differ, "a list that is a front part of another coming first"; and that of tuples likewise.
#[derive(Clone, Debug, PartialEq, Eq, PartialOrd, Ord)]
pub struct Rank {
    pub stations: usize,
    pub records: Vec<(u16, u16, u16, u16)>,
}

/// What the naming call comes to.
#[derive(Clone, Copy, Debug, PartialEq, Eq)]
pub enum Named {
    /// Less if the first map is the lesser.
    Accepted(Ordering),
    /// Image 1 or 2, and what the whole check says of it.
    Refused { image: u32, by: Answer },
}

/// The rank of an image; or what the whole check refuses.
pub fn rank(image: &[u8]) -> Result<Rank, Answer> {
    let opened = Image::open(image)?;
    let good: Option<Vec<Vec<Station>>> = (0..opened.pages).map(|page| opened.read(page).ok()).collect();
    // If some page is bad, the whole check says which is the first.
    let Some(pages) = good else { return Err(image::check(image)) };
    let mut records = Vec::new();
    for station in pages.iter().flatten() {
        let record = |step: &Move| (station.number, step.target, step.time, step.limit.unwrap_or(0));
        records.extend(station.moves.iter().map(record));
    }
    records.sort();
    Ok(Rank { stations: opened.stations, records })
}

/// "One call names the lesser or says equal", and it "refuses by the whole check, the first image first, saying which
/// and where". The ranks are those that `rank` gives.
pub fn name(first: &Result<Rank, Answer>, second: &Result<Rank, Answer>) -> Named {
    match (first, second) {
        (Err(by), _) => Named::Refused { image: 1, by: *by },
        (_, Err(by)) => Named::Refused { image: 2, by: *by },
        (Ok(first), Ok(second)) => Named::Accepted(first.cmp(second)),
    }
}

impl Named {
    /// As C is told it: where other calls give a count, 1 or 2 for the lesser map and 0 for equal ones; where searches
    /// give the stations reached, 1 or 2 for the image that is refused.
    pub fn answer(self) -> Answer {
        match self {
            Named::Accepted(Ordering::Less) => Answer { count: 1, ..Answer::default() },
            Named::Accepted(Ordering::Equal) => Answer::default(),
            Named::Accepted(Ordering::Greater) => Answer { count: 2, ..Answer::default() },
            Named::Refused { image, by } => Answer { reached: image, ..by },
        }
    }
}
