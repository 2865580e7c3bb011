//! The engine's proved calls as the commands use them: on tables of their own, with an answer or a refusal.

use crate::image;
use interface::{Drawing, Query, Record, Search, Tables, MAX_RECORDS, MAX_STATIONS};
use std::cmp::Ordering;

/// A refusal: its number, and the numbers of its place, which are 0 where it has none.
#[derive(Clone, Copy, Debug, PartialEq, Eq)]
pub struct Refusal {
    pub number: u32,
    /// The page; of 5 the station.
    pub place: usize,
    /// Where in the page the command at fault stands.
    pub offset: usize,
}

/// Makes a call with an answer of four numbers.
fn answered(call: impl FnOnce(&mut [u32]) -> u32) -> Result<[u32; 4], Refusal> {
    let mut answer = [0; 4];
    match call(&mut answer) {
        0 => Ok(answer),
        number => Err(Refusal { number, place: answer[2] as usize, offset: answer[3] as usize }),
    }
}

/// The whole check, and the moves of a good map by rising from and target.
pub fn records(bytes: &[u8]) -> Result<Vec<Record>, Refusal> {
    let mut records = vec![Record::default(); MAX_RECORDS];
    let [count, ..] = answered(|answer| interface::records(bytes, &mut records, answer))?;
    records.truncate(count as usize);
    Ok(records)
}

/// The image of records.
pub fn write(drawing: Drawing) -> Result<Vec<u8>, Refusal> {
    let length = interface::image_bytes(drawing.stations.into(), drawing.pages.into());
    let mut bytes = vec![0; length];
    answered(|answer| interface::write(drawing, &mut bytes, answer))?;
    Ok(bytes)
}

/// What a search found: an entry for each station, and the page list.
pub struct Found {
    pub times: Vec<u32>,
    pub moves: Vec<u16>,
    pub preds: Vec<u16>,
    pub list: Vec<u8>,
    pub reached: usize,
}

/// A refused search, with the page references that it had made.
pub struct Refused {
    pub refusal: Refusal,
    pub list: Vec<u8>,
}

pub fn search(kind: Search, bytes: &[u8], query: Query) -> Result<Found, Refused> {
    let mut found = Found {
        times: vec![0; MAX_STATIONS],
        moves: vec![0; MAX_STATIONS],
        preds: vec![0; MAX_STATIONS],
        list: vec![0; MAX_STATIONS],
        reached: 0,
    };
    let mut count = 0;
    let searched = answered(|answer| {
        let tables = Tables {
            times: &mut found.times,
            moves: &mut found.moves,
            preds: &mut found.preds,
            marks: &mut [0; MAX_STATIONS],
            list: &mut found.list,
        };
        let refusal = interface::search(kind, bytes, query, tables, answer);
        count = answer[0] as usize;
        refusal
    });
    found.list.truncate(count);
    match searched {
        Err(refusal) => Err(Refused { refusal, list: found.list }),
        Ok([_, reached, ..]) => {
            let stations = image::stations(bytes);
            found.times.truncate(stations);
            found.moves.truncate(stations);
            found.preds.truncate(stations);
            found.reached = reached as usize;
            Ok(found)
        }
    }
}

/// The stations from the source to a station by the predecessors of a search; none if there is no route.
pub fn route(preds: &[u16], station: u16) -> Result<Vec<u16>, Refusal> {
    let mut way = vec![0; preds.len()];
    let [count, ..] = answered(|answer| interface::route(preds, station, &mut way, answer))?;
    way.truncate(count as usize);
    Ok(way)
}

/// The order of two good maps; or that of two images one is refused.
pub fn order(first: &[u8], second: &[u8]) -> Result<Ordering, Refusal> {
    let [lesser, ..] = answered(|answer| interface::order(first, second, answer))?;
    Ok(match lesser {
        0 => Ordering::Equal,
        1 => Ordering::Less,
        _ => Ordering::Greater,
    })
}

/// The reads of a page list with so many frames, of which the least recently used page leaves: no page is far from
/// another, as all distances are 0.
pub fn reads(list: &[u8], pages: usize, frames: usize) -> Result<u64, Refusal> {
    let distances = vec![0; pages * pages];
    let [low, high, ..] = answered(|answer| interface::replay(list, pages, frames, &distances, 0, answer))?;
    Ok(u64::from(low) + (u64::from(high) << 32))
}
