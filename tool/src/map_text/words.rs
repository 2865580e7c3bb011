//! One line of a map's text.

use crate::numbers::{number, quoted};
use interface::{Record, MAX_PAGES, MAX_STATIONS};

/// What stands in a line, by its number.
pub struct Line<T> {
    pub line: usize,
    pub what: T,
}

#[derive(Clone, Copy)]
pub struct Station {
    pub number: u16,
    pub page: Option<u8>,
}

/// What a line says.
#[derive(Clone, Copy)]
pub enum Said {
    Stations(u16),
    Pages(u16),
    Station(Station),
    /// A move with its limit, or 0 for none.
    Move(Record),
}

/// A line without its comment, taken word by word.
pub fn said(line: &str) -> Result<Said, String> {
    let words: Vec<&str> = line.split_whitespace().collect();
    match words[..] {
        ["stations", count] => Ok(Said::Stations(sixteen("the number of stations", count, 1, MAX_STATIONS)?)),
        ["pages", count] => Ok(Said::Pages(sixteen("the number of pages", count, 1, MAX_PAGES)?)),
        ["station", number] => Ok(Said::Station(Station { number: station(number)?, page: None })),
        ["station", number, "page", page] => {
            let number = station(number)?;
            let page = sixteen("a page", page, 0, MAX_PAGES - 1)?;
            Ok(Said::Station(Station { number, page: Some(page as u8) }))
        }
        ["move", from, "to", target, "time", time] => step(from, target, time, None),
        ["move", from, "to", target, "time", time, "limit", limit] => step(from, target, time, Some(limit)),
        _ => Err(not_understood(words.first().copied().unwrap_or_default())),
    }
}

fn step(from: &str, target: &str, time: &str, limit: Option<&str>) -> Result<Said, String> {
    const MOST: usize = 65_535;
    Ok(Said::Move(Record {
        from: station(from)?,
        target: station(target)?,
        time: sixteen("a time in tenths of a second", time, 0, MOST)?,
        limit: limit.map_or(Ok(0), |limit| sixteen("a limit in decimetres", limit, 1, MOST))?,
    }))
}

fn station(word: &str) -> Result<u16, String> {
    sixteen("a station", word, 0, MAX_STATIONS - 1)
}

fn sixteen(what: &str, word: &str, least: u32, most: usize) -> Result<u16, String> {
    number(what, word, least, most as u32).map(|value| value as u16)
}

/// How the line is to be written, by its first word.
fn not_understood(first: &str) -> String {
    let form = match first {
        "stations" => "stations NUMBER",
        "pages" => "pages NUMBER",
        "station" => "station NUMBER, or station NUMBER page NUMBER",
        "move" => "move STATION to STATION time TENTHS, and behind it limit DECIMETRES if there is one",
        _ => return format!("a line begins with stations, pages, station or move, not with {}", quoted(first)),
    };
    format!("this is not of the form {form}")
}
