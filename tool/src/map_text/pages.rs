//! The pages of a map's text: as it gives them, or filled in the order of the stations.

use super::words::Line;
use super::{Drawn, Mistake};
use crate::engine::Refusal;
use crate::image::station_bytes;
use crate::numbers::counted;
use interface::{MAX_PAGES, PAGE_BYTES};

/// A page has so many bytes beside its end.
const ROOM: usize = PAGE_BYTES - 1;

/// The number of pages, and the page of each station. Either all stations have a page in the text, or none has.
pub fn placed(drawn: &Drawn) -> Result<(u16, Vec<u8>), Mistake> {
    let with = drawn.directory.iter().find(|(_, line)| line.what.is_some());
    let without = drawn.directory.iter().find(|(_, line)| line.what.is_none());
    match (with, without) {
        (Some((with, _)), Some((without, line))) => {
            let what =
                format!("station {without} has no page, but station {with} has: give a page to all, or to none");
            Err(Mistake { line: line.line, what })
        }
        (Some(_), None) => given(drawn),
        _ => filled(drawn),
    }
}

/// The pages as the text gives them; there are as many as it says or, if it does not say, as the highest needs.
fn given(drawn: &Drawn) -> Result<(u16, Vec<u8>), Mistake> {
    let directory: Vec<u8> = drawn.directory.values().filter_map(|line| line.what).collect();
    let needed = directory.iter().max().map_or(0, |&page| u16::from(page) + 1);
    let pages = drawn.pages.as_ref().map_or(needed, |said| said.what);
    for (station, Line { line, what }) in &drawn.directory {
        if let Some(page) = what.filter(|&page| u16::from(page) >= pages) {
            let what = format!("station {station} is on page {page}, and the pages are 0 to {}", pages - 1);
            return Err(Mistake { line: *line, what });
        }
    }
    Ok((pages, directory))
}

/// Station by station: each goes to the page of the one before if that has room for it, and else to the next page.
fn filled(drawn: &Drawn) -> Result<(u16, Vec<u8>), Mistake> {
    let (mut page, mut used) = (0, 0);
    let most = drawn.pages.as_ref().map_or(MAX_PAGES, |said| said.what.into());
    let mut directory = Vec::new();
    for (&station, line) in &drawn.directory {
        let bytes = bytes_of(drawn, station);
        if bytes > ROOM {
            let what = format!("station {station} and its moves take {bytes} bytes, and a page has room for {ROOM}");
            return Err(Mistake { line: line.line, what });
        }
        if used + bytes > ROOM {
            (page, used) = (page + 1, 0);
        }
        if page >= most {
            let what = format!("{} no room for station {station}", counted_has(most));
            return Err(Mistake { line: line.line, what });
        }
        used += bytes;
        directory.push(page as u8);
    }
    let pages = drawn.pages.as_ref().map_or(page as u16 + 1, |said| said.what);
    Ok((pages, directory))
}

fn counted_has(pages: usize) -> String {
    format!("{} {}", counted(pages, "page"), if pages == 1 { "has" } else { "have" })
}

fn bytes_of(drawn: &Drawn, station: u16) -> usize {
    let moves = drawn.moves.range((station, 0)..=(station, u16::MAX));
    station_bytes(moves.map(|(_, line)| line.what.limit))
}

/// What the writer refuses, at the line of the station with which the page has too much.
pub fn refused(drawn: &Drawn, directory: &[u8], refusal: Refusal) -> Mistake {
    let mut used = 0;
    for ((&station, line), &page) in drawn.directory.iter().zip(directory) {
        if usize::from(page) == refusal.place {
            used += bytes_of(drawn, station);
        }
        if used > ROOM && refusal.number == 20 {
            let what = format!(
                "page {page} is too full: up to station {station} its stations and moves take {used} bytes, \
                 and it has room for {ROOM}"
            );
            return Mistake { line: line.line, what };
        }
    }
    Mistake { line: 1, what: format!("refused {}", refusal.number) }
}
