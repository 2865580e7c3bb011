//! `yard times`: the least times from a station to all others.

use super::{print_json, Asked};
use crate::arguments::Given;
use crate::engine::{self, Found};
use crate::image::Image;
use crate::json::Json;
use crate::numbers::counted;
use crate::table::aligned;
use crate::{Ended, Status, Streams};
use interface::{Search, NO_TIME, SOURCE};

/// What the table says of a station; of one that is not reached there is no time, and the source has no predecessor.
struct Row {
    station: usize,
    page: u8,
    time_and_moves: Option<(u32, u16)>,
    predecessor: Option<u16>,
}

pub fn run(given: Given, streams: &mut Streams) -> Ended {
    let asked = Asked::read(&given, streams)?;
    let found = match engine::search(Search::Df, &asked.bytes, asked.query) {
        Ok(found) => found,
        Err(refused) => return asked.refused(refused.refusal, given.json, streams),
    };
    let rows = rows(Image::new(&asked.bytes), &found);
    match given.json {
        true => print_json(json(&asked, &found, &rows), streams)?,
        false => write!(streams.output, "{}", text(&found, &rows))?,
    }
    Ok(Status::Good)
}

fn rows(image: Image, found: &Found) -> Vec<Row> {
    let stations = image.directory().iter().enumerate();
    stations
        .map(|(station, &page)| {
            let (time, predecessor) = (found.times[station], found.preds[station]);
            let reached = time != NO_TIME;
            Row {
                station,
                page,
                time_and_moves: reached.then_some((time, found.moves[station])),
                predecessor: (reached && predecessor != SOURCE).then_some(predecessor),
            }
        })
        .collect()
}

fn text(found: &Found, rows: &[Row]) -> String {
    let mut lines = vec![["station", "page", "tenths", "moves", "predecessor"].map(String::from).to_vec()];
    lines.extend(rows.iter().map(|row| {
        let (time, moves, before) = match (row.time_and_moves, row.predecessor) {
            (None, _) => ("-".to_string(), "-".to_string(), "-".to_string()),
            (Some((time, moves)), None) => (time.to_string(), moves.to_string(), "source".to_string()),
            (Some((time, moves)), Some(before)) => (time.to_string(), moves.to_string(), before.to_string()),
        };
        vec![row.station.to_string(), row.page.to_string(), time, moves, before]
    }));
    let (reached, pages) = (found.reached, counted(found.list.len(), "page"));
    format!("{}reached {reached} of {}, {pages} fetched\n", aligned(&lines, &[]), counted(rows.len(), "station"))
}

fn json(asked: &Asked, found: &Found, rows: &[Row]) -> Vec<(&'static str, Json)> {
    let stations = rows.iter().map(|row| {
        Json::Object(vec![
            ("station", row.station.into()),
            ("page", row.page.into()),
            ("time", row.time_and_moves.map(|(time, _)| time).into()),
            ("moves", row.time_and_moves.map(|(_, moves)| moves).into()),
            ("predecessor", row.predecessor.into()),
        ])
    });
    let mut fields = asked.json();
    fields.extend([
        ("stations", Json::list(stations)),
        ("reached", found.reached.into()),
        ("list", Json::list(found.list.iter().copied())),
    ]);
    fields
}
