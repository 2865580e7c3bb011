//! `yard route`: the way to one station.

use super::{print_json, Asked};
use crate::arguments::Given;
use crate::engine::{self, Found};
use crate::image::Image;
use crate::json::Json;
use crate::numbers::{counted, seconds};
use crate::refused::Account;
use crate::table::aligned;
use crate::{Ended, Status, Streams};
use interface::Search;

pub fn run(given: Given, streams: &mut Streams) -> Ended {
    let asked = Asked::read(&given, streams)?;
    let station = asked.station.unwrap_or_default();
    let found = match engine::search(Search::Df, &asked.bytes, asked.query) {
        Ok(found) => found,
        Err(refused) => return asked.refused(refused.refusal, given.json, streams),
    };
    let way = match engine::route(&found.preds, station) {
        Ok(way) => way,
        Err(refusal) => {
            let account = Account::of_station(&asked.bytes, station, refusal);
            return asked.answer_refusal(&account, given.json, streams);
        }
    };
    match given.json {
        true => print_json(json(&asked, &found, station, &way), streams)?,
        false => write!(streams.output, "{}", text(&asked, &found, station, &way))?,
    }
    Ok(if way.is_empty() { Status::Refused } else { Status::Good })
}

fn text(asked: &Asked, found: &Found, station: u16, way: &[u16]) -> String {
    if way.is_empty() {
        return "no route\n".to_string();
    }
    let image = Image::new(&asked.bytes);
    let mut rows = vec![["station", "page", "tenths"].map(String::from).to_vec()];
    rows.extend(way.iter().map(|&station| {
        let time = found.times[usize::from(station)];
        vec![station.to_string(), image.page_of(station).to_string(), time.to_string()]
    }));
    let (time, moves) = (found.times[usize::from(station)], found.moves[usize::from(station)]);
    let pages = counted(found.list.len(), "page");
    let (tenths, moves) = (counted(time as usize, "tenth"), counted(usize::from(moves), "move"));
    format!("{}total {tenths} of a second ({}), {moves}, {pages} fetched\n", aligned(&rows, &[]), seconds(time))
}

fn json(asked: &Asked, found: &Found, station: u16, way: &[u16]) -> Vec<(&'static str, Json)> {
    let image = Image::new(&asked.bytes);
    let at = usize::from(station);
    let stations = way.iter().map(|&station| {
        Json::Object(vec![
            ("station", station.into()),
            ("page", image.page_of(station).into()),
            ("time", found.times[usize::from(station)].into()),
        ])
    });
    let reached = !way.is_empty();
    let mut fields = asked.json();
    fields.extend([
        ("route", if reached { Json::list(stations) } else { Json::Null }),
        ("time", reached.then_some(found.times[at]).into()),
        ("moves", reached.then_some(found.moves[at]).into()),
        ("list", Json::list(found.list.iter().copied())),
    ]);
    fields
}
