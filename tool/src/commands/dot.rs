//! `yard dot`: a map as text for Graphviz.

use super::say_refused;
use crate::arguments::Given;
use crate::engine::{self, Found};
use crate::image::Image;
use crate::numbers::ordinal;
use crate::refused::Account;
use crate::{files, Ended, Status, Streams};
use interface::{Query, Record, Search, NO_TIME};
use std::fmt::Write;

/// What is drawn: a map and, if a search was asked for, its source and what it found.
struct Drawn<'a> {
    image: Image<'a>,
    records: Vec<Record>,
    length: u16,
    search: Option<(u16, Found)>,
}

pub fn run(given: Given, streams: &mut Streams) -> Ended {
    let path = given.path(0);
    let bytes = files::read_map(path, streams)?;
    let records = match engine::records(&bytes) {
        Ok(records) => records,
        Err(refusal) => return Ok(say_refused(path, &Account::of_image(&bytes, refusal), streams)),
    };
    let mut drawn = Drawn { image: Image::new(&bytes), records, length: given.length, search: None };
    if let Some(source) = given.from {
        match engine::search(Search::Df, &bytes, Query { source, strip: given.length }) {
            Ok(found) => drawn.search = Some((source, found)),
            Err(refused) => {
                let account = Account::of_search(&bytes, source, refused.refusal);
                return Ok(say_refused(path, &account, streams));
            }
        }
    }
    streams.output.write_all(drawn.text().as_bytes())?;
    Ok(Status::Good)
}

impl Drawn<'_> {
    fn text(&self) -> String {
        let mut text = String::from("digraph yard {\n");
        // With clusters, the ranks of old fail on some maps ("trouble in init_rank").
        text += "  rankdir=LR newrank=true\n";
        text += "  node [shape=circle fontname=\"sans-serif\" fontsize=12]\n";
        text += "  edge [fontname=\"sans-serif\" fontsize=10]\n";
        text += "  graph [fontname=\"sans-serif\" fontsize=12 style=rounded labeljust=l]\n";
        for page in 0..self.image.pages() {
            self.write_page(page, &mut text);
        }
        for record in &self.records {
            self.write_move(record, &mut text);
        }
        text + "}\n"
    }

    /// A page as a box around its stations, with its places in the page list of the search.
    fn write_page(&self, page: usize, text: &mut String) {
        let places = self.search.iter().flat_map(|(_, found)| (1..).zip(&found.list));
        let places = places.filter(|&(_, &entry)| usize::from(entry) == page).map(|(place, _)| ordinal(place));
        let places: Vec<String> = places.collect();
        let fetched = match (&self.search, places.is_empty()) {
            (None, _) => String::new(),
            (Some(_), true) => ", not fetched".to_string(),
            (Some(_), false) => format!(", fetched {}", places.join(", ")),
        };
        let _ = writeln!(text, "  subgraph cluster_{page} {{\n    label=\"page {page}{fetched}\"");
        let mut stations = self.image.stations_of(page).peekable();
        if stations.peek().is_none() {
            let _ = writeln!(text, "    empty_{page} [style=invis label=\"\"]");
        }
        for station in stations {
            let _ = writeln!(text, "    {station}{}", self.station_look(station));
        }
        *text += "  }\n";
    }

    /// Of a search: the time under the station's number, the source with two rings, stations not reached in grey.
    fn station_look(&self, station: u16) -> String {
        let Some((source, found)) = &self.search else { return String::new() };
        match found.times[usize::from(station)] {
            NO_TIME => " [color=grey fontcolor=grey]".to_string(),
            time => {
                let shape = if station == *source { " shape=doublecircle" } else { "" };
                format!(" [label=\"{station}\\ntime {time}\"{shape}]")
            }
        }
    }

    /// A move with its time and limit; of a search, those by which stations are reached bold, and those that are closed
    /// to the strip dashed.
    fn write_move(&self, record: &Record, text: &mut String) {
        let Record { from, target, time, limit } = *record;
        let limit_label = if limit == 0 { String::new() } else { format!("\\n≤ {limit} dm") };
        let is_tree = self.search.as_ref().is_some_and(|(_, found)| found.preds[usize::from(target)] == from);
        let look = match (limit != 0 && limit < self.length, is_tree) {
            (true, _) => " style=dashed color=grey fontcolor=grey",
            (false, true) => " penwidth=2.5 color=\"#b03020\"",
            (false, false) => "",
        };
        let _ = writeln!(text, "  {from} -> {target} [label=\"{time}{limit_label}\"{look}]");
    }
}
