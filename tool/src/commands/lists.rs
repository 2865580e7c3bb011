//! `yard lists`: Dijkstra's page list and ours.

use super::{print_json, Asked};
use crate::arguments::Given;
use crate::engine::{self, Refusal, Refused};
use crate::image::{commands, Command, Image};
use crate::json::Json;
use crate::numbers::counted;
use crate::refused::Account;
use crate::table::{aligned, wrapped};
use crate::{Ended, Status, Streams};
use interface::{Query, Search};

const WIDTH: usize = 100;

/// A page list, and how many pages a store reads for it.
struct Listed {
    list: Vec<u8>,
    one_page_reads: u64,
    /// The reads with the number of frames that is asked for.
    reads: Option<u64>,
}

struct Lists {
    frames: Option<usize>,
    dijkstras: Listed,
    ours: Listed,
    /// Whether our list keeps each entry of Dijkstra's.
    kept: Vec<bool>,
    /// The entry stations of each page.
    entries: Vec<Vec<u16>>,
}

pub fn run(given: Given, streams: &mut Streams) -> Ended {
    let asked = Asked::read(&given, streams)?;
    let [plain, ours] = [Search::Plain, Search::Df].map(|kind| engine::search(kind, &asked.bytes, asked.query));
    let (plain, ours) = match (plain, ours) {
        (Ok(plain), Ok(ours)) => (plain.list, ours.list),
        (Err(plain), Err(ours)) => return refused(&asked, &plain, &ours, given.json, streams),
        // Where one search accepts, the other one does.
        (Err(only), _) | (_, Err(only)) => return asked.refused(only.refusal, given.json, streams),
    };
    let frames = given.frames.map(usize::from);
    match lists(&asked, plain, ours, frames) {
        Err(refusal) => {
            let account = Account::of_frames(frames.unwrap_or(1), refusal);
            asked.answer_refusal(&account, given.json, streams)
        }
        Ok(lists) => {
            match given.json {
                true => print_json(json(&asked, &lists), streams)?,
                false => write!(streams.output, "{}", text(&lists))?,
            }
            Ok(Status::Good)
        }
    }
}

/// Two refused searches: the refusal, and the references that were made before it.
fn refused(asked: &Asked, plain: &Refused, ours: &Refused, json: bool, streams: &mut Streams) -> Ended {
    let account = Account::of_search(&asked.bytes, asked.query.source, ours.refusal);
    if json {
        let mut fields = asked.json();
        let made = |refused: &Refused| Json::Object(vec![("list", Json::list(refused.list.iter().copied()))]);
        fields.extend([("refusal", account.json()), ("dijkstras", made(plain)), ("ours", made(ours))]);
        print_json(fields, streams)?;
        return Ok(Status::Refused);
    }
    asked.answer_refusal(&account, false, streams)?;
    for (whose, refused) in [("Dijkstra's", plain), ("our", ours)] {
        if !refused.list.is_empty() {
            let list = wrapped(refused.list.iter().map(u8::to_string), 2, WIDTH);
            write!(streams.output, "{whose} list up to the refused page:\n{list}")?;
        }
    }
    Ok(Status::Refused)
}

fn lists(asked: &Asked, plain: Vec<u8>, ours: Vec<u8>, frames: Option<usize>) -> Result<Lists, Refusal> {
    let image = Image::new(&asked.bytes);
    let listed = |list: Vec<u8>| {
        let reads = |frames| engine::reads(&list, image.pages(), frames);
        let (one_page_reads, reads) = (reads(1)?, frames.map(reads).transpose()?);
        Ok(Listed { list, one_page_reads, reads })
    };
    let (kept, entries) = (kept(&plain, &ours), entry_stations(image, asked.query, &ours));
    Ok(Lists { frames, dijkstras: listed(plain)?, ours: listed(ours)?, kept, entries })
}

/// Which entries of a list remain if the others are struck to leave a part of it: each is the first that fits.
fn kept(whole: &[u8], part: &[u8]) -> Vec<bool> {
    let mut part = part.iter().peekable();
    whole.iter().map(|page| part.next_if_eq(&page).is_some()).collect()
}

/// Document 01: "An entry station of a page is one of its stations that is the source or the target of a move from a
/// station on another listed page", of the moves that are open to the strip. The listed pages of an accepted search are
/// good.
fn entry_stations(image: Image, query: Query, list: &[u8]) -> Vec<Vec<u16>> {
    let mut is_entry = vec![false; image.stations()];
    is_entry[usize::from(query.source)] = true;
    let is_listed = |page: &u8| list.contains(page);
    for page in (0..image.pages() as u8).filter(is_listed) {
        for (_, command) in commands(image.page(page.into())) {
            match command {
                Command::Move { target, limit, .. } if limit.is_none_or(|limit| limit >= query.strip) => {
                    is_entry[usize::from(target)] |= image.page_of(target) != page;
                }
                _ => {}
            }
        }
    }
    let of_page = |page| image.stations_of(page).filter(|&station| is_entry[usize::from(station)]).collect();
    (0..image.pages()).map(of_page).collect()
}

fn often(page: usize, list: &[u8]) -> usize {
    list.iter().filter(|&&entry| usize::from(entry) == page).count()
}

fn text(lists: &Lists) -> String {
    let marked = lists.dijkstras.list.iter().zip(&lists.kept).map(|(page, &kept)| match kept {
        true => page.to_string(),
        false => format!("[{page}]"),
    });
    format!(
        "Dijkstra's list, in brackets what ours leaves out:\n{}our list:\n{}\n{}\n{}",
        wrapped(marked, 2, WIDTH),
        wrapped(lists.ours.list.iter().map(u8::to_string), 2, WIDTH),
        read_table(lists),
        page_table(lists),
    )
}

/// The references and reads of both lists.
fn read_table(lists: &Lists) -> String {
    let Lists { frames, dijkstras, ours, .. } = lists;
    let mut rows = vec![["", "Dijkstra's", "ours"].map(String::from).to_vec()];
    let mut row = |name: String, plain: u64, ours: u64| rows.push(vec![name, plain.to_string(), ours.to_string()]);
    row("references".to_string(), dijkstras.list.len() as u64, ours.list.len() as u64);
    row("one-page reads".to_string(), dijkstras.one_page_reads, ours.one_page_reads);
    if let (Some(frames), Some(plain), Some(ours)) = (frames, dijkstras.reads, ours.reads) {
        row(format!("reads with {}", counted(*frames, "frame")), plain, ours);
    }
    aligned(&rows, &[0])
}

/// How often each page is listed, and its entry stations.
fn page_table(lists: &Lists) -> String {
    let mut rows = vec![["page", "Dijkstra's", "ours", "entry stations"].map(String::from).to_vec()];
    for (page, stations) in lists.entries.iter().enumerate() {
        let [plain, ours] = [&lists.dijkstras, &lists.ours].map(|listed| often(page, &listed.list).to_string());
        let stations = stations.iter().map(u16::to_string).collect::<Vec<_>>().join(" ");
        rows.push(vec![page.to_string(), plain, ours, stations]);
    }
    aligned(&rows, &[3])
}

fn json(asked: &Asked, lists: &Lists) -> Vec<(&'static str, Json)> {
    let of = |listed: &Listed| {
        vec![
            ("list", Json::list(listed.list.iter().copied())),
            ("references", listed.list.len().into()),
            ("one_page_reads", listed.one_page_reads.into()),
            ("reads", listed.reads.into()),
        ]
    };
    let mut dijkstras = of(&lists.dijkstras);
    dijkstras.push(("kept", Json::list(lists.kept.iter().copied())));
    let pages = lists.entries.iter().enumerate().map(|(page, stations)| {
        Json::Object(vec![
            ("page", page.into()),
            ("in_dijkstras", often(page, &lists.dijkstras.list).into()),
            ("in_ours", often(page, &lists.ours.list).into()),
            ("entry_stations", Json::list(stations.iter().copied())),
        ])
    });
    let mut fields = asked.json();
    fields.extend([
        ("frames", lists.frames.into()),
        ("dijkstras", Json::Object(dijkstras)),
        ("ours", Json::Object(of(&lists.ours))),
        ("pages", Json::list(pages)),
    ]);
    fields
}
