//! `yard check`: the whole check of each map.

use super::read_each;
use crate::arguments::Given;
use crate::image::{station_bytes, Image};
use crate::json::Json;
use crate::numbers::counted;
use crate::refused::Account;
use crate::{engine, files, Ended, Status, Streams};
use interface::{Record, PAGE_BYTES};

/// What is said of a good map.
struct Good {
    stations: usize,
    pages: usize,
    moves: usize,
    /// The page that has most bytes in use, the lowest of several, and how many these are.
    fullest: (usize, usize),
}

pub fn run(given: Given, streams: &mut Streams) -> Ended {
    let mut checked = Vec::new();
    let status = read_each(&given.operands, streams, |path, bytes, streams| {
        let found = check(&bytes);
        match given.json {
            true => checked.push(json(&files::name_in_full(path), &found)),
            false => write!(streams.output, "{}: {}", files::name(path), text(&found))?,
        }
        Ok(if found.is_ok() { Status::Good } else { Status::Refused })
    })?;
    if given.json {
        writeln!(streams.output, "{}", Json::List(checked))?;
    }
    Ok(status)
}

fn check(bytes: &[u8]) -> Result<Good, Account> {
    match engine::records(bytes) {
        Err(refusal) => Err(Account::of_image(bytes, refusal)),
        Ok(records) => {
            let image = Image::new(bytes);
            let fullest = fullest(image, &records);
            Ok(Good { stations: image.stations(), pages: image.pages(), moves: records.len(), fullest })
        }
    }
}

/// A page takes a byte for its end, beside its stations and their moves.
fn fullest(image: Image, records: &[Record]) -> (usize, usize) {
    let mut used = vec![1; image.pages()];
    for (station, &page) in (0..).zip(image.directory()) {
        let from = records.partition_point(|record| record.from < station);
        let moves = records[from..].iter().take_while(|record| record.from == station);
        used[usize::from(page)] += station_bytes(moves.map(|record| record.limit));
    }
    let first = (0, used[0]);
    used.into_iter().enumerate().fold(first, |most, page| if page.1 > most.1 { page } else { most })
}

fn text(found: &Result<Good, Account>) -> String {
    match found {
        Err(account) => account.text(),
        Ok(good) => format!(
            "good: {}, {}, {}; page {} is the fullest, with {} of {PAGE_BYTES} bytes\n",
            counted(good.stations, "station"),
            counted(good.pages, "page"),
            counted(good.moves, "move"),
            good.fullest.0,
            good.fullest.1,
        ),
    }
}

fn json(name: &str, found: &Result<Good, Account>) -> Json {
    let mut fields = vec![("map", name.into()), ("good", found.is_ok().into())];
    match found {
        Err(account) => fields.push(("refusal", account.json())),
        Ok(good) => fields.extend([
            ("stations", good.stations.into()),
            ("pages", good.pages.into()),
            ("moves", good.moves.into()),
            ("fullest", Json::Object(vec![("page", good.fullest.0.into()), ("bytes", good.fullest.1.into())])),
        ]),
    }
    Json::Object(fields)
}
