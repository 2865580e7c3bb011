//! `yard order`: map files in the order of their maps.

use super::{read_each, say_refused};
use crate::arguments::Given;
use crate::refused::Account;
use crate::{engine, files, Ended, Status, Streams};
use std::cmp::Ordering;

/// A file whose map is good.
struct Draft {
    name: String,
    bytes: Vec<u8>,
}

pub fn run(given: Given, streams: &mut Streams) -> Ended {
    let mut drafts = Vec::new();
    let status = read_each(&given.operands, streams, |path, bytes, streams| match engine::records(&bytes) {
        Err(refusal) => Ok(say_refused(path, &Account::of_image(&bytes, refusal), streams)),
        Ok(_) => {
            drafts.push(Draft { name: files::name(path), bytes });
            Ok(Status::Good)
        }
    })?;
    drafts.sort_by(compare);
    for equal in drafts.chunk_by(|first, second| compare(first, second).is_eq()) {
        let names: Vec<&str> = equal.iter().map(|draft| &*draft.name).collect();
        writeln!(streams.output, "{}", names.join(" = "))?;
    }
    Ok(status)
}

/// Good maps are not refused.
fn compare(first: &Draft, second: &Draft) -> Ordering {
    engine::order(&first.bytes, &second.bytes).unwrap_or(Ordering::Equal)
}
