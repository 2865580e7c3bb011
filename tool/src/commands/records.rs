//! `yard records`: coil records from and to text. A record has 8 bytes: u32 coil, u16 length in decimetres, u16
//! station, little-endian; a line of text has the three numbers with commas between them.

use super::say_mistakes;
use crate::arguments::Given;
use crate::map_text::{lines, Mistake, Mistakes};
use crate::numbers::{any_u16, counted, number, quoted};
use crate::{files, Ended, Failure, Status, Streams};
use std::ffi::OsStr;
use std::io::IsTerminal;

const RECORD_BYTES: usize = 8;
const HEADING: &str = "coil,length,station";

pub fn run(given: Given, streams: &mut Streams) -> Ended {
    let path = given.path(1);
    match &*given.path(0).to_string_lossy() {
        "make" => make(path, given.output.as_deref(), streams),
        "show" if given.output.is_some() => Err(Failure::Usage("-o goes with records make".to_string())),
        "show" => show(path, streams),
        other => Err(Failure::Usage(format!("records is followed by make or show, not {}", quoted(other)))),
    }
}

fn make(path: &OsStr, output: Option<&OsStr>, streams: &mut Streams) -> Ended {
    if output.is_none() && std::io::stdout().is_terminal() {
        return Err(Failure::Usage("records are not written to a terminal: give -o FILE, or a pipe".to_string()));
    }
    let text = files::read_text(path, streams)?;
    match records(&String::from_utf8_lossy(&text)) {
        Err(mistakes) => Ok(say_mistakes(path, &mistakes, streams)),
        Ok(bytes) => {
            files::write(output.unwrap_or(OsStr::new("-")), &bytes, streams)?;
            Ok(Status::Good)
        }
    }
}

/// The records of a text. Comments, blank lines and a heading before the first record are passed over.
fn records(text: &str) -> Result<Vec<u8>, Mistakes> {
    let mut bytes = Vec::new();
    let mut mistakes = Mistakes::default();
    for (index, (line, text)) in lines(text).enumerate() {
        let fields: Vec<&str> = text.split(',').map(str::trim).collect();
        if index == 0 && fields.join(",") == HEADING {
            continue;
        }
        match record(&fields) {
            Ok(record) => bytes.extend(record),
            Err(what) => mistakes.add(Mistake { line, what }),
        }
    }
    mistakes.or(bytes)
}

fn record(fields: &[&str]) -> Result<Vec<u8>, String> {
    let [coil, length, station] = fields else {
        let are = if fields.len() == 1 { "is" } else { "are" };
        return Err(format!("a record is {HEADING}; here {are} {}", counted(fields.len(), "field")));
    };
    let mut bytes = number("coil", coil, 0, u32::MAX)?.to_le_bytes().to_vec();
    bytes.extend(any_u16("length", length)?.to_le_bytes());
    bytes.extend(any_u16("station", station)?.to_le_bytes());
    Ok(bytes)
}

/// Prints each record as it comes; bytes that are left over are no record.
fn show(path: &OsStr, streams: &mut Streams) -> Ended {
    let mut left_over = 0;
    files::print_pieces(path, RECORD_BYTES, streams, HEADING, |piece| match *piece {
        [a, b, c, d, e, f, g, h] => format!(
            "{},{},{}\n",
            u32::from_le_bytes([a, b, c, d]),
            u16::from_le_bytes([e, f]),
            u16::from_le_bytes([g, h])
        ),
        _ => {
            left_over = piece.len();
            String::new()
        }
    })?;
    if left_over == 0 {
        return Ok(Status::Good);
    }
    streams.say(&format!(
        "{}: the last record is short: it has {}, not 8",
        files::name(path),
        counted(left_over, "byte")
    ));
    Ok(Status::Refused)
}
