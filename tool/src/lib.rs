//! `yard`: the tool of those who draw, check and read maps. Every refusal, way, time, page list, order of maps and
//! number of reads comes from the engine's proved calls (`engine`); what is here reads arguments, files and texts, and
//! prints. Of its own it works out how full pages are, the entry stations, which entries of Dijkstra's list ours leaves
//! out, and what to say about a fault.
//!
//! A command is a function of its arguments and the standard streams, so that a program can run it as the shell does
//! (`run`). It prints on its way, and ends with a status or a failure.

mod arguments;
mod commands;
mod engine;
mod files;
mod help;
mod image;
mod json;
mod map_text;
mod numbers;
mod refused;
mod table;

use std::ffi::OsString;
use std::io::{self, Read, Write};

/// How a command ended, by the number that the shell gets.
#[derive(Clone, Copy, Debug, PartialEq, Eq, PartialOrd, Ord)]
pub enum Status {
    Good = 0,
    /// A map or a text was refused, or there is no route.
    Refused = 1,
    /// Wrong usage, or a file that cannot be read or written.
    Failed = 2,
}

/// The standard streams.
pub struct Streams<'a> {
    pub input: &'a mut dyn Read,
    pub output: &'a mut dyn Write,
    pub errors: &'a mut dyn Write,
}

impl Streams<'_> {
    /// A line on standard error. If that cannot be written there is nobody left to tell.
    pub fn say(&mut self, line: &str) {
        let _ = writeln!(self.errors, "yard: {line}");
    }
}

/// What ends a command before its end.
enum Failure {
    /// The words of the command are not as they should be.
    Usage(String),
    /// A file cannot be read or written: its name and what is wrong.
    File(String),
    /// Standard output cannot be written.
    Output(io::Error),
}

impl From<io::Error> for Failure {
    /// An error that nobody gave a file's name is one of standard output.
    fn from(error: io::Error) -> Self {
        Failure::Output(error)
    }
}

type Ended = Result<Status, Failure>;

/// Runs `yard` with the words behind its name.
pub fn run(words: &[OsString], streams: &mut Streams) -> Status {
    let ended = commands::run(words, streams).and_then(|status| {
        streams.output.flush()?;
        Ok(status)
    });
    match ended {
        Ok(status) => return status,
        Err(Failure::Usage(message)) => streams.say(&message),
        Err(Failure::File(message)) => streams.say(&message),
        // Nobody reads any more, as behind `head`: no news for anybody.
        Err(Failure::Output(error)) if error.kind() == io::ErrorKind::BrokenPipe => {}
        Err(Failure::Output(error)) => streams.say(&files::failed("standard output", &error)),
    }
    Status::Failed
}
