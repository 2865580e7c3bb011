//! The commands, and which of them the first word names.

mod check;
mod dot;
mod lists;
mod make;
mod order;
mod records;
mod route;
mod show;
mod times;

use crate::arguments::{self, Flag, Given, Takes};
use crate::engine::Refusal;
use crate::json::Json;
use crate::map_text::Mistakes;
use crate::numbers::{counted, quoted};
use crate::refused::Account;
use crate::{files, help, Ended, Failure, Status, Streams};
use interface::Query;
use std::ffi::{OsStr, OsString};

pub struct Command {
    pub name: &'static str,
    /// What it does, in a line.
    pub summary: &'static str,
    pub help: &'static str,
    takes: Takes,
    run: fn(Given, &mut Streams) -> Ended,
}

pub const COMMANDS: &[Command] = &[
    Command {
        name: "check",
        summary: "say of each map whether it is good, or what is wrong and where",
        help: help::CHECK,
        takes: Takes { operands: &["MAP…"], flags: &[Flag::Json] },
        run: check::run,
    },
    Command {
        name: "show",
        summary: "print a map as text",
        help: help::SHOW,
        takes: Takes { operands: &["MAP"], flags: &[] },
        run: show::run,
    },
    Command {
        name: "make",
        summary: "write the map that a text describes",
        help: help::MAKE,
        takes: Takes { operands: &["TEXT"], flags: &[Flag::Output] },
        run: make::run,
    },
    Command {
        name: "route",
        summary: "find the way from one station to another",
        help: help::ROUTE,
        takes: Takes { operands: &["MAP", "FROM", "TO"], flags: &[Flag::Length, Flag::Json] },
        run: route::run,
    },
    Command {
        name: "times",
        summary: "print the least time from a station to every other",
        help: help::TIMES,
        takes: Takes { operands: &["MAP", "FROM"], flags: &[Flag::Length, Flag::Json] },
        run: times::run,
    },
    Command {
        name: "lists",
        summary: "compare the pages that Dijkstra's search and ours fetch",
        help: help::LISTS,
        takes: Takes { operands: &["MAP", "FROM"], flags: &[Flag::Length, Flag::Frames, Flag::Json] },
        run: lists::run,
    },
    Command {
        name: "order",
        summary: "put maps in order, equal ones side by side",
        help: help::ORDER,
        takes: Takes { operands: &["MAP…"], flags: &[] },
        run: order::run,
    },
    Command {
        name: "records",
        summary: "make coil records from text, or show them",
        help: help::RECORDS,
        takes: Takes { operands: &["make or show", "FILE"], flags: &[Flag::Output] },
        run: records::run,
    },
    Command {
        name: "dot",
        summary: "draw a map, as text for Graphviz",
        help: help::DOT,
        takes: Takes { operands: &["MAP"], flags: &[Flag::From, Flag::Length] },
        run: dot::run,
    },
];

/// Runs the command that the first word names.
pub fn run(words: &[OsString], streams: &mut Streams) -> Ended {
    let Some((first, rest)) = words.split_first() else {
        return Err(Failure::Usage("a command is missing; try 'yard --help'".to_string()));
    };
    let first = first.to_string_lossy();
    let (text, extra) = match (&*first, rest) {
        ("--version" | "-V", extra) => (concat!("yard ", env!("YARD_VERSION"), "\n").to_string(), extra),
        ("help", [name, extra @ ..]) => (named(&name.to_string_lossy())?.help.to_string(), extra),
        ("--help" | "-h" | "help", extra) => (help::overview(), extra),
        _ => return named(&first)?.run(rest, streams),
    };
    if let Some(word) = extra.first() {
        return Err(Failure::Usage(format!("{}; try 'yard --help'", arguments::surplus(word))));
    }
    streams.output.write_all(text.as_bytes())?;
    Ok(Status::Good)
}

fn named(name: &str) -> Result<&'static Command, Failure> {
    let unknown = || Failure::Usage(format!("unknown command {}; try 'yard --help'", quoted(name)));
    COMMANDS.iter().find(|command| command.name == name).ok_or_else(unknown)
}

impl Command {
    fn run(&self, words: &[OsString], streams: &mut Streams) -> Ended {
        let with_hint = |message| Failure::Usage(format!("{message}; try 'yard {} --help'", self.name));
        let Some(given) = arguments::parse(words, &self.takes).map_err(with_hint)? else {
            streams.output.write_all(self.help.as_bytes())?;
            return Ok(Status::Good);
        };
        (self.run)(given, streams).map_err(|failure| match failure {
            Failure::Usage(message) => with_hint(message),
            other => other,
        })
    }
}

/// A search as the words of a command ask for it.
struct Asked {
    path: OsString,
    bytes: Vec<u8>,
    query: Query,
    /// The end of the way, if one is asked for.
    station: Option<u16>,
}

impl Asked {
    /// The map of the first operand, the station of the second and, if there is a third, that of the third.
    fn read(given: &Given, streams: &mut Streams) -> Result<Self, Failure> {
        let query = Query { source: given.station(1, "FROM")?, strip: given.length };
        let station = given.operands.get(2).map(|_| given.station(2, "TO")).transpose()?;
        let path = given.path(0);
        Ok(Asked { path: path.to_os_string(), bytes: files::read_map(path, streams)?, query, station })
    }

    /// What every answer in JSON begins with.
    fn json(&self) -> Vec<(&'static str, Json)> {
        let mut fields =
            vec![("map", (&*files::name_in_full(&self.path)).into()), ("from", self.query.source.into())];
        fields.extend(self.station.map(|station| ("to", station.into())));
        fields.push(("length", self.query.strip.into()));
        fields
    }

    /// A refused search, as the command's answer.
    fn refused(&self, refusal: Refusal, json: bool, streams: &mut Streams) -> Ended {
        let account = Account::of_search(&self.bytes, self.query.source, refusal);
        self.answer_refusal(&account, json, streams)
    }

    fn answer_refusal(&self, account: &Account, json: bool, streams: &mut Streams) -> Ended {
        let mut fields = self.json();
        if json {
            fields.push(("refusal", account.json()));
            print_json(fields, streams)?;
        } else {
            write!(streams.output, "{}: {}", files::name(&self.path), account.text())?;
        }
        Ok(Status::Refused)
    }
}

fn print_json(fields: Vec<(&'static str, Json)>, streams: &mut Streams) -> Result<(), Failure> {
    Ok(writeln!(streams.output, "{}", Json::Object(fields))?)
}

/// A refusal on standard error: of a command whose output is for other programs.
fn say_refused(path: &OsStr, account: &Account, streams: &mut Streams) -> Status {
    streams.say(format!("{}: {}", files::name(path), account.text()).trim_end());
    Status::Refused
}

/// The mistakes of a text, on standard error, by their lines.
fn say_mistakes(path: &OsStr, mistakes: &Mistakes, streams: &mut Streams) -> Status {
    let name = files::name(path);
    for mistake in &mistakes.first {
        streams.say(&format!("{name}, line {}: {}", mistake.line, mistake.what));
    }
    if mistakes.others > 0 {
        streams.say(&format!("{name}: and {}", counted(mistakes.others, "more mistake")));
    }
    Status::Refused
}

/// Reads map after map. One that cannot be read is told, and the others follow; the greatest status counts.
fn read_each(
    paths: &[OsString],
    streams: &mut Streams,
    mut each: impl FnMut(&OsStr, Vec<u8>, &mut Streams) -> Ended,
) -> Ended {
    if paths.iter().filter(|path| files::is_stream(path)).count() > 1 {
        return Err(Failure::Usage("standard input, -, can be read only once".to_string()));
    }
    let mut status = Status::Good;
    for path in paths {
        let ended = match files::read_map(path, streams) {
            Ok(bytes) => each(path, bytes, streams)?,
            Err(Failure::File(message)) => {
                streams.say(&message);
                Status::Failed
            }
            Err(other) => return Err(other),
        };
        status = status.max(ended);
    }
    Ok(status)
}
