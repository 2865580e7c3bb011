//! The words behind `yard COMMAND`: operands and options, in any order.

use crate::numbers::{any_u16, quoted};
use crate::Failure;
use std::ffi::{OsStr, OsString};

/// An option of some command.
#[derive(Clone, Copy, PartialEq, Eq)]
pub enum Flag {
    Json,
    Length,
    Frames,
    From,
    Output,
}

impl Flag {
    const ALL: [Flag; 5] = [Flag::Json, Flag::Length, Flag::Frames, Flag::From, Flag::Output];

    fn word(self) -> &'static str {
        match self {
            Flag::Json => "--json",
            Flag::Length => "--length",
            Flag::Frames => "--frames",
            Flag::From => "--from",
            Flag::Output => "-o",
        }
    }
}

/// What a command takes.
pub struct Takes {
    /// The names of its operands; one that ends in `…` stands for one or more.
    pub operands: &'static [&'static str],
    pub flags: &'static [Flag],
}

/// What a command was given.
#[derive(Default)]
pub struct Given {
    pub operands: Vec<OsString>,
    pub json: bool,
    /// The length of the strip in decimetres; for 0 every move is open.
    pub length: u16,
    pub frames: Option<u16>,
    pub from: Option<u16>,
    pub output: Option<OsString>,
}

/// The words taken apart; nothing if help is asked for.
pub fn parse(words: &[OsString], takes: &Takes) -> Result<Option<Given>, String> {
    let mut given = Given::default();
    let mut seen: Vec<Flag> = Vec::new();
    let mut words = words.iter();
    while let Some(word) = words.next() {
        let text = word.to_string_lossy();
        if text == "--" {
            given.operands.extend(words.by_ref().cloned());
        } else if text == "--help" || text == "-h" {
            return Ok(None);
        } else if text == "-" || !text.starts_with('-') {
            given.operands.push(word.clone());
        } else {
            let (flag, value) = flag_of(&text, takes)?;
            if seen.contains(&flag) {
                return Err(format!("{} is given twice", flag.word()));
            }
            seen.push(flag);
            given.set(flag, value, || words.next())?;
        }
    }
    count_operands(&given.operands, takes.operands)?;
    Ok(Some(given))
}

/// The option that a word is, and the value behind its `=`.
fn flag_of<'a>(text: &'a str, takes: &Takes) -> Result<(Flag, Option<&'a str>), String> {
    let (word, value) = match text.split_once('=') {
        Some((word, value)) if word.starts_with("--") => (word, Some(value)),
        _ => (text, None),
    };
    match Flag::ALL.into_iter().find(|flag| flag.word() == word) {
        Some(flag) if takes.flags.contains(&flag) => Ok((flag, value)),
        Some(_) => Err(format!("{word} is no option of this command")),
        None => Err(format!("unknown option {}", quoted(word))),
    }
}

impl Given {
    /// Takes the value of an option: the one behind its `=`, or the next word.
    fn set<'a>(
        &mut self,
        flag: Flag,
        value: Option<&str>,
        next: impl FnOnce() -> Option<&'a OsString>,
    ) -> Result<(), String> {
        let word = flag.word();
        if flag == Flag::Json {
            self.json = true;
            return value.map_or(Ok(()), |_| Err(format!("{word} takes no value")));
        }
        let value = value.map(OsString::from).or_else(|| next().cloned());
        let value = value.ok_or_else(|| format!("{word} needs a value"))?;
        let number = || any_u16(word, &value.to_string_lossy());
        match flag {
            Flag::Json => {}
            Flag::Length => self.length = number()?,
            Flag::Frames => self.frames = Some(number()?),
            Flag::From => self.from = Some(number()?),
            Flag::Output => self.output = Some(value),
        }
        Ok(())
    }

    pub fn path(&self, index: usize) -> &OsStr {
        &self.operands[index]
    }

    /// The operand as the number of a station.
    pub fn station(&self, index: usize, name: &str) -> Result<u16, Failure> {
        any_u16(name, &self.operands[index].to_string_lossy()).map_err(Failure::Usage)
    }
}

fn count_operands(operands: &[OsString], names: &[&str]) -> Result<(), String> {
    if let Some(missing) = names.get(operands.len()) {
        return Err(format!("{missing} is missing"));
    }
    let many = names.last().is_some_and(|name| name.ends_with('…'));
    match operands.get(names.len()) {
        Some(extra) if !many => Err(surplus(extra)),
        _ => Ok(()),
    }
}

pub fn surplus(word: &OsStr) -> String {
    format!("{} is one word too many", quoted(&word.to_string_lossy()))
}
