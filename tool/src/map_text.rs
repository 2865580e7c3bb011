//! Maps as text, as docs/map-text.md defines them: printed in the normal form, and read with the line of every mistake.

mod pages;
mod words;

use crate::engine;
use crate::image::Image;
use crate::numbers::counted;
use interface::{Drawing, Record};
use std::collections::BTreeMap;
use std::fmt::Write;
use words::{Line, Said, Station};

/// What is wrong in a line of a text.
pub struct Mistake {
    pub line: usize,
    pub what: String,
}

/// The first mistakes of a text, and how many there are beside them: a text of nothing else may have millions.
#[derive(Default)]
pub struct Mistakes {
    pub first: Vec<Mistake>,
    pub others: usize,
}

impl Mistakes {
    const MOST: usize = 20;

    pub fn add(&mut self, mistake: Mistake) {
        match self.first.len() < Self::MOST {
            true => self.first.push(mistake),
            false => self.others += 1,
        }
    }

    /// What was made, if there was no mistake.
    pub fn or<T>(self, made: T) -> Result<T, Self> {
        match self.first.is_empty() {
            true => Ok(made),
            false => Err(self),
        }
    }
}

impl FromIterator<Mistake> for Mistakes {
    fn from_iter<T: IntoIterator<Item = Mistake>>(mistakes: T) -> Self {
        let mut made = Mistakes::default();
        mistakes.into_iter().for_each(|mistake| made.add(mistake));
        made
    }
}

/// The lines that say something, with their numbers: without comments, and without a mark of its encoding before the
/// text.
pub fn lines(text: &str) -> impl Iterator<Item = (usize, &str)> {
    let text = text.strip_prefix('\u{feff}').unwrap_or(text);
    let said = text.lines().map(|line| line.split('#').next().unwrap_or_default().trim());
    (1..).zip(said).filter(|(_, line)| !line.is_empty())
}

/// The text of a good map in its normal form.
pub fn normal(image: Image, records: &[Record]) -> String {
    let mut text = format!("stations {}\npages {}\n", image.stations(), image.pages());
    let mut rest = records.iter().peekable();
    for (station, page) in (0..).zip(image.directory()) {
        let _ = writeln!(text, "station {station} page {page}");
        while let Some(record) = rest.next_if(|record| record.from == station) {
            let Record { from, target, time, limit } = record;
            let limit = if *limit == 0 { String::new() } else { format!(" limit {limit}") };
            let _ = writeln!(text, "  move {from} to {target} time {time}{limit}");
        }
    }
    text
}

/// A text whose lines are understood, each by itself.
#[derive(Default)]
struct Drawn {
    stations: Option<Line<u16>>,
    pages: Option<Line<u16>>,
    /// By their numbers.
    directory: BTreeMap<u16, Line<Option<u8>>>,
    /// By from and target.
    moves: BTreeMap<(u16, u16), Line<Record>>,
}

/// The image of a text, or what is wrong with it: first line by line, then as a whole, then with its pages.
pub fn image(text: &[u8]) -> Result<Vec<u8>, Mistakes> {
    let drawn = drawn(&String::from_utf8_lossy(text))?;
    mistakes(&drawn).into_iter().collect::<Mistakes>().or(())?;
    let (pages, directory) = pages::placed(&drawn).map_err(|mistake| Mistakes::from_iter([mistake]))?;
    let records: Vec<Record> = drawn.moves.values().map(|line| line.what).collect();
    let stations = directory.len() as u16;
    let drawing = Drawing { records: &records, stations, pages, directory: &directory };
    engine::write(drawing).map_err(|refusal| Mistakes::from_iter([pages::refused(&drawn, &directory, refusal)]))
}

/// The lines of a text put where they belong; or every line that is not understood or says again what another one says.
fn drawn(text: &str) -> Result<Drawn, Mistakes> {
    let mut drawn = Drawn::default();
    let mut mistakes = Mistakes::default();
    for (line, text) in lines(text) {
        if let Err(what) = words::said(text).and_then(|said| drawn.take(line, said)) {
            mistakes.add(Mistake { line, what });
        }
    }
    mistakes.or(drawn)
}

impl Drawn {
    fn take(&mut self, line: usize, said: Said) -> Result<(), String> {
        let before = match said {
            Said::Stations(count) => self.stations.replace(Line { line, what: count }).map(|old| old.line),
            Said::Pages(count) => self.pages.replace(Line { line, what: count }).map(|old| old.line),
            Said::Station(Station { number, page }) => {
                self.directory.insert(number, Line { line, what: page }).map(|old| old.line)
            }
            Said::Move(record) => self.moves.insert(record.key(), Line { line, what: record }).map(|old| old.line),
        };
        match (before, said) {
            (None, _) => Ok(()),
            (Some(first), Said::Move(Record { from, target, .. })) => {
                Err(format!("the move from {from} to {target} stands in line {first} already"))
            }
            (Some(first), Said::Station(station)) => {
                Err(format!("station {} stands in line {first} already", station.number))
            }
            (Some(first), _) => Err(format!("this number stands in line {first} already")),
        }
    }
}

/// What does not fit together, line by line: stations that are missing, and moves of stations that there are not.
fn mistakes(drawn: &Drawn) -> Vec<Mistake> {
    let mut mistakes: Vec<Mistake> = station_mistake(drawn).into_iter().collect();
    for (&(from, target), &Line { line, .. }) in &drawn.moves {
        let missing = [from, target].into_iter().find(|station| !drawn.directory.contains_key(station));
        let what = match missing {
            Some(station) => format!("there is no station {station}"),
            None if from == target => format!("the move leads from station {from} to itself"),
            None => continue,
        };
        mistakes.push(Mistake { line, what });
    }
    mistakes.sort_by_key(|mistake| mistake.line);
    mistakes
}

/// Stations are numbered from 0 without a gap, and are as many as the text says.
fn station_mistake(drawn: &Drawn) -> Option<Mistake> {
    let gap = (0..).zip(&drawn.directory).find(|(number, (station, _))| number != *station);
    if let Some((missing, (station, line))) = gap {
        let what =
            format!("station {station} is here, but there is no station {missing}: they are numbered from 0 on");
        return Some(Mistake { line: line.line, what });
    }
    let count = drawn.directory.len();
    match &drawn.stations {
        None if count == 0 => Some(Mistake { line: 1, what: "there is no station in this text".to_string() }),
        Some(said) if usize::from(said.what) != count => {
            let what = format!("{} by this line, but the text has {count}", counted(said.what.into(), "station"));
            Some(Mistake { line: said.line, what })
        }
        _ => None,
    }
}
