//! Maps as one draws them, and their bytes. `good` draws maps, some of them in `yards`, `damage` spoils them, `cases`
//! makes the cases of the fuzzer of both; `drawings` and `spoiled` do so for the map writer, `drafts` for the order of
//! maps.

pub mod cases;
pub mod damage;
pub mod drafts;
pub mod drawings;
pub mod good;
pub mod spoiled;
pub mod yards;

use crate::reference::image::Move;

pub const PAGE_BYTES: usize = 256;
pub const MOST_STATIONS: usize = 2048;
pub const MOST_PAGES: usize = 240;
/// As many stations fit on a page that has no moves: 85 times 3 bytes, and the end.
pub const MOST_ON_A_PAGE: usize = 85;

/// One command of a page.
#[derive(Clone, Copy, Debug, PartialEq, Eq)]
pub enum Command {
    End,
    Station(u16),
    Move(Move),
}

impl Command {
    pub fn length(self) -> usize {
        match self {
            Command::End => 1,
            Command::Station(_) => 3,
            Command::Move(step) if step.limit.is_none() => 5,
            Command::Move(_) => 7,
        }
    }

    fn write(self, bytes: &mut Vec<u8>) {
        match self {
            Command::End => bytes.push(0),
            Command::Station(number) => {
                bytes.push(1);
                bytes.extend(number.to_le_bytes());
            }
            Command::Move(Move { target, time, limit }) => {
                bytes.push(if limit.is_none() { 2 } else { 3 });
                for number in [Some(target), Some(time), limit].into_iter().flatten() {
                    bytes.extend(number.to_le_bytes());
                }
            }
        }
    }
}

/// A page's bytes: its commands and zeros, cut at the page's end.
pub fn page_bytes(commands: &[Command]) -> Vec<u8> {
    let mut bytes = Vec::with_capacity(PAGE_BYTES + 7);
    for command in commands {
        command.write(&mut bytes);
    }
    bytes.resize(PAGE_BYTES, 0);
    bytes
}

/// A map: for each station its page and its moves by rising target. `add` keeps every page within its 256 bytes.
pub struct Map {
    pub pages: usize,
    pub directory: Vec<u8>,
    pub moves: Vec<Vec<Move>>,
    room: Vec<usize>,
}

impl Map {
    /// A map without moves. No page may have more than 85 stations.
    pub fn new(pages: usize, directory: Vec<u8>) -> Self {
        let mut room = vec![PAGE_BYTES - Command::End.length(); pages];
        for &page in &directory {
            room[usize::from(page)] -= Command::Station(0).length();
        }
        let moves = vec![Vec::new(); directory.len()];
        Map { pages, directory, moves, room }
    }

    pub fn stations(&self) -> usize {
        self.directory.len()
    }

    /// Adds a move if it is one, is new and finds room on its page.
    pub fn add(&mut self, from: usize, target: usize, time: u16, limit: Option<u16>) {
        let step = Move { target: target as u16, time, limit };
        let length = Command::Move(step).length();
        let room = &mut self.room[usize::from(self.directory[from])];
        let moves = &mut self.moves[from];
        let place = moves.binary_search_by_key(&step.target, |other| other.target);
        if let (Err(at), true) = (place, from != target && *room >= length) {
            *room -= length;
            moves.insert(at, step);
        }
    }

    /// The stations of a page, rising.
    pub fn stations_of(&self, page: usize) -> Vec<u16> {
        let all = self.directory.iter().enumerate();
        all.filter(|&(_, &its)| usize::from(its) == page).map(|(station, _)| station as u16).collect()
    }

    pub fn commands(&self, page: usize) -> Vec<Command> {
        let mut commands = Vec::new();
        for station in self.stations_of(page) {
            commands.push(Command::Station(station));
            commands.extend(self.moves[usize::from(station)].iter().copied().map(Command::Move));
        }
        commands.push(Command::End);
        commands
    }

    /// Heading and directory.
    pub fn front(&self) -> Vec<u8> {
        let mut bytes = Vec::with_capacity(4 + self.stations() + PAGE_BYTES * self.pages);
        bytes.extend((self.stations() as u16).to_le_bytes());
        bytes.extend((self.pages as u16).to_le_bytes());
        bytes.extend(&self.directory);
        bytes
    }

    pub fn image(&self) -> Vec<u8> {
        let mut bytes = self.front();
        for page in 0..self.pages {
            bytes.extend(page_bytes(&self.commands(page)));
        }
        bytes
    }
}
