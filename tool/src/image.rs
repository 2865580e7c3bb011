//! The parts of a map image, and the commands of a page, to be shown. Whether they are good is the engine's to say.

use interface::{HEADING_BYTES, PAGE_BYTES};

/// An image whose heading and directory are good: the engine has passed refusals 1 to 5.
#[derive(Clone, Copy)]
pub struct Image<'a> {
    bytes: &'a [u8],
}

impl<'a> Image<'a> {
    pub fn new(bytes: &'a [u8]) -> Self {
        Image { bytes }
    }

    pub fn stations(self) -> usize {
        stations(self.bytes)
    }

    pub fn pages(self) -> usize {
        pages(self.bytes)
    }

    /// The page of each station.
    pub fn directory(self) -> &'a [u8] {
        &self.bytes[HEADING_BYTES..HEADING_BYTES + self.stations()]
    }

    pub fn page_of(self, station: u16) -> u8 {
        self.directory()[usize::from(station)]
    }

    /// The stations of a page, rising.
    pub fn stations_of(self, page: usize) -> impl Iterator<Item = u16> + 'a {
        let stations = (0..).zip(self.directory());
        stations.filter(move |&(_, &its)| usize::from(its) == page).map(|(station, _)| station)
    }

    /// Where the bytes of a page begin.
    pub fn page_begin(self, page: usize) -> usize {
        HEADING_BYTES + self.stations() + PAGE_BYTES * page
    }

    pub fn page(self, page: usize) -> &'a [u8] {
        &self.bytes[self.page_begin(page)..][..PAGE_BYTES]
    }
}

/// The number of stations that a heading gives; the image has four bytes or more.
pub fn stations(bytes: &[u8]) -> usize {
    word(bytes, 0).into()
}

/// The number of pages that a heading gives; the image has four bytes or more.
pub fn pages(bytes: &[u8]) -> usize {
    word(bytes, 2).into()
}

fn word(bytes: &[u8], at: usize) -> u16 {
    u16::from_le_bytes([bytes[at], bytes[at + 1]])
}

/// One command of a page.
#[derive(Clone, Copy)]
pub enum Command {
    End,
    Station(u16),
    Move { target: u16, time: u16, limit: Option<u16> },
}

/// The length of a command by its code, if there is such a code.
pub fn length(code: u8) -> Option<usize> {
    (code <= 3).then(|| 1 + 2 * usize::from(code))
}

/// The command at an offset of a page and its length, if its code is known and the page has all its bytes.
pub fn command_at(page: &[u8], offset: usize) -> Option<(Command, usize)> {
    let length = length(*page.get(offset)?)?;
    let bytes = page.get(offset..offset + length)?;
    let command = match length {
        1 => Command::End,
        3 => Command::Station(word(bytes, 1)),
        5 => Command::Move { target: word(bytes, 1), time: word(bytes, 3), limit: None },
        _ => Command::Move { target: word(bytes, 1), time: word(bytes, 3), limit: Some(word(bytes, 5)) },
    };
    Some((command, length))
}

/// The commands of a page with their offsets, from its first byte up to one that cannot be read or the end.
pub fn commands(page: &[u8]) -> impl Iterator<Item = (usize, Command)> + '_ {
    let mut next = Some(0);
    std::iter::from_fn(move || {
        let offset = next?;
        let (command, length) = command_at(page, offset)?;
        next = (length > 1).then_some(offset + length);
        Some((offset, command))
    })
}

/// The bytes that the commands of a station take: its own and those of its moves, each with its limit or 0 for none.
pub fn station_bytes(limits: impl IntoIterator<Item = u16>) -> usize {
    let moves = limits.into_iter().map(|limit| if limit == 0 { 5 } else { 7 });
    3 + moves.sum::<usize>()
}
