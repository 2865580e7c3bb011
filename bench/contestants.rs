//! Who is measured. From the bytes of a map: both searches of the library under test, the two baselines in Rust and,
//! where it is built in, both searches of another build of the library, the base. On graphs made ready before, where
//! they are built in: the searches of other libraries, the peers.

#[cfg(base)]
use crate::base;
use crate::baseline::{self, Joined};
use outside::maps::{Map, MOST_STATIONS};
use outside::reference::{Query, Search, Tables};
use outside::yard;
use std::fmt;

/// The strip that is searched for, in decimetres. The maps that are measured have no limits.
pub const STRIP: u16 = 8_120;

#[derive(Clone, Copy, PartialEq, Eq)]
pub enum Name {
    Plain,
    Df,
    BasePlain,
    BaseDf,
    Straightforward,
    Tuned,
    Lemon,
    Boost,
}

impl fmt::Display for Name {
    fn fmt(&self, out: &mut fmt::Formatter) -> fmt::Result {
        out.write_str(match self {
            Name::Plain => "plain",
            Name::Df => "DF",
            Name::BasePlain => "base plain",
            Name::BaseDf => "base DF",
            Name::Straightforward => "straightforward",
            Name::Tuned => "tuned",
            Name::Lemon => "LEMON",
            Name::Boost => "Boost",
        })
    }
}

pub trait Contestant {
    fn name(&self) -> Name;

    /// What is timed.
    fn search(&mut self, source: u16);

    /// The times that the last search found.
    fn times(&self) -> Vec<u32>;

    /// What else it found, where that is not all.
    fn details(&self) -> Option<Details<'_>>;
}

#[derive(Clone, Copy, PartialEq)]
pub struct Details<'a> {
    pub moves: &'a [u16],
    pub preds: &'a [u16],
    pub reached: u32,
    pub list: &'a [u8],
}

/// All that are built in and take the map.
pub fn all<'a>(map: &Map, image: &'a [u8]) -> Vec<Box<dyn Contestant + 'a>> {
    let mut all: Vec<Box<dyn Contestant>> = Vec::new();
    for &(name, call) in FROM_BYTES {
        let stations = map.stations();
        all.push(Box::new(FromBytes { name, image, call, stations, kept: Kept::new(), count: 0, reached: 0 }));
    }
    // A base from before document 02's "Handover without time" refuses moves of time 0, with 13.
    #[cfg(base)]
    if base::check(image, &mut [0; 4]) == 13 {
        all.retain(|one| !matches!(one.name(), Name::BasePlain | Name::BaseDf));
    }
    #[cfg(peers)]
    all.extend(crate::peers::all(map));
    all
}

/// A search from the bytes of a map: the list's count and the number of stations reached.
type Call = fn(&[u8], Query, Tables) -> Option<(u32, u32)>;

const FROM_BYTES: &[(Name, Call)] = &[
    (Name::Plain, |image, query, tables| engine(yard::search, Search::Plain, image, query, tables)),
    (Name::Df, |image, query, tables| engine(yard::search, Search::Df, image, query, tables)),
    #[cfg(base)]
    (Name::BasePlain, |image, query, tables| engine(base::search, Search::Plain, image, query, tables)),
    #[cfg(base)]
    (Name::BaseDf, |image, query, tables| engine(base::search, Search::Df, image, query, tables)),
    (Name::Straightforward, baseline::search::<Vec<Vec<_>>, (u32, u16, u16)>),
    (Name::Tuned, baseline::search::<Joined, u64>),
];

/// A search of the C interface.
fn engine(
    search: fn(Search, &[u8], Query, Tables, &mut [u32]) -> u32,
    kind: Search,
    image: &[u8],
    query: Query,
    tables: Tables,
) -> Option<(u32, u32)> {
    let mut answer = [0; 4];
    let refusal = search(kind, image, query, tables, &mut answer);
    (refusal == 0).then_some((answer[0], answer[1]))
}

/// Tables of one contestant, used again in every round. They begin at a page of memory, so that those of all
/// contestants lie alike in the machine's caches.
#[repr(C, align(4096))]
struct Kept {
    times: [u32; MOST_STATIONS],
    moves: [u16; MOST_STATIONS],
    preds: [u16; MOST_STATIONS],
    marks: [u8; MOST_STATIONS],
    list: [u8; MOST_STATIONS],
}

impl Kept {
    fn new() -> Box<Self> {
        let (times, moves, preds) = ([0; MOST_STATIONS], [0; MOST_STATIONS], [0; MOST_STATIONS]);
        let (marks, list) = ([0; MOST_STATIONS], [0; MOST_STATIONS]);
        Box::new(Kept { times, moves, preds, marks, list })
    }

    /// The first entries, one for each station.
    fn tables(&mut self, stations: usize) -> Tables<'_> {
        let Kept { times, moves, preds, marks, list } = self;
        Tables {
            times: &mut times[..stations],
            moves: &mut moves[..stations],
            preds: &mut preds[..stations],
            marks: &mut marks[..stations],
            list: &mut list[..stations],
        }
    }
}

struct FromBytes<'a> {
    name: Name,
    image: &'a [u8],
    call: Call,
    stations: usize,
    kept: Box<Kept>,
    count: u32,
    reached: u32,
}

impl Contestant for FromBytes<'_> {
    fn name(&self) -> Name {
        self.name
    }

    fn search(&mut self, source: u16) {
        let query = Query { source, strip: STRIP };
        let found = (self.call)(self.image, query, self.kept.tables(self.stations));
        (self.count, self.reached) = found.expect("the map is good");
    }

    fn times(&self) -> Vec<u32> {
        self.kept.times[..self.stations].to_vec()
    }

    fn details(&self) -> Option<Details<'_>> {
        let (moves, preds) = (&self.kept.moves[..self.stations], &self.kept.preds[..self.stations]);
        let list = &self.kept.list[..self.count as usize];
        Some(Details { moves, preds, reached: self.reached, list })
    }
}
