//! The order of two images, as one gets it in Rust without proofs. The whole check of an image notes where the moves of
//! each station stand. Then the stations of both maps are gone through: as a move is spelled in one way only, a
//! station's moves are the same exactly if their bytes are, and moves are read again only from the first station on
//! whose bytes differ. To keep the records of both (`writer.rs`) and compare them takes about twice as long.

use std::cmp::Ordering;
use std::ops::Range;

const PAGE_BYTES: usize = 256;

/// Less if the first map comes first; none if an image is not good.
pub fn order(first: &[u8], second: &[u8]) -> Option<Ordering> {
    let (first, second) = (Checked::new(first)?, Checked::new(second)?);
    let by_stations = first.moves.len().cmp(&second.moves.len());
    Some(by_stations.then_with(|| first.by_records(&second)))
}

/// A good image.
struct Checked<'a> {
    directory: &'a [u8],
    page_bytes: &'a [u8],
    /// Where the moves of each station stand; the pages have fewer bytes than a number of 16 bits can say.
    moves: Vec<Range<u16>>,
    named: usize,
}

impl<'a> Checked<'a> {
    fn new(image: &'a [u8]) -> Option<Self> {
        let (heading, rest) = image.split_first_chunk::<4>()?;
        let stations = usize::from(u16::from_le_bytes([heading[0], heading[1]]));
        let pages = usize::from(u16::from_le_bytes([heading[2], heading[3]]));
        let counted = (1..=2048).contains(&stations) && (1..=240).contains(&pages);
        if !counted || rest.len() != stations + PAGE_BYTES * pages {
            return None;
        }
        let (directory, page_bytes) = rest.split_at(stations);
        let mut checked = Checked { directory, page_bytes, moves: vec![0..0; stations], named: 0 };
        for (page, bytes) in page_bytes.chunks_exact(PAGE_BYTES).enumerate() {
            checked.parse_page(page as u8, bytes)?;
        }
        // Each page names stations of its own only, each once, so the number tells whether one is missing.
        (checked.named == stations).then_some(checked)
    }

    fn parse_page(&mut self, page: u8, mut bytes: &[u8]) -> Option<()> {
        let page_end = (usize::from(page) + 1) * PAGE_BYTES;
        let mut station: Option<u16> = None;
        let mut last_target: Option<u16> = None;
        let mut moves_begin = 0;
        loop {
            let at = (page_end - bytes.len()) as u16;
            match bytes {
                [0, rest @ ..] => {
                    self.end_moves(station, moves_begin..at);
                    return rest.iter().all(|&byte| byte == 0).then_some(());
                }
                [1, low, high, rest @ ..] => {
                    let number = u16::from_le_bytes([*low, *high]);
                    if self.directory.get(usize::from(number)) != Some(&page) || station >= Some(number) {
                        return None;
                    }
                    self.end_moves(station, moves_begin..at);
                    (station, last_target, moves_begin) = (Some(number), None, at + 3);
                    self.named += 1;
                    bytes = rest;
                }
                [2, target_low, target_high, _, _, rest @ ..] => {
                    let target = u16::from_le_bytes([*target_low, *target_high]);
                    self.check_target(station?, last_target, target)?;
                    last_target = Some(target);
                    bytes = rest;
                }
                [3, target_low, target_high, _, _, limit_low, limit_high, rest @ ..] => {
                    let target = u16::from_le_bytes([*target_low, *target_high]);
                    if [*limit_low, *limit_high] == [0, 0] {
                        return None;
                    }
                    self.check_target(station?, last_target, target)?;
                    last_target = Some(target);
                    bytes = rest;
                }
                _ => return None,
            }
        }
    }

    fn end_moves(&mut self, station: Option<u16>, moves: Range<u16>) {
        if let Some(station) = station {
            self.moves[usize::from(station)] = moves;
        }
    }

    fn check_target(&self, from: u16, last: Option<u16>, target: u16) -> Option<()> {
        let good = usize::from(target) < self.directory.len() && target != from && last < Some(target);
        good.then_some(())
    }

    fn moves_of(&self, station: usize) -> &'a [u8] {
        let Range { start, end } = self.moves[station];
        &self.page_bytes[usize::from(start)..usize::from(end)]
    }

    /// The order of two maps of as many stations. Iterators are compared entry by entry, and one that ends comes first.
    fn by_records(&self, other: &Self) -> Ordering {
        let unlike = |&station: &usize| self.moves_of(station) != other.moves_of(station);
        let first_unlike = (0..self.moves.len()).find(unlike);
        first_unlike.map_or(Ordering::Equal, |station| self.records_from(station).cmp(other.records_from(station)))
    }

    /// The records of a station and of all behind it: from, target, time and limit.
    fn records_from(&self, first: usize) -> impl Iterator<Item = (usize, u16, u16, u16)> + '_ {
        (first..self.moves.len()).flat_map(|station| {
            let mut bytes = self.moves_of(station);
            std::iter::from_fn(move || {
                let length = if *bytes.first()? == 2 { 5 } else { 7 };
                let (step, rest) = bytes.split_at(length);
                let number = |at| step.get(at..at + 2).map_or(0, |pair| u16::from_le_bytes([pair[0], pair[1]]));
                bytes = rest;
                Some((station, number(1), number(3), number(5)))
            })
        })
    }
}
