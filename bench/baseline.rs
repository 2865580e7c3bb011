//! The baselines: Dijkstra's search as one writes it in Rust without proofs. One pass over the image checks it and
//! collects the moves that are open to the strip; then the search runs with the standard library's heap and lazy
//! deletion. It gives what the plain search gives: times, numbers of moves, lowest predecessors, page list, stations
//! reached. It comes in two grades, by how the moves are kept and what the heap compares: straightforward (a vector of
//! moves for each station; time, number of moves and station as a triple) and tuned (all moves in one vector with a
//! range for each station; time, number of moves and station in one word).

use outside::reference::{Query, Tables};
use std::cmp::Reverse;
use std::collections::BinaryHeap;
use std::ops::Range;

const PAGE_BYTES: usize = 256;

/// Where the moves of the stations are kept.
pub trait Moves {
    fn new(stations: usize, most: usize) -> Self;
    fn begin(&mut self, station: u16);
    fn push(&mut self, station: u16, target: u16, time: u16);
    fn of(&self, station: u16) -> &[(u16, u16)];
}

/// The moves as one first keeps them: a vector for each station.
impl Moves for Vec<Vec<(u16, u16)>> {
    fn new(stations: usize, _most: usize) -> Self {
        vec![Vec::new(); stations]
    }

    fn begin(&mut self, _station: u16) {}

    fn push(&mut self, station: u16, target: u16, time: u16) {
        self[usize::from(station)].push((target, time));
    }

    fn of(&self, station: u16) -> &[(u16, u16)] {
        &self[usize::from(station)]
    }
}

/// All moves in one vector: quicker to fill and to read.
pub struct Joined {
    moves: Vec<(u16, u16)>,
    ranges: Vec<Range<u32>>,
}

impl Moves for Joined {
    fn new(stations: usize, most: usize) -> Self {
        Joined { moves: Vec::with_capacity(most), ranges: vec![0..0; stations] }
    }

    fn begin(&mut self, station: u16) {
        let start = self.moves.len() as u32;
        self.ranges[usize::from(station)] = start..start;
    }

    fn push(&mut self, station: u16, target: u16, time: u16) {
        self.moves.push((target, time));
        self.ranges[usize::from(station)].end += 1;
    }

    fn of(&self, station: u16) -> &[(u16, u16)] {
        let range = &self.ranges[usize::from(station)];
        &self.moves[range.start as usize..range.end as usize]
    }
}

pub struct Graph<'a, M> {
    directory: &'a [u8],
    moves: M,
}

/// The graph of a good image, of the moves open to a strip; none for any other image.
pub fn parse<M: Moves>(image: &[u8], strip: u16) -> Option<Graph<'_, M>> {
    let (heading, rest) = image.split_first_chunk::<4>()?;
    let stations = usize::from(u16::from_le_bytes([heading[0], heading[1]]));
    let pages = usize::from(u16::from_le_bytes([heading[2], heading[3]]));
    if !(1..=2048).contains(&stations) || !(1..=240).contains(&pages) || rest.len() != stations + PAGE_BYTES * pages {
        return None;
    }
    let (directory, page_bytes) = rest.split_at(stations);
    let moves = M::new(stations, page_bytes.len() / 5);
    let mut graph = Graph { directory, moves };
    let mut named = 0;
    for (page, bytes) in page_bytes.chunks_exact(PAGE_BYTES).enumerate() {
        named += graph.parse_page(page as u8, bytes, strip)?;
    }
    // Each page names stations of its own only, each once, so the number tells whether one is missing.
    (named == stations).then_some(graph)
}

impl<M: Moves> Graph<'_, M> {
    /// Takes a page's open moves in, and tells how many stations it names.
    fn parse_page(&mut self, page: u8, mut bytes: &[u8], strip: u16) -> Option<usize> {
        let mut named = 0;
        let mut station: Option<u16> = None;
        let mut last_target: Option<u16> = None;
        loop {
            match bytes {
                [0, rest @ ..] => return rest.iter().all(|&byte| byte == 0).then_some(named),
                [1, low, high, rest @ ..] => {
                    let number = u16::from_le_bytes([*low, *high]);
                    if self.directory.get(usize::from(number)) != Some(&page) || station >= Some(number) {
                        return None;
                    }
                    self.moves.begin(number);
                    (station, last_target) = (Some(number), None);
                    named += 1;
                    bytes = rest;
                }
                [2, target_low, target_high, time_low, time_high, rest @ ..] => {
                    let target = u16::from_le_bytes([*target_low, *target_high]);
                    let time = u16::from_le_bytes([*time_low, *time_high]);
                    self.take_move(station?, last_target, target, time, true)?;
                    last_target = Some(target);
                    bytes = rest;
                }
                [3, target_low, target_high, time_low, time_high, limit_low, limit_high, rest @ ..] => {
                    let target = u16::from_le_bytes([*target_low, *target_high]);
                    let time = u16::from_le_bytes([*time_low, *time_high]);
                    let limit = u16::from_le_bytes([*limit_low, *limit_high]);
                    if limit == 0 {
                        return None;
                    }
                    self.take_move(station?, last_target, target, time, limit >= strip)?;
                    last_target = Some(target);
                    bytes = rest;
                }
                _ => return None,
            }
        }
    }

    /// Takes a move in if it is open; none if it is not a good one.
    fn take_move(&mut self, from: u16, last: Option<u16>, target: u16, time: u16, open: bool) -> Option<()> {
        let good = usize::from(target) < self.directory.len() && target != from;
        if !good || last >= Some(target) {
            return None;
        }
        if open {
            self.moves.push(from, target, time);
        }
        Some(())
    }
}

/// What the heap is ordered by: time, then number of moves, then station.
pub trait Key: Ord {
    fn new(time: u32, moves: u16, station: u16) -> Self;
    fn parts(&self) -> (u32, u16, u16);
}

/// The key as one first writes it.
impl Key for (u32, u16, u16) {
    fn new(time: u32, moves: u16, station: u16) -> Self {
        (time, moves, station)
    }

    fn parts(&self) -> (u32, u16, u16) {
        *self
    }
}

/// All three numbers in one word: quicker to compare.
impl Key for u64 {
    fn new(time: u32, moves: u16, station: u16) -> Self {
        u64::from(time) << 32 | u64::from(moves) << 16 | u64::from(station)
    }

    fn parts(&self) -> (u32, u16, u16) {
        ((self >> 32) as u32, (self >> 16) as u16, *self as u16)
    }
}

/// Dijkstra's search from image bytes: the list's count and the number of stations reached. It needs no marks.
pub fn search<M: Moves, K: Key>(
    image: &[u8],
    Query { source, strip }: Query,
    Tables { times, moves, preds, list, .. }: Tables,
) -> Option<(u32, u32)> {
    let graph = parse::<M>(image, strip)?;
    times.fill(u32::MAX);
    moves.fill(u16::MAX);
    preds.fill(65_535);
    times[usize::from(source)] = 0;
    moves[usize::from(source)] = 0;
    preds[usize::from(source)] = 65_534;
    let mut count = 0;
    let mut heap = BinaryHeap::with_capacity(times.len());
    heap.push(Reverse(K::new(0, 0, source)));
    while let Some(Reverse(key)) = heap.pop() {
        let (time, made, station) = key.parts();
        // Lowered since it was pushed: the lesser entry has been worked off before. No other can be lowered any more,
        // since every move makes a way more, one of time 0 too.
        if (time, made) > (times[usize::from(station)], moves[usize::from(station)]) {
            continue;
        }
        list[count] = graph.directory[usize::from(station)];
        count += 1;
        for &(target, step) in graph.moves.of(station) {
            let at = usize::from(target);
            let sum = (time + u32::from(step), made + 1);
            let before = (times[at], moves[at]);
            if sum < before {
                (times[at], moves[at]) = sum;
                preds[at] = station;
                heap.push(Reverse(K::new(sum.0, sum.1, target)));
            } else if sum == before && station < preds[at] {
                preds[at] = station;
            }
        }
    }
    Some((count as u32, count as u32))
}
