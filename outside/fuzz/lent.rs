//! Lent memory filled with random canaries. Each table lies between guards, so that a write past its ends is seen
//! too.

use outside::random::Random;
use outside::reference::Tables;
use std::fmt::Debug;

const GUARD: usize = 8;

#[derive(Clone, PartialEq)]
pub struct Lent<T> {
    buffer: Vec<T>,
}

impl<T: Copy + PartialEq + Debug> Lent<T> {
    pub fn new(length: usize, canary: impl FnMut() -> T) -> Self {
        let mut buffer = Vec::new();
        buffer.resize_with(length + 2 * GUARD, canary);
        Lent { buffer }
    }

    pub fn lend(&mut self) -> &mut [T] {
        let end = self.buffer.len() - GUARD;
        &mut self.buffer[GUARD..end]
    }

    pub fn entries(&self) -> &[T] {
        &self.buffer[GUARD..self.buffer.len() - GUARD]
    }

    /// The first entry unlike the one wanted; guards have indices below 0 or past the end.
    fn unlike(&self, name: &str, wanted: &Self) -> Option<String> {
        let at = (0..self.buffer.len()).find(|&at| self.buffer[at] != wanted.buffer[at])?;
        let index = at as isize - GUARD as isize;
        Some(format!("{name}[{index}] is {:?}, not {:?}", self.buffer[at], wanted.buffer[at]))
    }
}

/// An answer of a length that the interface tells apart: too short, just long enough, longer.
pub fn answer(random: &mut Random) -> Lent<u32> {
    let length = random.pick(&[0, 3, 4, 4, 4, 6]);
    Lent::new(length, || random.word() as u32)
}

/// The five tables of a search.
#[derive(Clone, PartialEq)]
pub struct LentTables {
    pub times: Lent<u32>,
    pub moves: Lent<u16>,
    pub preds: Lent<u16>,
    pub marks: Lent<u8>,
    pub list: Lent<u8>,
}

impl LentTables {
    /// Tables for n stations: exact, longer, and now and then too short.
    pub fn new(n: usize, random: &mut Random) -> Self {
        let short = random.one_in(25);
        let [times, moves, preds, marks, list] = [0; 5].map(|_| length(n, short, random));
        LentTables {
            times: Lent::new(times, || random.word() as u32),
            moves: Lent::new(moves, || random.word() as u16),
            preds: Lent::new(preds, || random.word() as u16),
            marks: Lent::new(marks, || random.byte()),
            list: Lent::new(list, || random.byte()),
        }
    }

    pub fn lend(&mut self) -> Tables<'_> {
        Tables {
            times: self.times.lend(),
            moves: self.moves.lend(),
            preds: self.preds.lend(),
            marks: self.marks.lend(),
            list: self.list.lend(),
        }
    }

    /// Whether all but the moves have an entry for each of n stations.
    pub fn moves_alone_short(&self, n: usize) -> bool {
        let (times, preds) = (self.times.entries().len(), self.preds.entries().len());
        let (marks, list) = (self.marks.entries().len(), self.list.entries().len());
        self.moves.entries().len() < n && [times, preds, marks, list].iter().all(|&length| length >= n)
    }

    /// Time and moves of each station, in pairs, and what is lent behind them.
    pub fn times_and_moves(&self) -> Vec<(u32, u16)> {
        self.times.entries().iter().copied().zip(self.moves.entries().iter().copied()).collect()
    }
}

fn length(n: usize, short: bool, random: &mut Random) -> usize {
    if short && random.one_in(3) {
        return random.pick(&[0, n - 1, n / 2]);
    }
    n + random.pick(&[0, 0, 1, 5, 70])
}

/// All that a call handed back.
#[derive(Clone, PartialEq)]
pub struct Outcome {
    pub refusal: u32,
    pub answer: Lent<u32>,
    pub tables: LentTables,
}

impl Outcome {
    /// Ok if every number and every entry is the one wanted.
    pub fn compare(&self, wanted: &Self) -> Result<(), String> {
        if self.refusal != wanted.refusal {
            return Err(format!("refusal {}, not {}", self.refusal, wanted.refusal));
        }
        let tables = (&self.tables, &wanted.tables);
        let unlike = (self.answer.unlike("answer", &wanted.answer))
            .or_else(|| tables.0.times.unlike("times", &tables.1.times))
            .or_else(|| tables.0.moves.unlike("moves", &tables.1.moves))
            .or_else(|| tables.0.preds.unlike("predecessors", &tables.1.preds))
            .or_else(|| tables.0.marks.unlike("marks", &tables.1.marks))
            .or_else(|| tables.0.list.unlike("list", &tables.1.list));
        unlike.map_or(Ok(()), Err)
    }
}

/// The same for the calls that lend one output beside the answer, or none.
pub fn compare_output<T: Copy + PartialEq + Debug>(
    ours: (u32, &Lent<u32>, &Lent<T>),
    wanted: (u32, &Lent<u32>, &Lent<T>),
) -> Result<(), String> {
    if ours.0 != wanted.0 {
        return Err(format!("refusal {}, not {}", ours.0, wanted.0));
    }
    let unlike = ours.1.unlike("answer", wanted.1).or_else(|| ours.2.unlike("output", wanted.2));
    unlike.map_or(Ok(()), Err)
}
