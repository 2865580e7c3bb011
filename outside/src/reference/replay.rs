//! "Store replay" of document 02. Nothing is kept of a page but that it is held: when it was last referred to is looked
//! up in the recorded list each time. What leaves at a miss is given as a rule, so that other rules can be tried beside
//! the request's own.

use super::Answer;
use std::collections::BTreeSet;

pub const MOST_PAGES: usize = 240;
pub const MOST_FRAMES: usize = 64;

/// What a replay is asked: a recorded page list, P, "F frames, a u32 table of page distances (row: page last referred
/// to) and a threshold D".
#[derive(Clone, Copy)]
pub struct Asked<'a> {
    pub list: &'a [u8],
    pub pages: usize,
    pub frames: usize,
    pub distances: &'a [u32],
    pub threshold: u32,
}

impl Asked<'_> {
    /// The distance of a page from another, in whose row it stands.
    pub fn distance(&self, row: u8, page: u8) -> u32 {
        self.distances[usize::from(row) * self.pages + usize::from(page)]
    }

    /// "It refuses by 3, then with 23 an F of 0 or over 64, a list entry not below P or a distance table not P·P
    /// long."
    pub fn refusal(&self) -> Option<u32> {
        let (pages, frames) = (self.pages, self.frames);
        if pages == 0 || pages > MOST_PAGES {
            return Some(3);
        }
        let is_outside = |&entry: &u8| usize::from(entry) >= pages;
        let frames_wrong = frames == 0 || frames > MOST_FRAMES;
        let unfit = frames_wrong || self.list.iter().any(is_outside) || self.distances.len() != pages * pages;
        unfit.then_some(23)
    }

    /// "Only when all frames hold pages does one leave, the least recently used of those farther than D from the page
    /// last referred to before the miss, or of all if none is."
    pub fn leaves(&self, miss: &Miss) -> Option<u8> {
        self.farther(miss, |last, page| self.distance(last, page) > self.threshold)
    }

    /// The same with a test of one's own for what is far from the page last referred to.
    pub fn farther(&self, miss: &Miss, is_far: impl Fn(u8, u8) -> bool) -> Option<u8> {
        if miss.held.len() < self.frames {
            return None;
        }
        let last = *miss.before.last().expect("a page is held, and so was referred to");
        miss.least_recently_used(|page| is_far(last, page)).or_else(|| miss.least_recently_used(|_| true))
    }

    /// "The result is the number of reads."
    pub fn reads(&self) -> Result<u64, u32> {
        self.refusal().map_or_else(|| Ok(reads(self.list, |miss| self.leaves(miss))), Err)
    }
}

/// A reference to a page that no frame holds.
pub struct Miss<'a> {
    /// All references before it.
    pub before: &'a [u8],
    /// The pages held, in the order in which they were read.
    pub held: &'a [u8],
    pub page: u8,
}

impl Miss<'_> {
    /// Of the pages held that pass a test.
    pub fn least_recently_used(&self, test: impl Fn(u8) -> bool) -> Option<u8> {
        let last_reference = |page: &u8| self.before.iter().rposition(|entry| entry == page);
        self.held.iter().copied().filter(|&page| test(page)).min_by_key(last_reference)
    }
}

/// The reads of a list where the page that leaves at a miss, if one does, is named by a rule: a reference to a page
/// that is held is no read, and a miss is one.
pub fn reads(list: &[u8], mut leaves: impl FnMut(&Miss) -> Option<u8>) -> u64 {
    let mut held = Vec::new();
    let mut reads = 0;
    for (at, &page) in list.iter().enumerate() {
        if held.contains(&page) {
            continue;
        }
        reads += 1;
        if let Some(leaving) = leaves(&Miss { before: &list[..at], held: &held, page }) {
            held.retain(|&other| other != leaving);
        }
        held.push(page);
    }
    reads
}

/// "Plain least recently used", without a store: a page is still held exactly if, since it was last referred to, fewer
/// other pages were than there are frames.
pub fn least_recently_used_reads(list: &[u8], frames: usize) -> u64 {
    let is_held = |at: usize| {
        let since = list[..at].iter().rposition(|&entry| entry == list[at]).map(|last| &list[last + 1..at]);
        since.is_some_and(|since| since.iter().collect::<BTreeSet<_>>().len() < frames)
    };
    (0..list.len()).filter(|&at| !is_held(at)).count() as u64
}

/// As C is told it: the reads have 64 bits, the lower half where other calls give a count, the upper where searches
/// give the stations reached.
pub fn answer(reads: Result<u64, u32>) -> Answer {
    match reads {
        Ok(reads) => Answer { count: reads as u32, reached: (reads >> 32) as u32, ..Answer::default() },
        Err(refusal) => Answer::refused(refusal),
    }
}
