//! What came up in replays: what was refused and for what reason alone, which pages left, and whether another rule for
//! the page that leaves would have come to other reads.

use crate::tally::Tally;
use outside::reference::lists::listed;
use outside::reference::replay::{self, Asked, Miss, MOST_FRAMES, MOST_PAGES};

/// Lists with up to so many entries times frames are looked at closely.
const CLOSELY_UP_TO: usize = 1_000;

impl Tally {
    /// Why a replay is refused.
    pub fn unfit(&mut self, asked: Asked) {
        let Asked { list, pages, frames, distances, .. } = asked;
        let by_pages = pages == 0 || pages > MOST_PAGES;
        let outside = list.iter().filter(|&&entry| usize::from(entry) >= pages).count();
        let length = pages.checked_mul(pages);
        let of_23 = [frames == 0, frames > MOST_FRAMES, outside > 0, length != Some(distances.len())];
        let reasons = of_23.iter().filter(|&&reason| reason).count();
        self.note("replay: refused 3, no pages", pages == 0);
        self.note("replay: refused 3, 241 pages", pages == MOST_PAGES + 1);
        self.note("replay: refused 3, pages under 241 in the low 32 bits", pages as u32 <= 240 && pages > MOST_PAGES);
        self.note("replay: refused 3, P·P wraps to the table's length", wraps_to(pages, distances.len()));
        self.note("replay: refused 3 alone", by_pages && reasons == 0);
        self.note("replay: refused 3 before 23", by_pages && reasons > 0);
        if by_pages {
            return;
        }
        let alone = [0, 1, 2, 3].map(|reason| of_23[reason] && reasons == 1);
        self.note("replay: refused 23 by no frames alone", alone[0]);
        self.note("replay: refused 23 by over 64 frames alone", alone[1]);
        self.note("replay: refused 23 by 65 frames alone", alone[1] && frames == MOST_FRAMES + 1);
        self.note("replay: refused 23, frames under 65 in the low 32 bits", alone[1] && frames as u32 <= 64);
        self.note("replay: refused 23 by list entries alone", alone[2]);
        let is_outside = |entry: Option<&u8>| outside == 1 && entry.is_some_and(|&entry| usize::from(entry) >= pages);
        self.note("replay: refused 23 by the first entry alone", alone[2] && is_outside(list.first()));
        self.note("replay: refused 23 by the last entry alone", alone[2] && is_outside(list.last()));
        self.note("replay: refused 23 by an entry that is P", alone[2] && list.contains(&(pages as u8)));
        self.note("replay: refused 23 by the table's length alone", alone[3]);
        self.note("replay: refused 23, a distance less", alone[3] && distances.len() + 1 == pages * pages);
        self.note("replay: refused 23, a distance more", alone[3] && distances.len() == pages * pages + 1);
        self.note("replay: refused 23 for two reasons or more", reasons > 1);
    }

    /// What an accepted replay with so many reads was like.
    pub fn replayed(&mut self, asked: Asked, reads: u64) {
        let pages = listed(asked.list).iter().filter(|&&listed| listed).count();
        let greatest = asked.distances.iter().copied().max();
        self.note("replay: an empty list", asked.list.is_empty());
        self.note("replay: 240 pages", asked.pages == MOST_PAGES);
        self.note("replay: 64 frames, and more pages listed", asked.frames == MOST_FRAMES && pages > MOST_FRAMES);
        self.note("replay: as many pages listed as there are frames", asked.frames == pages);
        self.note("replay: a page read again", reads > pages as u64);
        self.note("replay: 65,536 reads or more", reads >= 65_536);
        self.note("replay: D is the greatest distance", Some(asked.threshold) == greatest);
        self.note("replay: D is 4,294,967,295", asked.threshold == u32::MAX);
        if asked.list.len() * asked.frames <= CLOSELY_UP_TO {
            self.leaving(asked);
            for (note, rule) in OTHER_RULES {
                let others = replay::reads(asked.list, |miss| rule(asked, miss));
                self.note(note, others != reads);
            }
            let plain = replay::reads(asked.list, |miss| asked.farther(miss, |_, _| false));
            self.note("replay: fewer reads than by least recently used", reads < plain);
            self.note("replay: more reads than by least recently used", reads > plain);
        }
    }

    /// The lists of both searches in one store. With several frames ours may take more reads, though it seldom does.
    pub fn both_lists(&mut self, ours: Asked, dijkstras: Asked) {
        let (less, more) = (ours.reads() < dijkstras.reads(), ours.reads() > dijkstras.reads());
        self.note("replay: one frame, the DF list reads less", ours.frames == 1 && less);
        self.note("replay: two frames or more, the DF list reads less", ours.frames > 1 && less);
        self.note("replay: two frames or more, the DF list reads more", ours.frames > 1 && more);
    }

    /// Which pages left, and which were far.
    fn leaving(&mut self, asked: Asked) {
        let notes = [
            "replay: all frames held pages, none of them far",
            "replay: all frames held pages, all of them far",
            "replay: a far page left, the least recently used of all",
            "replay: a far page left, another was less recently used",
            "replay: a far page left, another far one was more recently used",
            "replay: the page last referred to left",
        ];
        let mut seen = [false; 6];
        replay::reads(asked.list, |miss| {
            let leaving = asked.leaves(miss)?;
            let last = *miss.before.last()?;
            let oldest = miss.least_recently_used(|_| true)?;
            let is_far = |&&page: &&u8| asked.distance(last, page) > asked.threshold;
            let far = miss.held.iter().filter(is_far).count();
            let all = far == miss.held.len();
            let now = [
                far == 0,
                all && far > 1,
                far > 0 && leaving == oldest && !all,
                far > 0 && leaving != oldest,
                far > 1 && leaving != oldest,
                leaving == last && miss.held.len() > 1,
            ];
            seen.iter_mut().zip(now).for_each(|(seen, now)| *seen |= now);
            Some(leaving)
        });
        for (note, came_up) in notes.into_iter().zip(seen) {
            self.note(note, came_up);
        }
    }
}

/// Whether P times P, in 64 bits, would be the length of a table, for a P that has no such table.
fn wraps_to(pages: usize, length: usize) -> bool {
    pages > MOST_PAGES && pages.checked_mul(pages).is_none() && pages.wrapping_mul(pages) == length
}

/// Names the page that leaves at a miss, if one does.
type Rule = fn(Asked, &Miss) -> Option<u8>;

/// Other rules than the request's, each with the note that its reads are others.
const OTHER_RULES: [(&str, Rule); 9] = [
    ("replay: other reads by least recently used", |asked, miss| asked.farther(miss, |_, _| false)),
    ("replay: other reads by the column of the page last referred to", |asked, miss| {
        asked.farther(miss, |last, page| asked.distance(page, last) > asked.threshold)
    }),
    ("replay: other reads by the row of the page that is missed", |asked, miss| {
        asked.farther(miss, |_, page| asked.distance(miss.page, page) > asked.threshold)
    }),
    ("replay: other reads by the row of the page last read", |asked, miss| {
        let last_read = *miss.held.last()?;
        asked.farther(miss, |_, page| asked.distance(last_read, page) > asked.threshold)
    }),
    ("replay: other reads if a distance of D were far", |asked, miss| {
        asked.farther(miss, |last, page| asked.distance(last, page) >= asked.threshold)
    }),
    ("replay: other reads if no page were far from itself", |asked, miss| {
        asked.farther(miss, |last, page| page != last && asked.distance(last, page) > asked.threshold)
    }),
    ("replay: other reads if far pages left while frames are free", |asked, miss| {
        let last = *miss.before.last()?;
        let far = miss.least_recently_used(|page| asked.distance(last, page) > asked.threshold);
        far.or_else(|| asked.leaves(miss))
    }),
    ("replay: other reads if of the far pages the first read left", |asked, miss| {
        let leaving = asked.leaves(miss)?;
        let last = *miss.before.last()?;
        let is_far = |page: &&u8| asked.distance(last, **page) > asked.threshold;
        Some(miss.held.iter().find(is_far).copied().unwrap_or(leaving))
    }),
    ("replay: other reads if of the far pages the farthest left", |asked, miss| {
        let leaving = asked.leaves(miss)?;
        let last = *miss.before.last()?;
        let is_far = |page: &u8| asked.distance(last, *page) > asked.threshold;
        let farthest = miss.held.iter().copied().filter(is_far).max_by_key(|&page| asked.distance(last, page));
        Some(farthest.unwrap_or(leaving))
    }),
];
