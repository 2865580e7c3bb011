//! Recorded page lists for the store replay, with numbers of pages and frames, distances and a threshold. The lists are
//! those of searches, or drawn with and without locality; `spoil` spoils some recordings, in one way or in two.

use crate::random::Random;
use crate::reference::replay::{Asked, MOST_FRAMES, MOST_PAGES};

#[derive(Clone, PartialEq)]
pub struct Recording {
    pub kind: &'static str,
    pub list: Vec<u8>,
    pub pages: usize,
    pub frames: usize,
    pub distances: Vec<u32>,
    pub threshold: u32,
}

impl Recording {
    pub fn ask(&self) -> Asked<'_> {
        let Recording { list, pages, frames, distances, threshold, .. } = self;
        Asked { list, pages: *pages, frames: *frames, distances, threshold: *threshold }
    }
}

/// A recording of its own, good or spoiled.
pub fn draw(random: &mut Random) -> Recording {
    let mut recording = match random.below(360) {
        0..=2 => most_frames(random),
        3..=5 => too_many_pages(random),
        6..=8 => no_pages(random),
        9 => long_list(random),
        _ => drawn(random),
    };
    for _ in 0..random.pick(&[0, 0, 0, 0, 1, 1, 2]) {
        spoil(&mut recording, random);
    }
    recording
}

/// The list of a search, with a store for it.
pub fn of_search(kind: &'static str, list: Vec<u8>, pages: usize, random: &mut Random) -> Recording {
    let distances = distances(random, pages);
    let threshold = threshold(random, &distances);
    Recording { kind, list, pages, frames: frames(random, pages), distances, threshold }
}

fn drawn(random: &mut Random) -> Recording {
    let pages = match random.below(40) {
        0 => random.from_to(MOST_FRAMES, MOST_PAGES),
        1..=5 => random.from_to(13, MOST_FRAMES),
        6 => 1,
        _ => random.from_to(2, 12),
    };
    let frames = frames(random, pages);
    let length = match random.below(20) {
        0 => random.pick(&[0, 0, 1, 600]),
        _ => random.from_to(2, 90),
    };
    let (kind, list) = list(random, pages, frames, length);
    Recording { list, frames, ..of_search(kind, Vec::new(), pages, random) }
}

/// More pages than there can be frames, and a list that fills these.
fn most_frames(random: &mut Random) -> Recording {
    let pages = random.pick(&[65, 66, 90, MOST_PAGES - 1, MOST_PAGES]);
    let frames = MOST_FRAMES - random.pick(&[0, 0, 1]);
    let length = random.from_to(150, 400);
    let (kind, list) = list(random, pages, frames, length);
    Recording { list, frames, ..of_search(kind, Vec::new(), pages, random) }
}

/// More references than a number of 16 bits can say, to few pages; often as many reads.
fn long_list(random: &mut Random) -> Recording {
    let pages = random.from_to(3, 6);
    let frames = pages - 1;
    let length = random.from_to(65_536, 75_000);
    let list = match random.below(4) {
        0 => (0..length).map(|_| random.below(pages) as u8).collect(),
        _ => (0..length).map(|at| (at % pages) as u8).collect(),
    };
    Recording { frames, ..of_search("replay of a long list", list, pages, random) }
}

/// All is good but the number of pages.
fn too_many_pages(random: &mut Random) -> Recording {
    let pages = MOST_PAGES + 1;
    let list = (0..random.below(20)).map(|_| random.below(pages) as u8).collect();
    let distances = vec![random.word() as u32; pages * pages];
    Recording { kind: "replay of 241 pages", list, pages, frames: 1, distances, threshold: 0 }
}

/// Likewise: no entry is wrong, and the table is as long as it has to be, also where P times P has more than 64 bits.
fn no_pages(random: &mut Random) -> Recording {
    let pages = random.pick(&[0, 0, 1 << 32, 1 << 63]);
    let frames = random.from_to(1, MOST_FRAMES);
    Recording { kind: "replay of no pages", list: vec![], pages, frames, distances: vec![], threshold: 0 }
}

/// Few, next to the number of pages, or as many as there can be.
fn frames(random: &mut Random, pages: usize) -> usize {
    let half = random.from_to(1, pages.div_ceil(2));
    let some = [1, 2, 3, half, half, half, pages - 1, pages, pages + 1, 63, MOST_FRAMES];
    random.pick(&some).clamp(1, MOST_FRAMES)
}

fn list(random: &mut Random, pages: usize, frames: usize, length: usize) -> (&'static str, Vec<u8>) {
    match random.below(5) {
        0 => ("replay of random pages", (0..length).map(|_| random.below(pages) as u8).collect()),
        1 | 2 => ("replay of a walk", walk(random, pages, length)),
        3 => ("replay of pages round and round", rounds(random, pages, frames, length)),
        _ => ("replay of few pages, seldom others", few_pages(random, pages, frames, length)),
    }
}

/// From page to near page, seldom to any.
fn walk(random: &mut Random, pages: usize, length: usize) -> Vec<u8> {
    let reach = random.pick(&[1, 2, 5]);
    let mut page = random.below(pages);
    let mut step = || {
        page = if random.one_in(30) {
            random.below(pages)
        } else {
            page + pages * reach + random.below(2 * reach + 1) - reach
        };
        page %= pages;
        page as u8
    };
    (0..length).map(|_| step()).collect()
}

/// About as many pages as there are frames, in one order again and again.
fn rounds(random: &mut Random, pages: usize, frames: usize, length: usize) -> Vec<u8> {
    let mut order: Vec<u8> = (0..pages).map(|page| page as u8).collect();
    random.shuffle(&mut order);
    order.truncate(random.pick(&[frames - 1, frames, frames + 1, frames + 1, frames + 2]).max(1));
    order.into_iter().cycle().take(length).collect()
}

/// Mostly pages that the frames can hold.
fn few_pages(random: &mut Random, pages: usize, frames: usize, length: usize) -> Vec<u8> {
    let few = frames.min(pages);
    let one_in = random.pick(&[2, 4, 10]);
    (0..length).map(|_| if random.one_in(one_in) { random.below(pages) } else { random.below(few) } as u8).collect()
}

/// A table of P by P, of any kind; now and then with pages that are far from themselves.
fn distances(random: &mut Random, pages: usize) -> Vec<u32> {
    let kind = random.below(7);
    let scale = random.pick(&[1, 7, 1 << 20]);
    let same = random.word() as u32;
    let far_from_itself = random.one_in(4);
    let mut distance = |row: usize, page: usize| match kind {
        _ if far_from_itself && row == page => random.pick(&[u32::MAX, same]),
        0 => random.word() as u32,
        // The pages lie in a line, or in a ring that leads one way.
        1 => row.abs_diff(page) as u32 * scale,
        2 => ((page + pages - row) % pages) as u32 * scale,
        3 => same,
        4 => random.pick(&[0, u32::MAX]),
        // All but alike: about a threshold that is one of them.
        _ => same.saturating_add(random.below(4) as u32),
    };
    (0..pages * pages).map(|at| distance(at / pages, at % pages)).collect()
}

/// A distance of the table or next to one, the greatest of them, or the bounds of the number.
fn threshold(random: &mut Random, distances: &[u32]) -> u32 {
    let own = random.pick(distances);
    let greatest = distances.iter().copied().max().unwrap_or(0);
    let some = [own, own, own, own.saturating_sub(1), own.saturating_add(1), greatest, 0, 1, u32::MAX];
    random.pick(&some)
}

/// One of the numbers, an entry of the list or the table's length.
fn spoil(recording: &mut Recording, random: &mut Random) {
    let Recording { list, pages, frames, distances, .. } = recording;
    match random.below(5) {
        0 => {
            let past = *pages;
            *pages =
                random.pick(&[0, MOST_PAGES + 1, 255, 256 + past, (1 << 16) + past, (1 << 32) + past, usize::MAX]);
        }
        1 => {
            let low = *frames % 256;
            let some = [0, 0, MOST_FRAMES + 1, MOST_FRAMES + 2, 256 + low, (1 << 16) + low, (1 << 32) + low];
            *frames = if random.one_in(8) { usize::MAX } else { random.pick(&some) };
        }
        2 | 3 => spoil_entry(list, *pages, random),
        _ => {
            let length = distances.len();
            let some = [length.saturating_sub(1), length + 1, length + *pages % 256, 2 * length, length / 2, 0];
            distances.resize(random.pick(&some), 0);
        }
    }
}

/// The first entry, the last or any becomes P or more, as far as an entry can say it.
fn spoil_entry(list: &mut Vec<u8>, pages: usize, random: &mut Random) {
    if list.is_empty() {
        list.push(0);
    }
    let last = list.len() - 1;
    let at = [0, last, random.from_to(0, last)];
    let least = pages.min(255);
    let entries = [least, least, 255, random.from_to(least, 255)];
    list[random.pick(&at)] = random.pick(&entries) as u8;
}
