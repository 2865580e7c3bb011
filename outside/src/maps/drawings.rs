//! Drawings for the map writer: records, numbers of stations and pages and a directory, with the length of a buffer.
//! They are those of good maps, with pages of just about 256 bytes, or with as many records as a map can have and more;
//! and `spoiled` spoils some, in one way or in two, so that of two refusals the earlier has to come.

use super::{good, Map, MOST_ON_A_PAGE, MOST_PAGES, MOST_STATIONS, PAGE_BYTES};
use crate::random::Random;
use crate::reference::records::{Drawing, Record};
use std::collections::BTreeSet;

/// The most records that a map can have: 50 moves on each page, which has then one station.
pub const MOST_RECORDS: usize = 12_000;
/// As many as would fit if pages named no stations, 51 on each: who keeps records for a map need keep no more.
pub const MOST_KEPT: usize = 12_240;

pub struct DrawingCase {
    pub kind: &'static str,
    pub records: Vec<Record>,
    pub stations: u16,
    pub pages: u16,
    pub directory: Vec<u8>,
    /// The length of the buffer in bytes.
    pub buffer: usize,
    /// The image that has to come of it, where the way it was made tells.
    pub known: Option<Vec<u8>>,
}

pub fn draw(random: &mut Random) -> DrawingCase {
    let mut case = match random.below(60) {
        0 => most_records(random),
        1 => heavy_stations(random),
        2 => long_list(random),
        3..=24 => about_full(random),
        _ => of_good_map(random),
    };
    for _ in 0..random.pick(&[0, 0, 1, 1, 1, 2]) {
        case.spoil(random);
    }
    case
}

fn of_good_map(random: &mut Random) -> DrawingCase {
    let map = good::draw(random);
    let known = Some(map.image());
    DrawingCase {
        known,
        ..DrawingCase::new("drawing of a good map", map.pages, map.directory.clone(), records_of(&map))
    }
}

/// The moves of a map as records.
pub fn records_of(map: &Map) -> Vec<Record> {
    let mut records = Vec::new();
    for (from, moves) in map.moves.iter().enumerate() {
        records.extend(moves.iter().map(|step| Record {
            from: from as u16,
            target: step.target,
            time: step.time,
            limit: step.limit.unwrap_or(0),
        }));
    }
    records
}

/// Each page of a chosen length, if its stations and moves can have it: many just full, some too full by a little, some
/// with as many stations as fit or one more.
fn about_full(random: &mut Random) -> DrawingCase {
    let pages = random.from_to(1, 7);
    let mut directory = Vec::new();
    for page in 0..pages {
        let stations = random.pick(&[0, 1, 1, 2, 3, 8, 20, 40, MOST_ON_A_PAGE - 1, MOST_ON_A_PAGE]);
        directory.extend(vec![page as u8; stations]);
    }
    while directory.len() < random.pick(&[2, 20, 60]) || random.one_in(40) {
        directory.push(random.below(pages) as u8);
    }
    random.shuffle(&mut directory);
    let over = random.one_in(2);
    let mut records = Vec::new();
    for page in 0..pages {
        let bytes = match random.below(6) {
            0 => random.from_to(1, PAGE_BYTES),
            1 | 2 if over => PAGE_BYTES + random.pick(&[1, 1, 2, 3, 4, 7, 44]),
            _ => PAGE_BYTES - random.pick(&[0, 0, 0, 1, 2]),
        };
        records.extend(filled_page(random, &directory, page as u8, bytes));
    }
    records.sort_by_key(|record| record.key());
    DrawingCase::new("drawing with pages about full", pages, directory, records)
}

/// Records of a page's stations by which it needs so many bytes, or fewer where no moves come to that.
fn filled_page(random: &mut Random, directory: &[u8], page: u8, bytes: usize) -> Vec<Record> {
    let on_page = |&station: &usize| directory[station] == page;
    let stations: Vec<usize> = (0..directory.len()).filter(on_page).collect();
    if stations.is_empty() || directory.len() < 2 {
        return Vec::new();
    }
    let room = bytes.saturating_sub(1 + 3 * stations.len());
    let exact: Vec<usize> = (0..=room / 7).filter(|limited| (room - 7 * limited) % 5 == 0).collect();
    let limited = if exact.is_empty() { 0 } else { random.pick(&exact) };
    let count = (limited + (room - 7 * limited) / 5).min(stations.len() * (directory.len() - 1));
    let mut limits = vec![0; count];
    limits.iter_mut().take(limited).for_each(|limit| *limit = any_limit(random));
    random.shuffle(&mut limits);
    let keys = any_keys(random, &stations, directory.len(), count);
    keys.into_iter().zip(limits).map(|(key, limit)| record(random, key, limit)).collect()
}

/// So many pairs of a station and another target, rising.
fn any_keys(random: &mut Random, from: &[usize], stations: usize, count: usize) -> BTreeSet<(usize, usize)> {
    let mut keys = BTreeSet::new();
    while keys.len() < count {
        let key = (random.pick(from), random.below(stations));
        if key.0 != key.1 {
            keys.insert(key);
        }
    }
    keys
}

fn record(random: &mut Random, (from, target): (usize, usize), limit: u16) -> Record {
    let any = random.word() as u16;
    Record { from: from as u16, target: target as u16, time: random.pick(&[0, 1, 65_535, any]), limit }
}

pub fn any_limit(random: &mut Random) -> u16 {
    let any = random.from_to(1, 65_535) as u16;
    random.pick(&[1, 255, 256, 65_535, any])
}

/// The map of the most records; now and then a move more than fits.
fn most_records(random: &mut Random) -> DrawingCase {
    let stations: Vec<usize> = (0..MOST_PAGES).collect();
    let mut directory: Vec<u8> = (0..MOST_PAGES).map(|page| page as u8).collect();
    random.shuffle(&mut directory);
    let over = random.one_in(3).then(|| random.below(MOST_PAGES));
    let mut records = Vec::new();
    for &from in &stations {
        let count = MOST_RECORDS / MOST_PAGES + usize::from(over == Some(from));
        records.extend(any_keys(random, &[from], MOST_PAGES, count).into_iter().map(|key| record(random, key, 0)));
    }
    DrawingCase::new("drawing of the most records", MOST_PAGES, directory, records)
}

/// The first stations have moves to nearly all others, which no page can hold, and lie on the last page. The last
/// station lies alone on page 0, with as many moves as fit or more: then it is page 0 that is refused, by records that
/// come after more of them than a map can have.
fn heavy_stations(random: &mut Random) -> DrawingCase {
    let stations = random.from_to(400, MOST_STATIONS);
    let pages = random.from_to(30, MOST_PAGES);
    // The last of these needs some 100 bytes more than a number of 16 bits can say.
    let bytes = 65_536 * random.from_to(1, 6);
    let past_word = (bytes + 100 - 3 * bytes.div_ceil(5 * (stations - 1))) / 5;
    let count =
        random.pick(&[MOST_RECORDS, MOST_KEPT - 1, MOST_KEPT, MOST_KEPT + 1, past_word, past_word, past_word]);
    let heavy = count.div_ceil(stations - 1);
    let mut directory: Vec<u8> = (0..stations).map(|station| (1 + station % (pages - 2)) as u8).collect();
    directory[..heavy].fill(pages as u8 - 1);
    directory[stations - 1] = 0;
    let mut records = Vec::new();
    for from in 0..heavy {
        let targets = (0..stations).filter(|&target| target != from);
        records.extend(targets.map(|target| Record { from: from as u16, target: target as u16, time: 7, limit: 0 }));
    }
    records.truncate(count);
    let last = random.pick(&[49, 50, 50, 51, 52]);
    let keys = any_keys(random, &[stations - 1], stations, last);
    records.extend(keys.into_iter().map(|key| record(random, key, 0)));
    DrawingCase::new("drawing with heavy stations", pages, directory, records)
}

/// Up to 100,000 records of any stations.
fn long_list(random: &mut Random) -> DrawingCase {
    let stations = random.from_to(400, MOST_STATIONS);
    let pages = random.from_to(1, MOST_PAGES);
    let directory = (0..stations).map(|_| random.below(pages) as u8).collect();
    let any = random.from_to(MOST_KEPT, 100_000);
    let count = random.pick(&[MOST_KEPT, MOST_KEPT + 1, any]);
    let from: Vec<usize> = (0..stations).collect();
    let keys = any_keys(random, &from, stations, count);
    let records = keys.into_iter().map(|key| {
        let limit = random.pick(&[0, 8_120]);
        record(random, key, limit)
    });
    let records = records.collect();
    DrawingCase::new("drawing of a long list", pages, directory, records)
}

impl DrawingCase {
    fn new(kind: &'static str, pages: usize, directory: Vec<u8>, records: Vec<Record>) -> Self {
        let (stations, buffer) = (directory.len() as u16, 4 + directory.len() + PAGE_BYTES * pages);
        DrawingCase { kind, records, stations, pages: pages as u16, directory, buffer, known: None }
    }

    pub fn lend(&self) -> Drawing<'_> {
        let DrawingCase { records, stations, pages, directory, .. } = self;
        Drawing { records, stations: *stations, pages: *pages, directory }
    }
}
