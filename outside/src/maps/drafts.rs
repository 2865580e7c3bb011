//! Drafts of a map for the order of maps: the same moves on other pages, and drafts with one change. A change is made
//! so that it is known, without a comparison of whole lists, which of the two drafts comes first.

use super::drawings::any_limit;
use super::{MOST_PAGES, MOST_STATIONS, PAGE_BYTES};
use crate::random::Random;
use crate::reference::order::Rank;
use crate::reference::records::{self, Drawing, Record};
use std::cmp::Ordering;

/// What a planner has in mind: N and the moves, with pages that they were drawn on.
#[derive(Clone)]
pub struct Draft {
    records: Vec<Record>,
    pages: Pages,
}

/// A number of pages, and for each station its page.
#[derive(Clone)]
struct Pages {
    count: usize,
    directory: Vec<u8>,
}

/// A draft with one change. The change is less if the changed draft comes before the one that it was made of.
pub struct Changed {
    pub kind: &'static str,
    pub draft: Draft,
    pub change: Ordering,
}

impl Draft {
    /// The draft that a wholly good image of this rank shows.
    pub fn new(image: &[u8], rank: &Rank) -> Self {
        let record = |&(from, target, time, limit): &_| Record { from, target, time, limit };
        let directory = image[4..4 + rank.stations].to_vec();
        let count = (image.len() - 4 - rank.stations) / PAGE_BYTES;
        Draft { records: rank.records.iter().map(record).collect(), pages: Pages { count, directory } }
    }

    fn stations(&self) -> usize {
        self.pages.directory.len()
    }

    /// An image of the draft: on the pages it had, on these under other numbers, or on others. None if it has no room.
    pub fn image(&self, random: &mut Random) -> Option<Vec<u8>> {
        if random.one_in(3) {
            self.image_on(&self.pages).or_else(|| self.redrawn(random))
        } else {
            self.redrawn(random).or_else(|| self.image_on(&self.pages))
        }
    }

    /// An image of the same moves on other pages, unless there is but one way to draw it.
    pub fn redrawn(&self, random: &mut Random) -> Option<Vec<u8>> {
        let anew = if random.one_in(4) { None } else { self.other_pages(random) };
        anew.and_then(|pages| self.image_on(&pages)).or_else(|| self.image_on(&self.renumbered(random)))
    }

    fn image_on(&self, Pages { count, directory }: &Pages) -> Option<Vec<u8>> {
        let (stations, pages) = (self.stations() as u16, *count as u16);
        let drawing = Drawing { records: &self.records, stations, pages, directory };
        records::image_of(drawing, 4 + self.stations() + PAGE_BYTES * count).ok()
    }

    /// The same stations together on a page, under another number; now and then with more pages, which stay empty.
    fn renumbered(&self, random: &mut Random) -> Pages {
        let count = MOST_PAGES.min(self.pages.count + random.pick(&[0, 0, 0, 1, 3]));
        let mut numbers: Vec<u8> = (0..count).map(|page| page as u8).collect();
        random.shuffle(&mut numbers);
        let directory = self.pages.directory.iter().map(|&page| numbers[usize::from(page)]).collect();
        Pages { count, directory }
    }

    /// Each station on any page that has room for it and its moves, with a new page where none has; in any order of the
    /// stations.
    fn other_pages(&self, random: &mut Random) -> Option<Pages> {
        let mut needs = vec![3; self.stations()];
        for record in &self.records {
            needs[usize::from(record.from)] += if record.limit == 0 { 5 } else { 7 };
        }
        let mut stations: Vec<usize> = (0..self.stations()).collect();
        random.shuffle(&mut stations);
        let mut room = vec![PAGE_BYTES - 1; random.pick(&[1, 1, 2, 5, self.pages.count])];
        let mut directory = vec![0; self.stations()];
        for station in stations {
            let has_room = |page: &usize| room[*page] >= needs[station];
            let any = Some(random.below(room.len())).filter(has_room);
            let page = any.or_else(|| (0..room.len()).find(has_room)).unwrap_or(room.len());
            if page == room.len() {
                room.push(PAGE_BYTES - 1);
            }
            room[page] = room[page].checked_sub(needs[station])?;
            directory[station] = u8::try_from(page).ok()?;
        }
        (room.len() <= MOST_PAGES).then_some(Pages { count: room.len(), directory })
    }

    /// A draft with one change of any kind that the map allows; a station more or less always is one.
    pub fn change(&self, random: &mut Random) -> Changed {
        loop {
            let changed = match random.below(10) {
                0 => self.other_time(random),
                1 | 2 => self.other_limit(random),
                3 => self.other_target(random),
                4 => self.other_from(random),
                5 => self.one_more(random),
                6 => self.one_less(random),
                7 => self.front_part(random),
                8 => self.station_more(random),
                _ => self.station_less(random),
            };
            if let Some(changed) = changed {
                return changed;
            }
        }
    }

    /// The index of a record: the last, the first, any, or one where the stations pass 255.
    fn some(&self, random: &mut Random) -> Option<usize> {
        let last = self.records.len().checked_sub(1)?;
        let any = random.from_to(0, last);
        let passes = self.records.partition_point(|record| record.from < 256).min(last);
        Some(random.pick(&[last, last, 0, any, any, any, passes, passes.saturating_sub(1)]))
    }

    /// The draft with another record in place of one. As every other record stays, in its order, the lists first differ
    /// where the lower of the two stands: so they lie to each other as these two do.
    fn with(&self, kind: &'static str, at: usize, record: Record) -> Option<Changed> {
        let numbers = |record: Record| (record.key(), record.time, record.limit);
        let change = numbers(record).cmp(&numbers(self.records[at]));
        let mut draft = self.clone();
        draft.records.remove(at);
        let place = draft.place(record)?;
        draft.records.insert(place, record);
        (change != Ordering::Equal).then_some(Changed { kind, draft, change })
    }

    /// Where a record belongs; none if it is no move, or there is a move between these stations already.
    fn place(&self, record: Record) -> Option<usize> {
        let place = self.records.binary_search_by_key(&record.key(), |other| other.key()).err()?;
        (record.from != record.target).then_some(place)
    }

    /// The time decides, whatever the limit.
    fn other_time(&self, random: &mut Random) -> Option<Changed> {
        let at = self.some(random)?;
        let before = self.records[at];
        let limit = random.pick(&[before.limit, 0, 1, 65_535]);
        self.with("draft with another time", at, Record { time: other_number(random, before.time), limit, ..before })
    }

    fn other_limit(&self, random: &mut Random) -> Option<Changed> {
        let at = self.some(random)?;
        let before = self.records[at];
        let (any, near) = (any_limit(random), other_number(random, before.limit));
        self.with("draft with another limit", at, Record { limit: random.pick(&[0, any, near, near]), ..before })
    }

    /// The target decides, whatever the time.
    fn other_target(&self, random: &mut Random) -> Option<Changed> {
        let at = self.some(random)?;
        let before = self.records[at];
        let target = self.other_station(random, before.target);
        let time = random.pick(&[before.time, 0, 65_535]);
        self.with("draft with another target", at, Record { target, time, ..before })
    }

    /// From decides, whatever the target.
    fn other_from(&self, random: &mut Random) -> Option<Changed> {
        let at = self.some(random)?;
        let before = self.records[at];
        let from = self.other_station(random, before.from);
        let any = random.below(self.stations()) as u16;
        let target = random.pick(&[before.target, any, 0, self.stations() as u16 - 1]);
        self.with("draft with a move from elsewhere", at, Record { from, target, ..before })
    }

    /// Near by, on the other side of a byte, or any.
    fn other_station(&self, random: &mut Random, station: u16) -> u16 {
        let (near, any) = (random.next_to(station), random.below(self.stations()) as u16);
        let below = |number: u16| if usize::from(number) < self.stations() { number } else { any };
        let numbers = [near, station ^ 256, any].map(below);
        random.pick(&numbers)
    }

    /// Behind the last record it makes the list longer, and so the greater; anywhere else it stands where the other
    /// draft has a higher record.
    fn one_more(&self, random: &mut Random) -> Option<Changed> {
        let stations = self.stations() as u16;
        let any = |random: &mut Random| random.below(usize::from(stations)) as u16;
        let [from, target, time] = [any(random), any(random), random.word() as u16];
        let last = self.records.last().map_or(0, |last| last.from);
        let (from, target) = (random.pick(&[from, from, last, stations - 1]), random.pick(&[target, stations - 1]));
        let limit = random.pick(&[0, 0, 1, 65_535]);
        let record = Record { from, target, time, limit };
        let place = self.place(record)?;
        let mut draft = self.clone();
        draft.records.insert(place, record);
        let change = if place == self.records.len() { Ordering::Greater } else { Ordering::Less };
        Some(Changed { kind: "draft with a move more", draft, change })
    }

    /// The other way round.
    fn one_less(&self, random: &mut Random) -> Option<Changed> {
        let at = self.some(random)?;
        let mut draft = self.clone();
        draft.records.remove(at);
        let change = if at == draft.records.len() { Ordering::Less } else { Ordering::Greater };
        Some(Changed { kind: "draft with a move less", draft, change })
    }

    /// Mostly without the last record alone.
    fn front_part(&self, random: &mut Random) -> Option<Changed> {
        let last = self.records.len().checked_sub(1)?;
        let any = random.from_to(0, last);
        let mut draft = self.clone();
        draft.records.truncate(random.pick(&[last, last, last, any, 0]));
        Some(Changed { kind: "draft that is a front part", draft, change: Ordering::Less })
    }

    /// N decides, whatever the moves.
    fn station_more(&self, random: &mut Random) -> Option<Changed> {
        if self.stations() == MOST_STATIONS {
            return None;
        }
        let mut draft = self.clone();
        draft.pages.directory.push(random.below(self.pages.count) as u8);
        draft.any_moves(random);
        Some(Changed { kind: "draft with a station more", draft, change: Ordering::Greater })
    }

    /// Likewise; the last station's moves go with it.
    fn station_less(&self, random: &mut Random) -> Option<Changed> {
        let last = self.stations() as u16 - 1;
        if last == 0 {
            return None;
        }
        let mut draft = self.clone();
        draft.pages.directory.pop();
        draft.records.retain(|record| record.from != last && record.target != last);
        draft.any_moves(random);
        Some(Changed { kind: "draft with a station less", draft, change: Ordering::Less })
    }

    /// The moves as they are, or with a change that may speak against N.
    fn any_moves(&mut self, random: &mut Random) {
        let changed = match random.below(4) {
            0 => self.one_more(random),
            1 => self.one_less(random),
            2 => self.other_time(random),
            _ => None,
        };
        if let Some(changed) = changed {
            *self = changed.draft;
        }
    }
}

/// Next to a number, on the other side of a byte, with its bytes exchanged, or any: the number itself now and then.
fn other_number(random: &mut Random, number: u16) -> u16 {
    let (near, any) = (random.next_to(number), random.word() as u16);
    random.pick(&[near, near, number ^ 256, number.swap_bytes(), 0, 65_535, any])
}
