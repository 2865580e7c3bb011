//! Drawings for the map writer spoiled in every way: records, directory, numbers and lengths. What comes of it is for
//! the reference to say; some of them stay good, or become too long for a page.

use super::drawings::{any_limit, DrawingCase, MOST_KEPT};
use super::{MOST_PAGES, MOST_STATIONS, PAGE_BYTES};
use crate::random::Random;
use crate::reference::records::Record;
use std::ops::Range;

/// No buffer is longer, whatever N and P say.
const LONGEST_BUFFER: usize = 70_000;

impl DrawingCase {
    pub fn spoil(&mut self, random: &mut Random) {
        self.known = None;
        match random.below(9) {
            0..=4 => self.spoil_records(random),
            5 | 6 => self.spoil_directory(random),
            7 => self.spoil_numbers(random),
            _ => self.spoil_lengths(random),
        }
    }

    /// The records in another order, with one that is none, or only with other times and limits.
    fn spoil_records(&mut self, random: &mut Random) {
        if self.records.is_empty() {
            self.records.push(Record::default());
        }
        match random.below(4) {
            0 => self.spoil_order(random),
            1 | 2 => self.spoil_record(random),
            _ => self.change_numbers(random),
        }
    }

    /// The index of a record: the first, the last, any, or one that comes late in a long list.
    fn some(&self, random: &mut Random) -> usize {
        let last = self.records.len() - 1;
        let any = random.from_to(0, last);
        let late = random.from_to(MOST_KEPT.min(last), last);
        random.pick(&[0, last, any, any, any, late, MOST_KEPT.min(last)])
    }

    fn spoil_order(&mut self, random: &mut Random) {
        let (one, other) = (self.some(random), self.some(random));
        match random.below(5) {
            0 => self.records.swap(one, one.saturating_sub(1)),
            1 => self.records.swap(one, other),
            2 => self.records.reverse(),
            3 => self.records.rotate_left(one),
            _ => random.shuffle(&mut self.records),
        }
    }

    fn spoil_record(&mut self, random: &mut Random) {
        let at = self.some(random);
        let [station, outside] = [self.any_station(random), self.not_a_station(random)];
        let mut spoiled = self.records[at];
        match random.below(9) {
            0 => spoiled.from = outside,
            1 => spoiled.target = outside,
            2 => spoiled.target = spoiled.from,
            3 => spoiled.from = spoiled.target,
            4 => spoiled.from = station,
            5 => spoiled.target = station,
            6 => spoiled.from = random.next_to(spoiled.from),
            7 => spoiled.target = random.next_to(spoiled.target),
            // The record before it once more, with a time and a limit of its own or with the same.
            _ => {
                let before = self.records[at.saturating_sub(1)];
                spoiled = random.pick(&[before, Record { from: before.from, target: before.target, ..spoiled }]);
            }
        }
        if random.one_in(2) {
            self.records[at] = spoiled;
        } else {
            self.records.insert(at + random.below(2), spoiled);
        }
    }

    fn any_station(&self, random: &mut Random) -> u16 {
        random.below(usize::from(self.stations).max(1)) as u16
    }

    /// Not below N: just so, or by a high byte.
    fn not_a_station(&self, random: &mut Random) -> u16 {
        let own = self.stations;
        random.pick(&[own, own, own.saturating_add(1), own | 256, 2_048, 65_535]).max(own)
    }

    /// Other times and limits, of one record or of all: limits make pages longer.
    fn change_numbers(&mut self, random: &mut Random) {
        let at = self.some(random);
        let changed: Range<usize> = if random.one_in(2) { at..at + 1 } else { 0..self.records.len() };
        let limited = random.pick(&[0, 1, 2]);
        for record in &mut self.records[changed] {
            record.time = random.pick(&[0, 1, 255, 256, 65_535]);
            record.limit = if random.below(2) < limited { any_limit(random) } else { 0 };
        }
    }

    /// Pages not below P; or other ones that are, by which some may become too full.
    fn spoil_directory(&mut self, random: &mut Random) {
        let (length, pages) = (self.directory.len().max(1), usize::from(self.pages).min(255));
        let crowded = random.below(pages.max(1)) as u8;
        let outside = random.one_in(2);
        for _ in 0..random.pick(&[1, 1, 2, 90]) {
            let any = random.below(length);
            let station = random.pick(&[0, length - 1, any, any, any]);
            if let Some(page) = self.directory.get_mut(station) {
                *page = if outside { random.from_to(pages, 255) as u8 } else { crowded };
            }
        }
    }

    /// Another N or P, the lengths as they were or as they have to be.
    fn spoil_numbers(&mut self, random: &mut Random) {
        let of_stations = random.one_in(2);
        let (number, most) =
            if of_stations { (&mut self.stations, MOST_STATIONS) } else { (&mut self.pages, MOST_PAGES) };
        let (any, near, most) = (random.word() as u16, random.next_to(*number), most as u16);
        *number = random.pick(&[0, most, most + 1, 65_535, any, near, *number ^ 256]);
        if random.one_in(2) {
            self.buffer = 4 + usize::from(self.stations) + PAGE_BYTES * usize::from(self.pages);
            self.buffer = self.buffer.min(LONGEST_BUFFER);
        }
        if random.one_in(2) {
            self.directory.resize(usize::from(self.stations), 0);
        }
    }

    /// The buffer, the directory or both too long or too short, mostly by one.
    fn spoil_lengths(&mut self, random: &mut Random) {
        let which = random.below(4);
        if which != 0 {
            self.buffer = other_length(random, self.buffer).min(LONGEST_BUFFER);
        }
        if which != 1 {
            let length = other_length(random, self.directory.len());
            self.directory.resize(length, 0);
        }
        // One more of both, so that the sum of all parts is right.
        if which == 3 {
            self.directory.resize(usize::from(self.stations) + 1, 0);
            self.buffer = 4 + self.directory.len() + PAGE_BYTES * usize::from(self.pages);
        }
    }
}

fn other_length(random: &mut Random, length: usize) -> usize {
    if random.one_in(3) {
        let any = random.below(length + 1);
        return random.pick(&[0, any, 2 * length]);
    }
    random.pick(&[length.saturating_sub(1), length + 1])
}
