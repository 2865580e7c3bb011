//! What came up in ordering maps: which image was refused, what decided between two maps, and how equal ones differ.

use super::Filed;
use crate::tally::Tally;
use outside::maps::drawings::MOST_RECORDS;
use outside::reference::order::{Named, Rank};
use outside::reference::{Answer, Search};
use std::cmp::Ordering;

/// An image of 2,048 stations and 240 pages; no other good one is as long.
const LONGEST_IMAGE: usize = 63_492;

impl Tally {
    /// A call on two images, or on one and the same.
    pub(super) fn order(&mut self, first: &Filed, second: &Filed, named: Named, same: bool) {
        self.named(named);
        let accepted = matches!(named, Named::Accepted(_));
        self.note("order: an image and itself", same && accepted);
        self.note("order: an image and itself, refused", same && !accepted);
        if same {
            return;
        }
        self.largest(first, second);
        match (&first.rank, &second.rank) {
            (Ok(ours), Ok(theirs)) if ours == theirs => self.equal(first, second),
            (Ok(ours), Ok(theirs)) if ours.stations != theirs.stations => self.by_stations(ours, theirs),
            (Ok(ours), Ok(theirs)) => {
                let longer = first.image.len() > second.image.len();
                self.note("order: the longer image is the lesser", longer && ours < theirs);
                self.by_records(ours, theirs);
            }
            (first, second) => self.refused(first.as_ref().err(), second.as_ref().err()),
        }
    }

    /// Whether both maps are good and as large as can be.
    fn largest(&mut self, first: &Filed, second: &Filed) {
        let longest = |filed: &Filed| filed.rank.is_ok() && filed.image.len() == LONGEST_IMAGE;
        let most = |filed: &Filed| filed.rank.as_ref().is_ok_and(|rank| rank.records.len() == MOST_RECORDS);
        self.note("order: two maps of 2,048 stations and 240 pages", longest(first) && longest(second));
        self.note("order: two maps of 12,000 moves", most(first) && most(second));
    }

    /// Which of two images is refused, and how.
    fn refused(&mut self, first: Option<&Answer>, second: Option<&Answer>) {
        let by_page = |by: Option<&Answer>| by.is_some_and(|by| by.refusal >= 8);
        let by_heading = |by: Option<&Answer>| by.is_some_and(|by| by.refusal < 8);
        let both = first.is_some() && second.is_some();
        self.note("order: both refused, not alike", both && first != second);
        self.note("order: first refused by a page, second by 1 to 5", by_page(first) && by_heading(second));
        self.note("order: first refused by 1 to 5, second by a page", by_heading(first) && by_page(second));
        self.note("order: first good, second refused by a page", first.is_none() && by_page(second));
        self.note("order: first good, second refused by 1 to 5", first.is_none() && by_heading(second));
    }

    /// How the images of equal maps differ.
    fn equal(&mut self, first: &Filed, second: &Filed) {
        let pages = [first, second].map(|filed| filed.image.len() / 256);
        self.note("order: equal, the same bytes elsewhere", first.image == second.image);
        self.note("order: equal, other bytes", first.image != second.image);
        self.note("order: equal, another number of pages", pages[0] != pages[1]);
        self.note("order: equal, no moves", first.rank.as_ref().is_ok_and(|rank| rank.records.is_empty()));
    }

    fn by_stations(&mut self, ours: &Rank, theirs: &Rank) {
        let by_records = ours.records.cmp(&theirs.records);
        self.note("order: by N, the moves are the same", by_records == Ordering::Equal);
        self.note("order: by N, the moves say otherwise", by_records == ours.cmp(theirs).reverse());
    }

    /// Between maps of one N: whether one list is a front part of the other, or which records decide.
    fn by_records(&mut self, ours: &Rank, theirs: &Rank) {
        let order = ours.cmp(theirs);
        let [ours, theirs] = [&ours.records, &theirs.records];
        let (fewer, most) = (ours.len().min(theirs.len()), ours.len().max(theirs.len()));
        let unlike = ours.iter().zip(theirs).position(|(our, their)| our != their);
        let front = unlike.is_none();
        self.note("order: by a front part", front);
        self.note("order: by a front part, all but the last move", front && fewer + 1 == most);
        self.note("order: by a front part, no moves", front && fewer == 0);
        self.note("order: the first record of both decides", unlike == Some(0));
        self.note("order: the last record of both decides", most > 1 && fewer == most && unlike == Some(most - 1));
        let more = ours.len() > theirs.len();
        self.note("order: the map of more moves is the lesser", more && order == Ordering::Less);
        if let Some(at) = unlike {
            self.by_numbers(numbers(ours[at]), numbers(theirs[at]));
        }
    }

    /// Which of the numbers of two records decides, and whether others would say otherwise.
    fn by_numbers(&mut self, our: [u16; 4], their: [u16; 4]) {
        let order = our.cmp(&their);
        let decides = (0..4).find(|&at| our[at] != their[at]);
        let [from, target, time, limit] = [0, 1, 2, 3].map(|at| decides == Some(at));
        let otherwise = |our: u16, their: u16| our.cmp(&their) == order.reverse();
        let low_otherwise = |at: usize| otherwise(our[at] % 256, their[at] % 256);
        self.note("order: by from", from);
        self.note("order: by from, the low byte says otherwise", from && low_otherwise(0));
        self.note("order: by from, the target says otherwise", from && otherwise(our[1], their[1]));
        self.note("order: by target", target);
        self.note("order: by target, the low byte says otherwise", target && low_otherwise(1));
        self.note("order: by target, the time says otherwise", target && otherwise(our[2], their[2]));
        self.note("order: by time", time);
        self.note("order: by time, the low byte says otherwise", time && low_otherwise(2));
        self.note("order: by time, the limit says otherwise", time && otherwise(our[3], their[3]));
        self.note("order: by limit", limit);
        self.note("order: by limit, the low byte says otherwise", limit && low_otherwise(3));
        self.note("order: by limit, one move has none", limit && (our[3] == 0 || their[3] == 0));
    }

    /// The page lists of a search on two equal maps.
    pub fn equal_lists(&mut self, kind: Search, list: &[u8], other: &[u8]) {
        match kind {
            Search::Plain => self.note("order: equal, other plain lists", list != other),
            Search::Df => {
                self.note("order: equal, other DF lists", list != other);
                self.note("order: equal, DF lists of other lengths", list.len() != other.len());
            }
        }
    }
}

fn numbers((from, target, time, limit): (u16, u16, u16, u16)) -> [u16; 4] {
    [from, target, time, limit]
}
