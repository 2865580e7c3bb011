//! What came up in reading and writing records: rooms, and drawings at the bounds of what fits or refused for just one
//! reason.

use crate::records::Listed;
use crate::tally::Tally;
use outside::maps::drawings::{MOST_KEPT, MOST_RECORDS};
use outside::reference::image::PAGE_BYTES;
use outside::reference::records::{Drawing, Record};
use outside::reference::Answer;

impl Tally {
    /// How a list's room lay to the records of an image.
    pub fn rooms(&mut self, listed: &Listed, room: usize) {
        let count = listed.as_ref().map(Vec::len).ok();
        let moves = count.is_some_and(|count| count > 0);
        self.note("records: room for just the moves", moves && Some(room) == count);
        self.note("records: room for one less", moves && Some(room + 1) == count);
        self.note("records: room for more", moves && Some(room) > count);
        self.note("records: no room, and no moves", room == 0 && count == Some(0));
        self.note("records: no room, and some moves", room == 0 && moves);
        self.note("records: no room, and refused by a page", room == 0 && listed.as_ref().is_err_and(is_of_page));
        self.note("records: 12,000 of them", count == Some(MOST_RECORDS));
    }

    /// What a drawing was like that was accepted, or refused for just one reason.
    pub fn written(&mut self, drawing: Drawing, buffer: usize, answer: Answer) {
        let Drawing { records, stations, pages, directory } = drawing;
        let place = answer.place as usize;
        let refused = |refusal| answer.refusal == refusal;
        let long = buffer != 4 + usize::from(stations) + PAGE_BYTES * usize::from(pages);
        let other = directory.len() != usize::from(stations);
        self.note("write: refused 4 by the buffer alone", refused(4) && !other);
        self.note("write: refused 4 by the directory's length alone", refused(4) && !long);
        self.note(
            "write: refused 5, some later station too",
            refused(5) && is_outside(&directory[place + 1..], pages),
        );
        self.note("write: refused 19, 12,240 records before it", refused(19) && place >= MOST_KEPT);
        self.note("write: refused 20, over 12,240 records", refused(20) && records.len() > MOST_KEPT);
        if refused(19) {
            self.record_at_fault(records, stations, place);
        }
        if refused(0) || refused(20) {
            self.page_lengths(drawing, answer);
        }
    }

    /// Why a record is refused, where it is for one reason alone.
    fn record_at_fault(&mut self, records: &[Record], stations: u16, index: usize) {
        let record = records[index];
        let before = index.checked_sub(1).map(|index| records[index]);
        let from = record.from >= stations;
        let target = record.target >= stations;
        let own = record.target == record.from;
        let low = before.is_some_and(|before| before.key() >= record.key());
        let alone = [from, target, own, low].iter().filter(|&&fault| fault).count() == 1;
        let below = |key: fn(Record) -> u16| before.is_some_and(|before| key(record) < key(before));
        let (lower_from, lower_target) = (below(|record| record.from), below(|record| record.target));
        let equal = before.is_some_and(|before| before.key() == record.key());
        self.note("write: refused 19 by from alone", alone && from);
        self.note("write: refused 19 by target alone", alone && target);
        self.note("write: refused 19 by its own target alone", alone && own);
        self.note("write: refused 19 by a lower from alone", alone && low && lower_from && !lower_target);
        self.note("write: refused 19 by a lower target alone", alone && low && !lower_from && lower_target);
        self.note("write: refused 19 by an equal record alone", alone && low && equal && before == Some(record));
        self.note("write: refused 19 by an equal move alone", alone && low && equal && before != Some(record));
        self.note("write: refused 19 at the first record", index == 0);
        self.note("write: refused 19 at the last record", index > 0 && index + 1 == records.len());
    }

    /// How many bytes the pages need, where the records are in order.
    fn page_lengths(&mut self, drawing: Drawing, answer: Answer) {
        let Drawing { records, pages, directory, .. } = drawing;
        let mut needs = vec![1; usize::from(pages)];
        for &page in directory {
            needs[usize::from(page)] += 3;
        }
        for record in records {
            needs[usize::from(directory[usize::from(record.from)])] += if record.limit == 0 { 5 } else { 7 };
        }
        let limits = records.iter().filter(|record| record.limit != 0).count();
        let accepted = answer.refusal == 0;
        let need = needs[answer.place as usize];
        let most = needs.iter().filter(|&&need| need > PAGE_BYTES).count();
        self.note("write: accepted, a page of just 256 bytes", accepted && needs.contains(&PAGE_BYTES));
        self.note("write: accepted, moves without limits and with", accepted && limits > 0 && limits < records.len());
        self.note("write: accepted, a page without stations", accepted && needs.contains(&1));
        self.note("write: accepted, 12,000 records", accepted && records.len() == MOST_RECORDS);
        self.note("write: accepted, 85 stations on a page", accepted && has_page_of(directory, 85));
        self.note("write: refused 20 for one byte", !accepted && need == PAGE_BYTES + 1);
        self.note("write: refused 20, page 0", !accepted && answer.place == 0);
        self.note("write: refused 20, a later page", !accepted && answer.place > 0);
        self.note("write: refused 20, some later page too", !accepted && most > 1);
        self.note(
            "write: refused 20, over 65,536 bytes by 256 at most",
            !accepted && need >= 65_536 && need % 65_536 <= 256,
        );
        self.note("write: refused 20, 86 stations on a page", !accepted && has_page_of(directory, 86));
    }
}

fn is_of_page(answer: &Answer) -> bool {
    answer.refusal >= 8
}

fn is_outside(directory: &[u8], pages: u16) -> bool {
    directory.iter().any(|&page| u16::from(page) >= pages)
}

/// Whether some page has just so many stations.
fn has_page_of(directory: &[u8], count: usize) -> bool {
    (0..=255).any(|page| directory.iter().filter(|&&its| its == page).count() == count)
}
