//! "Words of demand 3" of document 01, on page lists.

use super::walks::Leg;

/// Whether `part` is `whole` with some entries struck or none.
pub fn is_left_of(part: &[u8], whole: &[u8]) -> bool {
    let mut rest = whole.iter();
    part.iter().all(|page| rest.any(|other| other == page))
}

/// One-page reads: 1 for the first entry, 1 for each entry unlike the one before.
pub fn one_page_reads(list: &[u8]) -> usize {
    let unlike = list.windows(2).filter(|pair| pair[0] != pair[1]).count();
    unlike + usize::from(!list.is_empty())
}

/// The pages that stand in a list, by page number.
pub fn listed(list: &[u8]) -> [bool; 256] {
    let mut listed = [false; 256];
    for &page in list {
        listed[usize::from(page)] = true;
    }
    listed
}

/// How many entry stations each page has: its stations that are the source or the target of an open move from a
/// station on another listed page.
pub fn entry_stations(directory: &[u8], legs: &[Leg], source: u16, list: &[u8]) -> [usize; 256] {
    let listed = listed(list);
    let mut is_entry = vec![false; directory.len()];
    is_entry[usize::from(source)] = true;
    for leg in legs {
        let from = directory[usize::from(leg.from)];
        let onto = directory[usize::from(leg.target)];
        if from != onto && listed[usize::from(from)] {
            is_entry[usize::from(leg.target)] = true;
        }
    }
    let mut counts = [0; 256];
    for (station, &page) in directory.iter().enumerate() {
        counts[usize::from(page)] += usize::from(is_entry[station]);
    }
    counts
}

/// The first page that stands in the list more often than it has entry stations.
pub fn listed_too_often(list: &[u8], entries: &[usize; 256]) -> Option<u8> {
    let mut seen = [0; 256];
    list.iter().copied().find(|&page| {
        seen[usize::from(page)] += 1;
        seen[usize::from(page)] > entries[usize::from(page)]
    })
}
