//! The replay of a recorded page list, as one gets it in Rust without proofs. The pages held are linked in the order of
//! their last references, so that a reference moves a page to one end in a few steps; at a miss they are gone through
//! from the other end, up to the first that is far.

use outside::reference::replay::Asked;

/// The number of reads; none if the call is refused.
pub fn replay(asked: Asked) -> Option<u64> {
    let Asked { list, pages, frames, distances, threshold } = asked;
    let counted = (1..=240).contains(&pages) && (1..=64).contains(&frames);
    if !counted || distances.len() != pages * pages || list.iter().any(|&page| usize::from(page) >= pages) {
        return None;
    }
    let mut store = Store::new();
    let (mut reads, mut last) = (0, 0);
    for &page in list {
        if store.held[usize::from(page)] {
            store.unlink(page);
        } else {
            reads += 1;
            if store.count == frames {
                let row = &distances[usize::from(last) * pages..][..pages];
                store.remove(store.leaving(|page| row[usize::from(page)] > threshold));
            }
            store.held[usize::from(page)] = true;
            store.count += 1;
        }
        store.link(page);
        last = page;
    }
    Some(reads)
}

/// Where the chain of the pages begins and ends; no page has this number.
const END: u8 = 255;

/// Pages in a ring: after `END` the most recently used one, before `END` the least.
struct Store {
    held: [bool; 256],
    count: usize,
    older: [u8; 256],
    newer: [u8; 256],
}

impl Store {
    fn new() -> Self {
        Store { held: [false; 256], count: 0, older: [END; 256], newer: [END; 256] }
    }

    fn link(&mut self, page: u8) {
        let newest = self.older[usize::from(END)];
        (self.older[usize::from(page)], self.newer[usize::from(page)]) = (newest, END);
        self.newer[usize::from(newest)] = page;
        self.older[usize::from(END)] = page;
    }

    fn unlink(&mut self, page: u8) {
        let (older, newer) = (self.older[usize::from(page)], self.newer[usize::from(page)]);
        self.newer[usize::from(older)] = newer;
        self.older[usize::from(newer)] = older;
    }

    fn remove(&mut self, page: u8) {
        self.unlink(page);
        self.held[usize::from(page)] = false;
        self.count -= 1;
    }

    /// The least recently used of the far pages, or of all if none is.
    fn leaving(&self, is_far: impl Fn(u8) -> bool) -> u8 {
        let oldest = self.newer[usize::from(END)];
        let mut page = oldest;
        while page != END {
            if is_far(page) {
                return page;
            }
            page = self.newer[usize::from(page)];
        }
        oldest
    }
}
