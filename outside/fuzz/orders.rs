//! The order of maps. The image of a case is filed together with drafts of it, with an image that is damaged and with
//! one that it has nothing to do with. The naming call is made on many pairs of them, each both ways round, and on an
//! image and itself. What it says is held against laws that need no reference, against the reference, and the reference
//! against how the drafts were made; on images that it calls equal both searches are held against each other.

mod called;
mod decided;
mod equals;
mod laws;

use crate::tally::Tally;
use called::Called;
use outside::maps::damage::damage;
use outside::maps::drafts::Draft;
use outside::random::Random;
use outside::reference::order::{self, Named, Rank};
use outside::reference::Answer;
use std::cmp::Ordering;
use std::collections::BTreeMap;

/// An image, and what the reference makes of it.
struct Filed {
    kind: &'static str,
    image: Vec<u8>,
    rank: Result<Rank, Answer>,
    /// The index of the image that it was drawn after, and how it lies to that one by the way it was made.
    drawn_after: Option<(usize, Ordering)>,
}

impl Filed {
    fn new(kind: &'static str, image: Vec<u8>) -> Self {
        let rank = order::rank(&image);
        Filed { kind, image, rank, drawn_after: None }
    }

    fn is_drawn_after(&self, index: usize) -> bool {
        self.drawn_after.is_some_and(|(base, _)| base == index)
    }
}

/// The images of a case, and the calls on pairs of them by the indices of first and second image.
struct Pile {
    files: Vec<Filed>,
    calls: BTreeMap<(usize, usize), Called>,
}

/// Of a case its image, and one that was written of a drawing, if that was accepted.
pub fn compare(image: &[u8], written: Option<Vec<u8>>, random: &mut Random, tally: &mut Tally) -> Result<(), String> {
    compare_overlapping(image, random, tally)?;
    let mut pile = Pile { files: file(image, written, random, tally), calls: BTreeMap::new() };
    pile.call(random);
    laws::compare(&pile)?;
    for (&pair, called) in &pile.calls {
        pile.compare(pair, called, random, tally).map_err(|difference| pile.of(pair, &difference))?;
    }
    Ok(())
}

/// The image and the one that was written; of one that is good the same moves on other pages, a draft and a draft of
/// that; and one of them all, damaged.
fn file(image: &[u8], written: Option<Vec<u8>>, random: &mut Random, tally: &mut Tally) -> Vec<Filed> {
    let mut files = vec![Filed::new("the case", image.to_vec())];
    files.extend(written.map(|written| Filed::new("another map", written)));
    let good = files.iter().enumerate().find_map(|(at, filed)| Some((at, filed.rank.as_ref().ok()?)));
    if let Some((base, rank)) = good {
        let draft = Draft::new(&files[base].image, rank);
        file_drafts(&mut files, base, draft, random, tally);
    }
    let mut damaged = files[random.below(files.len())].image.clone();
    damage(&mut damaged, random);
    files.push(Filed::new("a damaged map", damaged));
    files
}

fn file_drafts(files: &mut Vec<Filed>, base: usize, draft: Draft, random: &mut Random, tally: &mut Tally) {
    let redrawn = draft.redrawn(random).expect("there is room on the same pages under other numbers");
    let drawn_after = Some((base, Ordering::Equal));
    files.push(Filed { drawn_after, ..Filed::new("the map on other pages", redrawn) });
    let (mut draft, mut after) = (draft, base);
    for _ in 0..2 {
        let changed = draft.change(random);
        let Some(image) = changed.draft.image(random) else { return };
        tally.kind(changed.kind);
        files.push(Filed { drawn_after: Some((after, changed.change)), ..Filed::new(changed.kind, image) });
        (draft, after) = (changed.draft, files.len() - 1);
    }
}

impl Pile {
    /// Calls on each draft and what it was drawn after, and on half of the other pairs, of an image and itself too.
    fn call(&mut self, random: &mut Random) {
        let all = 0..self.files.len();
        let pairs = all.flat_map(|second| (0..=second).map(move |first| (first, second)));
        for (first, second) in pairs {
            if self.files[second].is_drawn_after(first) || random.one_in(2) {
                self.call_on((first, second), random);
                if first != second {
                    self.call_on((second, first), random);
                }
            }
        }
    }

    fn call_on(&mut self, (first, second): (usize, usize), random: &mut Random) {
        let called = Called::new(&self.files[first].image, &self.files[second].image, random);
        self.calls.insert((first, second), called);
    }

    fn of(&self, (first, second): (usize, usize), difference: &str) -> String {
        format!("order of {} and {}: {difference}", self.files[first].kind, self.files[second].kind)
    }

    /// A call against the reference, and the reference against how the images were made.
    fn compare(
        &self,
        (at, with): (usize, usize),
        called: &Called,
        random: &mut Random,
        tally: &mut Tally,
    ) -> Result<(), String> {
        let (first, second) = (&self.files[at], &self.files[with]);
        let wanted = order::name(&first.rank, &second.rank);
        called.compare(wanted)?;
        if second.is_drawn_after(at) {
            let made = second.drawn_after.map(|(_, change)| Named::Accepted(change.reverse()));
            if made != Some(wanted) {
                return Err(format!("reference: {wanted:?}, and by the way the draft was made {made:?}"));
            }
        }
        tally.order(first, second, wanted, at == with);
        if at < with && wanted == Named::Accepted(Ordering::Equal) {
            equals::compare_searches(first, second, random, tally)?;
        }
        Ok(())
    }
}

/// An image and a part of it, in one memory.
fn compare_overlapping(image: &[u8], random: &mut Random, tally: &mut Tally) -> Result<(), String> {
    if !random.one_in(4) {
        return Ok(());
    }
    let cut = random.below(image.len() + 1);
    let part = if random.one_in(2) { &image[cut..] } else { &image[..cut] };
    let (whole, of_part) = (order::rank(image), order::rank(part));
    let differs = |difference| format!("order of the case and a part of its memory: {difference}");
    Called::new(image, part, random).compare(order::name(&whole, &of_part)).map_err(differs)?;
    Called::new(part, image, random).compare(order::name(&of_part, &whole)).map_err(differs)?;
    tally.note("order: images that overlap", !part.is_empty());
    Ok(())
}
