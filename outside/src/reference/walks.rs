//! What a search has to give, by a method that has no steps in common with it: Bellman and Ford's rounds over all
//! open moves of the good pages give the least times over "walks that leave only stations on good pages"; rounds over
//! those of the moves that keep to least times give the fewest moves; predecessors, refused page and Dijkstra's list
//! are then read off both. A pair of time and moves is compared only where stations are put in order.

use super::image::{Fault, Image, Station};
use super::{Query, NO_MOVES, NO_PREDECESSOR, NO_TIME, SOURCE};

/// A move of a walk, with the station it leaves.
#[derive(Clone, Copy)]
pub struct Leg {
    pub from: u16,
    pub target: u16,
    pub time: u16,
}

/// The bad page that ends both searches.
#[derive(Clone, Copy, Debug, PartialEq, Eq)]
pub struct RefusedPage {
    pub page: usize,
    pub fault: Fault,
}

pub struct Truth {
    pub times: Vec<u32>,
    pub moves: Vec<u16>,
    pub preds: Vec<u16>,
    pub reached: usize,
    pub refused: Option<RefusedPage>,
    pub plain_list: Vec<u8>,
}

/// Every page of an image as reading it ends.
pub type Pages = Vec<Result<Vec<Station>, Fault>>;

pub fn read_all(image: &Image) -> Pages {
    (0..image.pages).map(|page| image.read(page)).collect()
}

/// The moves of all good pages that are open to a strip.
pub fn legs(pages: &Pages, strip: u16) -> Vec<Leg> {
    let mut legs = Vec::new();
    for station in pages.iter().flatten().flatten() {
        let open = station.moves.iter().filter(|step| step.is_open(strip));
        legs.extend(open.map(|step| Leg { from: station.number, target: step.target, time: step.time }));
    }
    legs
}

/// What a search has to give: "less means less time, then fewer moves".
pub fn truth(image: &Image, pages: &Pages, query: Query) -> Truth {
    let mut legs = legs(pages, query.strip);
    let times = least_times(image.stations, &legs, query.source);
    legs.retain(|leg| leg.keeps_to(&times));
    let moves = fewest_moves(image.stations, &legs, query.source);
    let mut order: Vec<usize> = (0..image.stations).filter(|&station| times[station].is_some()).collect();
    order.sort_by_key(|&station| (times[station], moves[station], station));
    let first_bad = order.iter().position(|&station| pages[image.page_of(station)].is_err());
    // Both searches settle in this order, since every move makes a way more; and the first station on a bad page is the
    // last they refer for.
    let settled = &order[..first_bad.map_or(order.len(), |at| at + 1)];
    let plain_list = settled.iter().map(|&station| image.directory[station]).collect();
    let refused = first_bad.and_then(|at| {
        let page = image.page_of(order[at]);
        pages[page].as_ref().err().map(|&fault| RefusedPage { page, fault })
    });
    if refused.is_some() {
        let (times, moves) = (vec![NO_TIME; image.stations], vec![NO_MOVES; image.stations]);
        let preds = vec![NO_PREDECESSOR; image.stations];
        return Truth { times, moves, preds, reached: 0, refused, plain_list };
    }
    let preds = lowest_predecessors(&moves, &legs, query.source);
    let reached = order.len();
    let times = times.iter().map(|time| time.map_or(NO_TIME, |time| time as u32)).collect();
    let moves = moves.iter().map(|moves| moves.unwrap_or(NO_MOVES)).collect();
    Truth { times, moves, preds, reached, refused, plain_list }
}

/// Rounds over all moves until none lowers a time.
fn least_times(stations: usize, legs: &[Leg], source: u16) -> Vec<Option<u64>> {
    let mut times = vec![None; stations];
    times[usize::from(source)] = Some(0);
    loop {
        let mut lowered = false;
        for leg in legs {
            let Some(time) = times[usize::from(leg.from)] else { continue };
            let sum: u64 = time + u64::from(leg.time);
            let target = &mut times[usize::from(leg.target)];
            if target.is_none_or(|before| sum < before) {
                *target = Some(sum);
                lowered = true;
            }
        }
        if !lowered {
            return times;
        }
    }
}

impl Leg {
    /// Whether "time plus move gives v's time".
    fn keeps_to(self, times: &[Option<u64>]) -> bool {
        let sum = times[usize::from(self.from)].map(|time| time + u64::from(self.time));
        sum.is_some() && sum == times[usize::from(self.target)]
    }
}

/// Rounds over the legs that keep to least times, of which every walk of a least time consists: what a round comes to
/// first is a move farther than what the round before came to. What it comes to again, where legs of time 0 lead round,
/// has its number already.
fn fewest_moves(stations: usize, legs: &[Leg], source: u16) -> Vec<Option<u16>> {
    let mut moves = vec![None; stations];
    let mut round = 0;
    moves[usize::from(source)] = Some(round);
    loop {
        let mut further = false;
        for leg in legs {
            if moves[usize::from(leg.from)] == Some(round) && moves[usize::from(leg.target)].is_none() {
                moves[usize::from(leg.target)] = Some(round + 1);
                further = true;
            }
        }
        if !further {
            return moves;
        }
        round += 1;
    }
}

/// "The predecessor is the lowest station that gives both numbers": the time, as all these legs do, and the moves. The
/// source's 65,534 is above every station and stays only if no station gives both of its numbers, 0 and 0.
fn lowest_predecessors(moves: &[Option<u16>], legs: &[Leg], source: u16) -> Vec<u16> {
    let mut preds = vec![NO_PREDECESSOR; moves.len()];
    preds[usize::from(source)] = SOURCE;
    for leg in legs {
        let target = usize::from(leg.target);
        if moves[usize::from(leg.from)].map(|moves| moves + 1) == moves[target] {
            preds[target] = preds[target].min(leg.from);
        }
    }
    preds
}
