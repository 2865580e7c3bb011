//! "Route" of document 01. The way is not found by following predecessors back, as the engine does, but from the
//! front: the stations are numbered by how many moves lie between them and a source, in rounds.

use super::{Answer, NO_PREDECESSOR, SOURCE};

/// The ways of one predecessor table.
pub struct Routes<'a> {
    preds: &'a [u16],
    /// For each station the number of stations on its route; none where its chain does not end at a source.
    lengths: Vec<Option<usize>>,
}

impl<'a> Routes<'a> {
    pub fn new(preds: &'a [u16]) -> Self {
        let mut lengths = vec![None; preds.len()];
        let mut followers = vec![Vec::new(); preds.len()];
        let mut front = Vec::new();
        for (station, &before) in preds.iter().enumerate() {
            if let Some(list) = followers.get_mut(usize::from(before)).filter(|_| before < SOURCE) {
                list.push(station);
            } else if before == SOURCE {
                front.push(station);
            }
        }
        let mut length = 1;
        while !front.is_empty() {
            for &station in &front {
                lengths[station] = Some(length);
            }
            front = front.iter().flat_map(|&station| followers[station].iter().copied()).collect();
            length += 1;
        }
        Routes { preds, lengths }
    }

    /// 15, "no route" (accepted, count 0), 16 and 17, in this order; `out` is written only where a route is answered.
    pub fn call(&self, station: u16, out: &mut [u16]) -> Answer {
        let n = self.preds.len();
        if n == 0 || n > 2048 || usize::from(station) >= n {
            return Answer::refused(15);
        }
        if self.preds[usize::from(station)] == NO_PREDECESSOR {
            return Answer::default();
        }
        let Some(length) = self.lengths[usize::from(station)] else { return Answer::refused(16) };
        if out.len() < length {
            return Answer::refused(17);
        }
        let mut at = station;
        for place in out[..length].iter_mut().rev() {
            *place = at;
            at = self.preds[usize::from(at)];
        }
        Answer { count: length as u32, ..Answer::default() }
    }

    /// The number of stations on a station's route, if it has one.
    pub fn length(&self, station: u16) -> Option<usize> {
        self.lengths.get(usize::from(station)).copied().flatten()
    }
}
