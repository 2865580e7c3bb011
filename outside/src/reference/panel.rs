//! "Panel call" of document 02: the time to one station as one float, by the DF search of `letter`.

use super::image::Image;
use super::{letter, Answer, Query, Search, Tables, NO_TIME};

/// "Inside, the answer is either a time as a 64-bit float or no route, the float equal to the whole number of tenths."
#[derive(Clone, Copy, Debug, PartialEq)]
pub enum Inside {
    Tenths(f64),
    NoRoute,
}

/// One search, which can then be asked for any station.
pub struct Panel {
    /// The map's N, or the refusal of its heading, length or directory (1 to 5).
    pub stations: Result<usize, u32>,
    /// The least time to each station, or the refusal of the search.
    pub times: Result<Vec<u32>, u32>,
}

impl Panel {
    /// "The new entry runs the full DF search with tables of its own": they have an entry for each station.
    pub fn new(image: &[u8], query: Query) -> Self {
        let stations = Image::open(image).map(|map| map.stations).map_err(|answer| answer.refusal);
        let n = stations.unwrap_or(0);
        let (mut times, mut moves, mut preds) = (vec![0; n], vec![0; n], vec![0; n]);
        let (mut marks, mut list) = (vec![0; n], vec![0; n]);
        let own =
            Tables { times: &mut times, moves: &mut moves, preds: &mut preds, marks: &mut marks, list: &mut list };
        let Answer { refusal, .. } = letter::search(Search::Df, image, query, own);
        Panel { stations, times: if refusal == 0 { Ok(times) } else { Err(refusal) } }
    }

    /// "Station numbers not below N count as refusal 6": after 1 to 5, by which there is no N, and before any page.
    pub fn inside(&self, station: u16) -> Result<Inside, u32> {
        let station = usize::from(station);
        if station >= self.stations? {
            return Err(6);
        }
        match self.times.as_ref().map_err(|&refusal| refusal)?[station] {
            NO_TIME => Ok(Inside::NoRoute),
            time => Ok(Inside::Tenths(f64::from(time))),
        }
    }

    /// "Outside, as one float, no route is -1 and refusal n is -100 - n, its place left out."
    pub fn outside(&self, station: u16) -> f64 {
        match self.inside(station) {
            Ok(Inside::Tenths(tenths)) => tenths,
            Ok(Inside::NoRoute) => -1.0,
            Err(refusal) => -100.0 - f64::from(refusal),
        }
    }
}
