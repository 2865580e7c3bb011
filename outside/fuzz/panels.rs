//! The panel: its float for a station, bit for bit. Each search case is asked for stations that the map does not have
//! and for some that it has, on small maps often for all of them.

use crate::tally::Tally;
use outside::random::Random;
use outside::reference::panel::Panel;
use outside::reference::walks::Truth;
use outside::reference::{Query, NO_TIME};
use outside::yard;

/// On maps of up to so many stations all are asked for, on maps of k times as many once in k times: for us each station
/// is a search.
const ALL_UP_TO: usize = 8;

/// Our panel against the reference's, which makes one search and is handed back.
pub fn compare(image: &[u8], query: Query, random: &mut Random, tally: &mut Tally) -> Result<Panel, String> {
    let panel = Panel::new(image, query);
    let n = heading_n(image, random);
    let every = panel.stations.is_ok_and(|stations| random.one_in(stations.div_ceil(ALL_UP_TO)));
    let mut asked = vec![n, n.saturating_add(1), 65_535, random.word() as u16];
    if every {
        asked.extend(0..n);
    } else {
        asked.extend([query.source, random.below(usize::from(n).max(1)) as u16]);
    }
    for station in asked {
        let (ours, wanted) = (yard::panel(image, query, station), panel.outside(station));
        if ours.to_bits() != wanted.to_bits() {
            return Err(format!("station {station} shows {ours:?}, not {wanted:?}"));
        }
        tally.panel(&panel, station);
    }
    tally.note("panel: every station of a map", every);
    Ok(panel)
}

/// N as the heading's word gives it, in damaged images too; any number if there is no heading.
fn heading_n(image: &[u8], random: &mut Random) -> u16 {
    match *image {
        [low, high, _, _, ..] => u16::from_le_bytes([low, high]),
        _ => random.word() as u16,
    }
}

/// The reference's panel for every station of a map, by the other method.
pub fn compare_truth(panel: &Panel, truth: &Truth) -> Result<(), String> {
    for (station, &time) in truth.times.iter().enumerate() {
        let wanted = match truth.refused {
            Some(refused) => -100 - i64::from(refused.fault.refusal),
            None if time == NO_TIME => -1,
            None => i64::from(time),
        };
        let shown = panel.outside(station as u16);
        if shown.to_bits() != (wanted as f64).to_bits() {
            return Err(format!("panel: station {station} shows {shown:?}, by walks {wanted}"));
        }
    }
    Ok(())
}
