//! Good maps in the form of a yard, with many ways of equal time and different numbers of moves (document 02, "Fewer
//! lifts"): rings as long as can be, grids of lanes, and layers. A move over two or three fields mostly takes as long
//! as two or three moves over one, so that it saves no time, only moves.

use super::good::Terms;
use super::{Map, MOST_PAGES, MOST_STATIONS};
use crate::random::Random;
use std::ops::Range;

/// What a move over one field can take; over three it still takes no more than 65,535.
const UNITS: [usize; 5] = [1, 1, 2, 100, 21_845];

/// A step on a grid, across and along.
type Step = (isize, isize);

/// Over one field and over two.
const STEPS: [Step; 4] = [(1, 0), (-1, 0), (0, 1), (0, -1)];
const DOUBLE_STEPS: [Step; 8] = [(2, 0), (-2, 0), (0, 2), (0, -2), (1, 1), (1, -1), (-1, 1), (-1, -1)];

/// The places of a layer.
type Layer = Range<usize>;

/// A map while moves are laid, by places in the yard.
struct Yard<'a> {
    map: Map,
    /// The station at each place.
    stations: Vec<usize>,
    terms: &'a Terms,
    /// What a move over one field takes.
    unit: usize,
    /// One move in so many takes a tenth of a second more or less; 0 if none does.
    uneven: usize,
}

/// A grid or layers, on a map without moves.
pub fn draw(map: Map, random: &mut Random, terms: &Terms) -> Map {
    let stations = numbers(random, map.stations());
    let (unit, uneven) = (random.pick(&UNITS), random.pick(&[0, 0, 12]));
    let mut yard = Yard { map, stations, terms, unit, uneven };
    if random.one_in(2) {
        yard.lay_grid(random);
    } else {
        yard.lay_layers(random);
    }
    yard.map
}

/// The station at each place: rising, falling or mixed, so that of equal ways now the one through low numbers and now
/// the one through high numbers has fewer moves.
fn numbers(random: &mut Random, stations: usize) -> Vec<usize> {
    let mut numbers: Vec<usize> = (0..stations).collect();
    match random.below(4) {
        0 => {}
        1 => numbers.reverse(),
        _ => random.shuffle(&mut numbers),
    }
    numbers
}

/// A ring of moves and little else. Where they are slow and there is nothing else, every source has the greatest times
/// and numbers of moves that a map can have; in the others some moves pass a station in twice the time, which may be 0.
pub fn longest_ring(random: &mut Random) -> Map {
    let stations = random.from_to(MOST_STATIONS - 3, MOST_STATIONS);
    let dealt = random.one_in(2);
    let limit = random.pick(&[None, Some(65_535)]);
    let unit = random.pick(&[65_535, 65_535, 32_767, 1, 0]);
    let page = |station| if dealt { station % MOST_PAGES } else { station * MOST_PAGES / stations };
    let mut map = Map::new(MOST_PAGES, (0..stations).map(|station| page(station) as u8).collect());
    let numbers = numbers(random, stations);
    for place in 0..stations {
        let ahead = |fields| numbers[(place + fields) % stations];
        map.add(ahead(0), ahead(1), unit, limit);
        if unit < 65_535 && random.one_in(3) {
            map.add(ahead(0), ahead(2), 2 * unit, limit);
        }
    }
    map
}

impl Yard<'_> {
    /// A move from place to place over so many fields, or one that takes no time.
    fn lay(&mut self, random: &mut Random, from: usize, target: usize, fields: usize) {
        let mut time = self.unit * fields;
        if self.uneven > 0 && random.one_in(self.uneven) {
            time = random.pick(&[time - 1, time + 1]).clamp(1, 65_535);
        }
        if self.terms.is_handover(random) {
            time = 0;
        }
        let limit = self.terms.some_limit(random);
        self.map.add(self.stations[from], self.stations[target], time as u16, limit);
    }

    /// Lanes across and along; then moves over two fields, straight or round a corner: none, some or all that there is
    /// room for.
    fn lay_grid(&mut self, random: &mut Random) {
        let width = random.from_to(1, self.stations.len().min(48));
        let doubled = random.pick(&[0, 2, 8]);
        self.lay_steps(random, width, 1, &STEPS, 7);
        self.lay_steps(random, width, 2, &DOUBLE_STEPS, doubled);
    }

    /// Moves over so many fields of a grid: of the steps that stay on it so many of eight.
    fn lay_steps(&mut self, random: &mut Random, width: usize, fields: usize, steps: &[Step], of_eight: usize) {
        let places = self.stations.len();
        for place in 0..places {
            for target in steps.iter().filter_map(|&step| beside(place, step, width, places)) {
                if random.below(8) < of_eight {
                    self.lay(random, place, target, fields);
                }
            }
        }
    }

    /// Layers of a few places each, and moves to the next layer, to the one behind it and to the third.
    fn lay_layers(&mut self, random: &mut Random) {
        let widest = random.from_to(1, 5);
        let layers = layers(random, self.stations.len(), widest);
        let back = random.pick(&[0, 1, 2]);
        for fields in 1..=3 {
            for (near, far) in layers.iter().zip(layers.iter().skip(fields)) {
                self.lay_between(random, near, far, fields, back);
            }
        }
    }

    /// Some moves from one layer to another, so many of eight the other way.
    fn lay_between(&mut self, random: &mut Random, near: &Layer, far: &Layer, fields: usize, back: usize) {
        for _ in 0..random.from_to(1, near.len() + far.len()) {
            let mut ends = [near, far].map(|layer| random.from_to(layer.start, layer.end - 1));
            if random.below(8) < back {
                ends.reverse();
            }
            self.lay(random, ends[0], ends[1], fields);
        }
    }
}

/// The place that a step leads to, if it stays on the grid.
fn beside(place: usize, (across, along): Step, width: usize, places: usize) -> Option<usize> {
    let column = (place % width).checked_add_signed(across).filter(|&column| column < width)?;
    let row = (place / width).checked_add_signed(along)?;
    Some(row * width + column).filter(|&place| place < places)
}

fn layers(random: &mut Random, places: usize, widest: usize) -> Vec<Layer> {
    let mut layers = Vec::new();
    let mut first = 0;
    while first < places {
        let end = places.min(first + random.from_to(1, widest));
        layers.push(first..end);
        first = end;
    }
    layers
}
