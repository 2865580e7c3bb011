//! Good maps of many shapes: small and full, with many equal sums, with pages that are entered again and again,
//! chains, stations without moves, pages without stations, times of 0, 1 and 65,535, moves without and with limits; and
//! those of `yards`. One in four has handovers, moves that take no time (document 02, "Handover without time").

use super::{yards, Map, MOST_ON_A_PAGE, MOST_PAGES, MOST_STATIONS};
use crate::random::Random;

/// How stations lie on pages.
#[derive(Clone, Copy)]
enum Layout {
    Blocks,
    RoundRobin,
    Scattered,
    FewPages,
}

/// Where moves lead.
#[derive(Clone, Copy)]
enum Reach {
    Any,
    Near,
    Forward,
    Back,
    SamePage,
    OtherPage,
    Hub,
}

/// What moves take.
#[derive(Clone, Copy)]
enum Pace {
    One,
    Most,
    /// 1 to 3.
    Few,
    /// 1 to 4.
    Small,
    Wide,
    /// As far as the numbers differ: every way that does not turn back takes the same time.
    Distance,
    /// The square of that: many short moves are quicker than a long one, so times fall again and again.
    Square,
}

/// What the moves of a map are like.
pub struct Terms {
    pace: Pace,
    handovers: Handovers,
    /// So many moves of four have a limit.
    limited: usize,
    /// The length that most limits lie next to: a strip of about that length finds some moves open and some closed.
    middle: u16,
}

/// Which moves take no time, whatever the pace.
#[derive(Clone, Copy)]
struct Handovers {
    /// So many of eight, wherever they lead.
    of_eight: usize,
    /// Beside them those of turntables and longer cycles, for which so many of eight stations are drawn.
    in_cycles: usize,
}

/// Chains laid before any other move.
#[derive(Clone, Copy)]
enum Chain {
    None,
    Up,
    Down,
    Ring,
}

const LAYOUTS: [Layout; 4] = [Layout::Blocks, Layout::RoundRobin, Layout::Scattered, Layout::FewPages];
const REACHES: [Reach; 7] =
    [Reach::Any, Reach::Near, Reach::Forward, Reach::Back, Reach::SamePage, Reach::OtherPage, Reach::Hub];
const PACES: [Pace; 7] = [Pace::One, Pace::Most, Pace::Few, Pace::Small, Pace::Wide, Pace::Distance, Pace::Square];
const NO_HANDOVERS: Handovers = Handovers { of_eight: 0, in_cycles: 0 };
/// All moves, most, half, half and cycles, and cycles alone, few or many.
const HANDOVERS: [Handovers; 6] = [
    Handovers { of_eight: 8, in_cycles: 0 },
    Handovers { of_eight: 7, in_cycles: 0 },
    Handovers { of_eight: 4, in_cycles: 0 },
    Handovers { of_eight: 4, in_cycles: 2 },
    Handovers { of_eight: 0, in_cycles: 2 },
    Handovers { of_eight: 0, in_cycles: 8 },
];
/// The stations of a cycle of handovers: two are a turntable's.
const CYCLES: [usize; 7] = [2, 2, 2, 2, 3, 4, 7];
const CHAINS: [Chain; 5] = [Chain::None, Chain::None, Chain::Up, Chain::Down, Chain::Ring];

/// A good map of any shape.
pub fn draw(random: &mut Random) -> Map {
    if random.one_in(600) {
        return yards::longest_ring(random);
    }
    // The smallest maps are too small for a form that shows.
    let formed = random.one_in(3);
    let sort = random.below(if formed { 120 } else { 200 });
    let (stations, pages) = size(random, sort);
    let mut map = Map::new(pages, directory(random, stations, pages));
    let terms = terms(random);
    lay_cycles(&mut map, random, &terms);
    if formed {
        return yards::draw(map, random, &terms);
    }
    lay_chain(&mut map, random, &terms);
    scatter_moves(&mut map, random, &terms);
    map
}

/// Mostly small, so that many cases are tried; the largest size of all now and then. The sort is below 200, and the
/// greater it is, the smaller the map.
fn size(random: &mut Random, sort: usize) -> (usize, usize) {
    let (most_stations, most_pages) = match sort {
        0 => return (MOST_STATIONS, MOST_PAGES),
        1 => (MOST_STATIONS, MOST_PAGES),
        2..=9 => (500, 120),
        10..=49 => (120, 30),
        50..=119 => (24, 8),
        _ => (9, 4),
    };
    let stations = random.from_to(1, most_stations);
    let fewest_pages = stations.div_ceil(MOST_ON_A_PAGE);
    (stations, random.from_to(fewest_pages, most_pages.max(fewest_pages)))
}

fn directory(random: &mut Random, stations: usize, pages: usize) -> Vec<u8> {
    let layout = random.pick(&LAYOUTS);
    let few = random.from_to(stations.div_ceil(MOST_ON_A_PAGE), pages);
    let mut on_page = vec![0; pages];
    let mut directory = Vec::with_capacity(stations);
    for station in 0..stations {
        let mut page = match layout {
            Layout::Blocks => station * pages / stations,
            Layout::RoundRobin => station % pages,
            Layout::Scattered => random.below(pages),
            Layout::FewPages => random.below(few),
        };
        while on_page[page] == MOST_ON_A_PAGE {
            page = (page + 1) % pages;
        }
        on_page[page] += 1;
        directory.push(page as u8);
    }
    directory
}

fn terms(random: &mut Random) -> Terms {
    let any = random.from_to(1, 65_535) as u16;
    let middle = random.pick(&[1, 2, 8_120, 65_534, 65_535, any]);
    let handovers = if random.one_in(4) { random.pick(&HANDOVERS) } else { NO_HANDOVERS };
    Terms { pace: random.pick(&PACES), handovers, limited: random.from_to(0, 4), middle }
}

/// Turntables and longer cycles of handovers, before any other move takes up the room: some of them on one page, some
/// over several.
fn lay_cycles(map: &mut Map, random: &mut Random, terms: &Terms) {
    let mut left = (map.stations() * terms.handovers.in_cycles).div_ceil(8);
    while left > 0 {
        let count = random.pick(&CYCLES);
        let reach = random.pick(&REACHES);
        let mut cycle = vec![random.below(map.stations())];
        for at in 1..count {
            cycle.push(target(map, random, reach, cycle[at - 1]));
        }
        for (at, &from) in cycle.iter().enumerate() {
            let limit = terms.some_limit(random);
            map.add(from, cycle[(at + 1) % count], 0, limit);
        }
        left = left.saturating_sub(count);
    }
}

fn lay_chain(map: &mut Map, random: &mut Random, terms: &Terms) {
    let chain = random.pick(&CHAINS);
    let stations = map.stations();
    for station in 1..stations {
        let (from, target) = match chain {
            Chain::None => return,
            Chain::Up | Chain::Ring => (station - 1, station),
            Chain::Down => (station, station - 1),
        };
        terms.add_move(map, random, from, target);
    }
    if let Chain::Ring = chain {
        terms.add_move(map, random, stations - 1, 0);
    }
}

fn scatter_moves(map: &mut Map, random: &mut Random, terms: &Terms) {
    let stations = map.stations();
    // From next to none to as many as the pages hold; two kinds of moves in one map.
    let tries = stations * random.pick(&[0, 1, 1, 2, 3, 6, 20]) / random.from_to(1, 2);
    let reaches = [random.pick(&REACHES), random.pick(&REACHES)];
    for _ in 0..tries {
        let from = random.below(stations);
        let reach = random.pick(&reaches);
        let target = target(map, random, reach, from);
        terms.add_move(map, random, from, target);
    }
}

fn target(map: &Map, random: &mut Random, reach: Reach, from: usize) -> usize {
    let stations = map.stations();
    match reach {
        Reach::Any => random.below(stations),
        Reach::Near => (from + random.below(9)).saturating_sub(4).min(stations - 1),
        Reach::Forward => random.from_to(from, stations - 1),
        Reach::Back => random.from_to(0, from),
        Reach::SamePage => look_for(map, random, |page| page == map.directory[from]),
        Reach::OtherPage => look_for(map, random, |page| page != map.directory[from]),
        Reach::Hub => random.below(stations.min(3)),
    }
}

/// A station on a wanted page, if a few tries find one.
fn look_for(map: &Map, random: &mut Random, wanted: impl Fn(u8) -> bool) -> usize {
    let mut station = random.below(map.stations());
    for _ in 0..6 {
        if wanted(map.directory[station]) {
            break;
        }
        station = random.below(map.stations());
    }
    station
}

impl Terms {
    fn add_move(&self, map: &mut Map, random: &mut Random, from: usize, target: usize) {
        let time = self.time(random, from, target);
        let limit = self.some_limit(random);
        map.add(from, target, time, limit);
    }

    /// The limit of a move that has one.
    pub fn some_limit(&self, random: &mut Random) -> Option<u16> {
        (random.below(4) < self.limited).then(|| self.limit(random))
    }

    /// Whether a move takes no time.
    pub fn is_handover(&self, random: &mut Random) -> bool {
        random.below(8) < self.handovers.of_eight
    }

    fn time(&self, random: &mut Random, from: usize, target: usize) -> u16 {
        if self.is_handover(random) {
            return 0;
        }
        let apart = from.abs_diff(target).max(1);
        let time = match self.pace {
            Pace::One => 1,
            Pace::Most => 65_535,
            Pace::Few => random.from_to(1, 3),
            Pace::Small => random.from_to(1, 4),
            Pace::Wide => random.from_to(1, 65_535),
            Pace::Distance => apart,
            Pace::Square => apart * apart,
        };
        time.min(65_535) as u16
    }

    fn limit(&self, random: &mut Random) -> u16 {
        match random.below(8) {
            0 => 1,
            1 => 65_535,
            2 => random.from_to(1, 65_535) as u16,
            _ => random.next_to(self.middle).max(1),
        }
    }
}
