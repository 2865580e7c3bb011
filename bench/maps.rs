//! The maps that are measured. Pages are filled with moves: on full maps of the largest size a page has some 8.5
//! stations and 46 moves; on dense ones 20, 30 or 40 stations, which leave room for 39, 33 or 27 moves. On handover
//! maps, full ones too, half of the moves take no time (document 02, "Handover without time").

use outside::maps::Map;
use outside::random::Random;

#[derive(Clone, Copy, PartialEq)]
pub enum Reach {
    /// To stations at most 24 away by number: on full maps some three pages to each side.
    Near,
    Far,
    /// To the three stations before and after: pages are strips, seldom entered twice.
    Strip,
}

#[derive(Clone, Copy)]
pub enum Layout {
    /// Neighbours by number share a page.
    Blocks,
    /// The same pages dealt out at random.
    Scattered,
}

#[derive(Clone, Copy)]
pub enum Pace {
    Small,
    Large,
    Equal,
}

#[derive(Clone, Copy)]
pub struct Shape {
    pub stations: usize,
    pub pages: usize,
    /// Moves start at every station (1) or at every second one (2), where a page has no room for a move of each.
    pub stride: usize,
    pub reach: Reach,
    pub layout: Layout,
    pub pace: Pace,
    /// Half of the moves take no time, whatever the pace.
    pub handovers: bool,
}

/// Maps of one kind, with a name for each.
pub struct Group {
    pub name: &'static str,
    pub maps: Vec<(String, Shape)>,
}

pub fn groups() -> [Group; 4] {
    [
        Group { name: "Full maps (2,048 stations, 240 pages)", maps: full() },
        Group { name: "Dense maps (2,040 stations)", maps: dense() },
        Group { name: "Smaller maps", maps: smaller() },
        Group { name: "Handover maps (2,048 stations, 240 pages)", maps: handovers() },
    ]
}

pub fn full() -> Vec<(String, Shape)> {
    [
        ("near moves, times 1 to 10", shape(Reach::Near, Layout::Blocks, Pace::Small)),
        ("near moves, times 1 to 65,535", shape(Reach::Near, Layout::Blocks, Pace::Large)),
        ("near moves, equal times", shape(Reach::Near, Layout::Blocks, Pace::Equal)),
        ("far moves, times 1 to 10", shape(Reach::Far, Layout::Blocks, Pace::Small)),
        ("far moves, times 1 to 65,535", shape(Reach::Far, Layout::Blocks, Pace::Large)),
        ("far moves, equal times", shape(Reach::Far, Layout::Blocks, Pace::Equal)),
        ("near moves, scattered stations, times 1 to 10", shape(Reach::Near, Layout::Scattered, Pace::Small)),
        ("near moves, scattered stations, times 1 to 65,535", shape(Reach::Near, Layout::Scattered, Pace::Large)),
        ("strips, times 1 to 10", shape(Reach::Strip, Layout::Blocks, Pace::Small)),
        ("strips, times 1 to 65,535", shape(Reach::Strip, Layout::Blocks, Pace::Large)),
    ]
    .map(|(name, shape)| (name.to_string(), shape))
    .to_vec()
}

fn shape(reach: Reach, layout: Layout, pace: Pace) -> Shape {
    Shape { stations: 2048, pages: 240, stride: 1, reach, layout, pace, handovers: false }
}

/// The two shapes that dense, smaller and handover maps have.
fn near_and_far() -> [(&'static str, Shape); 2] {
    [
        ("near moves, times 1 to 10", shape(Reach::Near, Layout::Blocks, Pace::Small)),
        ("far moves, times 1 to 65,535", shape(Reach::Far, Layout::Blocks, Pace::Large)),
    ]
}

fn dense() -> Vec<(String, Shape)> {
    let mut maps = Vec::new();
    for (pages, stride) in [(102, 1), (68, 1), (51, 2)] {
        for (name, full) in near_and_far() {
            let shape = Shape { stations: 2040, pages, stride, ..full };
            maps.push((format!("{} stations a page, {name}", shape.stations / pages), shape));
        }
    }
    maps
}

/// Pages and moves in the same proportion to stations as on full maps.
fn smaller() -> Vec<(String, Shape)> {
    let mut maps = Vec::new();
    for (name, full) in near_and_far() {
        for stations in [128, 256, 512, 1024] {
            let shape = Shape { stations, pages: stations * full.pages / full.stations, ..full };
            maps.push((format!("{stations} stations, {} pages, {name}", shape.pages), shape));
        }
    }
    maps
}

fn handovers() -> Vec<(String, Shape)> {
    near_and_far().map(|(name, full)| (format!("{name}, half of them 0"), Shape { handovers: true, ..full })).to_vec()
}

impl Shape {
    pub fn draw(&self) -> Map {
        let mut random = Random::new(2048);
        let mut map = Map::new(self.pages, self.directory(&mut random));
        // A ring, so that every station with a move is reached from every source.
        for station in (0..self.stations).step_by(self.stride) {
            let time = self.time(&mut random);
            map.add(station, (station + self.stride) % self.stations, time, None);
        }
        for _ in 0..40 * self.stations {
            let station = self.source(&mut random);
            let target = self.target(&mut random, station);
            let time = self.time(&mut random);
            map.add(station, target, time, None);
        }
        map
    }

    /// A station with a move.
    pub fn source(&self, random: &mut Random) -> usize {
        random.below(self.stations / self.stride) * self.stride
    }

    fn directory(&self, random: &mut Random) -> Vec<u8> {
        let mut directory: Vec<u8> = (0..self.stations).map(|at| (at * self.pages / self.stations) as u8).collect();
        if let Layout::Scattered = self.layout {
            random.shuffle(&mut directory);
        }
        directory
    }

    fn target(&self, random: &mut Random, station: usize) -> usize {
        let away = match self.reach {
            Reach::Near => random.from_to(1, 24),
            Reach::Far => random.below(self.stations),
            Reach::Strip => random.from_to(1, 3),
        };
        // Only far moves and the ring pass the last station.
        match (self.reach, random.one_in(2)) {
            (Reach::Far, _) => away,
            (_, true) => (station + away).min(self.stations - 1),
            (_, false) => station.saturating_sub(away),
        }
    }

    fn time(&self, random: &mut Random) -> u16 {
        if self.handovers && random.one_in(2) {
            return 0;
        }
        match self.pace {
            Pace::Small => random.from_to(1, 10) as u16,
            Pace::Large => random.from_to(1, 65_535) as u16,
            Pace::Equal => 100,
        }
    }
}
