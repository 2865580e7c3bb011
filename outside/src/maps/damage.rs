//! Damage of every kind, 1 to 5 to a whole image, 8 to 12, 14 and 18 to a page. Page damage is made on the drawing, so
//! that the refusal's number and offset are known without a page reader.

use super::{page_bytes, Command, Map, MOST_PAGES, MOST_STATIONS, PAGE_BYTES};
use crate::random::Random;
use crate::reference::image::{Fault, Move};

/// A page spoiled on purpose, and how reading it has to end.
pub struct Spoiled {
    pub bytes: Vec<u8>,
    pub fault: Fault,
}

/// The drawing of one page while it is being spoiled.
struct Page<'a> {
    map: &'a Map,
    stations: Vec<u16>,
    commands: Vec<Command>,
}

/// Spoils a page by one of the refusals 8 to 12, 14 and 18 (not all of them can be had on every page; 11 always can).
pub fn spoil_page(map: &Map, page: usize, random: &mut Random) -> Spoiled {
    let drawing = Page { map, stations: map.stations_of(page), commands: map.commands(page) };
    loop {
        let spoiled = match random.pick(&[8, 9, 10, 11, 12, 14, 18]) {
            8 => drawing.unknown_code(random),
            9 => drawing.overfull(random),
            10 => drawing.wrong_station(random),
            11 => drawing.move_first(random),
            12 => drawing.wrong_target(random),
            14 => drawing.after_end(random),
            _ => drawing.no_limit(random),
        };
        if let Some(spoiled) = spoiled {
            return spoiled;
        }
    }
}

impl Page<'_> {
    fn offset(&self, at: usize) -> usize {
        self.commands[..at].iter().map(|command| command.length()).sum()
    }

    /// The index of a command of the wanted kind.
    fn some(&self, random: &mut Random, wanted: impl Fn(Command) -> bool) -> Option<usize> {
        let fit: Vec<usize> = (0..self.commands.len()).filter(|&at| wanted(self.commands[at])).collect();
        (!fit.is_empty()).then(|| random.pick(&fit))
    }

    /// A move of the page, and its index.
    fn some_move(&self, random: &mut Random) -> Option<(usize, Move)> {
        let at = self.some(random, |command| matches!(command, Command::Move(_)))?;
        let Command::Move(step) = self.commands[at] else { return None };
        Some((at, step))
    }

    fn unknown_code(&self, random: &mut Random) -> Option<Spoiled> {
        let offset = self.offset(random.below(self.commands.len()));
        let mut bytes = page_bytes(&self.commands);
        let any = random.from_to(4, 255);
        bytes[offset] = random.pick(&[4, any]) as u8;
        Some(spoiled(random, bytes, 8, offset, 1))
    }

    /// The page's stations with more moves than fit, cut at the page's end.
    fn overfull(&self, random: &mut Random) -> Option<Spoiled> {
        let keep = random.from_to(1, 3);
        let mut commands = Vec::new();
        for &station in &self.stations {
            commands.push(Command::Station(station));
            let others = (0..self.map.stations() as u16).filter(|&target| target != station);
            let kept = others.filter(|_| random.below(3) < keep).collect::<Vec<_>>();
            commands.extend(kept.iter().map(|&target| {
                let (time, limit) = (random.below(65_536) as u16, random.from_to(1, 65_535) as u16);
                Command::Move(Move { target, time, limit: random.pick(&[None, Some(limit)]) })
            }));
        }
        commands.push(Command::End);
        let drawing = Page { map: self.map, stations: Vec::new(), commands };
        let passes = |at: &usize| drawing.offset(*at) + drawing.commands[*at].length() > PAGE_BYTES;
        let first = (0..drawing.commands.len().min(PAGE_BYTES)).find(passes)?;
        let offset = drawing.offset(first);
        let mut bytes = page_bytes(&drawing.commands);
        // 9 comes before whatever else is wrong with numbers of 0.
        if random.one_in(2) {
            bytes.iter_mut().skip(offset + 1).for_each(|byte| *byte = 0);
        }
        Some(Spoiled { bytes, fault: Fault { refusal: 9, offset: offset as u32 } })
    }

    fn wrong_station(&self, random: &mut Random) -> Option<Spoiled> {
        match random.below(4) {
            0 => self.other_number(random),
            1 => self.station_left_out(random),
            2 => self.station_too_many(random),
            _ => self.early_end(random),
        }
    }

    fn other_number(&self, random: &mut Random) -> Option<Spoiled> {
        let at = self.some(random, |command| matches!(command, Command::Station(_)))?;
        let near = random.below(self.map.stations() + 1) as u16;
        let number = random.pick(&[near, near, near ^ 256, 65_535]);
        if self.commands[at] == Command::Station(number) {
            return None;
        }
        self.with(random, at, Command::Station(number), 10)
    }

    /// What follows the station left out, the next station or the end, stands in its place.
    fn station_left_out(&self, random: &mut Random) -> Option<Spoiled> {
        let at = self.some(random, |command| matches!(command, Command::Station(_)))?;
        let is_move = |command: &&Command| matches!(command, Command::Move(_));
        let moves = self.commands[at + 1..].iter().take_while(is_move).count();
        let mut commands = self.commands.clone();
        commands.drain(at..=at + moves);
        let length = commands[at].length();
        Some(spoiled(random, page_bytes(&commands), 10, self.offset(at), length))
    }

    fn station_too_many(&self, random: &mut Random) -> Option<Spoiled> {
        let number = random.below(self.map.stations() + 1) as u16;
        self.with(random, self.commands.len() - 1, Command::Station(number), 10)
    }

    fn early_end(&self, random: &mut Random) -> Option<Spoiled> {
        let at = self.some(random, |command| matches!(command, Command::Station(_)))?;
        self.with(random, at, Command::End, 10)
    }

    fn move_first(&self, random: &mut Random) -> Option<Spoiled> {
        let (target, time) = (random.below(self.map.stations() + 1) as u16, random.below(3) as u16);
        let first = Command::Move(Move { target, time, limit: random.pick(&[None, Some(0), Some(1)]) });
        let mut commands = self.commands.clone();
        commands.insert(0, first);
        Some(spoiled(random, page_bytes(&commands), 11, 0, first.length()))
    }

    /// Not below N, the station itself, or not above the target before; at any time and with a good limit or with 0.
    fn wrong_target(&self, random: &mut Random) -> Option<Spoiled> {
        let (at, step) = self.some_move(random)?;
        let target = match (random.below(3), self.commands[at - 1]) {
            (0, Command::Move(before)) => random.below(usize::from(before.target) + 1) as u16,
            (1, _) => self.owner(at),
            _ => random.pick(&[self.map.stations() as u16, 65_535, 2_048]).max(self.map.stations() as u16),
        };
        let time = random.pick(&[step.time, step.time, 0]);
        let limit = random.pick(&[step.limit, step.limit, Some(0)]);
        self.with(random, at, Command::Move(Move { target, time, limit }), 12)
    }

    /// The station that a move belongs to.
    fn owner(&self, at: usize) -> u16 {
        let before = self.commands[..at].iter().rev();
        let mut stations = before.filter_map(|&command| match command {
            Command::Station(number) => Some(number),
            _ => None,
        });
        stations.next().expect("every move of a good page follows a station")
    }

    /// At any time, 0 too, which is no fault of its own.
    fn no_limit(&self, random: &mut Random) -> Option<Spoiled> {
        let (at, step) = self.some_move(random)?;
        let time = random.pick(&[step.time, step.time, 0]);
        self.with(random, at, Command::Move(Move { time, limit: Some(0), ..step }), 18)
    }

    fn after_end(&self, random: &mut Random) -> Option<Spoiled> {
        let end = self.offset(self.commands.len() - 1);
        if end == PAGE_BYTES - 1 {
            return None;
        }
        let mut bytes = page_bytes(&self.commands);
        bytes[random.from_to(end + 1, PAGE_BYTES - 1)] = random.from_to(1, 255) as u8;
        Some(Spoiled { bytes, fault: Fault { refusal: 14, offset: end as u32 } })
    }

    /// The page with one command, at which reading has to stop, in place of another; none if it passes the page's end.
    fn with(&self, random: &mut Random, at: usize, command: Command, refusal: u32) -> Option<Spoiled> {
        let offset = self.offset(at);
        if offset + command.length() > PAGE_BYTES {
            return None;
        }
        let mut commands = self.commands.clone();
        commands[at] = command;
        Some(spoiled(random, page_bytes(&commands), refusal, offset, command.length()))
    }
}

/// Reading stops at the fault, so what follows may be anything: now and then it is random bytes.
fn spoiled(random: &mut Random, mut bytes: Vec<u8>, refusal: u32, offset: usize, length: usize) -> Spoiled {
    if random.one_in(3) {
        random.fill(&mut bytes[offset + length..]);
    }
    Spoiled { bytes, fault: Fault { refusal, offset: offset as u32 } }
}

/// Spoils an image by one of the refusals 1 to 5; an earlier one may come of it, as a later one cut too short.
pub fn spoil_heading(image: &mut Vec<u8>, map: &Map, random: &mut Random) {
    match random.from_to(1, 5) {
        1 => image.truncate(random.below(4)),
        2 => set_u16(image, 0, outside(random, MOST_STATIONS)),
        3 => set_u16(image, 2, outside(random, MOST_PAGES)),
        4 => change_length(image, random),
        _ => {
            for _ in 0..random.from_to(1, 3) {
                let station = random.below(map.stations());
                image[4 + station] = random.from_to(map.pages, 255) as u8;
            }
        }
    }
}

/// 0, just past the most, or far past it.
fn outside(random: &mut Random, most: usize) -> u16 {
    let far = random.from_to(most + 1, 65_535);
    random.pick(&[0, most + 1, far]) as u16
}

fn set_u16(image: &mut [u8], at: usize, value: u16) {
    image[at..at + 2].copy_from_slice(&value.to_le_bytes());
}

/// Cuts an image anywhere, or makes it longer.
pub fn change_length(image: &mut Vec<u8>, random: &mut Random) {
    let length = match random.below(4) {
        0 => random.below(image.len()),
        1 => image.len() - 1,
        2 => image.len() + 1,
        _ => image.len() + random.from_to(1, 600),
    };
    image.resize(length, random.byte());
}

/// Changes one byte of an image.
pub fn change_byte(image: &mut [u8], random: &mut Random) {
    if image.is_empty() {
        return;
    }
    let at = random.below(image.len());
    image[at] = match random.below(4) {
        0 => random.byte(),
        1 => random.below(5) as u8,
        2 => image[at].wrapping_add(random.pick(&[1, 255])),
        _ => image[at] ^ (1 << random.below(8)),
    };
}

/// Damages an image of any content: its length, its heading, its directory or any bytes. It may still be good.
pub fn damage(image: &mut Vec<u8>, random: &mut Random) {
    let [low, high, ..] = image[..] else {
        image.push(random.byte());
        return;
    };
    let heading = image.len().min(4);
    let front = image.len().min(4 + usize::from(u16::from_le_bytes([low, high])));
    match random.below(8) {
        0 => change_length(image, random),
        1 => change_byte(&mut image[..heading], random),
        2 => change_byte(&mut image[heading..front], random),
        _ => (0..random.pick(&[1, 1, 2, 4])).for_each(|_| change_byte(image, random)),
    }
}

/// Another image of the same length, heading and directory, and with the same bytes on the listed pages; all others
/// are changed (demand 3).
pub fn scramble_unlisted(image: &[u8], listed: &[bool; 256], random: &mut Random) -> Vec<u8> {
    let mut other = image.to_vec();
    let Some(&[low, high]) = image.get(..2) else { return other };
    let front = 4 + usize::from(u16::from_le_bytes([low, high]));
    if front >= image.len() {
        return other;
    }
    for (page, bytes) in other[front..].chunks_mut(PAGE_BYTES).enumerate() {
        if listed.get(page) == Some(&true) {
            continue;
        }
        match random.below(4) {
            0 => random.fill(bytes),
            1 => bytes.fill(0),
            2 => bytes.rotate_left(1),
            _ => change_byte(bytes, random),
        }
    }
    other
}
