//! The cases of the fuzzer: an image with a source and two strips, and a predecessor table with a station. Each is of a
//! kind, so that the counts at the end show what was tried.

use super::damage::{change_byte, change_length, spoil_heading, spoil_page};
use super::{good, page_bytes, Command, Map, MOST_STATIONS, PAGE_BYTES};
use crate::random::Random;
use crate::reference::image::{Fault, Image, Move};
use crate::reference::{walks, Query, NO_PREDECESSOR, NO_TIME, SOURCE};

pub struct Case {
    pub kind: &'static str,
    pub image: Vec<u8>,
    pub source: u16,
    /// The lengths of two strips in decimetres, the shorter first.
    pub strips: [u16; 2],
    /// The number of stations that tables are measured by; the heading of a damaged image may say otherwise.
    pub stations: usize,
    /// How reading each page has to end, where the way the image was made tells.
    pub known: Option<Vec<Option<Fault>>>,
}

pub fn draw(random: &mut Random) -> Case {
    let map = good::draw(random);
    let source = source(&map, random);
    let mut strips = [strip(&map, random), strip(&map, random)];
    strips.sort();
    let (kind, image, known) = match random.below(100) {
        0..=39 => ("good map", map.image(), Some(vec![None; map.pages])),
        40..=47 => bad_pages_at_one_time(&map, Query { source, strip: strips[0] }, random),
        48..=67 => bad_pages(&map, random),
        68..=77 => ("bytes changed", bytes_changed(&map, random), None),
        78..=85 => ("bad heading", bad_heading(&map, random), None),
        86..=91 => ("loose pages", loose_pages(&map, random), None),
        92..=95 => ("other length", other_length(&map, random), None),
        _ => ("random bytes", random_bytes(random), None),
    };
    Case { kind, image, source, strips, stations: map.stations(), known }
}

/// A case of random bytes only.
pub fn draw_random_bytes(random: &mut Random) -> Case {
    let image = random_bytes(random);
    let (source, strips) = (random.below(42) as u16, [0, random.below(65_536) as u16]);
    Case { kind: "random bytes", image, source, strips, stations: 40, known: None }
}

/// A station of the map, now and then one that it does not have. Where moves take no time it is often one that such
/// moves lead to and from, as those of a turntable do.
fn source(map: &Map, random: &mut Random) -> u16 {
    let past = random.from_to(map.stations(), 65_535);
    if random.one_in(30) {
        return random.pick(&[map.stations(), past]) as u16;
    }
    let handover = |step: &&Move| step.time == 0;
    let onward = |target: &u16| map.moves[usize::from(*target)].iter().any(|step| handover(&step));
    let targets = map.moves.iter().flatten().filter(handover).map(|step| step.target);
    let between: Vec<u16> = targets.filter(onward).collect();
    if between.is_empty() || random.one_in(2) {
        return random.below(map.stations()) as u16;
    }
    random.pick(&between)
}

/// Next to a limit of the map, if it has one; else the least, the greatest or any.
fn strip(map: &Map, random: &mut Random) -> u16 {
    let limits: Vec<u16> = map.moves.iter().flatten().filter_map(|step| step.limit).collect();
    if limits.is_empty() || random.one_in(4) {
        let any = random.below(65_536) as u16;
        return random.pick(&[0, 1, 65_535, any]);
    }
    let limit = random.pick(&limits);
    random.next_to(limit)
}

type Made = (&'static str, Vec<u8>, Option<Vec<Option<Fault>>>);

/// One page, some or most of them spoiled.
fn bad_pages(map: &Map, random: &mut Random) -> Made {
    let one_in = random.pick(&[2, 4, map.pages]);
    let sure = random.below(map.pages);
    let bad: Vec<bool> = (0..map.pages).map(|page| page == sure || random.one_in(one_in)).collect();
    let (image, known) = with_bad(map, &bad, random);
    ("bad pages", image, Some(known))
}

/// Two pages spoiled that a search comes to at one time; if there are none, any.
fn bad_pages_at_one_time(map: &Map, query: Query, random: &mut Random) -> Made {
    let Some(pair) = pages_at_one_time(map, query, random) else { return bad_pages(map, random) };
    let bad: Vec<bool> = (0..map.pages).map(|page| pair.contains(&page)).collect();
    let (image, known) = with_bad(map, &bad, random);
    ("bad pages at one time", image, Some(known))
}

/// Two pages that a search comes to at one time: first to the one whose station has fewer moves, but a higher number.
fn pages_at_one_time(map: &Map, query: Query, random: &mut Random) -> Option<[usize; 2]> {
    let bytes = map.image();
    let image = Image::open(&bytes).ok().filter(|image| usize::from(query.source) < image.stations)?;
    let truth = walks::truth(&image, &walks::read_all(&image), query);
    let way = |station: u16| (truth.times[usize::from(station)], truth.moves[usize::from(station)], station);
    let first = (0..map.pages).filter_map(|page| Some((page, map.stations_of(page).into_iter().map(way).min()?)));
    let first: Vec<_> = first.filter(|(_, (time, ..))| *time != NO_TIME).collect();
    let mut pairs = Vec::new();
    for &(page, (time, moves, station)) in &first {
        let later = first.iter().filter(|(_, other)| other.0 == time && other.1 > moves && other.2 < station);
        pairs.extend(later.map(|&(other, _)| [page, other]));
    }
    (!pairs.is_empty()).then(|| random.pick(&pairs))
}

/// The map's image with bad pages, and how reading each page has to end.
fn with_bad(map: &Map, bad: &[bool], random: &mut Random) -> (Vec<u8>, Vec<Option<Fault>>) {
    let mut image = map.front();
    let mut known = Vec::new();
    for page in 0..map.pages {
        if bad[page] {
            let spoiled = spoil_page(map, page, random);
            image.extend(spoiled.bytes);
            known.push(Some(spoiled.fault));
        } else {
            image.extend(page_bytes(&map.commands(page)));
            known.push(None);
        }
    }
    (image, known)
}

fn bytes_changed(map: &Map, random: &mut Random) -> Vec<u8> {
    let mut image = map.image();
    for _ in 0..random.pick(&[1, 1, 2, 4]) {
        change_byte(&mut image, random);
    }
    image
}

fn bad_heading(map: &Map, random: &mut Random) -> Vec<u8> {
    let mut image = map.image();
    spoil_heading(&mut image, map, random);
    if random.one_in(4) && image.len() > 4 + map.stations() {
        spoil_heading(&mut image, map, random);
    }
    image
}

fn other_length(map: &Map, random: &mut Random) -> Vec<u8> {
    let mut image = map.image();
    change_length(&mut image, random);
    image
}

/// Pages of commands that are only mostly right, whose faults nobody has placed.
fn loose_pages(map: &Map, random: &mut Random) -> Vec<u8> {
    let wrong_once_in = random.pick(&[5, 30, 200]);
    let mut image = map.front();
    for page in 0..map.pages {
        let mut commands = map.commands(page);
        for command in &mut commands {
            if random.one_in(wrong_once_in) {
                *command = loose_command(map, random);
            }
        }
        image.extend(page_bytes(&commands));
    }
    image
}

fn loose_command(map: &Map, random: &mut Random) -> Command {
    let number = random.below(map.stations() + 1) as u16;
    match random.below(5) {
        0 => Command::End,
        1 => Command::Station(number),
        _ => {
            let (time, limit) = (random.pick(&[0, 1, 7, 65_535]), random.pick(&[0, 1, 7, 65_535]));
            Command::Move(Move { target: number, time, limit: random.pick(&[None, Some(limit)]) })
        }
    }
}

/// Bytes of no form; with a good heading and directory now and then, since others seldom get past refusal 4.
fn random_bytes(random: &mut Random) -> Vec<u8> {
    let (stations, pages) = (random.from_to(1, 40), random.from_to(1, 6));
    let length = if random.one_in(2) { random.below(600) } else { 4 + stations + PAGE_BYTES * pages };
    let mut image = vec![0; length];
    let codes = random.pick(&[4, 5, 256]);
    for byte in &mut image {
        *byte = random.below(codes) as u8;
    }
    if length == 4 + stations + PAGE_BYTES * pages {
        image[..4].copy_from_slice(&[stations as u8, 0, pages as u8, 0]);
        for byte in &mut image[4..4 + stations] {
            *byte %= pages as u8;
        }
    }
    image
}

/// A predecessor table that no search need have left.
pub struct RouteCase {
    pub kind: &'static str,
    pub preds: Vec<u16>,
    pub station: u16,
}

pub fn draw_route(random: &mut Random) -> RouteCase {
    let n = match random.below(40) {
        0 => 0,
        1 => random.from_to(MOST_STATIONS, MOST_STATIONS + 2),
        2 => random.from_to(1, MOST_STATIONS),
        3..=12 => random.from_to(1, 200),
        _ => random.from_to(1, 12),
    };
    let (kind, mut preds): (_, Vec<u16>) = match random.below(4) {
        0 => ("route on a tree", (0..n).map(|at| before(random, at, 0)).collect()),
        1 => ("route on a chain", (0..n).map(|at| before(random, at, at.saturating_sub(1))).collect()),
        2 => ("route on a turned tree", turned((0..n).map(|at| before(random, at, at.saturating_sub(4))).collect())),
        _ => ("route on random entries", (0..n).map(|_| loose_predecessor(random, n)).collect()),
    };
    if n > 0 && random.one_in(3) {
        for _ in 0..random.from_to(1, 3) {
            let at = random.below(n);
            preds[at] = loose_predecessor(random, n);
        }
    }
    let past = random.from_to(n, 65_535);
    let station = if n == 0 || random.one_in(20) { random.pick(&[n, past]) } else { random.below(n) };
    RouteCase { kind, preds, station: station as u16 }
}

/// The source for the first place, else a place from `least` up to the one before.
fn before(random: &mut Random, place: usize, least: usize) -> u16 {
    match place {
        0 => SOURCE,
        _ => random.from_to(least, place - 1) as u16,
    }
}

/// The same ways with the stations numbered from the other end, so that predecessors lie above their stations.
fn turned(preds: Vec<u16>) -> Vec<u16> {
    let last = preds.len().saturating_sub(1) as u16;
    let turn = |&before: &u16| if before == SOURCE { SOURCE } else { last - before };
    preds.iter().rev().map(turn).collect()
}

fn loose_predecessor(random: &mut Random, n: usize) -> u16 {
    match random.below(12) {
        0 => SOURCE,
        1 => NO_PREDECESSOR,
        2 => random.from_to(n, 65_533) as u16,
        _ => random.below(n) as u16,
    }
}
