//! The calls beside the searches, on two full maps: the whole check against the tuned baseline's parser, which makes
//! the same checks and keeps the moves, and, where it is built in, against the base's whole check; the panel against
//! the DF search on tables made for it, as the panel makes its own; reading records and writing an image against the
//! whole check and against what one writes for it in Rust without proofs (`writer.rs`); and ordering two images, those
//! of equal maps and of maps that differ in the last record, against the whole check of both and Rust (`order.rs`).

use crate::baseline::{self, Joined};
use crate::contestants::STRIP;
use crate::timing::Spread;
use crate::{maps, order, rounds, writer};
use outside::maps::drawings::records_of;
use outside::maps::{Map, MOST_STATIONS};
use outside::random::Random;
use outside::reference::records::{image_of, Drawing, Record};
use outside::reference::{Query, Search, Tables};
use outside::yard;
use std::cmp::Ordering;

/// A map as the calls are given it.
struct Given {
    image: Vec<u8>,
    records: Vec<Record>,
    stations: u16,
    pages: u16,
    /// The same map with its pages numbered the other way round.
    redrawn: Vec<u8>,
    /// The map with more time for its last record.
    draft: Vec<u8>,
}

impl Given {
    fn new(map: &Map) -> Self {
        let (stations, pages) = (map.stations() as u16, map.pages as u16);
        let (image, records) = (map.image(), records_of(map));
        let draw = |records: &[Record], directory: &[u8]| {
            image_of(Drawing { records, stations, pages, directory }, image.len())
                .expect("as many bytes on each page")
        };
        let turned: Vec<u8> = map.directory.iter().map(|page| (pages - 1) as u8 - page).collect();
        let redrawn = draw(&records, &turned);
        let mut slower = records.clone();
        slower.last_mut().expect("a move at least").time += 1;
        let draft = draw(&slower, &map.directory);
        Given { image, records, stations, pages, redrawn, draft }
    }

    fn drawing(&self) -> Drawing<'_> {
        let directory = &self.image[4..4 + usize::from(self.stations)];
        Drawing { records: &self.records, stations: self.stations, pages: self.pages, directory }
    }
}

/// What a call is lent beside tables, used again in every round.
#[derive(Clone)]
struct Lent {
    records: Vec<Record>,
    image: Vec<u8>,
}

/// Tells whether a map is good, for a call from a source if it is one, or whether the order is what it has to be.
type Call = fn(&Given, &mut Lent, u16) -> bool;

const WHOLE_CHECK: (&str, Call) = ("whole check", |map, _, _| yard::check(&map.image, &mut [0; 4]) == 0);

const CHECKS: &[(&str, Call)] = &[
    WHOLE_CHECK,
    ("tuned parser", |map, _, _| baseline::parse::<Joined>(&map.image, 0).is_some()),
    #[cfg(base)]
    ("base whole check", |map, _, _| crate::base::check(&map.image, &mut [0; 4]) == 0),
];

const READERS: &[(&str, Call)] = &[
    ("reading records", |map, lent, _| yard::records(&map.image, &mut lent.records, &mut [0; 4]) == 0),
    WHOLE_CHECK,
    ("reading in Rust", |map, lent, _| writer::read(&map.image).map(|records| lent.records = records).is_some()),
];

const WRITERS: &[(&str, Call)] = &[
    ("writing an image", |map, lent, _| yard::write(map.drawing(), &mut lent.image, &mut [0; 4]) == 0),
    WHOLE_CHECK,
    ("writing in Rust", |map, lent, _| writer::write(map.drawing()).map(|image| lent.image = image).is_some()),
];

const ORDERS_OF_EQUALS: &[(&str, Call)] = &[
    ("ordering equal maps", |map, _, _| is_named(&map.image, &map.redrawn, 0)),
    ("whole check of both", |map, _, _| are_good(&map.image, &map.redrawn)),
    ("ordering in Rust", |map, _, _| order::order(&map.image, &map.redrawn) == Some(Ordering::Equal)),
];

const ORDERS_BY_LAST: &[(&str, Call)] = &[
    ("ordering by the last record", |map, _, _| is_named(&map.image, &map.draft, 1)),
    ("whole check of both", |map, _, _| are_good(&map.image, &map.draft)),
    ("ordering in Rust", |map, _, _| order::order(&map.image, &map.draft) == Some(Ordering::Less)),
];

/// Whether the order says this of the lesser.
fn is_named(first: &[u8], second: &[u8], lesser: u32) -> bool {
    let mut answer = [7; 4];
    yard::order(first, second, &mut answer) == 0 && answer == [lesser, 0, 0, 0]
}

fn are_good(first: &[u8], second: &[u8]) -> bool {
    yard::check(first, &mut [0; 4]) == 0 && yard::check(second, &mut [0; 4]) == 0
}

const PANELS: &[(&str, Call)] = &[
    ("panel", |map, _, source| yard::panel(&map.image, Query { source, strip: STRIP }, 0) >= 0.0),
    ("DF search", |map, _, source| {
        let (mut times, mut moves, mut preds) = ([0; MOST_STATIONS], [0; MOST_STATIONS], [0; MOST_STATIONS]);
        let (mut marks, mut list) = ([0; MOST_STATIONS], [0; MOST_STATIONS]);
        let tables =
            Tables { times: &mut times, moves: &mut moves, preds: &mut preds, marks: &mut marks, list: &mut list };
        yard::search(Search::Df, &map.image, Query { source, strip: STRIP }, tables, &mut [0; 4]) == 0
    }),
];

pub fn print_tables(count: usize) {
    for calls in [CHECKS, PANELS, READERS, WRITERS, ORDERS_OF_EQUALS, ORDERS_BY_LAST] {
        print_table(count, calls);
    }
}

fn print_table(count: usize, calls: &[(&str, Call)]) {
    let names: Vec<_> = calls.iter().map(|&(name, _)| name).collect();
    let ratios: Vec<_> = names[1..].iter().map(|theirs| format!("to {theirs}")).collect();
    println!("\n| Microseconds and ratios, full maps | {} | {} |", names.join(" | "), ratios.join(" | "));
    println!("|---|{}", "---|".repeat(names.len() + ratios.len()));
    let full = maps::full();
    for (name, shape) in [&full[0], &full[6]] {
        let map = Given::new(&shape.draw());
        let mut random = Random::new(7);
        let source = || shape.source(&mut random) as u16;
        let mut all: Vec<(Call, Lent)> = calls.iter().map(|&(_, call)| (call, compared(&map, call))).collect();
        let call = |(call, lent): &mut (Call, Lent), source| assert!(call(&map, lent, source), "the map is good");
        let times = rounds::rounds(count, &mut all, source, call, |_| ());
        let medians = times.iter().map(|times| format!("{:.0}", Spread::new(times)));
        let ratios = times[1..].iter().map(|theirs| format!("{:.2}", Spread::of_ratios(&times[0], theirs)));
        println!("| {name} | {} |", medians.chain(ratios).collect::<Vec<_>>().join(" | "));
    }
}

/// What a call is lent, once it has left there the map's own records or image, if it writes there at all.
fn compared(map: &Given, call: Call) -> Lent {
    let before = Lent { records: vec![Record::default(); map.records.len()], image: vec![7; map.image.len()] };
    let mut lent = before.clone();
    assert!(call(map, &mut lent, 0), "the map is good");
    assert!(lent.records == before.records || lent.records == map.records, "other records");
    assert!(lent.image == before.image || lent.image == map.image, "another image");
    lent
}
