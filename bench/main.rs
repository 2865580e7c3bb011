//! The benchmark: the searches, the whole check, the panel, reading records, writing an image, ordering two and
//! replaying recorded page lists through the C interface, against Dijkstra's search as one writes it in Rust without
//! proofs (`baseline.rs`), reading and writing alike (`writer.rs`), ordering alike (`order.rs`), replaying alike
//! (`replay.rs`) and, where they are built in, an earlier build of the library (`base.rs`) and other libraries
//! (`peers.rs`). Takes the number of rounds as its argument and prints Markdown tables.

#[cfg(base)]
mod base;
mod baseline;
mod calls;
mod contestants;
mod maps;
mod order;
#[cfg(peers)]
mod peers;
mod recordings;
mod replay;
mod rounds;
mod tables;
mod timing;
mod writer;

use contestants::Name;
use rounds::Measured;
use tables::Group;

/// Whom the library's searches are compared with, a table for each kind.
const RIVALS: [&[(Name, Name)]; 3] = [
    &[(Name::Plain, Name::BasePlain), (Name::Df, Name::BaseDf)],
    &[
        (Name::Plain, Name::Straightforward),
        (Name::Plain, Name::Tuned),
        (Name::Df, Name::Straightforward),
        (Name::Df, Name::Tuned),
    ],
    &[(Name::Plain, Name::Lemon), (Name::Plain, Name::Boost), (Name::Df, Name::Lemon), (Name::Df, Name::Boost)],
];

fn main() {
    let rounds = std::env::args().nth(1).and_then(|count| count.parse().ok()).expect("the number of rounds");
    println!("Medians of {rounds} rounds (first to third quartile). Ratios are taken round by round; a geometric");
    println!("mean is that of the medians, with the least and the greatest of them.");
    #[cfg(peers)]
    peers::tell_missing();
    let groups = maps::groups().map(|group| measure(group, rounds));
    tables::print_times(&groups);
    for rivals in RIVALS {
        tables::print_ratios(&groups, rivals);
    }
    tables::print_lists(&groups);
    calls::print_tables(rounds);
    recordings::print_table(rounds);
}

fn measure(group: maps::Group, rounds: usize) -> Group {
    let maps = group.maps.into_iter().map(|(name, shape)| (name, Measured::new(&shape, rounds)));
    Group { name: group.name, maps: maps.collect() }
}
