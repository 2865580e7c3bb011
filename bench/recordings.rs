//! The store replay, on long lists of several kinds: through the C interface, and in Rust without proofs (`replay.rs`).

use crate::timing::Spread;
use crate::{replay, rounds};
use outside::random::Random;
use outside::reference::replay::{Asked, MOST_FRAMES, MOST_PAGES};
use outside::yard;

const ENTRIES: usize = 1_000_000;
/// A replay takes as long as hundreds of the other calls: for so many of their rounds there is one of replays.
const ROUNDS_PER_ROUND: usize = 50;
const WARM_UP: usize = 1;

type Replay = fn(Asked) -> Option<u64>;

const REPLAYS: [Replay; 2] = [engine, replay::replay];

fn engine(asked: Asked) -> Option<u64> {
    let mut answer = [0; 4];
    let refusal = yard::replay(asked, &mut answer);
    (refusal == 0).then_some(u64::from(answer[0]) | u64::from(answer[1]) << 32)
}

pub fn print_table(count: usize) {
    let rounds = count.div_ceil(ROUNDS_PER_ROUND);
    let store = format!("a million references, {MOST_PAGES} pages, {MOST_FRAMES} frames, {rounds} rounds");
    println!("\n| Milliseconds and ratios, {store} | replay | replay in Rust | to replay in Rust | Reads |");
    println!("|---|---|---|---|---|");
    let distances = in_line();
    for (name, list) in lists() {
        for (rule, threshold) in [("least recently used", u32::MAX), ("far pages first", NEAR)] {
            let asked =
                Asked { list: &list, pages: MOST_PAGES, frames: MOST_FRAMES, distances: &distances, threshold };
            print_row(&format!("{name}, {rule}"), asked, rounds);
        }
    }
}

fn print_row(name: &str, asked: Asked, rounds: usize) {
    let mut all = REPLAYS.map(|replay| (replay, None));
    let call = |(replay, reads): &mut (Replay, Option<u64>), _| *reads = replay(asked);
    let alike = |all: &[(Replay, Option<u64>)]| assert!(all[0].1 == all[1].1, "other reads");
    let times = rounds::rounds_after(WARM_UP, rounds, &mut all, || 0, call, alike);
    let reads = all[0].1.expect("the recording is good");
    let milliseconds = |times: &[f64]| Spread::new(&times.iter().map(|time| time / 1e3).collect::<Vec<_>>());
    let [ours, theirs] = [0, 1].map(|who| format!("{:.1}", milliseconds(&times[who])));
    println!("| {name} | {ours} | {theirs} | {:.2} | {reads} |", Spread::of_ratios(&times[0], &times[1]));
}

/// A page is far if it lies farther than this: of those about a page there are as many as there are frames.
const NEAR: u32 = MOST_FRAMES as u32 / 2;

/// The pages lie in a line.
fn in_line() -> Vec<u32> {
    (0..MOST_PAGES * MOST_PAGES).map(|at| (at / MOST_PAGES).abs_diff(at % MOST_PAGES) as u32).collect()
}

fn lists() -> [(&'static str, Vec<u8>); 4] {
    let mut random = Random::new(5);
    let round = |pages: usize| (0..ENTRIES).map(|at| (at % pages) as u8).collect();
    let any = (0..ENTRIES).map(|_| random.below(MOST_PAGES) as u8).collect();
    [
        ("local walk", walk(&mut random)),
        ("random pages", any),
        ("64 pages round and round", round(64)),
        ("65 pages round and round", round(65)),
    ]
}

/// From page to near page, and once in a hundred times to any.
fn walk(random: &mut Random) -> Vec<u8> {
    let mut page = 0;
    let mut step = || {
        let near = (page + MOST_PAGES + random.below(9) - 4) % MOST_PAGES;
        page = if random.one_in(100) { random.below(MOST_PAGES) } else { near };
        page as u8
    };
    (0..ENTRIES).map(|_| step()).collect()
}
