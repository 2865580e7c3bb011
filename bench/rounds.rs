//! Rounds on one map. Each round calls every contestant on one source, in an order drawn anew, so that the machine's
//! noise hits all alike and none always follows another; then it compares what they found.

use crate::contestants::{self, Contestant, Name};
use crate::maps::Shape;
use crate::timing::Spread;
use outside::random::Random;
use outside::reference::lists::one_page_reads;
use std::time::Instant;

const WARM_UP: usize = 30;

/// Microseconds of each round, for each of `all`; `look` sees them after every round, also while they warm up.
pub fn rounds<T>(
    rounds: usize,
    all: &mut [T],
    source: impl FnMut() -> u16,
    call: impl Fn(&mut T, u16),
    look: impl FnMut(&[T]),
) -> Vec<Vec<f64>> {
    rounds_after(WARM_UP, rounds, all, source, call, look)
}

/// The same after fewer rounds to warm up, for calls that take long.
pub fn rounds_after<T>(
    warm_up: usize,
    rounds: usize,
    all: &mut [T],
    mut source: impl FnMut() -> u16,
    call: impl Fn(&mut T, u16),
    mut look: impl FnMut(&[T]),
) -> Vec<Vec<f64>> {
    let mut random = Random::new(11);
    let mut order: Vec<usize> = (0..all.len()).collect();
    let mut times = vec![Vec::new(); all.len()];
    for round in 0..warm_up + rounds {
        let source = source();
        random.shuffle(&mut order);
        for &who in &order {
            let start = Instant::now();
            call(&mut all[who], source);
            let taken = start.elapsed().as_secs_f64() * 1e6;
            if round >= warm_up {
                times[who].push(taken);
            }
        }
        look(all);
    }
    times
}

/// What was measured on one map.
pub struct Measured {
    /// Microseconds of each round, for each contestant.
    times: Vec<(Name, Vec<f64>)>,
    pub moves: usize,
    /// Means over the rounds: stations reached, references of plain and DF, one-page reads of both.
    pub lists: [f64; 5],
}

impl Measured {
    pub fn new(shape: &Shape, count: usize) -> Self {
        let map = shape.draw();
        let image = map.image();
        let mut all = contestants::all(&map, &image);
        let names: Vec<Name> = all.iter().map(|one| one.name()).collect();
        let mut random = Random::new(7);
        let mut lists = [0.0; 5];
        let source = || shape.source(&mut random) as u16;
        let call = |one: &mut Box<dyn Contestant>, source| one.search(source);
        let times = rounds(count, &mut all, source, call, |all| {
            compare(all);
            for (mean, number) in lists.iter_mut().zip(list_numbers(all)) {
                *mean += number as f64 / (WARM_UP + count) as f64;
            }
        });
        let moves = map.moves.iter().map(|moves| moves.len()).sum();
        Measured { times: names.into_iter().zip(times).collect(), moves, lists }
    }

    pub fn names(&self) -> Vec<Name> {
        self.times.iter().map(|&(name, _)| name).collect()
    }

    /// None for a contestant that was not there.
    pub fn time(&self, name: Name) -> Option<Spread> {
        Some(Spread::new(self.of(name)?))
    }

    pub fn ratio(&self, (ours, theirs): (Name, Name)) -> Option<Spread> {
        Some(Spread::of_ratios(self.of(ours)?, self.of(theirs)?))
    }

    fn of(&self, name: Name) -> Option<&[f64]> {
        let times = self.times.iter().find(|(its, _)| *its == name)?;
        Some(&times.1)
    }
}

fn by_name<'a>(all: &'a [Box<dyn Contestant + '_>], name: Name) -> &'a dyn Contestant {
    all.iter().find(|one| one.name() == name).expect("a contestant").as_ref()
}

/// A measurement counts only if all found the same: times, moves, predecessors, stations reached, and those that make
/// the same search the same list.
fn compare(all: &[Box<dyn Contestant + '_>]) {
    let [plain, df] = [Name::Plain, Name::Df].map(|name| by_name(all, name).details().expect("what was found"));
    let alike = plain.moves == df.moves && plain.preds == df.preds && plain.reached == df.reached;
    assert!(alike, "plain and DF differ");
    let times = by_name(all, Name::Plain).times();
    for one in all {
        let name = one.name();
        let same = if matches!(name, Name::Df | Name::BaseDf) { df } else { plain };
        assert!(one.times() == times, "{name} has other times");
        let agrees = one.details().is_none_or(|details| details == same);
        assert!(agrees, "{name} has other moves or predecessors, or another list");
    }
}

fn list_numbers(all: &[Box<dyn Contestant + '_>]) -> [usize; 5] {
    let [plain, df] = [Name::Plain, Name::Df].map(|name| by_name(all, name).details().expect("what was found"));
    let reached = df.reached as usize;
    [reached, plain.list.len(), df.list.len(), one_page_reads(plain.list), one_page_reads(df.list)]
}
