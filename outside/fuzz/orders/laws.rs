//! What holds of the calls among themselves, whatever a reference says: an image is refused as the whole check refuses
//! it, the first image first; images exchanged give the answer exchanged; all maps lie in one line; and "equal holds
//! exactly when N and the moves are the same".

use super::{Filed, Pile};
use outside::reference::order::Named;
use outside::reference::Answer;
use outside::yard;
use std::cmp::Ordering;
use std::collections::{BTreeMap, HashSet};

/// What was said of the pairs whose answer was long enough.
type Said = BTreeMap<(usize, usize), Named>;

pub fn compare(pile: &Pile) -> Result<(), String> {
    let mut said = Said::new();
    for (&pair, called) in &pile.calls {
        let named = called.said().map_err(|difference| pile.of(pair, &difference))?;
        said.extend(named.map(|named| (pair, named)));
    }
    let faults: Vec<Option<Answer>> = pile.files.iter().map(|filed| fault(&filed.image)).collect();
    let moves: Vec<Moves> = pile.files.iter().map(Moves::new).collect();
    for (&pair, &named) in &said {
        let broken = match (named, refused_first(&faults, pair)) {
            (Named::Accepted(order), None) => broken_law(&said, &moves, pair, order),
            (_, refused) => (refused != Some(named)).then_some("not as the whole check says"),
        };
        if let Some(law) = broken {
            return Err(pile.of(pair, &format!("{named:?}, {law}")));
        }
    }
    Ok(())
}

/// The law that the order of two good images breaks, if it breaks one.
fn broken_law(said: &Said, moves: &[Moves], pair: (usize, usize), order: Ordering) -> Option<&'static str> {
    let same = moves[pair.0] == moves[pair.1];
    let laws = [
        ("not exchanged with the images", is_exchanged(said, pair, order)),
        ("not in one line with another", is_in_line(said, pair, order)),
        ("not equal exactly when N and the moves are the same", (order == Ordering::Equal) == same),
    ];
    laws.into_iter().find(|(_, holds)| !holds).map(|(law, _)| law)
}

/// What the engine's own whole check refuses.
fn fault(image: &[u8]) -> Option<Answer> {
    let mut numbers = [7; 4];
    let refusal = yard::check(image, &mut numbers);
    let [count, reached, place, offset] = numbers;
    (refusal != 0).then_some(Answer { refusal, count, reached, place, offset })
}

/// "The naming call refuses by the whole check, the first image first, saying which and where."
fn refused_first(faults: &[Option<Answer>], (first, second): (usize, usize)) -> Option<Named> {
    match (faults[first], faults[second]) {
        (Some(by), _) => Some(Named::Refused { image: 1, by }),
        (None, by) => by.map(|by| Named::Refused { image: 2, by }),
    }
}

fn is_exchanged(said: &Said, (first, second): (usize, usize), order: Ordering) -> bool {
    said.get(&(second, first)).is_none_or(|&back| back == Named::Accepted(order.reverse()))
}

/// Whether a map that comes before another, or is equal to it, comes before all that the other comes before.
fn is_in_line(said: &Said, (first, second): (usize, usize), order: Ordering) -> bool {
    let ordered = |pair| match said.get(&pair) {
        Some(Named::Accepted(order)) => Some(*order),
        _ => None,
    };
    let follows = |third: usize| match (ordered((second, third)), ordered((first, third))) {
        (Some(next), Some(both)) if next == order || next == Ordering::Equal => both == order,
        (Some(next), Some(both)) if order == Ordering::Equal => both == next,
        _ => true,
    };
    let last = said.keys().map(|pair| pair.1).max().unwrap_or(0);
    (0..=last).all(follows)
}

/// N and the moves in no order.
#[derive(PartialEq)]
struct Moves {
    stations: Option<usize>,
    moves: HashSet<(u16, u16, u16, u16)>,
}

impl Moves {
    fn new(filed: &Filed) -> Self {
        let rank = filed.rank.as_ref().ok();
        let moves = rank.iter().flat_map(|rank| rank.records.iter().copied()).collect();
        Moves { stations: rank.map(|rank| rank.stations), moves }
    }
}
