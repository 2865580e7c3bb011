//! Searches on maps that the order calls equal: "then all times, moves and predecessors agree for each source and
//! length, though page lists may differ".

use super::Filed;
use crate::tally::Tally;
use outside::random::Random;
use outside::reference::order::Rank;
use outside::reference::{Query, Search, Tables};
use outside::yard;

/// What a search left on tables of just N entries, but for the page list.
#[derive(PartialEq)]
struct Found {
    refusal: u32,
    reached: u32,
    times: Vec<u32>,
    moves: Vec<u16>,
    preds: Vec<u16>,
}

/// Both searches on both images, from any source and for any length.
pub fn compare_searches(first: &Filed, second: &Filed, random: &mut Random, tally: &mut Tally) -> Result<(), String> {
    let Ok(rank) = &first.rank else { return Ok(()) };
    let query = Query { source: random.below(rank.stations) as u16, strip: strip(rank, random) };
    for kind in [Search::Plain, Search::Df] {
        let [(ours, list), (theirs, other)] =
            [first, second].map(|filed| search(kind, &filed.image, query, rank.stations));
        if ours.refusal != 0 || ours != theirs {
            return Err(format!("equal, and {kind:?} is refused or leaves other tables for {query:?}"));
        }
        tally.equal_lists(kind, &list, &other);
    }
    Ok(())
}

/// Next to a limit of the map, if it has one; else any.
fn strip(rank: &Rank, random: &mut Random) -> u16 {
    let limits: Vec<u16> = rank.records.iter().map(|record| record.3).filter(|&limit| limit != 0).collect();
    if limits.is_empty() || random.one_in(4) {
        return random.word() as u16;
    }
    let limit = random.pick(&limits);
    random.next_to(limit)
}

fn search(kind: Search, image: &[u8], query: Query, n: usize) -> (Found, Vec<u8>) {
    let (mut times, mut moves, mut preds) = (vec![7; n], vec![7; n], vec![7; n]);
    let (mut marks, mut list) = (vec![7; n], vec![7; n]);
    let tables =
        Tables { times: &mut times, moves: &mut moves, preds: &mut preds, marks: &mut marks, list: &mut list };
    let mut answer = [7; 4];
    let refusal = yard::search(kind, image, query, tables, &mut answer);
    list.truncate(answer[0] as usize);
    (Found { refusal, reached: answer[1], times, moves, preds }, list)
}
