//! "Order of maps" of document 02, on document 01's maps and on maps made for it.

use super::{drawn, from, m7, map, refused, s, search, spoiled_m7, Calls, Examples, M7_MOVES};
use outside::maps::Map;
use outside::reference::{Answer, Query, Search};

pub fn examples(calls: &Calls) -> [Examples; 4] {
    [lists(calls), numbers(calls), refusals(calls), equals(calls)]
}

/// Whether the first map comes first, and exchanged the second.
fn rises(calls: &Calls, first: &[u8], second: &[u8]) -> bool {
    let lesser = |count| Answer { count, ..Answer::default() };
    (calls.order)(first, second) == lesser(1) && (calls.order)(second, first) == lesser(2)
}

fn are_equal(calls: &Calls, first: &[u8], second: &[u8]) -> bool {
    let equal = Answer::default();
    (calls.order)(first, second) == equal && (calls.order)(second, first) == equal
}

/// A map of so many stations, 40 on a page, with moves of a from, target, time and limit, or 0 for none.
fn map_of(stations: usize, moves: &[(usize, usize, u16, u16)]) -> Vec<u8> {
    let directory = (0..stations).map(|station| (station / 40) as u8).collect();
    let mut map = Map::new(stations.div_ceil(40), directory);
    for &(from, target, time, limit) in moves {
        map.add(from, target, time, (limit != 0).then_some(limit));
    }
    map.image()
}

/// "By N, then by their records as a list, .. a list that is a front part of another coming first."
fn lists(calls: &Calls) -> Examples {
    let rises = |first: &[u8], second: &[u8]| rises(calls, first, second);
    let m7_of = |moves: &[(usize, usize, u16)]| drawn(2, vec![0, 0, 0, 0, 1, 1, 1], moves);
    let without = |at: usize| m7_of(&[&M7_MOVES[..at], &M7_MOVES[at + 1..]].concat());
    let with = |step| m7_of(&[&M7_MOVES[..], &[step]].concat());
    // Station 0 has a move less than in the other map, but there are moves behind it.
    let (less, more) = ([(0, 1, 5, 0), (1, 0, 5, 0), (2, 0, 5, 0)], [(0, 1, 5, 0), (0, 2, 5, 0)]);
    vec![
        ("order: M7 without its last move", rises(&without(7), &m7())),
        ("order: M7 without any other", (0..7).all(|at| rises(&m7(), &without(at)))),
        ("order: M7 with a move more at the end", rises(&m7(), &with((6, 0, 0)))),
        ("order: M7 with a move more before it", rises(&with((5, 4, 65_535)), &m7())),
        ("order: each front part of M7", (0..8).all(|count| rises(&m7_of(&M7_MOVES[..count]), &m7()))),
        ("order: a front part of a station's moves alone", rises(&map_of(3, &more), &map_of(3, &less))),
        ("order: S and M7", rises(&s(), &m7())),
        ("order: N before the moves", rises(&map_of(3, &less), &map_of(4, &[]))),
        ("order: N alone", rises(&map_of(255, &less), &map_of(256, &less))),
    ]
}

/// A map of as many moves as there can be, 50 on each page; the last has a time of its own.
fn most_moves(last: u16) -> Vec<u8> {
    let mut map = Map::new(240, (0..240).collect());
    for from in 0..240 {
        for target in (0..51).filter(|&target| target != from).take(50) {
            map.add(from, target, if (from, target) == (239, 49) { last } else { 7 }, None);
        }
    }
    map.image()
}

/// "Record by record on (from, target, time, limit)": one record against another, each number taken whole.
fn numbers(calls: &Calls) -> Examples {
    let last = |time, limit| map_of(2_048, &[(0, 1, 9, 9), (2_047, 2_046, time, limit)]);
    let [last_time, last_limit, last_of_most] =
        [[last(4, 9), last(5, 0)], [last(5, 0), last(5, 9)], [most_moves(4), most_moves(5)]]
            .map(|[first, second]| rises(calls, &first, &second));
    let rises = |first, second| rises(calls, &map_of(600, &[first]), &map_of(600, &[second]));
    vec![
        ("order: from before target", rises((1, 599, 9, 9), (2, 0, 0, 0))),
        ("order: from 255 and 256", rises((255, 0, 5, 0), (256, 0, 5, 0))),
        ("order: target before time", rises((0, 1, 65_535, 9), (0, 2, 0, 0))),
        ("order: target 255 and 256", rises((0, 255, 5, 0), (0, 256, 5, 0))),
        ("order: time before limit", rises((0, 1, 4, 65_535), (0, 1, 5, 0))),
        ("order: time 255 and 256", rises((0, 1, 255, 0), (0, 1, 256, 0))),
        ("order: time 1 and 257", rises((0, 1, 1, 9), (0, 1, 257, 0))),
        ("order: time 0 and 65,535", rises((0, 1, 0, 7), (0, 1, 65_535, 7))),
        ("order: limit 255 and 256", rises((0, 1, 5, 255), (0, 1, 5, 256))),
        ("order: limit 1 and 65,535", rises((0, 1, 5, 1), (0, 1, 5, 65_535))),
        ("order: no limit is 0", rises((0, 1, 5, 0), (0, 1, 5, 1)) && rises((0, 1, 5, 0), (0, 1, 5, 65_535))),
        ("order: the last move of 2,048 stations, its time", last_time),
        ("order: the last move of 2,048 stations, its limit", last_limit),
        ("order: the last of 12,000 moves, its time", last_of_most),
    ]
}

/// "The naming call refuses by the whole check, the first image first, saying which and where."
fn refusals(calls: &Calls) -> Examples {
    let refuses = |first: &[u8], second: &[u8], image, wanted: Answer| {
        (calls.order)(first, second) == Answer { reached: image, ..wanted }
    };
    let (m7, spoiled) = (m7(), spoiled_m7());
    let (short, outside) = ([1, 0, 1], map(2, &[0, 1], &[&[]]));
    let (by_code, by_length) = (refused(8, 1, 0), refused(1, 0, 0));
    // The fault lies behind what would decide: C7's page, and S has fewer stations.
    let late = refuses(&s(), &spoiled, 2, by_code) && refuses(&spoiled, &s(), 1, by_code);
    vec![
        ("order: the first refused", refuses(&spoiled, &m7, 1, by_code)),
        ("order: the second refused", refuses(&m7, &spoiled, 2, by_code)),
        ("order: refused, though N decides", late),
        ("order: refused with itself", refuses(&spoiled, &spoiled, 1, by_code)),
        ("order: a page of the first before 1 of the second", refuses(&spoiled, &short, 1, by_code)),
        ("order: 1 of the first before a page of the second", refuses(&short, &spoiled, 1, by_length)),
        ("order: 1 of the second", refuses(&m7, &short, 2, by_length) && refuses(&m7, &[], 2, by_length)),
        ("order: both refused by 1", refuses(&[], &short, 1, by_length)),
        ("order: 5 with its station", refuses(&m7, &outside, 2, refused(5, 1, 0))),
        ("order: 5 of the first before 1", refuses(&outside, &short, 1, refused(5, 1, 0))),
    ]
}

/// A map, of which the last 261 bytes are S: on page 0 the last move, to station 1 in time 1, and the end spell S's
/// heading and directory, and page 1 is S's page.
fn around_s() -> Vec<u8> {
    let mut moves: Vec<(usize, usize, u16)> = (2..16).map(|target| (1, target, 7)).collect();
    moves.push((60, 1, 1));
    let mut directory = vec![0; 61];
    directory[0] = 1;
    drawn(2, directory, &moves)
}

/// "Equal holds exactly when N and the moves are the same; then all times, moves and predecessors agree for each source
/// and length, though page lists may differ."
fn equals(calls: &Calls) -> Examples {
    let equal = |first: &[u8], second: &[u8]| are_equal(calls, first, second);
    let on_pages = |pages, directory: &[u8]| drawn(pages, directory.to_vec(), &M7_MOVES);
    let exchanged = on_pages(2, &[1, 1, 1, 1, 0, 0, 0]);
    let others = [on_pages(1, &[0; 7]), on_pages(9, &[8, 0, 3, 3, 1, 7, 2]), exchanged.clone()];
    let agree = |source| {
        let run = |image: &[u8]| search(calls, Search::Df, image, from(source), 7);
        let ours = run(&m7());
        let same = |image: &Vec<u8>| {
            let theirs = run(image);
            theirs.times == ours.times && theirs.moves == ours.moves && theirs.preds == ours.preds
        };
        others.iter().all(same)
    };
    let list = |image: &[u8]| search(calls, Search::Df, image, Query { source: 0, strip: 0 }, 7).list;
    let around = around_s();
    let tail = &around[around.len() - 261..];
    vec![
        ("order: M7 and itself, in one memory or two", equal(&others[0], &others[0]) && equal(&m7(), &m7())),
        ("order: M7 on other pages", others.iter().all(|other| equal(other, &m7()))),
        ("order: equal maps, equal searches", (0..7).all(agree)),
        ("order: equal maps, other lists", list(&m7()) == [0, 1, 0] && list(&exchanged) == [1, 0, 1]),
        ("order: equal maps, shorter lists", list(&others[0]) == [0]),
        ("order: no moves, other pages", equal(&map(2, &[0, 0], &[&[1, 0, 0, 1, 1, 0]]), &drawn(2, vec![0, 1], &[]))),
        ("order: a map in the memory of another", tail == s() && rises(calls, tail, &around)),
    ]
}
