//! "Store replay" of document 02, on document 01's lists and on lists made for it.

use super::{from, m7, refused, search, Calls, Examples};
use outside::reference::lists::one_page_reads;
use outside::reference::replay::Asked;
use outside::reference::{Answer, Search};

pub fn examples(calls: &Calls) -> [Examples; 4] {
    [lists(calls), far_pages(calls), bounds(calls), refusals(calls)]
}

/// The answer that says so many reads.
fn reads(count: u32) -> Answer {
    Answer { count, ..Answer::default() }
}

/// Whether a list of pages that are nowhere far takes so many reads, "plain least recently used".
fn takes(calls: &Calls, list: &[u8], pages: usize, frames: usize, wanted: u32) -> bool {
    let distances = vec![0; pages * pages];
    (calls.replay)(Asked { list, pages, frames, distances: &distances, threshold: 0 }) == reads(wanted)
}

/// "With F 1 it equals the one-page reads. With D at least every distance it is plain least recently used."
fn lists(calls: &Calls) -> Examples {
    let takes = |list: &[u8], pages, frames, wanted| takes(calls, list, pages, frames, wanted);
    let list = |kind| search(calls, kind, &m7(), from(0), 7).list;
    let (plain, df) = (list(Search::Plain), list(Search::Df));
    let one_page = [one_page_reads(&plain), one_page_reads(&df)] == [4, 3];
    // As Dijkstra's search and ours list the pages of one map: with one frame ours takes fewer reads, with four more.
    let (longer, shorter) = ([1, 1, 0, 1, 3, 1, 3, 2, 4, 1, 1], [1, 0, 3, 2, 4, 1]);
    vec![
        ("replay: no reference", takes(&[], 1, 1, 0) && takes(&[], 240, 64, 0)),
        ("replay: one page", takes(&[0; 5], 1, 1, 1) && takes(&[6; 5], 7, 3, 1)),
        ("replay: C2 and C3, one frame", one_page && takes(&plain, 2, 1, 4) && takes(&df, 2, 1, 3)),
        ("replay: C2 and C3, two frames", takes(&plain, 2, 2, 2) && takes(&df, 2, 2, 2)),
        ("replay: references left out, one frame", takes(&longer, 5, 1, 9) && takes(&shorter, 5, 1, 6)),
        ("replay: references left out, four frames", takes(&longer, 5, 4, 5) && takes(&shorter, 5, 4, 6)),
        ("replay: three pages, two frames", takes(&[0, 1, 2, 0], 3, 2, 4)),
        ("replay: the first read is not the first to leave", takes(&[0, 1, 0, 2, 0], 3, 2, 3)),
        ("replay: nor is the last referred to", takes(&[0, 1, 2, 1], 3, 2, 3)),
    ]
}

/// "The least recently used of those farther than D from the page last referred to before the miss, or of all if none
/// is." Of pages 0, 1 and 2 in three frames, where 2 was referred to last, one leaves for 3.
fn far_pages(calls: &Calls) -> Examples {
    let with = |list: &[u8], frames, far: &[(usize, usize, u32)], threshold| {
        let mut distances = [0; 16];
        for &(row, page, distance) in far {
            distances[4 * row + page] = distance;
        }
        (calls.replay)(Asked { list, pages: 4, frames, distances: &distances, threshold }).count
    };
    // A page is referred to once more: the fifth read if it has left.
    let leaves = |far: &[(usize, usize, u32)], threshold| -> Vec<u8> {
        (0..3).filter(|&page| with(&[0, 1, 2, 3, page], 3, far, threshold) == 5).collect()
    };
    let all = [(2, 0, 9), (2, 1, 9), (2, 2, 9)];
    let others = [(0, 0, 9), (0, 1, 9), (0, 2, 9), (1, 0, 9), (1, 1, 9), (1, 2, 9), (3, 0, 9), (3, 1, 9), (3, 2, 9)];
    // Page 0 is referred to, but not read, before the miss.
    let referred = |far: &[(usize, usize, u32)], page| with(&[0, 1, 2, 0, 3, page], 3, far, 5);
    vec![
        ("replay: none far", leaves(&[], 5) == [0]),
        ("replay: one far", leaves(&[(2, 1, 9)], 5) == [1]),
        ("replay: two far, the less recently used", leaves(&[(2, 1, 9), (2, 2, 99)], 5) == [1]),
        ("replay: all far", leaves(&all, 5) == [0] && leaves(&all, 8) == [0] && leaves(&all, 9) == [0]),
        ("replay: far from itself", leaves(&[(2, 2, 9)], 5) == [2]),
        ("replay: a distance of D", leaves(&[(2, 1, 5)], 5) == [0] && leaves(&[(2, 1, 5)], 4) == [1]),
        ("replay: D 0", leaves(&[(2, 1, 1)], 0) == [1]),
        ("replay: greatest D", leaves(&[(2, 1, u32::MAX)], u32::MAX) == [0]),
        ("replay: greatest distance", leaves(&[(2, 1, u32::MAX)], u32::MAX - 1) == [1]),
        ("replay: by the row, not the column", leaves(&[(1, 2, 9)], 5) == [0]),
        ("replay: not from the page that is missed", leaves(&[(3, 1, 9)], 5) == [0] && leaves(&others, 5) == [0]),
        ("replay: from the page last referred to", referred(&[(0, 2, 9)], 2) == 5 && referred(&[(0, 2, 9)], 1) == 4),
        ("replay: not from the page last read", referred(&[(2, 2, 9)], 2) == 4 && referred(&[(2, 2, 9)], 1) == 5),
        ("replay: all far, frames free", with(&[0, 1, 2, 0, 1, 2], 3, &[all.as_slice(), &others].concat(), 0) == 3),
    ]
}

/// 64 frames, 240 pages; "there more frames never read more".
fn bounds(calls: &Calls) -> Examples {
    let round =
        |pages: u8, times: usize| -> Vec<u8> { (0..pages).cycle().take(usize::from(pages) * times).collect() };
    let takes = |list: &[u8], pages, frames, wanted| takes(calls, list, pages, frames, wanted);
    let all = vec![u32::MAX; 57_600];
    let every_far = |list: &[u8], frames| {
        (calls.replay)(Asked { list, pages: 240, frames, distances: &all, threshold: u32::MAX - 1 })
    };
    vec![
        ("replay: 64 pages round and round", takes(&round(64, 3), 64, 64, 64)),
        ("replay: 65 pages round and round", takes(&round(65, 3), 65, 64, 195)),
        ("replay: 65 pages round and round, 240 pages", takes(&round(65, 3), 240, 64, 195)),
        ("replay: 63 frames", takes(&round(64, 3), 64, 63, 192) && takes(&round(63, 3), 64, 63, 63)),
        ("replay: 90,000 references", takes(&round(3, 30_000), 3, 2, 90_000) && takes(&round(3, 30_000), 3, 3, 3)),
        ("replay: 240 pages", takes(&round(240, 2), 240, 64, 480) && takes(&round(240, 2), 240, 1, 480)),
        ("replay: 240 pages, all far", every_far(&round(240, 2), 64) == reads(480)),
        ("replay: 64 pages, all far", every_far(&round(64, 9), 64) == reads(64)),
    ]
}

/// "It refuses by 3, then with 23 an F of 0 or over 64, a list entry not below P or a distance table not P·P long."
fn refusals(calls: &Calls) -> Examples {
    let table = vec![0; 241 * 241];
    let call = |list: &[u8], pages, frames, length: usize| {
        (calls.replay)(Asked { list, pages, frames, distances: &table[..length], threshold: 0 })
    };
    let (by_pages, unfit) = (refused(3, 0, 0), refused(23, 0, 0));
    let (list, past) = ([0, 1, 2], [0, 3, 2]);
    vec![
        ("replay: 3, P 0", call(&[], 0, 1, 0) == by_pages && call(&list, 0, 0, 9) == by_pages),
        ("replay: 3, P 241", call(&list, 241, 1, 241 * 241) == by_pages && call(&list, 240, 1, 57_600) == reads(3)),
        ("replay: 3, P 241 before 23", call(&[255], 241, 65, 0) == by_pages),
        ("replay: 3, P 259", call(&list, 259, 1, 9) == by_pages),
        (
            "replay: 3, P over 32 bits",
            call(&list, (1 << 32) + 3, 1, 9) == by_pages && call(&[], 1 << 32, 1, 0) == by_pages,
        ),
        ("replay: 23, F 0", call(&list, 3, 0, 9) == unfit && call(&[], 3, 0, 9) == unfit),
        ("replay: 23, F 65", call(&list, 3, 65, 9) == unfit && call(&list, 3, 64, 9) == reads(3)),
        ("replay: 23, F 257", call(&list, 3, 257, 9) == unfit),
        (
            "replay: 23, F over 32 bits",
            call(&list, 3, (1 << 32) + 1, 9) == unfit && call(&list, 3, usize::MAX, 9) == unfit,
        ),
        ("replay: 23, an entry", call(&past, 3, 1, 9) == unfit && call(&past, 4, 1, 16) == reads(3)),
        ("replay: 23, the first entry", call(&[3, 0, 0], 3, 1, 9) == unfit && call(&[255], 3, 1, 9) == unfit),
        (
            "replay: 23, the last entry",
            call(&[0, 0, 3], 3, 1, 9) == unfit && call(&[0, 0, 240], 240, 1, 57_600) == unfit,
        ),
        ("replay: 23, a distance less", call(&list, 3, 1, 8) == unfit && call(&[], 1, 1, 0) == unfit),
        ("replay: 23, a distance more", call(&list, 3, 1, 10) == unfit && call(&[], 1, 1, 2) == unfit),
    ]
}
