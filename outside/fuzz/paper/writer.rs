//! "Map writer" of document 02, on document 01's maps and on maps made for it.

use super::{drawn, m7, map, refused, s, spoiled_m7, two_ways, Calls, Examples, M7_MOVES};
use outside::reference::records::{Drawing, Record};
use outside::reference::Answer;

pub fn examples(calls: &Calls) -> [Examples; 4] {
    [map_read(calls), map_written(calls), bad_records(calls), full_pages(calls)]
}

fn record((from, target, time): (usize, usize, u16)) -> Record {
    Record { from: from as u16, target: target as u16, time, limit: 0 }
}

/// What stands in a list before a call.
const KEPT: Record = Record { from: 7, target: 7, time: 7, limit: 7 };

/// "Reading does the whole check, only then refuses too short a record list with 7, writes the records to the list's
/// front and answers their count."
fn map_read(calls: &Calls) -> Examples {
    let read = |image: &[u8], room| {
        let mut list = vec![KEPT; room];
        ((calls.records)(image, &mut list), list)
    };
    let listed = |records: &[Record], kept| {
        let list = [records.to_vec(), vec![KEPT; kept]].concat();
        (Answer { count: records.len() as u32, ..Answer::default() }, list)
    };
    let m7_records = M7_MOVES.map(record);
    let limited = [record((0, 1, 4)), record((0, 2, 9)), Record { limit: 8_120, ..record((1, 2, 3)) }];
    // 0-1 on page 1 and 1-0 on page 0: by station, not by page.
    let turned = drawn(2, vec![1, 0], &[(0, 1, 5), (1, 0, 6)]);
    vec![
        ("records: M7", read(&m7(), 8) == listed(&m7_records, 0)),
        ("records: M7, later entries kept", read(&m7(), 11) == listed(&m7_records, 3)),
        ("records: S has none", read(&s(), 0) == listed(&[], 0)),
        ("records: limit 0 means 02", read(&two_ways(), 3) == listed(&limited, 0)),
        ("records: by from, then target", read(&turned, 2) == listed(&[(0, 1, 5), (1, 0, 6)].map(record), 0)),
        ("records: 7", read(&m7(), 7) == (refused(7, 0, 0), vec![KEPT; 7])),
        ("records: C7's page before 7", read(&spoiled_m7(), 0) == (refused(8, 1, 0), vec![])),
        ("records: C7, the list kept", read(&spoiled_m7(), 9) == (refused(8, 1, 0), vec![KEPT; 9])),
        ("records: 1", read(&[1, 0, 1], 1) == (refused(1, 0, 0), vec![KEPT])),
        ("records: 5", read(&map(2, &[0, 1], &[&[]]), 0) == (refused(5, 1, 0), vec![])),
    ]
}

/// The writer's answer, and whether the buffer then has the bytes wanted, or at a refusal its own.
fn writes(calls: &Calls, drawing: Drawing, length: usize, wanted: Result<&[u8], Answer>) -> bool {
    let mut buffer = vec![7; length];
    let kept = buffer.clone();
    let answer = (calls.write)(drawing, &mut buffer);
    match wanted {
        Ok(image) => answer == Answer::default() && buffer == image,
        Err(refused) => answer == refused && buffer == kept,
    }
}

/// "The writer refuses by 2, 3, 4 (the buffer, or a directory not N bytes long) and 5 first."
fn map_written(calls: &Calls) -> Examples {
    let records = M7_MOVES.map(record);
    let image = m7();
    let good = Drawing { records: &records, stations: 7, pages: 2, directory: &image[4..11] };
    let refuses = |drawing, length, refusal, place| writes(calls, drawing, length, Err(refused(refusal, place, 0)));
    let two_ways = two_ways();
    let limited = [record((0, 1, 4)), record((0, 2, 9)), Record { limit: 8_120, ..record((1, 2, 3)) }];
    let three = Drawing { records: &limited, stations: 3, pages: 1, directory: &[0; 3] };
    let none = Drawing { records: &[], stations: 1, pages: 1, directory: &[0] };
    let wrong = Drawing { records: &[KEPT], directory: &[0, 0, 2, 2, 1, 1, 1], ..good };
    vec![
        ("write: M7", writes(calls, good, 523, Ok(&image))),
        ("write: S", writes(calls, none, 261, Ok(&s()))),
        ("write: limit 0 means 02", writes(calls, three, 263, Ok(&two_ways))),
        ("write: 2, N 0", refuses(Drawing { stations: 0, ..wrong }, 0, 2, 0)),
        ("write: 2, N 2,049", refuses(Drawing { stations: 2_049, pages: 0, ..wrong }, 0, 2, 0)),
        ("write: 3, P 0", refuses(Drawing { pages: 0, ..wrong }, 11, 3, 0)),
        ("write: 3, P 241", refuses(Drawing { pages: 241, ..wrong }, 0, 3, 0)),
        ("write: 4, a byte less", refuses(wrong, 522, 4, 0)),
        ("write: 4, a byte more", refuses(wrong, 524, 4, 0)),
        ("write: 4, directory a byte less", refuses(Drawing { directory: &image[4..10], ..good }, 523, 4, 0)),
        ("write: 4, directory a byte more", refuses(Drawing { directory: &image[4..12], ..good }, 523, 4, 0)),
        ("write: 5 before 19, the lowest station", refuses(wrong, 523, 5, 2)),
    ]
}

/// "With 19 the first record whose from or target isn't below N, whose target is its from, or that isn't above its
/// predecessor by (from, target)."
fn bad_records(calls: &Calls) -> Examples {
    let image = m7();
    let with = |changed: &[(usize, (usize, usize, u16))], index| {
        let mut records = M7_MOVES.map(record);
        for &(at, step) in changed {
            records[at] = record(step);
        }
        let drawing = Drawing { records: &records, stations: 7, pages: 2, directory: &image[4..11] };
        writes(calls, drawing, 523, Err(refused(19, index, 0)))
    };
    vec![
        ("19, from", with(&[(7, (7, 6, 1))], 7)),
        ("19, target", with(&[(2, (1, 7, 3))], 2)),
        ("19, its own target", with(&[(0, (0, 0, 4))], 0)),
        ("19, the same move", with(&[(4, (2, 3, 9))], 4)),
        ("19, a lower target", with(&[(6, (4, 1, 6))], 6)),
        ("19, a lower from", with(&[(5, (2, 6, 1))], 5)),
        ("19, the first of two", with(&[(3, (65_535, 0, 1)), (6, (4, 4, 6))], 3)),
    ]
}

/// The writer's answer; none if at a refusal the buffer did not keep its bytes.
fn answered(calls: &Calls, drawing: Drawing, length: usize) -> Option<Answer> {
    let mut buffer = vec![7; length];
    let answer = (calls.write)(drawing, &mut buffer);
    (answer.refusal == 0 || buffer.iter().all(|&byte| byte == 7)).then_some(answer)
}

/// "Then with 20 the lowest page that needs more than 256 bytes", the `00` counted; the buffer keeps its bytes.
fn full_pages(calls: &Calls) -> Examples {
    let crowded = |stations: usize, records: &[Record]| {
        let directory = vec![0; stations];
        answered(
            calls,
            Drawing { records, stations: stations as u16, pages: 1, directory: &directory },
            4 + stations + 256,
        )
    };
    // Station 0 alone on page 1, with so many moves, of which so many have limits: 4 bytes, and 5 or 7 for each.
    let alone = |moves: usize, limited: usize| {
        let mut directory = vec![0; 60];
        directory[0] = 1;
        let mut records: Vec<Record> = (1..=moves).map(|target| record((0, target, 1))).collect();
        records[..limited].iter_mut().for_each(|record| record.limit = 1);
        answered(calls, Drawing { records: &records, stations: 60, pages: 2, directory: &directory }, 4 + 60 + 512)
    };
    let all = |count: usize| {
        let directory: Vec<u8> = (0..2048).map(|station| (station % 240) as u8).collect();
        let keys = (0..2048).flat_map(|from| (0..2048).map(move |target| (from, target, 9)));
        let mut records: Vec<Record> = keys.filter(|&(from, target, _)| from != target).map(record).collect();
        records.resize(count, *records.last().expect("a record"));
        answered(calls, Drawing { records: &records, stations: 2048, pages: 240, directory: &directory }, 63_492)
    };
    let (fits, full) = (Some(Answer::default()), |page| Some(refused(20, page, 0)));
    vec![
        ("85 stations fit a page", crowded(85, &[]) == fits),
        ("86 stations do not", crowded(86, &[]) == full(0)),
        ("85 stations and a move do not", crowded(85, &[record((0, 1, 1))]) == full(0)),
        ("19 before 20", crowded(86, &[record((0, 0, 1))]) == Some(refused(19, 0, 0))),
        ("20: 254 bytes", alone(50, 0) == fits),
        ("20: 256 bytes", alone(50, 1) == fits),
        ("20: 257 bytes", alone(49, 4) == full(1)),
        ("20: 258 bytes", alone(50, 2) == full(1)),
        ("20: 259 bytes", alone(51, 0) == full(1)),
        ("20: every move of 2,048 stations", all(4_192_256) == full(0)),
        ("19: and one of them once more", all(4_192_257) == Some(refused(19, 4_192_256, 0))),
    ]
}
