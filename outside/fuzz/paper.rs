//! The examples that document 01 prints with their answers: the table of refusals, course cases C1 to C10 and the
//! bounds named beside them; and what document 02 says of limits, the panel, the number of moves, moves of time 0,
//! records, the order of maps and the store replay, on these maps and on maps and lists made for it. They are held
//! against the reference as well as the engine, so that both hang on the paper.

mod orders;
mod replays;
mod writer;

use outside::maps::Map;
use outside::reference::lists::one_page_reads;
use outside::reference::panel::Panel;
use outside::reference::records::{self, Drawing, Record};
use outside::reference::replay::{self, Asked};
use outside::reference::route::Routes;
use outside::reference::{image, letter, order, Answer, Query, Search, Tables, SOURCE};
use outside::yard;

/// Both implementations of each call, under one signature.
type Check = fn(&[u8]) -> Answer;
type Run = fn(Search, &[u8], Query, Tables) -> Answer;
type Way = fn(&[u16], u16, &mut [u16]) -> Answer;
type Show = fn(&[u8], Query, u16) -> f64;
type Read = fn(&[u8], &mut [Record]) -> Answer;
type Write = fn(Drawing, &mut [u8]) -> Answer;
type Order = fn(&[u8], &[u8]) -> Answer;
type Replay = fn(Asked) -> Answer;

struct Calls {
    check: Check,
    search: Run,
    route: Way,
    panel: Show,
    records: Read,
    write: Write,
    order: Order,
    replay: Replay,
}

const REFERENCE: Calls = Calls {
    check: image::check,
    search: letter::search,
    route: |preds, station, out| Routes::new(preds).call(station, out),
    panel: |image, query, station| Panel::new(image, query).outside(station),
    records: |image, list| records::read(&records::of_image(image), list),
    write: records::write,
    order: |first, second| order::name(&order::rank(first), &order::rank(second)).answer(),
    replay: |asked| replay::answer(asked.reads()),
};

const ENGINE: Calls = Calls {
    check: |image| answered(|answer| yard::check(image, answer)),
    search: |kind, image, query, tables| answered(|answer| yard::search(kind, image, query, tables, answer)),
    route: |preds, station, out| answered(|answer| yard::route(preds, station, out, answer)),
    panel: yard::panel,
    records: |image, list| answered(|answer| yard::records(image, list, answer)),
    write: |drawing, buffer| answered(|answer| yard::write(drawing, buffer, answer)),
    order: |first, second| answered(|answer| yard::order(first, second, answer)),
    replay: |asked| answered(|answer| yard::replay(asked, answer)),
};

fn answered(call: impl FnOnce(&mut [u32]) -> u32) -> Answer {
    let mut numbers = [0; 4];
    let refusal = call(&mut numbers);
    let [count, reached, place, offset] = numbers;
    Answer { refusal, count, reached, place, offset }
}

/// How many examples were tried, or the first that came out otherwise.
pub fn compare() -> Result<usize, String> {
    let mut tried = 0;
    for (name, calls) in [("reference", REFERENCE), ("engine", ENGINE)] {
        let document_01 = [headings(&calls), pages(&calls), course(&calls), routes(&calls), bounds(&calls)];
        let document_02 = [limits(&calls), panel(&calls), fewer_moves(&calls), tables(&calls)];
        let without_time = [turntables(&calls), cycles(&calls), fewer_handovers(&calls)];
        let parts = document_01.into_iter().chain(document_02).chain(without_time);
        let parts = parts.chain(writer::examples(&calls)).chain(orders::examples(&calls));
        let parts = parts.chain(replays::examples(&calls));
        let examples: Vec<_> = parts.flatten().collect();
        if let Some((example, _)) = examples.iter().find(|(_, holds)| !holds) {
            return Err(format!("{name}: {example}"));
        }
        tried = examples.len();
    }
    Ok(tried)
}

type Examples = Vec<(&'static str, bool)>;

fn refused(refusal: u32, place: u32, offset: u32) -> Answer {
    Answer { place, offset, ..Answer::refused(refusal) }
}

fn accepted(count: u32, reached: u32) -> Answer {
    Answer { count, reached, ..Answer::default() }
}

/// The map of heading, directory and page beginnings; the rest of each page is zeros.
fn map(stations: u16, directory: &[u8], pages: &[&[u8]]) -> Vec<u8> {
    let mut image = [stations.to_le_bytes(), (pages.len() as u16).to_le_bytes()].concat();
    image.extend(directory);
    for page in pages {
        image.extend(*page);
        image.resize(image.len() + 256 - page.len(), 0);
    }
    image
}

/// From a station, for the strip that document 01's records have. None of its maps has a limit.
fn from(source: u16) -> Query {
    Query { source, strip: 8_120 }
}

/// S, the 261-byte map.
fn s() -> Vec<u8> {
    map(1, &[0], &[&[1, 0, 0, 0]])
}

fn headings(calls: &Calls) -> Examples {
    let check = |image: &[u8], wanted| (calls.check)(image) == wanted;
    let s = s();
    vec![
        ("S is 261 bytes long and good", s.len() == 261 && check(&s, Answer::default())),
        ("1", check(&[1, 0, 1], refused(1, 0, 0))),
        ("2", check(&[0, 0, 1, 0], refused(2, 0, 0))),
        ("3", check(&[1, 0, 0, 0], refused(3, 0, 0))),
        ("4", check(&s[..260], refused(4, 0, 0))),
        ("5", check(&map(1, &[1], &[&[1, 0, 0, 0]]), refused(5, 0, 0))),
        ("6", search(calls, Search::Df, &s, from(1), 1).answer == refused(6, 0, 0)),
        ("7", list_of_none(calls, &s) == refused(7, 0, 0)),
    ]
}

fn list_of_none(calls: &Calls, image: &[u8]) -> Answer {
    let tables = Tables { times: &mut [7], moves: &mut [7], preds: &mut [7], marks: &mut [7], list: &mut [] };
    (calls.search)(Search::Df, image, from(0), tables)
}

/// "Time 0 is accepted in `02` and `03`, so 13 no longer occurs": its example is now refused for the station that the
/// page lacks, and good with it.
fn pages(calls: &Calls) -> Examples {
    let check = |image: Vec<u8>, wanted| (calls.check)(&image) == wanted;
    let one = |page: &[u8]| map(1, &[0], &[page]);
    let two = |page: &[u8]| map(2, &[0, 0], &[page]);
    let mut stations = Vec::new();
    for number in 0..86 {
        stations.extend([1, number, 0]);
    }
    stations.truncate(256);
    vec![
        ("8", check(one(&[7]), refused(8, 0, 0))),
        ("9", check(map(86, &[0; 86], &[&stations]), refused(9, 0, 255))),
        ("10", check(one(&[]), refused(10, 0, 0))),
        ("11", check(one(&[2, 0, 0, 1, 0]), refused(11, 0, 0))),
        ("12", check(one(&[1, 0, 0, 2, 0, 0, 1, 0]), refused(12, 0, 3))),
        ("13's example, now 10", check(two(&[1, 0, 0, 2, 1, 0, 0, 0]), refused(10, 0, 8))),
        ("13's example and station 1", check(two(&[1, 0, 0, 2, 1, 0, 0, 0, 1, 1, 0]), Answer::default())),
        ("14", check(one(&[1, 0, 0, 0, 5]), refused(14, 0, 3))),
    ]
}

/// What a search gave, on tables of just the map's length filled with sevens.
struct Given {
    answer: Answer,
    times: Vec<u32>,
    moves: Vec<u16>,
    preds: Vec<u16>,
    list: Vec<u8>,
}

fn search(calls: &Calls, kind: Search, image: &[u8], query: Query, n: usize) -> Given {
    let (mut times, mut moves, mut preds) = (vec![7; n], vec![7; n], vec![7; n]);
    let (mut marks, mut list) = (vec![7; n], vec![7; n]);
    let tables =
        Tables { times: &mut times, moves: &mut moves, preds: &mut preds, marks: &mut marks, list: &mut list };
    let answer = (calls.search)(kind, image, query, tables);
    list.truncate(answer.count as usize);
    Given { answer, times, moves, preds, list }
}

const M7_MOVES: [(usize, usize, u16); 8] =
    [(0, 1, 4), (0, 4, 2), (1, 2, 3), (2, 3, 3), (3, 5, 3), (4, 2, 1), (4, 5, 6), (5, 6, 1)];

fn m7() -> Vec<u8> {
    drawn(2, vec![0, 0, 0, 0, 1, 1, 1], &M7_MOVES)
}

/// M7, page 1 begins `07`.
fn spoiled_m7() -> Vec<u8> {
    let mut image = m7();
    image[4 + 7 + 256] = 7;
    image
}

fn drawn(pages: usize, directory: Vec<u8>, moves: &[(usize, usize, u16)]) -> Vec<u8> {
    let mut map = Map::new(pages, directory);
    for &(from, target, time) in moves {
        map.add(from, target, time, None);
    }
    map.image()
}

fn course(calls: &Calls) -> Examples {
    let run = |kind, image: &[u8], source| search(calls, kind, image, from(source), usize::from(image[0]));
    let (df, plain) = (run(Search::Df, &m7(), 0), run(Search::Plain, &m7(), 0));
    let alone = run(Search::Df, &m7(), 6);
    let single = run(Search::Df, &s(), 0);
    let tied = run(Search::Df, &drawn(1, vec![0; 4], &[(0, 1, 6), (0, 2, 5), (1, 3, 4), (2, 3, 5)]), 0);
    let spoiled = run(Search::Df, &spoiled_m7(), 0);
    let apart = map(2, &[0, 1], &[&[1, 0, 0, 0], &[7]]);
    let (far, near) = (run(Search::Df, &apart, 0), run(Search::Df, &apart, 1));
    vec![
        ("C1 times", df.times == [0, 4, 3, 6, 2, 8, 9] && plain.times == df.times),
        ("C1 predecessors", df.preds == [65534, 0, 4, 2, 0, 4, 5] && plain.preds == df.preds),
        ("C2", df.list == [0, 1, 0] && one_page_reads(&df.list) == 3 && df.answer == accepted(3, 7)),
        ("C3", plain.list == [0, 1, 0, 0, 0, 1, 1] && one_page_reads(&plain.list) == 4),
        ("C4", alone.list == [1] && alone.answer == accepted(1, 1)),
        ("C5", single.list == [0] && single.times == [0]),
        ("C6", tied.times[3] == 10 && tied.preds[3] == 1),
        ("C7", spoiled.list == [0, 1] && spoiled.answer == Answer { count: 2, ..refused(8, 1, 0) }),
        ("C8", far.list == [0] && far.answer == accepted(1, 1)),
        ("C9", near.list == [1] && near.answer == Answer { count: 1, ..refused(8, 1, 0) }),
    ]
}

fn routes(calls: &Calls) -> Examples {
    let route = |preds: &[u16], station, length| {
        let mut out = vec![7; length];
        ((calls.route)(preds, station, &mut out), out)
    };
    let found = |count| Answer { count, ..Answer::default() };
    vec![
        ("C10", route(&[65534, 0, 4, 2, 0, 4, 5], 6, 5) == (found(4), vec![0, 4, 5, 6, 7])),
        ("no route", route(&[65535], 0, 1) == (found(0), vec![7])),
        ("15", route(&[SOURCE], 1, 1) == (refused(15, 0, 0), vec![7])),
        ("16", route(&[0], 0, 1) == (refused(16, 0, 0), vec![7])),
        ("17", route(&[SOURCE], 0, 0) == (refused(17, 0, 0), vec![])),
    ]
}

/// A map of 2,048 stations on 240 pages.
fn full(moves: &[(usize, usize, u16)]) -> Vec<u8> {
    drawn(240, (0..2048).map(|station| (station % 240) as u8).collect(), moves)
}

/// From each station of such a map to the next, in one time.
fn chain(time: u16) -> Vec<(usize, usize, u16)> {
    (0..2047).map(|station| (station, station + 1, time)).collect()
}

/// N 2,048 and 2,049; P 240 and 241; times 65,535 and 0.
fn bounds(calls: &Calls) -> Examples {
    let check = |image: &[u8], wanted| (calls.check)(image) == wanted;
    let [full, still] = [65_535, 0].map(|time| full(&[(0, 1, time), (1, 2047, time)]));
    let too_many = [2049u16.to_le_bytes().to_vec(), vec![240, 0], vec![0; 2049 + 256 * 240]].concat();
    let too_long = [vec![1, 0, 241, 0, 0], vec![0; 256 * 241]].concat();
    let [long, none] = [&full, &still].map(|image| search(calls, Search::Df, image, from(0), 2048));
    vec![
        ("N 2,048, P 240", full.len() == 63_492 && check(&full, Answer::default())),
        ("N 2,049", check(&too_many, refused(2, 0, 0))),
        ("P 241", check(&too_long, refused(3, 0, 0))),
        ("times 65,535", long.times[2047] == 131_070 && long.answer.reached == 3),
        ("times 0", none.times[2047] == 0 && none.answer.reached == 3 && check(&still, Answer::default())),
    ]
}

/// 0-1/4, 0-2/9, and 1-2/3 for strips of up to 8,120 decimetres: the way 0-1-2 takes 7.
fn two_ways() -> Vec<u8> {
    let page = [1, 0, 0, 2, 1, 0, 4, 0, 2, 2, 0, 9, 0, 1, 1, 0, 3, 2, 0, 3, 0, 0xB8, 0x1F, 1, 2, 0];
    map(3, &[0; 3], &[&page])
}

/// "It refuses a limit of 0 with 18, tried after 13", which no longer occurs, and so after 12; "use a move only if its
/// limit isn't below it".
fn limits(calls: &Calls) -> Examples {
    let check = |page: &[u8], wanted| (calls.check)(&map(2, &[0, 0], &[page])) == wanted;
    let open = |strip, times: [u32; 3]| {
        let run = |kind| search(calls, kind, &two_ways(), Query { source: 0, strip }, 3);
        run(Search::Plain).times == times && run(Search::Df).times == times
    };
    vec![
        ("04 is unknown", check(&[4], refused(8, 0, 0))),
        ("18", check(&[1, 0, 0, 3, 1, 0, 1, 0, 0, 0], refused(18, 0, 3))),
        ("18, time 0", check(&[1, 0, 0, 3, 1, 0, 0, 0, 0, 0], refused(18, 0, 3))),
        ("12 before 18", check(&[1, 0, 0, 3, 0, 0, 0, 0, 0, 0], refused(12, 0, 3))),
        ("limit 8,120, strip 0", open(0, [0, 4, 7])),
        ("limit 8,120, strip 8,120", open(8_120, [0, 4, 7])),
        ("limit 8,120, strip 8,121", open(8_121, [0, 4, 9])),
        ("limit 8,120, strip 65,535", open(65_535, [0, 4, 9])),
    ]
}

/// "No route is -1 and refusal n is -100 - n, its place left out. Station numbers not below N count as refusal 6."
/// Compared bit for bit: the source's time is 0 and not minus zero.
fn panel(calls: &Calls) -> Examples {
    let shows = |image: &[u8], query, station, wanted: f64| {
        (calls.panel)(image, query, station).to_bits() == wanted.to_bits()
    };
    let (m7, spoiled, s) = (m7(), spoiled_m7(), s());
    let times = [0.0, 4.0, 3.0, 6.0, 2.0, 8.0, 9.0];
    let no_map = |number| shows(&[1, 0, 1], Query { source: number, strip: number }, number, -101.0);
    let limited = |strip, from_0, from_1| {
        let to_2 = |source, wanted| shows(&two_ways(), Query { source, strip }, 2, wanted);
        to_2(0, from_0) && to_2(1, from_1)
    };
    let [chain, still] = [65_535, 0].map(chain);
    vec![
        ("panel: C1", (0..7).zip(times).all(|(station, time)| shows(&m7, from(0), station, time))),
        ("panel: no route", shows(&m7, from(6), 0, -1.0) && shows(&m7, from(6), 6, 0.0)),
        ("panel: 1", [0, 1, 2, 65_535].into_iter().all(no_map)),
        ("panel: 5 before 6", shows(&map(1, &[1], &[&[1, 0, 0, 0]]), from(1), 1, -105.0)),
        ("panel: 6, station", shows(&s, from(0), 1, -106.0)),
        ("panel: 6, source", shows(&s, from(1), 0, -106.0)),
        ("panel: C7", (0..7).all(|station| shows(&spoiled, from(0), station, -108.0))),
        ("panel: 6 before C7's page", shows(&spoiled, from(0), 7, -106.0)),
        ("panel: limit 8,120, strip 8,120", limited(8_120, 7.0, 3.0)),
        ("panel: limit 8,120, strip 8,121", limited(8_121, 9.0, -1.0)),
        ("panel: greatest time", shows(&full(&chain), from(0), 2_047, 134_150_145.0)),
        ("panel: time 0", (0..2).all(|source| shows(&turntable(2), from(source), 1 - source, 0.0))),
        ("panel: time 0 after 2,047 moves", shows(&full(&still), from(0), 2_047, 0.0)),
    ]
}

/// "Crane drivers prefer, at equal time, the way with fewer moves": choosing, relaxing, freshness and the refused page.
fn fewer_moves(calls: &Calls) -> Examples {
    let run = |kind, image: &[u8]| search(calls, kind, image, from(0), usize::from(image[0]));
    // Station 2 in time 3: 0-3-1-2, 0-4-2 and, where it is there, 0-3-2. By time alone 1 would be its predecessor.
    let moves = [(0, 3, 1), (3, 1, 1), (1, 2, 1), (0, 4, 2), (4, 2, 1), (3, 2, 2)];
    let [two, three] = [5, 6].map(|count| run(Search::Df, &drawn(1, vec![0; 5], &moves[..count])));
    // Stations 1 and 2 in time 2, by two moves and by one; each on a page of its own.
    let apart = drawn(3, vec![0, 1, 2, 0], &[(0, 3, 1), (3, 1, 1), (0, 2, 2)]);
    let mut spoiled = apart.clone();
    spoiled[4 + 4 + 256] = 7;
    spoiled[4 + 4 + 512] = 7;
    let (plain, bad) = (run(Search::Plain, &apart), run(Search::Df, &spoiled));
    // While page 0 is in hand station 3 has time 3 by three moves; 0-4-3 takes as long and has two.
    let again = drawn(2, vec![0, 0, 0, 0, 1], &[(0, 1, 1), (0, 4, 1), (1, 2, 1), (2, 3, 1), (4, 3, 2)]);
    let (again, m7) = (run(Search::Df, &again), run(Search::Df, &m7()));
    vec![
        ("moves: C1", m7.moves == [0, 1, 2, 3, 1, 2, 3]),
        ("moves: fewer at an equal time", two.times[2] == 3 && two.moves == [0, 2, 2, 1, 1] && two.preds[2] == 4),
        ("moves: lowest of those that give both", three.moves == two.moves && three.preds[2] == 3),
        ("moves: choosing", plain.list == [0, 0, 2, 1] && run(Search::Df, &apart).list == [0, 2, 1]),
        ("moves: the refused page", bad.list == [0, 2] && bad.answer == Answer { count: 2, ..refused(8, 2, 0) }),
        ("moves: a station no longer fresh", again.list == [0, 1, 0] && again.moves == [0, 1, 2, 2, 1]),
    ]
}

/// "A fifth table, u16 moves per station (none 65,535), is lent; a short one is refusal 7, and a page refusal fills its
/// first N with 65,535."
fn tables(calls: &Calls) -> Examples {
    let run = |image: &[u8], source| search(calls, Search::Df, image, from(source), usize::from(image[0]));
    let mut kept = [7; 4];
    let short = |moves: &mut [u16]| {
        let tables = Tables { times: &mut [7; 7], moves, preds: &mut [7; 7], marks: &mut [7; 7], list: &mut [7; 7] };
        (calls.search)(Search::Plain, &m7(), from(0), tables)
    };
    let chain = search(calls, Search::Df, &full(&chain(65_535)), from(0), 2048);
    vec![
        ("moves: none", run(&m7(), 6).moves == [65535, 65535, 65535, 65535, 65535, 65535, 0]),
        ("moves: 7", short(&mut kept) == refused(7, 0, 0) && kept == [7; 4]),
        ("moves: C7", run(&spoiled_m7(), 0).moves == [65535; 7]),
        ("moves: the most", chain.moves[2047] == 2047 && chain.times[2047] == 134_150_145),
    ]
}

/// "A turntable stop has two station numbers and nothing moves between them": moves of time 0 both ways, on one page or
/// on two.
fn turntable(pages: u8) -> Vec<u8> {
    drawn(usize::from(pages), vec![0, pages - 1], &[(0, 1, 0), (1, 0, 0)])
}

/// What both searches have to give where every station is reached.
struct Wanted<'a> {
    times: &'a [u32],
    moves: &'a [u16],
    preds: &'a [u16],
    plain: &'a [u8],
    df: &'a [u8],
}

impl Wanted<'_> {
    fn comes_of(&self, calls: &Calls, image: &[u8], source: u16) -> bool {
        let n = self.times.len();
        [(Search::Plain, self.plain), (Search::Df, self.df)].into_iter().all(|(kind, list)| {
            let given = search(calls, kind, image, from(source), n);
            let tables = given.times == self.times && given.moves == self.moves && given.preds == self.preds;
            tables && given.list == list && given.answer == accepted(list.len() as u32, n as u32)
        })
    }
}

/// "Time 0 is accepted in `02` and `03`." The other station of a turntable has the source's time and a move more, and
/// the way back, with two, leaves the source as it is.
fn turntables(calls: &Calls) -> Examples {
    let turned = |image: &[u8], source, plain, df| {
        let (moves, preds) = if source == 0 { (&[0, 1], &[65534, 0]) } else { (&[1, 0], &[1, 65534]) };
        Wanted { times: &[0, 0], moves, preds, plain, df }.comes_of(calls, image, source)
    };
    let [one_page, two_pages] = [1, 2].map(turntable);
    // On one page with `03`, for strips of up to 8,120 decimetres.
    let limited = [1, 0, 0, 3, 1, 0, 0, 0, 0xB8, 0x1F, 1, 1, 0, 3, 0, 0, 0, 0, 0xB8, 0x1F];
    let limited = map(2, &[0, 0], &[&limited]);
    let closed = search(calls, Search::Df, &limited, Query { source: 0, strip: 8_121 }, 2);
    // At the end of a way: by time alone each of its stations would be the other's predecessor.
    let behind = drawn(2, vec![0, 1, 1], &[(2, 1, 5), (0, 1, 0), (1, 0, 0)]);
    let (times, moves, preds) = (&[5, 5, 0], &[2, 1, 0], &[1, 2, 65534]);
    let after_5 = Wanted { times, moves, preds, plain: &[1, 1, 0], df: &[1, 0] };
    vec![
        ("handover: on one page", (0..2).all(|source| turned(&one_page, source, &[0, 0], &[0]))),
        ("handover: on two pages, from 0", turned(&two_pages, 0, &[0, 1], &[0, 1])),
        ("handover: on two pages, from 1", turned(&two_pages, 1, &[1, 0], &[1, 0])),
        ("handover: with limits", (0..2).all(|source| turned(&limited, source, &[0, 0], &[0]))),
        ("handover: closed", closed.preds == [65534, 65535] && closed.answer == accepted(1, 1)),
        ("handover: at the end of a way", after_5.comes_of(calls, &behind, 2)),
    ]
}

/// "The page list rule includes cycles of such moves, and every predecessor chain still ends at the source."
fn cycles(calls: &Calls) -> Examples {
    let three = drawn(3, vec![0, 1, 2], &[(0, 1, 0), (1, 2, 0), (2, 0, 0)]);
    let preds = [2, 65534, 1];
    let from_1 = Wanted { times: &[0; 3], moves: &[2, 0, 1], preds: &preds, plain: &[1, 2, 0], df: &[1, 2, 0] };
    let mut way = [7; 3];
    let count = (calls.route)(&preds, 0, &mut way).count;
    // 0-1-2-3-0 on two pages, which it comes to once each or by turns.
    let four = |directory: [u8; 4], df: &[u8]| {
        let image = drawn(2, directory.to_vec(), &[(0, 1, 0), (1, 2, 0), (2, 3, 0), (3, 0, 0)]);
        let (moves, preds) = (&[0, 1, 2, 3], &[65534, 0, 1, 2]);
        Wanted { times: &[0; 4], moves, preds, plain: &directory, df }.comes_of(calls, &image, 0)
    };
    let line = |back: &[_]| {
        let image = full(&[&chain(0), back].concat());
        let moves: Vec<u16> = (0..2048).collect();
        let preds: Vec<u16> = [65534].into_iter().chain(0..2047).collect();
        let list: Vec<u8> = (0..2048).map(|station| (station % 240) as u8).collect();
        let wanted = Wanted { times: &[0; 2048], moves: &moves, preds: &preds, plain: &list, df: &list };
        wanted.comes_of(calls, &image, 0)
    };
    vec![
        ("handover: the source in a cycle through three pages", from_1.comes_of(calls, &three, 1)),
        ("handover: a route in it", count == 3 && way == [1, 2, 0]),
        ("handover: a cycle through two pages", four([0, 0, 1, 1], &[0, 1])),
        ("handover: a cycle through two pages by turns", four([0, 1, 0, 1], &[0, 1, 0, 1])),
        ("handover: a chain of 2,048 stations", line(&[])),
        ("handover: a cycle of 2,048 stations", line(&[(2047, 0, 0)])),
    ]
}

/// Fewer moves decide at time 0 too: the maps of `fewer_moves` on which a station is no longer fresh, and on which two
/// pages are bad.
fn fewer_handovers(calls: &Calls) -> Examples {
    let again = drawn(2, vec![0, 0, 0, 0, 1], &[(0, 1, 0), (0, 4, 0), (1, 2, 0), (2, 3, 0), (4, 3, 0)]);
    let (moves, preds) = (&[0, 1, 2, 2, 1], &[65534, 0, 1, 4, 0]);
    let fewer = Wanted { times: &[0; 5], moves, preds, plain: &[0, 0, 1, 0, 0], df: &[0, 1, 0] };
    let mut spoiled = drawn(3, vec![0, 1, 2, 0], &[(0, 3, 0), (3, 1, 0), (0, 2, 0)]);
    spoiled[4 + 4 + 256] = 7;
    spoiled[4 + 4 + 512] = 7;
    let bad = search(calls, Search::Df, &spoiled, from(0), 4);
    vec![
        ("handover: a station no longer fresh", fewer.comes_of(calls, &again, 0)),
        ("handover: the refused page", bad.list == [0, 2] && bad.answer == Answer { count: 2, ..refused(8, 2, 0) }),
    ]
}
