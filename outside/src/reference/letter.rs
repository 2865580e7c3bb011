//! "The two searches" of document 01, by the letter: every choice is a look at all stations, every reference reads
//! the page anew. Of the moves they use those that are open to the strip, and they compare by document 02's "Fewer
//! lifts": "less means less time, then fewer moves". So every move makes a way more, one of time 0 too.

use super::image::{Fault, Image, Station};
use super::{Answer, Query, Search, Tables, NO_MOVES, NO_PREDECESSOR, NO_TIME, SOURCE};

/// The time of a way and its number of moves: "two ways are now equal only if time and number of moves agree". Pairs
/// are compared by their first numbers, and only if these are equal by the second ones.
type Sum = (u64, u64);

/// "Per station the state has a time or none, a predecessor, a settled flag and a fresh flag"; beside the time stands
/// the number of moves.
#[derive(Clone, Copy, Default)]
struct State {
    sum: Option<Sum>,
    predecessor: Option<u16>,
    settled: bool,
    fresh: bool,
}

struct Run<'a> {
    image: &'a Image<'a>,
    query: Query,
    /// What a move adds to the number of moves.
    lift: u64,
    states: Vec<State>,
    list: Vec<u8>,
}

/// A search that did not accept: the bad page that ended it.
struct BadPage {
    page: usize,
    fault: Fault,
}

/// The whole call: refusals 1 to 7, the search, and what it leaves in the lent tables.
pub fn search(kind: Search, image: &[u8], query: Query, tables: Tables) -> Answer {
    let image = match Image::open(image) {
        Ok(image) => image,
        Err(answer) => return answer,
    };
    let n = image.stations;
    if usize::from(query.source) >= n {
        return Answer::refused(6);
    }
    let Tables { times, moves, preds, marks, list } = &tables;
    let lengths = [times.len(), moves.len(), preds.len(), marks.len(), list.len()];
    if lengths.iter().any(|&length| length < n) {
        return Answer::refused(7);
    }
    let mut run = Run::start(&image, query);
    let ended = run.steps(kind);
    if ended.is_err() {
        run.states.fill(State::default());
    }
    run.write(tables);
    let count = run.list.len() as u32;
    match ended {
        Ok(()) => {
            let reached = run.states.iter().filter(|state| state.sum.is_some()).count() as u32;
            Answer { count, reached, ..Answer::default() }
        }
        Err(BadPage { page, fault: Fault { refusal, offset } }) => {
            Answer { count, place: page as u32, offset, ..Answer::refused(refusal) }
        }
    }
}

/// What a search comes to that orders by time alone, as before "Fewer lifts": no move adds to the number of moves, and
/// so all ways of one time are equal. Where moves of time 0 lead round, the source can then get a predecessor, and
/// others can be each other's. The fuzzer counts where ours comes to something else.
pub struct ByTimeAlone {
    pub preds: Vec<u16>,
    pub list: Vec<u8>,
    /// The bad page that ended it.
    pub refused: Option<usize>,
}

pub fn by_time_alone(kind: Search, image: &Image, query: Query) -> ByTimeAlone {
    let mut run = Run { lift: 0, ..Run::start(image, query) };
    let refused = run.steps(kind).err().map(|bad| bad.page);
    let preds = run.states.iter().map(|state| state.predecessor.unwrap_or(NO_PREDECESSOR)).collect();
    ByTimeAlone { preds, list: run.list, refused }
}

impl<'a> Run<'a> {
    /// "At the start the source has time 0 and nothing is settled or fresh"; its way has no moves. Its predecessor is
    /// 65,534 from the start and is not put back at the end: a cycle of moves of time 0 that leads back to it has to
    /// leave it as it is, since "every predecessor chain still ends at the source".
    fn start(image: &'a Image<'a>, query: Query) -> Self {
        let mut states = vec![State::default(); image.stations];
        let source = &mut states[usize::from(query.source)];
        (source.sum, source.predecessor) = (Some((0, 0)), Some(SOURCE));
        Run { image, query, lift: 1, states, list: Vec::new() }
    }

    fn steps(&mut self, kind: Search) -> Result<(), BadPage> {
        while let Some(station) = self.least(0..self.image.stations, |state| !state.settled) {
            self.states[station].settled = true;
            match kind {
                Search::Plain => self.plain_step(station)?,
                Search::Df => self.df_step(station)?,
            }
        }
        Ok(())
    }

    /// The wanted station of least time, then fewest moves, then lowest number; none if no wanted one has a time.
    fn least(&self, among: impl Iterator<Item = usize>, wanted: impl Fn(&State) -> bool) -> Option<usize> {
        let timed = among.filter(|&station| wanted(&self.states[station]));
        timed
            .filter_map(|station| self.states[station].sum.map(|sum| (sum, station)))
            .min()
            .map(|(_, station)| station)
    }

    fn plain_step(&mut self, station: usize) -> Result<(), BadPage> {
        let content = self.refer(station)?;
        self.relax_all(station, &content);
        Ok(())
    }

    fn df_step(&mut self, station: usize) -> Result<(), BadPage> {
        if self.states[station].fresh {
            return Ok(());
        }
        let content = self.refer(station)?;
        self.visit(station, &content);
        let of_page: Vec<usize> = content.iter().map(|named| usize::from(named.number)).collect();
        while let Some(next) = self.least(of_page.iter().copied(), |state| !state.fresh) {
            self.visit(next, &content);
        }
        Ok(())
    }

    /// "Append its page to the list, read the page."
    fn refer(&mut self, station: usize) -> Result<Vec<Station>, BadPage> {
        let page = self.image.page_of(station);
        self.list.push(page as u8);
        self.image.read(page).map_err(|fault| BadPage { page, fault })
    }

    fn visit(&mut self, station: usize, content: &[Station]) {
        self.states[station].fresh = true;
        self.relax_all(station, content);
    }

    /// Relaxes the station's open moves in page order.
    fn relax_all(&mut self, station: usize, content: &[Station]) {
        let named = content.iter().find(|named| usize::from(named.number) == station);
        for step in &named.expect("a good page names each of its stations").moves {
            if step.is_open(self.query.strip) {
                self.relax(station, usize::from(step.target), u64::from(step.time));
            }
        }
    }

    fn relax(&mut self, from: usize, target: usize, step: u64) {
        let (time, moves) = self.states[from].sum.expect("only a station with a time is relaxed from");
        let sum = (time + step, moves + self.lift);
        let from = from as u16;
        let state = &mut self.states[target];
        if state.sum.is_none_or(|before| sum < before) {
            *state = State { sum: Some(sum), predecessor: Some(from), fresh: false, ..*state };
        } else if state.sum == Some(sum) && state.predecessor.is_some_and(|before| from < before) {
            state.predecessor = Some(from);
        }
    }

    /// Writes the first N entries of times, moves, predecessors and marks, and the list's count entries; no others.
    fn write(&self, tables: Tables) {
        for (station, state) in self.states.iter().enumerate() {
            tables.times[station] = state.sum.map_or(NO_TIME, |(time, _)| time as u32);
            tables.moves[station] = state.sum.map_or(NO_MOVES, |(_, moves)| moves as u16);
            tables.preds[station] = state.predecessor.unwrap_or(NO_PREDECESSOR);
            tables.marks[station] = 0;
        }
        tables.list[..self.list.len()].copy_from_slice(&self.list);
    }
}
