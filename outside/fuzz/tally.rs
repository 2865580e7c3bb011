//! What came up in a run: how often each call gave each refusal, of which kinds the cases were, and how often the
//! searches and the panel did what is easily got wrong, had moves closed, went by the number of moves or used moves of
//! time 0, records were read and written at the bounds of what fits, what decided the order of maps, and which pages
//! left the store in replays.

use crate::cycles;
use outside::reference::image::Image;
use outside::reference::letter::ByTimeAlone;
use outside::reference::lists::{is_left_of, one_page_reads};
use outside::reference::order::Named;
use outside::reference::panel::{Inside, Panel};
use outside::reference::route::Routes;
use outside::reference::walks::{Leg, Pages, Truth};
use outside::reference::{Answer, Search, NO_MOVES, NO_PREDECESSOR, SOURCE};
use std::cmp::Ordering;
use std::collections::BTreeMap;
use std::fmt;

#[derive(Clone, Copy)]
pub enum Call {
    Check,
    Plain,
    Df,
    Route,
    Panel,
    Records,
    Write,
    Order,
    /// Where the order refuses the second image.
    OrderSecond,
    Replay,
}

impl Call {
    pub fn of(kind: Search) -> Self {
        match kind {
            Search::Plain => Call::Plain,
            Search::Df => Call::Df,
        }
    }
}

/// Accepted, refusals 1 to 23, "no route", and what the order says where it accepts.
const OUTCOMES: usize = 28;
const NO_ROUTE: usize = 24;
const EQUAL: usize = 25;
const FIRST_LESS: usize = 26;
const SECOND_LESS: usize = 27;
/// "Time 0 is accepted in `02` and `03`, so 13 no longer occurs."
const WITHDRAWN: usize = 13;

/// The calls in their order, and what each can come to.
const CALLS: [(&str, &[usize]); 10] = [
    ("check", &[0, 1, 2, 3, 4, 5, 8, 9, 10, 11, 12, 14, 18]),
    ("plain", &[0, 1, 2, 3, 4, 5, 6, 7, 8, 9, 10, 11, 12, 14, 18]),
    ("df", &[0, 1, 2, 3, 4, 5, 6, 7, 8, 9, 10, 11, 12, 14, 18]),
    ("route", &[0, 15, 16, 17, NO_ROUTE]),
    ("panel", &[0, 1, 2, 3, 4, 5, 6, 8, 9, 10, 11, 12, 14, 18, NO_ROUTE]),
    ("records", &[0, 1, 2, 3, 4, 5, 7, 8, 9, 10, 11, 12, 14, 18]),
    ("write", &[0, 2, 3, 4, 5, 19, 20]),
    ("order", &[1, 2, 3, 4, 5, 8, 9, 10, 11, 12, 14, 18, EQUAL, FIRST_LESS, SECOND_LESS]),
    ("order second", &[1, 2, 3, 4, 5, 8, 9, 10, 11, 12, 14, 18]),
    ("replay", &[0, 3, 23]),
];

#[derive(Default)]
pub struct Tally {
    calls: [[u64; OUTCOMES]; CALLS.len()],
    kinds: BTreeMap<&'static str, u64>,
    notes: BTreeMap<&'static str, u64>,
}

impl Tally {
    pub fn kind(&mut self, kind: &'static str) {
        *self.kinds.entry(kind).or_default() += 1;
    }

    pub fn call(&mut self, call: Call, answer: Answer, no_route: bool) {
        let outcome = if no_route { NO_ROUTE } else { answer.refusal as usize };
        self.calls[call as usize][outcome] += 1;
    }

    /// A call of the order. What it refuses is counted by the image.
    pub fn named(&mut self, named: Named) {
        let (call, outcome) = match named {
            Named::Accepted(Ordering::Equal) => (Call::Order, EQUAL),
            Named::Accepted(Ordering::Less) => (Call::Order, FIRST_LESS),
            Named::Accepted(Ordering::Greater) => (Call::Order, SECOND_LESS),
            Named::Refused { image: 1, by } => (Call::Order, by.refusal as usize),
            Named::Refused { by, .. } => (Call::OrderSecond, by.refusal as usize),
        };
        self.calls[call as usize][outcome] += 1;
    }

    /// What a search on a map showed.
    pub fn search(&mut self, image: &Image, pages: &Pages, plain: &[u8], df: &[u8], accepted: bool) {
        let bad = pages.iter().any(Result::is_err);
        let stands = |page: u8| df.iter().filter(|&&other| other == page).count();
        self.note("accepted though a page is bad", accepted && bad);
        self.note("accepted, some station not reached", accepted && plain.len() < image.stations);
        self.note("accepted, DF list shorter than plain's", accepted && df.len() < plain.len());
        self.note("accepted, DF takes fewer one-page reads", accepted && one_page_reads(df) < one_page_reads(plain));
        self.note("accepted, a page listed twice or more", accepted && df.iter().any(|&page| stands(page) > 1));
        self.note("accepted, a page listed ten times or more", accepted && df.iter().any(|&page| stands(page) > 9));
        self.note("refused after three references or more", !accepted && df.len() > 2);
        self.note("maps of 2,048 stations and 240 pages", image.stations == 2048 && image.pages == 240);
    }

    /// What closed moves did to a search, beside what it would give if every move were open.
    pub fn closed(&mut self, moves: usize, truth: &Truth, all_open: &Truth) {
        let differs = truth.times != all_open.times || truth.plain_list != all_open.plain_list;
        self.note("some move closed", moves > 0);
        self.note("some move closed, a time or the plain list differs by it", moves > 0 && differs);
        self.note("accepted, refused if every move were open", truth.refused.is_none() && all_open.refused.is_some());
    }

    /// What the number of moves did to a search with this DF list, beside what the plain and the DF search would come
    /// to if they went by time alone.
    pub fn fewer_moves(&mut self, truth: &Truth, df: &[u8], [plain_by_time, df_by_time]: &[ByTimeAlone; 2]) {
        let accepted = truth.refused.is_none();
        let preds = &plain_by_time.preds;
        let another = accepted && truth.preds != *preds;
        let differences = [
            ("by time alone: another predecessor", another),
            ("by time alone: the source has a predecessor", another && !preds.contains(&SOURCE)),
            ("by time alone: a chain that does not end at the source", another && is_endless(preds)),
            ("by time alone: another plain list", truth.plain_list != plain_by_time.list),
            ("by time alone: another DF list", df != df_by_time.list),
            ("by time alone: a DF list of another length", df.len() != df_by_time.list.len()),
            (
                "by time alone: a DF list that is not plain's with entries left out",
                accepted && !is_left_of(&df_by_time.list, &plain_by_time.list),
            ),
            (
                "by time alone: another page refused",
                truth.refused.map(|refused| refused.page) != plain_by_time.refused,
            ),
        ];
        for (note, differs) in differences {
            self.note(note, differs);
        }
        self.note("by time alone: any of these", differences.iter().any(|&(_, differs)| differs));
        let most = truth.moves.iter().filter(|&&moves| moves != NO_MOVES).max();
        self.note("accepted, a way of 1,000 moves or more", most.is_some_and(|&moves| moves >= 1000));
    }

    /// What moves of time 0 did in an accepted search.
    pub fn handovers(&mut self, image: &Image, legs: &[Leg], source: u16, truth: &Truth) {
        let before = |station: usize| truth.times.get(usize::from(truth.preds[station]));
        let used = (0..image.stations).any(|station| before(station) == Some(&truth.times[station]));
        let at_once = (0..image.stations).filter(|&station| truth.times[station] == 0);
        let most = at_once.map(|station| truth.moves[station]).max();
        let handovers = legs.iter().filter(|leg| leg.time == 0 && truth.moves[usize::from(leg.from)] != NO_MOVES);
        let cycles = cycles::groups(image.stations, handovers);
        let of_source = cycles.iter().find(|group| group.contains(&usize::from(source)));
        let over_pages = |group: &Vec<usize>| group.iter().any(|&at| image.page_of(at) != image.page_of(group[0]));
        let notes = [
            ("accepted, a move of time 0 on a least way", used),
            ("accepted, a way of 20 moves or more in time 0", most >= Some(20)),
            ("accepted, a cycle of time 0 through the source", of_source.is_some()),
            ("accepted, a cycle of time 0 through the source and another page", of_source.is_some_and(over_pages)),
            ("accepted, a cycle of time 0 through two pages or more", cycles.iter().any(over_pages)),
            ("accepted, a cycle of time 0 on one page", cycles.iter().any(|group| !over_pages(group))),
        ];
        for (note, came_up) in notes {
            self.note(note, came_up);
        }
    }

    /// What the panel showed for a station.
    pub fn panel(&mut self, panel: &Panel, station: u16) {
        let inside = panel.inside(station);
        let bad_page = matches!(panel.times, Err(8..));
        self.call(Call::Panel, Answer::refused(inside.err().unwrap_or(0)), inside == Ok(Inside::NoRoute));
        self.note("panel: station not below N refused before a bad page", inside == Err(6) && bad_page);
    }

    /// Counts something that is easily got wrong, or tried without effect.
    pub fn note(&mut self, note: &'static str, came_up: bool) {
        *self.notes.entry(note).or_default() += u64::from(came_up);
    }

    /// The outcomes that a call can have and had not, and what was looked for and not seen.
    pub fn missing(&self) -> Vec<String> {
        let mut missing = Vec::new();
        for ((call, outcomes), counts) in CALLS.iter().zip(&self.calls) {
            let never = outcomes.iter().filter(|&&outcome| counts[outcome] == 0);
            missing.extend(never.map(|&outcome| format!("{call} {}", name(outcome))));
        }
        let unseen = self.notes.iter().filter(|(_, &count)| count == 0).map(|(note, _)| note.to_string());
        missing.into_iter().chain(unseen).collect()
    }

    /// How often a call refused with 13.
    pub fn withdrawn(&self) -> u64 {
        self.calls.iter().map(|call| call[WITHDRAWN]).sum()
    }
}

/// Whether some predecessors do not lead back to a source.
fn is_endless(preds: &[u16]) -> bool {
    let routes = Routes::new(preds);
    let leads =
        |(station, &before): (usize, &u16)| before == NO_PREDECESSOR || routes.length(station as u16).is_some();
    !preds.iter().enumerate().all(leads)
}

/// Whether some call comes to it, or did before.
fn is_known(outcome: usize) -> bool {
    outcome == WITHDRAWN || CALLS.iter().any(|(_, outcomes)| outcomes.contains(&outcome))
}

fn name(outcome: usize) -> String {
    match outcome {
        0 => "accepted".into(),
        NO_ROUTE => "no route".into(),
        EQUAL => "equal".into(),
        FIRST_LESS => "first less".into(),
        SECOND_LESS => "second less".into(),
        refusal => format!("refused {refusal}"),
    }
}

impl fmt::Display for Tally {
    fn fmt(&self, out: &mut fmt::Formatter) -> fmt::Result {
        write!(out, "{:<12}", "calls")?;
        for (call, _) in CALLS {
            write!(out, "{call:>13}")?;
        }
        writeln!(out)?;
        for outcome in (0..OUTCOMES).filter(|&outcome| is_known(outcome)) {
            write!(out, "{:<12}", name(outcome))?;
            for call in &self.calls {
                write!(out, "{:>13}", call[outcome])?;
            }
            writeln!(out)?;
        }
        let titles = ["kinds of cases", "searches, the panel, records, the order and replays"];
        for (title, counts) in titles.into_iter().zip([&self.kinds, &self.notes]) {
            writeln!(out, "{title}")?;
            for (name, count) in counts {
                writeln!(out, "{count:>12}  {name}")?;
            }
        }
        Ok(())
    }
}
