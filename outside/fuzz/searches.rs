//! One image, source and set of tables: whole check; for each of two strips both searches, the panel, demand 3 and the
//! routes by the predecessors left; and the times and moves for the one strip against those for the other.

use crate::lent::{self, Lent, LentTables, Outcome};
use crate::panels;
use crate::routes;
use crate::tally::{Call, Tally};
use outside::maps::cases::Case;
use outside::maps::damage::scramble_unlisted;
use outside::maps::{page_bytes, Command};
use outside::random::Random;
use outside::reference::image::{self, Image};
use outside::reference::lists::{entry_stations, is_left_of, listed, listed_too_often, one_page_reads};
use outside::reference::panel::Panel;
use outside::reference::walks::{self, Leg, Pages, RefusedPage, Truth};
use outside::reference::{letter, Answer, Query, Search};
use outside::yard;

/// One search as it is called, before the call.
struct Called<'a> {
    kind: Search,
    image: &'a [u8],
    query: Query,
    answer: Lent<u32>,
    tables: LentTables,
}

/// What both the engine and the reference made of it; the outcome is the engine's own.
struct Agreed {
    answer: Answer,
    outcome: Outcome,
}

impl Agreed {
    /// The references made; there are none at refusals 1 to 7.
    fn list(&self) -> &[u8] {
        &self.outcome.tables.list.entries()[..self.answer.count as usize]
    }
}

/// Both searches for one strip, and the reference's panel.
struct Both {
    query: Query,
    plain: Agreed,
    df: Agreed,
    panel: Panel,
}

/// The lists that both searches recorded for the shorter strip, and the pages of the map.
pub struct Recorded {
    pub pages: usize,
    pub plain: Vec<u8>,
    pub df: Vec<u8>,
}

/// Hands back the lists of the searches, if these got as far as to a page.
pub fn compare(case: &Case, random: &mut Random, tally: &mut Tally) -> Result<Option<Recorded>, String> {
    compare_check(case, random, tally)?;
    let tables = LentTables::new(case.stations, random);
    let [short, long] = case.strips;
    let shorter = compare_both(case, short, &tables, random, tally)?;
    let longer = compare_both(case, long, &tables, random, tally)?;
    compare_strips(&shorter, &longer, tally)?;
    let Ok(image) = Image::open(&case.image) else { return Ok(None) };
    let pages = walks::read_all(&image);
    compare_pages(&image, &pages, case)?;
    let [plain, df] = [&shorter.plain, &shorter.df].map(|agreed| agreed.list().to_vec());
    let one_short = tables.moves_alone_short(image.stations) && shorter.df.answer.refusal == 7;
    tally.note("refused 7, only the table of moves too short", one_short);
    for both in [shorter, longer] {
        if !matches!(both.df.answer.refusal, 6 | 7) {
            compare_demands(&image, &pages, &both, random, tally)
                .map_err(|difference| format!("strip {}: {difference}", both.query.strip))?;
        }
    }
    Ok((!df.is_empty()).then_some(Recorded { pages: image.pages, plain, df }))
}

fn compare_check(case: &Case, random: &mut Random, tally: &mut Tally) -> Result<(), String> {
    let mut ours = lent::answer(random);
    let mut wanted = ours.clone();
    let nothing: Lent<u8> = Lent::new(0, || 0);
    let refusal = yard::check(&case.image, ours.lend());
    let answer = image::check(&case.image);
    answer.write(wanted.lend());
    tally.call(Call::Check, answer, false);
    lent::compare_output((refusal, &ours, &nothing), (answer.refusal, &wanted, &nothing))
        .map_err(|difference| format!("check: {difference}"))
}

fn compare_both(
    case: &Case,
    strip: u16,
    tables: &LentTables,
    random: &mut Random,
    tally: &mut Tally,
) -> Result<Both, String> {
    let query = Query { source: case.source, strip };
    let mut compare = |kind| {
        let call = Called { kind, image: &case.image, query, answer: lent::answer(random), tables: tables.clone() };
        call.compare(random, tally).map_err(|difference| format!("{kind:?}, strip {strip}: {difference}"))
    };
    let (plain, df) = (compare(Search::Plain)?, compare(Search::Df)?);
    let panel = panels::compare(&case.image, query, random, tally)
        .map_err(|difference| format!("panel, strip {strip}: {difference}"))?;
    tally.note("panel: no refusal 7 where a lent table is too short", df.answer.refusal == 7);
    Ok(Both { query, plain, df, panel })
}

impl Called<'_> {
    /// Our search against the reference's, and against ours on an image with other unlisted pages.
    fn compare(&self, random: &mut Random, tally: &mut Tally) -> Result<Agreed, String> {
        let agreed = self.agreed(tally)?;
        self.compare_scrambled(agreed.list(), random, tally)?;
        Ok(agreed)
    }

    fn ours(&self, image: &[u8]) -> Outcome {
        let (mut answer, mut tables) = (self.answer.clone(), self.tables.clone());
        let refusal = yard::search(self.kind, image, self.query, tables.lend(), answer.lend());
        Outcome { refusal, answer, tables }
    }

    fn agreed(&self, tally: &mut Tally) -> Result<Agreed, String> {
        let (mut lent_answer, mut tables) = (self.answer.clone(), self.tables.clone());
        let answer = letter::search(self.kind, self.image, self.query, tables.lend());
        answer.write(lent_answer.lend());
        let wanted = Outcome { refusal: answer.refusal, answer: lent_answer, tables };
        let outcome = self.ours(self.image);
        outcome.compare(&wanted)?;
        tally.call(Call::of(self.kind), answer, false);
        Ok(Agreed { answer, outcome })
    }

    /// Demand 3: an image that agrees on the listed pages gets the same answer, tables and list.
    fn compare_scrambled(&self, list: &[u8], random: &mut Random, tally: &mut Tally) -> Result<(), String> {
        let other = scramble_unlisted(self.image, &listed(list), random);
        tally.note("unlisted pages scrambled, image unlike the first", other != self.image);
        let differs = |difference| format!("unlisted pages scrambled: {difference}");
        self.ours(&other).compare(&self.ours(self.image)).map_err(differs)
    }
}

/// The reference's page reader against what the page was made of: a good page spells its content, a spoiled one stops
/// where it was spoiled.
fn compare_pages(image: &Image, pages: &Pages, case: &Case) -> Result<(), String> {
    for (page, read) in pages.iter().enumerate() {
        if let Ok(content) = read {
            let mut commands = Vec::new();
            for station in content {
                commands.push(Command::Station(station.number));
                commands.extend(station.moves.iter().copied().map(Command::Move));
            }
            commands.push(Command::End);
            if page_bytes(&commands) != image.bytes_of(page) {
                return Err(format!("reference: page {page} is good and its content spells other bytes"));
            }
        }
        let fault = read.as_ref().err().copied();
        if let Some(wanted) = case.known.as_ref().map(|known| known[page]).filter(|&wanted| wanted != fault) {
            return Err(format!("reference: page {page} reads as {fault:?}, and was made as {wanted:?}"));
        }
    }
    Ok(())
}

/// Demands 2 and 3, of the moves open to the strip.
fn compare_demands(
    image: &Image,
    pages: &Pages,
    both: &Both,
    random: &mut Random,
    tally: &mut Tally,
) -> Result<(), String> {
    let Both { query, plain, df, panel } = both;
    let legs = walks::legs(pages, query.strip);
    let truth = walks::truth(image, pages, *query);
    compare_truth(image, &truth, plain, df)?;
    panels::compare_truth(panel, &truth)?;
    let accepted = df.answer.refusal == 0;
    if accepted {
        compare_lists(image, &legs, query.source, plain, df)?;
        for (name, agreed) in [("plain", plain), ("DF", df)] {
            routes::compare_chains(&agreed.outcome.tables, query.source, image.stations)
                .map_err(|difference| format!("{name}: {difference}"))?;
        }
        tally.handovers(image, &legs, query.source, &truth);
    }
    tally.search(image, pages, plain.list(), df.list(), accepted);
    let all_open = Query { strip: 0, ..*query };
    tally.closed(walks::legs(pages, 0).len() - legs.len(), &truth, &walks::truth(image, pages, all_open));
    let by_time = [Search::Plain, Search::Df].map(|kind| letter::by_time_alone(kind, image, *query));
    tally.fewer_moves(&truth, df.list(), &by_time);
    routes::compare_all(&df.outcome.tables, &legs, image.stations, random, tally)
}

/// Times, moves, predecessors, number reached, refused page and Dijkstra's list by the other method.
fn compare_truth(image: &Image, truth: &Truth, plain: &Agreed, df: &Agreed) -> Result<(), String> {
    if plain.list() != truth.plain_list {
        return Err("the plain list is not the settled stations' pages".into());
    }
    for (name, agreed) in [("plain", plain), ("DF", df)] {
        let Answer { refusal, reached, place, offset, .. } = agreed.answer;
        let refused =
            (refusal != 0).then_some(RefusedPage { page: place as usize, fault: image::Fault { refusal, offset } });
        if refused != truth.refused {
            return Err(format!("{name} refuses {refused:?}, by walks {:?}", truth.refused));
        }
        let tables = &agreed.outcome.tables;
        if tables.times.entries()[..image.stations] != truth.times {
            return Err(format!("{name}: times are not the least"));
        }
        if tables.moves.entries()[..image.stations] != truth.moves {
            return Err(format!("{name}: moves are not the fewest"));
        }
        if tables.preds.entries()[..image.stations] != truth.preds {
            return Err(format!("{name}: predecessors are not the lowest"));
        }
        if reached as usize != truth.reached {
            return Err(format!("{name}: {reached} reached, by walks {}", truth.reached));
        }
    }
    Ok(())
}

/// Demand 3 of an accepted search: entries left out, entry stations, reads with one page held. All else that Dijkstra's
/// search leaves is the same.
fn compare_lists(image: &Image, legs: &[Leg], source: u16, plain: &Agreed, df: &Agreed) -> Result<(), String> {
    let (ours, dijkstras) = (&df.outcome.tables, &plain.outcome.tables);
    if ours.times != dijkstras.times || ours.moves != dijkstras.moves || ours.preds != dijkstras.preds {
        return Err("plain and DF differ in times, moves or predecessors".into());
    }
    let (ours, dijkstras) = (df.list(), plain.list());
    if !is_left_of(ours, dijkstras) {
        return Err("the DF list is not the plain list with entries left out".into());
    }
    let entries = entry_stations(image.directory, legs, source, ours);
    if let Some(page) = listed_too_often(ours, &entries) {
        return Err(format!(
            "page {page} is listed more often than its {} entry stations",
            entries[usize::from(page)]
        ));
    }
    if one_page_reads(ours) > one_page_reads(dijkstras) {
        return Err("the DF list takes more reads with one page held".into());
    }
    Ok(())
}

/// "For two lengths on one map from one source, both accepted, the longer never has a lesser time", none being above
/// all; and at an equal time it never has fewer moves.
fn compare_strips(shorter: &Both, longer: &Both, tally: &mut Tally) -> Result<(), String> {
    for (name, shorter, longer) in [("plain", &shorter.plain, &longer.plain), ("DF", &shorter.df, &longer.df)] {
        if shorter.answer.refusal != 0 || longer.answer.refusal != 0 {
            continue;
        }
        let [shorter, longer] = [shorter, longer].map(|agreed| agreed.outcome.tables.times_and_moves());
        let mut both = shorter.iter().zip(&longer);
        if let Some(station) = both.clone().position(|(shorter, longer)| longer < shorter) {
            return Err(format!(
                "{name}: station {station} has {:?} as time and moves for the longer strip, {:?} for the shorter",
                longer[station], shorter[station]
            ));
        }
        let greater = both.clone().any(|(shorter, longer)| longer.0 > shorter.0);
        tally.note("two strips accepted, a greater time for the longer", greater);
        let more = both.any(|(shorter, longer)| longer.0 == shorter.0 && longer.1 > shorter.1);
        tally.note("two strips accepted, an equal time and more moves for the longer", more);
    }
    Ok(())
}
