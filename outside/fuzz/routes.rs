//! Routes: by the predecessors that a search left, to all stations, and by predecessor tables of any content.

use crate::lent::{self, Lent, LentTables};
use crate::tally::{Call, Tally};
use outside::maps::cases::RouteCase;
use outside::random::Random;
use outside::reference::route::Routes;
use outside::reference::walks::Leg;
use outside::reference::{NO_TIME, SOURCE};
use outside::yard;
use std::collections::HashMap;

/// A predecessor table that no search need have left.
pub fn compare(case: &RouteCase, random: &mut Random, tally: &mut Tally) -> Result<(), String> {
    let routes = Routes::new(&case.preds);
    compare_one(&routes, &case.preds, case.station, random, tally).map(|_| ())
}

/// The routes to all stations after a search; each has to be a walk that takes the station's time (demand 2) and has as
/// many moves as it has.
pub fn compare_all(
    tables: &LentTables,
    legs: &[Leg],
    stations: usize,
    random: &mut Random,
    tally: &mut Tally,
) -> Result<(), String> {
    // The caller may hand over just the map's entries or the whole table.
    let preds = tables.preds.entries();
    let preds = if random.one_in(2) { preds } else { &preds[..stations] };
    let steps: HashMap<(u16, u16), u64> =
        legs.iter().map(|leg| ((leg.from, leg.target), u64::from(leg.time))).collect();
    let routes = Routes::new(preds);
    for (station, &(time, moves)) in tables.times_and_moves()[..stations].iter().enumerate() {
        let route = compare_one(&routes, preds, station as u16, random, tally)
            .map_err(|difference| format!("route to {station}: {difference}"))?;
        let Some(route) = route else { continue };
        let taken: Option<u64> = route.windows(2).map(|pair| steps.get(&(pair[0], pair[1]))).sum();
        if time == NO_TIME || taken != Some(u64::from(time)) {
            return Err(format!("the route to {station} takes {taken:?}, its time is {time}"));
        }
        if route.len() != usize::from(moves) + 1 {
            return Err(format!("the route to {station} has {} stations for {moves} moves", route.len()));
        }
    }
    Ok(())
}

/// "Every predecessor chain still ends at the source": that of each station with a time, after as many steps as it has
/// moves, at most N - 1. The source alone has 65,534, and a station without a time has no chain. `compare_all` sees
/// less of this: a chain that does not end would be refused (16) by the route and by its reference alike.
pub fn compare_chains(tables: &LentTables, source: u16, stations: usize) -> Result<(), String> {
    let preds = &tables.preds.entries()[..stations];
    for (station, &(time, moves)) in tables.times_and_moves()[..stations].iter().enumerate() {
        let wanted = (time != NO_TIME).then_some((source, usize::from(moves)));
        let end = chain_end(preds, station as u16);
        if end != wanted {
            return Err(format!("back from {station} a source and the steps to it are {end:?}, not {wanted:?}"));
        }
    }
    Ok(())
}

/// The first station with 65,534 that the predecessors lead back to, and the number of steps; none if they lead to no
/// such station within N - 1 steps.
fn chain_end(preds: &[u16], station: u16) -> Option<(u16, usize)> {
    let mut at = station;
    for steps in 0..preds.len() {
        match *preds.get(usize::from(at))? {
            SOURCE => return Some((at, steps)),
            before => at = before,
        }
    }
    None
}

/// One call; hands back the stations of an accepted route.
fn compare_one(
    routes: &Routes,
    preds: &[u16],
    station: u16,
    random: &mut Random,
    tally: &mut Tally,
) -> Result<Option<Vec<u16>>, String> {
    let mut answer = lent::answer(random);
    let mut out = Lent::new(out_length(routes.length(station), random), || random.word() as u16);
    let (mut wanted_answer, mut wanted_out) = (answer.clone(), out.clone());
    let refusal = yard::route(preds, station, out.lend(), answer.lend());
    let wanted = routes.call(station, wanted_out.lend());
    wanted.write(wanted_answer.lend());
    lent::compare_output((refusal, &answer, &out), (wanted.refusal, &wanted_answer, &wanted_out))?;
    let no_route = wanted.refusal == 0 && wanted.count == 0;
    tally.call(Call::Route, wanted, no_route);
    let found = wanted.refusal == 0 && !no_route;
    Ok(found.then(|| out.entries()[..wanted.count as usize].to_vec()))
}

/// Exact, longer or too short for the route.
fn out_length(route: Option<usize>, random: &mut Random) -> usize {
    let route = route.unwrap_or_else(|| random.below(4));
    match random.below(16) {
        0 => random.below(route + 1),
        1 => route.saturating_sub(1),
        2..=8 => route,
        _ => route + random.from_to(1, 5),
    }
}
