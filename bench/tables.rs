//! The tables that are printed, in Markdown: a row for each map, the maps by group.

use crate::contestants::Name;
use crate::rounds::Measured;
use crate::timing::Spread;

/// A group of maps and what was measured on each.
pub struct Group {
    pub name: &'static str,
    pub maps: Vec<(String, Measured)>,
}

impl Group {
    fn print_rows(&self, cells: impl Fn(&Measured) -> Vec<String>) {
        for (name, measured) in &self.maps {
            println!("| {name} | {} |", cells(measured).join(" | "));
        }
    }
}

/// A cell of a table; empty where a contestant was not there.
fn cell(spread: Option<Spread>, places: usize) -> String {
    spread.map_or(String::new(), |spread| format!("{spread:.places$}"))
}

fn print_heading(first: &str, columns: &[String]) {
    println!("\n| {first} | {} |", columns.join(" | "));
    println!("|---|{}", "---|".repeat(columns.len()));
}

/// Microseconds of each contestant: median and quartiles.
pub fn print_times(groups: &[Group]) {
    let names = groups[0].maps[0].1.names();
    print_heading("Microseconds", &names.iter().map(|name| name.to_string()).collect::<Vec<_>>());
    for group in groups {
        group.print_rows(|measured| names.iter().map(|&name| cell(measured.time(name), 0)).collect());
    }
}

/// Ratios of the library's two searches to others, those that are there: medians and quartiles, and means by group.
pub fn print_ratios(groups: &[Group], rivals: &[(Name, Name)]) {
    let there = groups[0].maps[0].1.names();
    let pairs: Vec<_> = rivals.iter().filter(|(_, theirs)| there.contains(theirs)).copied().collect();
    if pairs.is_empty() {
        return;
    }
    let columns: Vec<_> = pairs.iter().map(|(ours, theirs)| format!("{ours} to {theirs}")).collect();
    print_heading("Ratios", &columns);
    for group in groups {
        group.print_rows(|measured| pairs.iter().map(|&pair| cell(measured.ratio(pair), 2)).collect());
        let means = pairs.iter().map(|&pair| {
            let ratios = group.maps.iter().filter_map(|(_, measured)| measured.ratio(pair));
            let medians: Vec<f64> = ratios.map(|ratio| ratio.median).collect();
            let mean = (!medians.is_empty()).then(|| Spread::over_maps(&medians));
            mean.map_or(String::new(), |mean| format!("**{mean:.2}**"))
        });
        println!("| **{}: geometric mean** | {} |", group.name, means.collect::<Vec<_>>().join(" | "));
    }
}

/// What the searches did on each map, on average.
pub fn print_lists(groups: &[Group]) {
    let columns = ["Moves", "Stations reached", "References, plain", "DF", "One-page reads, plain", "DF"];
    print_heading("Map", &columns.map(String::from));
    for group in groups {
        group.print_rows(|measured| {
            let means = measured.lists.iter().map(|mean| format!("{mean:.0}"));
            [measured.moves.to_string()].into_iter().chain(means).collect()
        });
    }
}
