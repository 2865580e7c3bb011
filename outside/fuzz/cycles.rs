//! Cycles of moves, for the counts at the end of a run. Stations are put in groups, two of them in one exactly if moves
//! lead from each to the other: by Kosaraju's two looks in depth, one along the moves and one against them.

use outside::reference::walks::Leg;

/// The groups of two stations or more. No move leads from a station to itself, so every cycle lies in one of these, and
/// each station of one of these is on a cycle.
pub fn groups<'a>(stations: usize, legs: impl Iterator<Item = &'a Leg>) -> Vec<Vec<usize>> {
    let (mut ahead, mut back) = (vec![Vec::new(); stations], vec![Vec::new(); stations]);
    for leg in legs {
        let (from, target) = (usize::from(leg.from), usize::from(leg.target));
        ahead[from].push(target);
        back[target].push(from);
    }
    let left_last_first = looks(&ahead, 0..stations).concat().into_iter().rev();
    let mut groups = looks(&back, left_last_first);
    groups.retain(|group| group.len() > 1);
    groups
}

/// For each station in turn what a look from it comes to and no look before it came to, in the order of leaving.
fn looks(next: &[Vec<usize>], stations: impl Iterator<Item = usize>) -> Vec<Vec<usize>> {
    let mut seen = vec![false; next.len()];
    stations.map(|station| look(next, station, &mut seen)).collect()
}

fn look(next: &[Vec<usize>], first: usize, seen: &mut [bool]) -> Vec<usize> {
    let mut left = Vec::new();
    if seen[first] {
        return left;
    }
    seen[first] = true;
    let mut entered = vec![(first, next[first].iter())];
    while let Some((station, ahead)) = entered.last_mut() {
        match ahead.find(|&&target| !seen[target]) {
            Some(&target) => {
                seen[target] = true;
                entered.push((target, next[target].iter()));
            }
            None => {
                left.push(*station);
                entered.pop();
            }
        }
    }
    left
}
