//! The peers: Dijkstra's search of LEMON and of Boost (`lemon.cpp`, `boost.cpp`), on a graph that is made before the
//! search is timed. They order ways by time alone and give times and predecessors of their own choice, no numbers of
//! moves and no page list; the times are compared.

use crate::contestants::{Contestant, Details, Name, STRIP};
use outside::maps::Map;

/// `Move` of `peers.h`.
#[repr(C)]
struct Move {
    from: u16,
    target: u16,
    time: u16,
}

/// `Peer` of `peers.h`, seen from here only by its address.
#[repr(C)]
struct Peer {
    hidden: [u8; 0],
}

type Make = unsafe extern "C" fn(stations: usize, moves: *const Move, count: usize) -> *mut Peer;

extern "C" {
    fn lemon_peer(stations: usize, moves: *const Move, count: usize) -> *mut Peer;
    fn boost_peer(stations: usize, moves: *const Move, count: usize) -> *mut Peer;
    fn peer_search(peer: *mut Peer, source: u16);
    fn peer_times(peer: *const Peer, times: *mut u32, stations: usize);
    fn peer_free(peer: *mut Peer);
}

const LIBRARIES: [(Name, &str, Make); 2] =
    [(Name::Lemon, "liblemon-dev", lemon_peer), (Name::Boost, "libboost-graph-dev", boost_peer)];

/// The peers on one map, as many as there are.
pub fn all(map: &Map) -> Vec<Box<dyn Contestant>> {
    let mut peers: Vec<Box<dyn Contestant>> = Vec::new();
    for (name, _, make) in LIBRARIES {
        if let Some(ready) = Ready::new(name, make, map) {
            peers.push(Box::new(ready));
        }
    }
    peers
}

/// Says which libraries were not there when this was built.
pub fn tell_missing() {
    let map = Map::new(1, vec![0]);
    for (name, package, make) in LIBRARIES {
        if Ready::new(name, make, &map).is_none() {
            println!("\n{name} is not installed (Debian package {package}) and is skipped.");
        }
    }
}

struct Ready {
    name: Name,
    stations: usize,
    peer: *mut Peer,
}

impl Ready {
    fn new(name: Name, make: Make, map: &Map) -> Option<Self> {
        let mut moves = Vec::new();
        for (from, its) in map.moves.iter().enumerate() {
            let open = its.iter().filter(|step| step.is_open(STRIP));
            moves.extend(open.map(|step| Move { from: from as u16, target: step.target, time: step.time }));
        }
        // SAFETY: the pointer goes with the length of its own slice.
        let peer = unsafe { make(map.stations(), moves.as_ptr(), moves.len()) };
        (!peer.is_null()).then_some(Ready { name, stations: map.stations(), peer })
    }
}

impl Contestant for Ready {
    fn name(&self) -> Name {
        self.name
    }

    fn search(&mut self, source: u16) {
        assert!(usize::from(source) < self.stations, "the source is a station");
        // SAFETY: the peer is this one's alone, and the source is one of its stations.
        unsafe { peer_search(self.peer, source) }
    }

    fn times(&self) -> Vec<u32> {
        let mut times = vec![0; self.stations];
        // SAFETY: the pointer goes with the length of its own slice.
        unsafe { peer_times(self.peer, times.as_mut_ptr(), times.len()) }
        times
    }

    fn details(&self) -> Option<Details<'_>> {
        None
    }
}

impl Drop for Ready {
    fn drop(&mut self) {
        // SAFETY: the peer was made by its library and is not used again.
        unsafe { peer_free(self.peer) }
    }
}
