//! Document 01 once more, with the limits, the numbers of moves and the moves of time 0 of document 02, in Rust and
//! from their words alone: the whole check and page reader (`image`), both searches step by step (`letter`), what a
//! search has to give by an altogether different method (`walks`), the words of demand 3 (`lists`), the route
//! (`route`), and document 02's panel (`panel`), map writer (`records`), order of maps (`order`) and store replay
//! (`replay`). Slow and plain on purpose: it is there to be read and believed.

pub mod image;
pub mod letter;
pub mod lists;
pub mod order;
pub mod panel;
pub mod records;
pub mod replay;
pub mod route;
pub mod walks;

pub use interface::{Query, Search, Tables, NO_MOVES, NO_PREDECESSOR, NO_TIME, SOURCE};

/// What a call answers: the refusal's number (0 where it accepts) and the numbers that go with it, 0 where they do
/// not apply. `place` is the page, for refusal 5 the station, and for 19 the index of the record. The order of maps and
/// the store replay have uses of their own for `count` and `reached` (`order::Named`, `replay::answer`).
#[derive(Clone, Copy, Debug, Default, PartialEq, Eq)]
pub struct Answer {
    pub refusal: u32,
    pub count: u32,
    pub reached: u32,
    pub place: u32,
    pub offset: u32,
}

impl Answer {
    pub fn refused(refusal: u32) -> Self {
        Answer { refusal, ..Answer::default() }
    }

    /// What the C interface does to a lent answer: its first four entries are written if there are that many.
    pub fn write(&self, answer: &mut [u32]) {
        if let Some(front) = answer.get_mut(..4) {
            front.copy_from_slice(&[self.count, self.reached, self.place, self.offset]);
        }
    }
}
