//! One call of the order: the answer as it was lent and as it came back.

use crate::lent::{self, Lent};
use outside::random::Random;
use outside::reference::order::Named;
use outside::reference::Answer;
use outside::yard;
use std::cmp::Ordering;

pub struct Called {
    refusal: u32,
    answer: Lent<u32>,
    lent: Lent<u32>,
}

impl Called {
    /// With an answer of every length that is too short, of one that is just long enough, or of a longer one.
    pub fn new(first: &[u8], second: &[u8], random: &mut Random) -> Self {
        let length = random.pick(&[0, 1, 2, 3, 4, 4, 4, 4, 4, 4, 4, 4, 4, 4, 6]);
        let lent = Lent::new(length, || random.word() as u32);
        let mut answer = lent.clone();
        let refusal = yard::order(first, second, answer.lend());
        Called { refusal, answer, lent }
    }

    /// What was said, if it is one of the things that can be; none if the answer was too short for it.
    pub fn said(&self) -> Result<Option<Named>, String> {
        let Some(&[lesser, image, place, offset]) = self.answer.entries().first_chunk() else { return Ok(None) };
        match (self.refusal, lesser, image) {
            (0, 0, 0) => Ok(Some(Named::Accepted(Ordering::Equal))),
            (0, 1, 0) => Ok(Some(Named::Accepted(Ordering::Less))),
            (0, 2, 0) => Ok(Some(Named::Accepted(Ordering::Greater))),
            (1.., 0, 1 | 2) => {
                let by = Answer { place, offset, ..Answer::refused(self.refusal) };
                Ok(Some(Named::Refused { image, by }))
            }
            (refusal, ..) => Err(format!("{refusal} is returned with an answer that begins {lesser}, {image}")),
        }
    }

    /// What was returned and every entry of the answer.
    pub fn compare(&self, wanted: Named) -> Result<(), String> {
        let wanted = wanted.answer();
        let mut wanted_answer = self.lent.clone();
        wanted.write(wanted_answer.lend());
        let nothing: Lent<u8> = Lent::new(0, || 0);
        lent::compare_output((self.refusal, &self.answer, &nothing), (wanted.refusal, &wanted_answer, &nothing))
    }
}
