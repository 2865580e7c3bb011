//! The store replay. Recordings that were drawn, and the lists of the case's own searches, are replayed by the engine.
//! What it says is held against the reference and, where it accepts, against laws that need none.

mod laws;
mod left;

use crate::lent::{self, Lent};
use crate::searches::Recorded;
use crate::tally::{Call, Tally};
use outside::random::Random;
use outside::recordings::{self, Recording};
use outside::reference::replay::{self, Asked};
use outside::yard;

/// The lists of searches are replayed once in so many cases.
const SEARCHES_ONCE_IN: usize = 3;
/// And a list in the memory of the distances once in so many.
const OVERLAP_ONCE_IN: usize = 8;

pub fn compare(recorded: Option<Recorded>, random: &mut Random, tally: &mut Tally) -> Result<(), String> {
    compare_recording(&recordings::draw(random), random, tally)?;
    if let Some(recorded) = recorded.filter(|_| random.one_in(SEARCHES_ONCE_IN)) {
        compare_searches(recorded, random, tally)?;
    }
    if random.one_in(OVERLAP_ONCE_IN) {
        compare_overlapping(random, tally)?;
    }
    Ok(())
}

/// Both lists, in one store.
fn compare_searches(
    Recorded { pages, plain, df }: Recorded,
    random: &mut Random,
    tally: &mut Tally,
) -> Result<(), String> {
    let ours = recordings::of_search("replay of a DF list", df, pages, random);
    let dijkstras = Recording { kind: "replay of a plain list", list: plain, ..ours.clone() };
    compare_recording(&ours, random, tally)?;
    compare_recording(&dijkstras, random, tally)?;
    tally.both_lists(ours.ask(), dijkstras.ask());
    Ok(())
}

fn compare_recording(recording: &Recording, random: &mut Random, tally: &mut Tally) -> Result<(), String> {
    tally.kind(recording.kind);
    replayed(recording, random, tally).map_err(|difference| format!("{}: {difference}", recording.kind))
}

fn replayed(recording: &Recording, random: &mut Random, tally: &mut Tally) -> Result<(), String> {
    let before = recording.clone();
    let asked = recording.ask();
    let wanted = asked.reads();
    compare_call(asked, wanted, random, tally)?;
    match wanted {
        Ok(reads) => {
            laws::compare(asked, reads, random, tally)?;
            tally.replayed(asked, reads);
        }
        Err(_) => tally.unfit(asked),
    }
    if *recording != before {
        return Err("the list or the distances were written".into());
    }
    Ok(())
}

/// What is returned and every entry of the answer, which is too short, just long enough or longer.
fn compare_call(
    asked: Asked,
    wanted: Result<u64, u32>,
    random: &mut Random,
    tally: &mut Tally,
) -> Result<(), String> {
    let length = random.pick(&[0, 1, 2, 3, 4, 4, 4, 4, 4, 4, 5, 6]);
    let mut answer = Lent::new(length, || random.word() as u32);
    let mut wanted_answer = answer.clone();
    let nothing: Lent<u8> = Lent::new(0, || 0);
    let refusal = yard::replay(asked, answer.lend());
    let wanted = replay::answer(wanted);
    wanted.write(wanted_answer.lend());
    tally.call(Call::Replay, wanted, false);
    lent::compare_output((refusal, &answer, &nothing), (wanted.refusal, &wanted_answer, &nothing))
}

/// A list in the memory of the distances: some of their bytes, each of which is a page.
fn compare_overlapping(random: &mut Random, tally: &mut Tally) -> Result<(), String> {
    let pages = random.from_to(1, 9);
    let four_pages = |_| u32::from_ne_bytes([0; 4].map(|_| random.below(pages) as u8));
    let distances: Vec<u32> = (0..pages * pages).map(four_pages).collect();
    let bytes = yard::bytes_of(&distances);
    let first = random.below(bytes.len());
    let list = &bytes[first..random.from_to(first, bytes.len().min(first + 60))];
    let threshold = random.pick(&distances);
    let asked = Asked { list, pages, frames: random.from_to(1, 5), distances: &distances, threshold };
    tally.note("replay: a list in the memory of the distances", !list.is_empty());
    compare_call(asked, asked.reads(), random, tally)
        .map_err(|difference| format!("replay of a list in the memory of the distances: {difference}"))
}
