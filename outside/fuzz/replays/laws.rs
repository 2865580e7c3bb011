//! What holds of the engine's replays whatever a reference says: each page of a list is read, no page twice in a row,
//! and what the request promises of one frame and of a threshold that no distance is above.

use crate::tally::Tally;
use outside::random::Random;
use outside::reference::lists::{listed, one_page_reads};
use outside::reference::replay::{least_recently_used_reads, Asked, MOST_FRAMES};
use outside::yard;

/// Of an accepted replay with so many reads.
pub fn compare(asked: Asked, reads: u64, random: &mut Random, tally: &mut Tally) -> Result<(), String> {
    let pages = listed(asked.list).iter().filter(|&&listed| listed).count() as u64;
    let one_page = one_page_reads(asked.list) as u64;
    if reads < pages || reads > one_page {
        return Err(format!("{reads} reads of {pages} pages, {one_page} with one page held"));
    }
    let single = call(Asked { frames: 1, ..asked })?;
    if single != one_page {
        return Err(format!("{single} reads with F 1, not the one-page reads, {one_page}"));
    }
    compare_plain(asked, random, tally)?;
    let fewer = compare_more_frames(asked, reads, random)?;
    let is_above = asked.distances.iter().any(|&distance| distance > asked.threshold);
    tally.note("replay: some distance above D, more frames read less", is_above && fewer);
    Ok(())
}

/// "With D at least every distance it is plain least recently used, and there more frames never read more."
fn compare_plain(asked: Asked, random: &mut Random, tally: &mut Tally) -> Result<(), String> {
    let greatest = asked.distances.iter().copied().max().unwrap_or(0);
    let plain = Asked { threshold: random.pick(&[greatest, u32::MAX]), ..asked };
    let (ours, wanted) = (call(plain)?, least_recently_used_reads(asked.list, asked.frames));
    if ours != wanted {
        return Err(format!("{ours} reads with no distance above D, by least recently used {wanted}"));
    }
    let fewer = compare_more_frames(plain, ours, random)?;
    tally.note("replay: no distance above D, more frames read less", fewer);
    Ok(())
}

/// Whether a store of more frames reads less. It never reads more, whatever D is: at a miss the pages lie in one order,
/// the far ones by their last reference before the others by theirs, and of any store the first in it leaves; so what
/// fewer frames hold more frames hold too.
fn compare_more_frames(asked: Asked, reads: u64, random: &mut Random) -> Result<bool, String> {
    let frames = random.from_to(asked.frames, MOST_FRAMES.min(asked.frames + 3));
    let with_more = call(Asked { frames, ..asked })?;
    if with_more > reads {
        return Err(format!("{with_more} reads with {frames} frames, {reads} with {}", asked.frames));
    }
    Ok(with_more < reads)
}

fn call(asked: Asked) -> Result<u64, String> {
    let mut answer = [7; 4];
    match yard::replay(asked, &mut answer) {
        0 => Ok(u64::from(answer[0]) | u64::from(answer[1]) << 32),
        refusal => Err(format!("refused {refusal} with another F or D")),
    }
}
