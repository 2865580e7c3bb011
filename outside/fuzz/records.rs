//! The map writer: the records of an image in lists of every room, the image of records, and each of what the other
//! gave: "reading any wholly good image into records and writing them gives its bytes; reading a written image gives
//! the records".

use crate::lent::{self, Lent};
use crate::tally::{Call, Tally};
use outside::maps::drawings::DrawingCase;
use outside::random::Random;
use outside::reference::image::Image;
use outside::reference::records::{self, Drawing, Record};
use outside::reference::Answer;
use outside::yard;

/// What the reference makes of an image.
pub type Listed = Result<Vec<Record>, Answer>;

/// Any image: its records in lists of several rooms, and what is written of them.
pub fn compare_image(image: &[u8], random: &mut Random, tally: &mut Tally) -> Result<(), String> {
    let listed = records::of_image(image);
    for room in rooms(&listed, random) {
        compare_read(image, &listed, room, random, tally)
            .map_err(|difference| format!("records, room for {room}: {difference}"))?;
    }
    let (Ok(records), Ok(opened)) = (listed, Image::open(image)) else { return Ok(()) };
    let (stations, pages) = (opened.stations as u16, opened.pages as u16);
    let drawing = Drawing { records: &records, stations, pages, directory: opened.directory };
    let written = compare_write(drawing, image.len(), random, tally)
        .map_err(|difference| format!("records written back: {difference}"))?;
    tally.note("write: the records of an image give its bytes", written.is_some());
    match written {
        Some(written) if written == image => Ok(()),
        _ => Err("records written back: not the bytes that they were read from".into()),
    }
}

/// Just enough, one less, more, none and any number less. Of an image that is refused none, and some.
fn rooms(listed: &Listed, random: &mut Random) -> Vec<usize> {
    let count = listed.as_ref().map_or_else(|_| random.below(70), Vec::len);
    let mut rooms = vec![count, count + random.from_to(1, 70), 0];
    if listed.is_ok() && count > 0 {
        rooms.extend([count - 1, random.below(count)]);
    }
    rooms
}

fn compare_read(
    image: &[u8],
    listed: &Listed,
    room: usize,
    random: &mut Random,
    tally: &mut Tally,
) -> Result<(), String> {
    let mut answer = lent::answer(random);
    let mut list = Lent::new(room, || any_record(random));
    let (mut wanted_answer, mut wanted_list) = (answer.clone(), list.clone());
    let refusal = yard::records(image, list.lend(), answer.lend());
    let wanted = records::read(listed, wanted_list.lend());
    wanted.write(wanted_answer.lend());
    lent::compare_output((refusal, &answer, &list), (wanted.refusal, &wanted_answer, &wanted_list))?;
    tally.call(Call::Records, wanted, false);
    tally.rooms(listed, room);
    Ok(())
}

/// Any numbers, so that an entry that is written is seen.
fn any_record(random: &mut Random) -> Record {
    let word = random.word();
    let [from, target, time, limit] = [0, 16, 32, 48].map(|bits| (word >> bits) as u16);
    Record { from, target, time, limit }
}

/// Ours against the reference's; hands back the image that was written.
fn compare_write(
    drawing: Drawing,
    length: usize,
    random: &mut Random,
    tally: &mut Tally,
) -> Result<Option<Vec<u8>>, String> {
    let mut answer = lent::answer(random);
    let mut buffer = Lent::new(length, || random.byte());
    let (mut wanted_answer, mut wanted_buffer) = (answer.clone(), buffer.clone());
    let refusal = yard::write(drawing, buffer.lend(), answer.lend());
    let wanted = records::write(drawing, wanted_buffer.lend());
    wanted.write(wanted_answer.lend());
    lent::compare_output((refusal, &answer, &buffer), (wanted.refusal, &wanted_answer, &wanted_buffer))?;
    tally.call(Call::Write, wanted, false);
    tally.written(drawing, length, wanted);
    Ok((wanted.refusal == 0).then(|| buffer.entries().to_vec()))
}

/// A drawing of any kind: what is written of it, which is handed back, and what is read of that.
pub fn compare_drawing(
    case: &DrawingCase,
    random: &mut Random,
    tally: &mut Tally,
) -> Result<Option<Vec<u8>>, String> {
    let written = compare_write(case.lend(), case.buffer, random, tally)?;
    if let Some(known) = &case.known {
        if written.as_ref() != Some(known) {
            return Err("reference: the image is not the one that was drawn".into());
        }
        if records::of_image(known).as_ref() != Ok(&case.records) {
            return Err("reference: the records are not the moves that were drawn".into());
        }
    }
    let Some(written) = written else { return Ok(None) };
    let mut answer = [7; 4];
    let refusal = yard::check(&written, &mut answer);
    if (refusal, answer) != (0, [0; 4]) {
        return Err(format!("the whole check refuses what was written: {refusal}, {answer:?}"));
    }
    let mut list = vec![Record::default(); case.records.len()];
    let refusal = yard::records(&written, &mut list, &mut answer);
    let count = case.records.len() as u32;
    if (refusal, answer) != (0, [count, 0, 0, 0]) || list != case.records {
        return Err(format!("read again: {refusal}, {answer:?}, or other records"));
    }
    tally.note("write: what was written gives the records", true);
    compare_image(&written, random, tally).map_err(|difference| format!("read again: {difference}"))?;
    Ok(Some(written))
}
