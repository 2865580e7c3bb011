//! "Map writer" of document 02: the records of an image, and the image of records. Here every page is written out
//! whole, as long as it comes, before its length is looked at; nothing is counted beforehand.

use super::image::{self, Image, PAGE_BYTES};
use super::Answer;

pub use interface::{Drawing, Record};

/// The records of an image by rising (from, target); or what the whole check refuses.
pub fn of_image(image: &[u8]) -> Result<Vec<Record>, Answer> {
    let checked = image::check(image);
    if checked.refusal != 0 {
        return Err(checked);
    }
    let image = Image::open(image)?;
    let mut records = Vec::new();
    for page in 0..image.pages {
        for station in image.read(page).expect("the whole check accepts every page") {
            records.extend(station.moves.iter().map(|step| {
                let limit = step.limit.unwrap_or(0);
                Record { from: station.number, target: step.target, time: step.time, limit }
            }));
        }
    }
    records.sort_by_key(|record| record.key());
    Ok(records)
}

/// "Reading does the whole check, only then refuses too short a record list with 7, writes the records to the list's
/// front and answers their count." The records are those that `of_image` gives.
pub fn read(records: &Result<Vec<Record>, Answer>, list: &mut [Record]) -> Answer {
    let records = match records {
        Ok(records) => records,
        Err(answer) => return *answer,
    };
    let Some(front) = list.get_mut(..records.len()) else { return Answer::refused(7) };
    front.copy_from_slice(records);
    Answer { count: records.len() as u32, ..Answer::default() }
}

/// The whole call: the buffer is written only where nothing is refused.
pub fn write(drawing: Drawing, buffer: &mut [u8]) -> Answer {
    match image_of(drawing, buffer.len()) {
        Ok(image) => {
            buffer.copy_from_slice(&image);
            Answer::default()
        }
        Err(answer) => answer,
    }
}

/// "The writer refuses by 2, 3, 4 (the buffer, or a directory not N bytes long) and 5 first, then with 19 .., then with
/// 20 the lowest page that needs more than 256 bytes."
pub fn image_of(drawing: Drawing, buffer: usize) -> Result<Vec<u8>, Answer> {
    let Drawing { records, stations, pages, directory } = drawing;
    let mut image = [stations.to_le_bytes(), pages.to_le_bytes()].concat();
    let (stations, pages) = (usize::from(stations), usize::from(pages));
    if stations == 0 || stations > 2048 {
        return Err(Answer::refused(2));
    }
    if pages == 0 || pages > 240 {
        return Err(Answer::refused(3));
    }
    if buffer != 4 + stations + PAGE_BYTES * pages || directory.len() != stations {
        return Err(Answer::refused(4));
    }
    let refused = |refusal, place: usize| Err(Answer { place: place as u32, ..Answer::refused(refusal) });
    if let Some(station) = directory.iter().position(|&page| usize::from(page) >= pages) {
        return refused(5, station);
    }
    if let Some(index) = first_fault(records, stations) {
        return refused(19, index);
    }
    image.extend(directory);
    for (page, mut bytes) in spell(records, directory, pages).into_iter().enumerate() {
        if bytes.len() > PAGE_BYTES {
            return refused(20, page);
        }
        bytes.resize(PAGE_BYTES, 0);
        image.extend(bytes);
    }
    Ok(image)
}

/// "The first record whose from or target isn't below N, whose target is its from, or that isn't above its predecessor
/// by (from, target)."
fn first_fault(records: &[Record], stations: usize) -> Option<usize> {
    let is_good = |index: usize| {
        let record = records[index];
        let are_stations = usize::from(record.from) < stations && usize::from(record.target) < stations;
        let is_above = index == 0 || records[index - 1].key() < record.key();
        are_stations && record.target != record.from && is_above
    };
    (0..records.len()).find(|&index| !is_good(index))
}

/// The commands of each page with its `00`: its stations, each before its moves. The records are in order.
fn spell(records: &[Record], directory: &[u8], pages: usize) -> Vec<Vec<u8>> {
    let mut spelled = vec![Vec::new(); pages];
    let mut rest = records.iter().peekable();
    for (station, &page) in directory.iter().enumerate() {
        let bytes = &mut spelled[usize::from(page)];
        put(bytes, 1, &[station as u16]);
        while let Some(&Record { target, time, limit, .. }) = rest.next_if(|next| usize::from(next.from) == station) {
            match limit {
                0 => put(bytes, 2, &[target, time]),
                _ => put(bytes, 3, &[target, time, limit]),
            }
        }
    }
    spelled.iter_mut().for_each(|bytes| bytes.push(0));
    spelled
}

fn put(bytes: &mut Vec<u8>, code: u8, numbers: &[u16]) {
    bytes.push(code);
    bytes.extend(numbers.iter().flat_map(|number| number.to_le_bytes()));
}
