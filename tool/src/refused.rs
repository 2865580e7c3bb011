//! Refusals in words: what a number means, what is wrong in the case at hand, and the bytes there.

use crate::engine::Refusal;
use crate::image::{self, command_at, commands, Command, Image};
use crate::json::Json;
use crate::numbers::counted;
use crate::table::aligned;
use interface::{HEADING_BYTES, MAX_IMAGE_BYTES, PAGE_BYTES};

/// What a refusal means, whatever the map.
fn meaning(number: u32) -> &'static str {
    match number {
        1 => "the file has less than 4 bytes",
        2 => "the number of stations is 0 or over 2,048",
        3 => "the number of pages is 0 or over 240",
        4 => "the file is not as long as its numbers of stations and pages say",
        5 => "the directory gives a station a page that the map does not have",
        6 => "the search starts from a station that the map does not have",
        8 => "unknown command code",
        9 => "a command passes the page's last byte, or no 00 ends the page",
        10 => "a station is not the next one of its page, or one is missing at the page's end",
        11 => "a move stands before any station",
        12 => "a move's target is not a station of the map, is its own station, or is not above the target before it",
        14 => "a byte after the page's end is not 00",
        15 => "the way leads to a station that the map does not have",
        18 => "the limit of a move is 0",
        20 => "the stations and moves of a page need more than its 256 bytes",
        23 => "the number of frames is 0 or over 64",
        _ => "a refusal that this tool has no words for",
    }
}

/// Some bytes of the file, and what they say.
struct Row {
    /// The offset in the page; of heading and directory the place in the file.
    at: usize,
    bytes: Vec<u8>,
    words: String,
    at_fault: bool,
}

impl Row {
    fn hex(&self) -> String {
        self.bytes.iter().map(|byte| format!("{byte:02X}")).collect::<Vec<_>>().join(" ")
    }
}

/// A refusal as a person wants to know it.
pub struct Account {
    number: u32,
    /// What is wrong here.
    here: String,
    station: Option<usize>,
    /// The page, and the offset in it.
    page: Option<(usize, usize)>,
    /// Where in the file the bytes at fault begin.
    byte: Option<usize>,
    rows: Vec<Row>,
}

impl Account {
    fn new(number: u32, here: String) -> Self {
        Account { number, here, station: None, page: None, byte: None, rows: Vec::new() }
    }

    /// Of a refusal of the image itself: those of the whole check.
    pub fn of_image(bytes: &[u8], refusal: Refusal) -> Self {
        match refusal.number {
            1 => Account::new(1, format!("{} here", counted(bytes.len(), "byte"))),
            2..=4 => of_heading(bytes, refusal.number),
            5 => of_directory(bytes, refusal.place),
            _ => of_page(Image::new(bytes), refusal),
        }
    }

    /// Of a refusal of a search from a station: of the image, or of the station.
    pub fn of_search(bytes: &[u8], source: u16, refusal: Refusal) -> Self {
        match refusal.number {
            6 => Account::of_station(bytes, source, refusal),
            _ => Account::of_image(bytes, refusal),
        }
    }

    /// Of a station that a good map does not have.
    pub fn of_station(bytes: &[u8], station: u16, refusal: Refusal) -> Self {
        let last = image::stations(bytes) - 1;
        Account::new(refusal.number, format!("station {station}, and the map's stations are 0 to {last}"))
    }

    pub fn of_frames(frames: usize, refusal: Refusal) -> Self {
        Account::new(refusal.number, counted(frames, "frame"))
    }

    /// The refusal on one line and, further in, its place, what is wrong there and the bytes, those at fault marked.
    pub fn text(&self) -> String {
        let mut text = format!("refused {}: {}\n", self.number, meaning(self.number));
        let byte = self.byte.map_or(String::new(), |byte| format!(" (byte {byte} of the file)"));
        if let Some((page, offset)) = self.page {
            text += &format!("  page {page}, offset {offset}{byte}\n");
        }
        if let Some(station) = self.station {
            text += &format!("  station {station}{byte}\n");
        }
        text += &format!("  {}\n", self.here);
        let rows = self.rows.iter().map(|row| {
            let mark = if row.at_fault { "  >" } else { "   " };
            vec![format!("{mark} {:>5}", row.at), format!("{:<20}", row.hex()), row.words.clone()]
        });
        text + &aligned(&rows.collect::<Vec<_>>(), &[2])
    }

    pub fn json(&self) -> Json {
        let mut fields = vec![
            ("number", self.number.into()),
            ("meaning", meaning(self.number).into()),
            ("here", (&*self.here).into()),
        ];
        fields.extend(self.station.map(|station| ("station", station.into())));
        if let Some((page, offset)) = self.page {
            fields.extend([("page", page.into()), ("offset", offset.into())]);
        }
        fields.extend(self.byte.map(|byte| ("byte", byte.into())));
        let rows = self.rows.iter().map(|row| {
            Json::Object(vec![
                ("at", row.at.into()),
                ("bytes", (&*row.hex()).into()),
                ("words", (&*row.words).into()),
                ("at_fault", row.at_fault.into()),
            ])
        });
        fields.push(("rows", Json::list(rows)));
        Json::Object(fields)
    }
}

fn of_heading(bytes: &[u8], number: u32) -> Account {
    let (stations, pages) = (image::stations(bytes), image::pages(bytes));
    let here = match number {
        2 => counted(stations, "station"),
        3 => counted(pages, "page"),
        _ => {
            let (stations, pages, wanted) =
                (counted(stations, "station"), counted(pages, "page"), interface::image_bytes(stations, pages));
            let found = match bytes.len() > MAX_IMAGE_BYTES {
                true => format!("more than {MAX_IMAGE_BYTES}"),
                false => bytes.len().to_string(),
            };
            format!("{stations} and {pages} take {wanted} bytes, and the file has {found}")
        }
    };
    let row = |at: usize, words, number_at_fault| Row {
        at,
        bytes: bytes[at..at + 2].to_vec(),
        words,
        at_fault: number == number_at_fault,
    };
    let rows = vec![row(0, counted(stations, "station"), 2), row(2, counted(pages, "page"), 3)];
    Account { rows, ..Account::new(number, here) }
}

fn of_directory(bytes: &[u8], station: usize) -> Account {
    const BEFORE: usize = 3;
    let image = Image::new(bytes);
    let directory = image.directory();
    let page = directory[station];
    let here = format!("the directory gives it page {page}, and the map's pages are 0 to {}", image.pages() - 1);
    let rows = (station.saturating_sub(BEFORE)..directory.len().min(station + 2)).map(|at| Row {
        at: HEADING_BYTES + at,
        bytes: vec![directory[at]],
        words: format!("station {at} on page {}", directory[at]),
        at_fault: at == station,
    });
    Account {
        station: Some(station),
        byte: Some(HEADING_BYTES + station),
        rows: rows.collect(),
        ..Account::new(5, here)
    }
}

fn of_page(image: Image, refusal: Refusal) -> Account {
    let Refusal { number, place, offset } = refusal;
    let page = image.page(place);
    Account {
        page: Some((place, offset)),
        byte: Some(image.page_begin(place) + offset),
        rows: page_rows(page, offset),
        ..Account::new(number, page_fault(image, refusal))
    }
}

/// Up to three commands before the one at fault, that command, and what follows it.
fn page_rows(page: &[u8], fault: usize) -> Vec<Row> {
    const BEFORE: usize = 3;
    const BEHIND: usize = 7;
    let before: Vec<_> = commands(page).take_while(|&(offset, _)| offset < fault).collect();
    let mut rows: Vec<Row> = before[before.len().saturating_sub(BEFORE)..]
        .iter()
        .map(|&(at, command)| Row { at, bytes: bytes_at(page, at), words: in_words(command), at_fault: false })
        .collect();
    if fault == PAGE_BYTES {
        rows.push(Row { at: fault, bytes: Vec::new(), words: "end of the page".to_string(), at_fault: true });
        return rows;
    }
    let words = match command_at(page, fault) {
        Some((command, _)) => in_words(command),
        None if image::length(page[fault]).is_some() => "cut off by the page's end".to_string(),
        None => "unknown code".to_string(),
    };
    let bytes = bytes_at(page, fault);
    let behind = fault + bytes.len();
    rows.push(Row { at: fault, bytes, words, at_fault: true });
    let rest = &page[behind..PAGE_BYTES.min(behind + BEHIND)];
    if !rest.is_empty() {
        rows.push(Row { at: behind, bytes: rest.to_vec(), words: "what follows".to_string(), at_fault: false });
    }
    rows
}

/// The bytes of the command at an offset as far as the page has them; of an unknown code that alone.
fn bytes_at(page: &[u8], offset: usize) -> Vec<u8> {
    let length = image::length(page[offset]).unwrap_or(1);
    page[offset..PAGE_BYTES.min(offset + length)].to_vec()
}

fn in_words(command: Command) -> String {
    match command {
        Command::End => "end".to_string(),
        Command::Station(number) => format!("station {number}"),
        Command::Move { target, time, limit: None } => format!("move to {target} time {time}"),
        Command::Move { target, time, limit: Some(limit) } => format!("move to {target} time {time} limit {limit}"),
    }
}

/// What stands on a page before an offset: how many stations, the latest of them, and the target before.
struct Before {
    stations: usize,
    station: Option<u16>,
    target: Option<u16>,
}

fn before(page: &[u8], fault: usize) -> Before {
    let mut before = Before { stations: 0, station: None, target: None };
    for (_, command) in commands(page).take_while(|&(offset, _)| offset < fault) {
        match command {
            Command::Station(number) => {
                before = Before { stations: before.stations + 1, station: Some(number), target: None }
            }
            Command::Move { target, .. } => before.target = Some(target),
            Command::End => {}
        }
    }
    before
}

/// What is wrong with the command at fault.
fn page_fault(image: Image, refusal: Refusal) -> String {
    let Refusal { number, place, offset } = refusal;
    let page = image.page(place);
    let Some(&code) = page.get(offset) else {
        return format!("all {PAGE_BYTES} bytes of the page are used, and none ends it");
    };
    let before = before(page, offset);
    match (number, command_at(page, offset)) {
        (8, _) => format!("code {code:02X}, and the codes are 00, 01, 02 and 03"),
        (9, _) => {
            let (length, left) = (image::length(code).unwrap_or(1), PAGE_BYTES - offset);
            format!("a command {code:02X} takes {length} bytes, and the page has {left} left")
        }
        (10, Some((command, _))) => station_fault(image, place, &before, command),
        (11, _) => "nothing says which station this move belongs to".to_string(),
        (12, Some((Command::Move { target, .. }, _))) => target_fault(image, &before, target),
        (14, _) => {
            let behind = (offset + 1..PAGE_BYTES).find(|&at| page[at] != 0).unwrap_or(offset);
            format!("the page ends here, but byte {:02X} stands at offset {behind}", page[behind])
        }
        (18, _) => "a limit is 1 or more, and a move without one is a command 02".to_string(),
        _ => "no more is known".to_string(),
    }
}

fn station_fault(image: Image, page: usize, before: &Before, command: Command) -> String {
    let next = image.stations_of(page).nth(before.stations);
    match (command, next) {
        (Command::Station(found), Some(next)) => {
            format!("station {found}, and by the directory the next one of this page is {next}")
        }
        (Command::Station(found), None) => {
            format!("station {found}, and by the directory this page has no more stations")
        }
        (_, Some(next)) => format!("the page ends, and by the directory it has station {next} too"),
        (_, None) => "no station is missing".to_string(),
    }
}

fn target_fault(image: Image, before: &Before, target: u16) -> String {
    let last = image.stations() - 1;
    match (before.station, before.target) {
        _ if usize::from(target) > last => format!("target {target}, and the map's stations are 0 to {last}"),
        (Some(station), _) if station == target => {
            format!("the target is {target}, the station that the move leaves")
        }
        (_, Some(above)) => format!("target {target} is not above {above}, the target before it"),
        _ => format!("target {target}"),
    }
}
