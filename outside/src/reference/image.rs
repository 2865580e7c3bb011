//! "Map image" of document 01: heading, directory, pages, refusals 1 to 5, 8 to 12 and 14, whole check; and of document
//! 02 the moves with limits, refusal 18, and the moves of time 0, by which 13 is gone.

use super::Answer;

pub const PAGE_BYTES: usize = 256;

/// An image that refusals 1 to 5 do not turn down.
pub struct Image<'a> {
    pub stations: usize,
    pub pages: usize,
    pub directory: &'a [u8],
    page_bytes: &'a [u8],
}

/// Where and why reading a page stops.
#[derive(Clone, Copy, Debug, PartialEq, Eq)]
pub struct Fault {
    pub refusal: u32,
    pub offset: u32,
}

/// A move: `02`, or `03` with the longest strip in decimetres as its limit.
#[derive(Clone, Copy, Debug, PartialEq, Eq)]
pub struct Move {
    pub target: u16,
    pub time: u16,
    pub limit: Option<u16>,
}

impl Move {
    /// For a strip's length, searches "use a move only if its limit isn't below it; `02` has no limit".
    pub fn is_open(self, strip: u16) -> bool {
        !self.limit.is_some_and(|limit| limit < strip)
    }
}

/// A station that a page names, with its moves in page order.
#[derive(Clone, Debug, PartialEq, Eq)]
pub struct Station {
    pub number: u16,
    pub moves: Vec<Move>,
}

fn u16_at(bytes: &[u8], at: usize) -> u16 {
    u16::from_le_bytes([bytes[at], bytes[at + 1]])
}

impl<'a> Image<'a> {
    /// Refusals 1 to 5, in this order.
    pub fn open(image: &'a [u8]) -> Result<Self, Answer> {
        if image.len() < 4 {
            return Err(Answer::refused(1));
        }
        let stations = usize::from(u16_at(image, 0));
        let pages = usize::from(u16_at(image, 2));
        if stations == 0 || stations > 2048 {
            return Err(Answer::refused(2));
        }
        if pages == 0 || pages > 240 {
            return Err(Answer::refused(3));
        }
        if image.len() != 4 + stations + PAGE_BYTES * pages {
            return Err(Answer::refused(4));
        }
        let (directory, page_bytes) = image[4..].split_at(stations);
        match directory.iter().position(|&page| usize::from(page) >= pages) {
            Some(station) => Err(Answer { place: station as u32, ..Answer::refused(5) }),
            None => Ok(Image { stations, pages, directory, page_bytes }),
        }
    }

    pub fn page_of(&self, station: usize) -> usize {
        usize::from(self.directory[station])
    }

    pub fn bytes_of(&self, page: usize) -> &'a [u8] {
        &self.page_bytes[page * PAGE_BYTES..][..PAGE_BYTES]
    }

    /// The stations that the directory gives a page, rising.
    pub fn stations_of(&self, page: usize) -> Vec<u16> {
        (0..self.stations).filter(|&station| self.page_of(station) == page).map(|station| station as u16).collect()
    }

    /// The content of a good page, or the first command at fault.
    pub fn read(&self, page: usize) -> Result<Vec<Station>, Fault> {
        read_page(self.bytes_of(page), &self.stations_of(page), self.stations)
    }
}

/// "On a page, reading stops at the first command at fault and gives its offset." `due` are the page's stations.
fn read_page(bytes: &[u8], due: &[u16], station_count: usize) -> Result<Vec<Station>, Fault> {
    let mut named: Vec<Station> = Vec::new();
    let mut at = 0;
    loop {
        let fault = |refusal| Err(Fault { refusal, offset: at as u32 });
        // Without a `00` the commands run up to the page's end, and the offset is 256.
        let Some(&code) = bytes.get(at) else { return fault(9) };
        let length = match code {
            0 => 1,
            1 => 3,
            2 => 5,
            3 => 7,
            _ => return fault(8),
        };
        if at + length > PAGE_BYTES {
            return fault(9);
        }
        match code {
            0 if named.len() < due.len() => return fault(10),
            0 if bytes[at + 1..].iter().any(|&byte| byte != 0) => return fault(14),
            0 => return Ok(named),
            1 => {
                let number = u16_at(bytes, at + 1);
                if due.get(named.len()) != Some(&number) {
                    return fault(10);
                }
                named.push(Station { number, moves: Vec::new() });
            }
            _ => {
                let limit = (code == 3).then(|| u16_at(bytes, at + 5));
                let step = Move { target: u16_at(bytes, at + 1), time: u16_at(bytes, at + 3), limit };
                if let Some(refusal) = move_fault(named.last(), step, station_count) {
                    return fault(refusal);
                }
                named.last_mut().expect("a move before a station is at fault").moves.push(step);
            }
        }
        at += length;
    }
}

/// 11, 12 and 18, in this order: "Time 0 is accepted in `02` and `03`, so 13 no longer occurs."
fn move_fault(latest: Option<&Station>, step: Move, station_count: usize) -> Option<u32> {
    let Some(station) = latest else { return Some(11) };
    let rising = station.moves.last().is_none_or(|before| before.target < step.target);
    if usize::from(step.target) >= station_count || step.target == station.number || !rising {
        return Some(12);
    }
    (step.limit == Some(0)).then_some(18)
}

/// Whole check: 1 to 5, then the pages by rising number.
pub fn check(image: &[u8]) -> Answer {
    let image = match Image::open(image) {
        Ok(image) => image,
        Err(answer) => return answer,
    };
    for page in 0..image.pages {
        if let Err(Fault { refusal, offset }) = image.read(page) {
            return Answer { place: page as u32, offset, ..Answer::refused(refusal) };
        }
    }
    Answer::default()
}
