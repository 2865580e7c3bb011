//! Whole numbers read from words, and words shown in messages.

/// A number of decimal digits and nothing else, within bounds; or what it should have been.
pub fn number(what: &str, word: &str, least: u32, most: u32) -> Result<u32, String> {
    let digits = !word.is_empty() && word.bytes().all(|byte| byte.is_ascii_digit());
    let value = word.parse().ok().filter(|value| digits && (least..=most).contains(value));
    value.ok_or_else(|| format!("{what} is a whole number from {least} to {most}, not {}", quoted(word)))
}

/// As `number`, for any number of 16 bits.
pub fn any_u16(what: &str, word: &str) -> Result<u16, String> {
    number(what, word, 0, u16::MAX.into()).map(|value| value as u16)
}

/// A word in quotes, cut if it is long.
pub fn quoted(word: &str) -> String {
    const MOST: usize = 24;
    let front: String = word.chars().take(MOST).collect();
    let cut = if front.len() < word.len() { ".." } else { "" };
    let is_plain = |character: char| character == '\'' || character.escape_debug().count() == 1;
    format!("\"{}{cut}\"", escaped(&front, is_plain))
}

/// A text on one line, without characters that a terminal would obey: those that control it, and those that turn the
/// direction of what follows.
pub fn harmless(text: &str) -> String {
    let turns = ['\u{200e}'..='\u{200f}', '\u{2028}'..='\u{202e}', '\u{2066}'..='\u{2069}'];
    escaped(text, |character| !character.is_control() && !turns.iter().any(|range| range.contains(&character)))
}

fn escaped(text: &str, is_plain: impl Fn(char) -> bool) -> String {
    let mut made = String::new();
    for character in text.chars() {
        match is_plain(character) {
            true => made.push(character),
            false => made.extend(character.escape_debug()),
        }
    }
    made
}

/// A number with its noun: `1 move`, `2 moves`.
pub fn counted(count: usize, noun: &str) -> String {
    let plural = if count == 1 { "" } else { "s" };
    format!("{count} {noun}{plural}")
}

/// Tenths of a second as seconds.
pub fn seconds(tenths: u32) -> String {
    format!("{}.{} s", tenths / 10, tenths % 10)
}

/// 1st, 2nd, 3rd and so on.
pub fn ordinal(number: usize) -> String {
    let ending = match (number % 100, number % 10) {
        (11..=13, _) => "th",
        (_, 1) => "st",
        (_, 2) => "nd",
        (_, 3) => "rd",
        _ => "th",
    };
    format!("{number}{ending}")
}
