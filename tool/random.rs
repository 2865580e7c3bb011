//! `random [COUNT [SEED [FIRST]]]` runs every command of the tool on COUNT maps of random bytes and on as many of the
//! fuzzer's cases: good maps and maps damaged in every way. No command may panic, each status and each refusal has to
//! be the engine's, good maps have to come back from their texts, and texts with random changes have to be refused or
//! to become good maps. A difference ends it with a failing status and the words that bring the case up again.

use interface::{Query, Search, Tables, MAX_STATIONS};
use outside::maps::cases::{self, Case};
use outside::random::Random;
use std::collections::BTreeMap;
use std::ffi::OsString;
use std::panic::{catch_unwind, AssertUnwindSafe};
use std::process::ExitCode;
use tool::{Status, Streams};

/// What a command wrote, and its status.
struct Run {
    status: Status,
    output: Vec<u8>,
    errors: String,
}

type Checked = Result<(), String>;

fn main() -> ExitCode {
    let numbers: Result<Vec<u64>, _> = std::env::args().skip(1).map(|word| word.parse()).collect();
    let Ok(numbers) = numbers else {
        eprintln!("usage: random [COUNT [SEED [FIRST]]]");
        return ExitCode::from(2);
    };
    let number = |index: usize, default| numbers.get(index).copied().unwrap_or(default);
    let (count, seed, first) = (number(0, 100_000), number(1, 1), number(2, 0));
    let mut tally = BTreeMap::new();
    for case in first..first + count {
        let mut random = Random::for_case(seed, case);
        let drawn = [cases::draw_random_bytes(&mut random), cases::draw(&mut random)];
        for drawn in drawn {
            if let Err(difference) = all_commands(&drawn, &mut random, &mut tally) {
                println!("{}, {difference}\nagain: random 1 {seed} {case}", drawn.kind);
                return ExitCode::FAILURE;
            }
        }
    }
    for (what, times) in &tally {
        println!("{times:>10}  {what}");
    }
    println!("seed {seed}, {count} maps of random bytes and {count} others: no panic, no difference");
    ExitCode::SUCCESS
}

/// Runs the tool on these words, with the input as standard input.
fn yard(words: &[&str], input: &[u8]) -> Result<Run, String> {
    let words: Vec<OsString> = words.iter().map(OsString::from).collect();
    let (mut output, mut errors) = (Vec::new(), Vec::new());
    let mut streams = Streams { input: &mut &*input, output: &mut output, errors: &mut errors };
    // What a command had written when it panicked is not looked at.
    let status = catch_unwind(AssertUnwindSafe(|| tool::run(&words, &mut streams)));
    let status = status.map_err(|_| "panic".to_string())?;
    Ok(Run { status, output, errors: String::from_utf8_lossy(&errors).into_owned() })
}

fn all_commands(case: &Case, random: &mut Random, tally: &mut BTreeMap<String, u64>) -> Checked {
    let image = &case.image;
    let mut answer = [0; 4];
    let whole = interface::check(image, &mut answer);
    let (station, strip) = (random.below(case.stations + 2), random.pick(&case.strips));
    let query = Query { source: case.source, strip };
    let searched = search(image, query);
    let [from, to, strip] = [case.source.to_string(), station.to_string(), strip.to_string()];
    let frames = random.below(66).to_string();
    for (words, refusal) in [
        (&["check", "-"][..], whole),
        (&["check", "--json", "-"], whole),
        (&["show", "-"], whole),
        (&["order", "-"], whole),
        (&["dot", "-"], whole),
        (&["dot", "-", "--from", &from, "--length", &strip], if whole == 0 { searched } else { whole }),
        (&["times", "-", &from, "--length", &strip], searched),
        (&["times", "-", &from, "--length", &strip, "--json"], searched),
        (&["lists", "-", &from, "--length", &strip], searched),
        (&["lists", "-", &from, "--length", &strip, "--json"], searched),
    ] {
        expect(words, yard(words, image), refusal)?;
    }
    may_be_refused(&["lists", "-", &from, "--frames", &frames], image)?;
    may_be_refused(&["route", "-", &from, &to, "--length", &strip], image)?;
    may_be_refused(&["route", "-", &from, &to, "--length", &strip, "--json"], image)?;
    may_be_refused(&["make", "-", "-o", "-"], image)?;
    may_be_refused(&["records", "show", "-"], image)?;
    may_be_refused(&["records", "make", "-"], image)?;
    if whole == 0 {
        round_trip(image)?;
        changed_text(image, random, tally)?;
    }
    for (call, refusal) in [("whole checks", whole), ("searches", searched)] {
        *tally.entry(format!("{call} refused {refusal:2}")).or_default() += 1;
    }
    Ok(())
}

/// The refusal of the DF search.
fn search(image: &[u8], query: Query) -> u32 {
    let tables = Tables {
        times: &mut [0; MAX_STATIONS],
        moves: &mut [0; MAX_STATIONS],
        preds: &mut [0; MAX_STATIONS],
        marks: &mut [0; MAX_STATIONS],
        list: &mut [0; MAX_STATIONS],
    };
    interface::search(Search::Df, image, query, tables, &mut [0; 4])
}

/// A command that has to be refused as the engine's call is, in words that fit.
fn expect(words: &[&str], run: Result<Run, String>, refusal: u32) -> Checked {
    let command = words.join(" ");
    let Run { status, output, errors } = run.map_err(|what| format!("{command}: {what}"))?;
    let said = format!("{}{errors}", String::from_utf8_lossy(&output));
    if status != if refusal == 0 { Status::Good } else { Status::Refused } {
        return Err(format!("{command}: {status:?}, where the engine says {refusal}"));
    }
    let told = [format!("refused {refusal}: "), format!("\"refusal\": {{\"number\": {refusal},")];
    if refusal != 0 && !told.iter().any(|words| said.contains(words)) {
        return Err(format!("{command}: does not tell refusal {refusal}: {said}"));
    }
    known_words(&command, &said)
}

/// A command that may be refused, but neither panics nor fails.
fn may_be_refused(words: &[&str], input: &[u8]) -> Checked {
    let command = words.join(" ");
    let run = yard(words, input).map_err(|what| format!("{command}: {what}"))?;
    if run.status == Status::Failed {
        return Err(format!("{command}: {}", run.errors));
    }
    known_words(&command, &format!("{}{}", String::from_utf8_lossy(&run.output), run.errors))
}

/// The words that are there for what cannot happen have not come up.
fn known_words(command: &str, said: &str) -> Checked {
    const NEVER: [&str; 3] = ["has no words for", "no more is known", "no station is missing"];
    match NEVER.iter().find(|words| said.contains(*words)) {
        None => Ok(()),
        Some(words) => Err(format!("{command}: {words}: {said}")),
    }
}

/// The image's text gives its bytes again.
fn round_trip(image: &[u8]) -> Checked {
    let text = yard(&["show", "-"], image)?.output;
    let made = yard(&["make", "-", "-o", "-"], &text)?;
    match made.status == Status::Good && made.output == image {
        true => Ok(()),
        false => Err(format!("the text does not give the image: {}", made.errors)),
    }
}

/// A text with random changes is refused by a line, or gives a good map, whose own text gives it again.
fn changed_text(image: &[u8], random: &mut Random, tally: &mut BTreeMap<String, u64>) -> Checked {
    let text = yard(&["show", "-"], image)?.output;
    let text = change(&String::from_utf8_lossy(&text), random);
    let made = yard(&["make", "-", "-o", "-"], text.as_bytes())?;
    *tally.entry(format!("changed texts: {:?}", made.status)).or_default() += 1;
    match made.status {
        Status::Good if interface::check(&made.output, &mut [0; 4]) == 0 => round_trip(&made.output),
        Status::Refused if made.output.is_empty() && made.errors.contains("line ") => Ok(()),
        status => Err(format!("a changed text: {status:?}, {}\n{text}", made.errors)),
    }
}

/// A few lines left out, doubled, exchanged or with another word.
fn change(text: &str, random: &mut Random) -> String {
    const WORDS: [&str; 14] =
        ["0", "1", "7", "239", "240", "2047", "65535", "65536", "-1", "page", "move", "limit", "", "\u{1b}[2J #"];
    let mut lines: Vec<String> = text.lines().map(String::from).collect();
    for _ in 0..random.from_to(1, 3) {
        let (at, other) = (random.below(lines.len()), random.below(lines.len()));
        match random.below(8) {
            0 if lines.len() > 1 => drop(lines.remove(at)),
            1 => lines.push(lines[at].clone()),
            2 | 3 => lines.swap(at, other),
            4 => lines.retain(|line| !line.starts_with(&lines_begin(at, text))),
            5 => lines.iter_mut().for_each(|line| *line = without_page(line)),
            _ => {
                let mut words: Vec<&str> = lines[at].split_whitespace().collect();
                let place = random.below(words.len() + 1);
                match words.get_mut(place) {
                    Some(word) => *word = random.pick(&WORDS),
                    None => words.push(random.pick(&WORDS)),
                }
                lines[at] = words.join(" ");
            }
        }
        if lines.is_empty() {
            break;
        }
    }
    lines.join("\n")
}

/// The first word of a line.
fn lines_begin(at: usize, text: &str) -> String {
    let word = text.lines().nth(at).and_then(|line| line.split_whitespace().next());
    word.map_or("stations ".to_string(), |word| format!("{word} "))
}

fn without_page(line: &str) -> String {
    match line.starts_with("station ") {
        true => line.split(" page").next().unwrap_or_default().to_string(),
        false => line.to_string(),
    }
}
