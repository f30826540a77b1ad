//! The second program: an independent NICK painter for comparison by digests.

mod compare;
mod families;
mod nick;
mod random;
mod script;
#[cfg(test)]
mod tests;

use compare::{Comparison, Side};
use families::FAMILIES;
use script::Ending;
use std::io::Write;
use std::process::ExitCode;

const USAGE: &str = "usage:
  second frames|dots|listings|writes|comparisons|scripts [CASE]
  second colours
  second coverage
  second list RAMFILE FIXBIAS BORDER LPL LPH
  second dot RAMFILE FIXBIAS BORDER LPL LPH LINE DOT EXTERNAL
  second paint RAMFILE FIXBIAS BORDER LPL LPH HEIGHT DOTSFILE RECORDSFILE
  second compare HEIGHT CAPTURE CAPTURE-RECORDS FRAME FRAME-RECORDS
  second run RAMFILE SCRIPT DOTS RECORDS [EXTERNAL]
  second bench MODE N [COLOURMODE]";

fn main() -> ExitCode {
    let arguments: Vec<String> = std::env::args().skip(1).collect();
    let words: Vec<&str> = arguments.iter().map(String::as_str).collect();
    match run(&words) {
        Ok(()) => ExitCode::SUCCESS,
        Err(message) => {
            eprintln!("{message}");
            ExitCode::FAILURE
        }
    }
}

fn run(words: &[&str]) -> Result<(), String> {
    match words {
        ["colours"] => families::print_colours(),
        ["coverage"] => families::print_coverage(),
        ["list", file, registers @ ..] if registers.len() == 4 => return list(file, registers),
        ["dot", file, registers @ .., line, dot, external] if registers.len() == 4 => {
            return dot_words(file, registers, number(line)?, number(dot)?, number(external)?)
        }
        ["paint", file, registers @ .., height, dots, records] if registers.len() == 4 => {
            return paint(file, registers, number(height)?, dots, records)
        }
        ["compare", height, files @ ..] if files.len() == 4 => return compare_files(number(height)?, files),
        ["run", ram, script, dots, records, external @ ..] if external.len() <= 1 => {
            return run_files(ram, script, dots, records, external)
        }
        ["bench", mode, times] => bench(mode, times, 0..4)?,
        ["bench", mode, times, colours] => {
            let first = number::<u8>(colours)?.min(4);
            bench(mode, times, first..first + 1)?
        }
        [name] => families::print_family(family(name)?),
        [name, case] => families::print_case(family(name)?, number(case)?),
        _ => return Err(USAGE.to_string()),
    }
    Ok(())
}

fn family(name: &str) -> Result<&'static families::Family, String> {
    FAMILIES.iter().find(|family| family.name == name).ok_or(USAGE.to_string())
}

fn number<T: std::str::FromStr>(word: &str) -> Result<T, String> {
    word.parse().map_err(|_| format!("not a number in range: {word}"))
}

fn bench(mode: &str, times: &str, colours: std::ops::Range<u8>) -> Result<(), String> {
    let mode = number(mode)?;
    if !matches!(mode, 1..=5 | 7) || colours.end > 4 {
        return Err("MODE is 1, 2, 3, 4, 5 or 7, COLOURMODE 0 to 3".to_string());
    }
    families::print_bench(mode, number(times)?, colours);
    Ok(())
}

fn read(file: &str) -> Result<Vec<u8>, String> {
    std::fs::read(file).map_err(|error| format!("{file}: {error}"))
}

/// The fresh state after writes of the four registers.
fn state_of(registers: &[&str]) -> Result<nick::State, String> {
    let mut state = nick::State::fresh();
    for (port, value) in (128..).zip(registers) {
        nick::write_register(&mut state, port, number(value)?);
    }
    Ok(state)
}

fn write(file: &str, bytes: &[u8]) -> Result<(), String> {
    std::fs::write(file, bytes).map_err(|error| format!("{file}: {error}"))
}

fn list(file: &str, registers: &[&str]) -> Result<(), String> {
    let ram = read(file)?;
    let state = state_of(registers)?;
    let mut text = vec![0; random::LISTING_BUFFER];
    let length = nick::list_table(&state, &ram, &mut text).map_err(|n| format!("refusal {n}"))?;
    std::io::stdout().write_all(&text[..length]).map_err(|error| error.to_string())
}

fn dot_words(file: &str, registers: &[&str], line: u32, dot: u32, external: u8) -> Result<(), String> {
    let ram = read(file)?;
    let state = state_of(registers)?;
    let answer = nick::ask_dot(&state, &ram, line, dot, external).map_err(|n| format!("refusal {n}"))?;
    println!("{}", colour_words(answer.colour));
    for address in &answer.addresses[..answer.count] {
        println!("from address {address}: {}", ram[usize::from(*address)]);
    }
    if answer.count == 0 {
        println!("from no byte of RAM (border, blanking or unused mode)");
    }
    Ok(())
}

fn colour_words(colour: u8) -> String {
    let (red, green, blue) = nick::levels(colour);
    format!("colour {colour}: red {red} of 7, green {green} of 7, blue {blue} of 3")
}

fn paint(file: &str, registers: &[&str], height: u32, dots: &str, records: &str) -> Result<(), String> {
    let ram = read(file)?;
    let mut state = state_of(registers)?;
    let mut dot_bytes = vec![0; 736 * height as usize];
    let mut record_bytes = vec![0; nick::BYTES_PER_RECORD * height as usize];
    let refusal = nick::paint_frame(&mut state, &ram, height, &mut dot_bytes, &mut record_bytes, &[]);
    if refusal != 0 {
        return Err(format!("refusal {refusal}"));
    }
    write(dots, &dot_bytes)?;
    write(records, &record_bytes)
}

/// The files: the capture, its records, the frame, its records.
fn compare_files(height: u32, files: &[&str]) -> Result<(), String> {
    let lent = files.iter().map(|file| read(file)).collect::<Result<Vec<_>, _>>()?;
    let comparison = compare::compare(height, &lent[0], &lent[1], &lent[2], &lent[3]).map_err(refusal_words)?;
    print!("{}", comparison_words(&comparison, &lent[0], &lent[2]));
    Ok(())
}

fn refusal_words((number, side): (u8, Side)) -> String {
    match side {
        Side::Neither => format!("refusal {number}"),
        Side::Capture => format!("refusal {number} of the capture"),
        Side::Frame => format!("refusal {number} of the frame"),
    }
}

fn comparison_words(comparison: &Comparison, capture: &[u8], frame: &[u8]) -> String {
    let mut words = format!("{} of {} dots differ\n", comparison.differing, capture.len());
    match comparison.first {
        Some((line, dot)) => {
            let place = nick::DOTS_PER_LINE * line + dot;
            words.push_str(&format!("first: line {line}, dot {dot}\n"));
            words.push_str(&format!("capture: {}\n", colour_words(capture[place])));
            words.push_str(&format!("frame: {}\n", colour_words(frame[place])));
        }
        None => words.push_str("first: none\n"),
    }
    let [red, green, blue] = comparison.ranges.map(|range| format!("{} to {}", range.smallest, range.largest));
    words + &format!("capture minus frame: red {red}, green {green}, blue {blue}\n")
}

/// What a run from the fresh state tells and writes; it has no dots where it was refused before the first step.
struct Told {
    words: String,
    dots: Option<Vec<u8>>,
    records: Vec<u8>,
}

fn run_files(ram: &str, script: &str, dots: &str, records: &str, external: &[&str]) -> Result<(), String> {
    let (ram, script) = (read(ram)?, read(script)?);
    let external = external.first().map_or(Ok(vec![]), |file| read(file))?;
    let told = run_fresh(&ram, &script, &external);
    if let Some(painted) = &told.dots {
        write(dots, painted)?;
    }
    write(records, &told.records)?;
    print!("{}", told.words);
    Ok(())
}

fn run_fresh(ram: &[u8], script: &[u8], external: &[u8]) -> Told {
    let lines = script::lines_asked(script);
    let mut dots = vec![0; nick::DOTS_PER_LINE * lines];
    let mut records = vec![0; nick::BYTES_PER_RECORD * lines];
    let ending = script::run(&mut nick::State::fresh(), ram, script, &mut dots, &mut records, external);
    let begun = ending.refusal == 0 || ending.place.is_some();
    // A refused file has at least one stamped line.
    if !begun && lines == 0 {
        records = vec![nick::REFUSED_RECORD; nick::BYTES_PER_RECORD];
    }
    Told { words: ending_words(&ending), dots: begun.then_some(dots), records }
}

fn ending_words(ending: &Ending) -> String {
    let standing = standing_words(ending);
    match (ending.refusal, ending.place) {
        (0, _) => standing,
        (refusal, Some(place)) => format!("refused {refusal}: step {place}: {}\n{standing}", meaning(refusal)),
        (refusal, None) => format!("refused {refusal}: {}\n", meaning(refusal)),
    }
}

fn standing_words(ending: &Ending) -> String {
    let level = |on: bool| if on { "on" } else { "off" };
    let (latch, enable, request) = (level(ending.latch), level(ending.enable), level(ending.request()));
    format!("painted {} lines\nlatch {latch}, enable {enable}, request {request}\n", ending.painted)
}

/// What a run's refusal means. From the fresh state and with whole buffers 3, 6 and 7 are not given.
fn meaning(refusal: u8) -> &'static str {
    match refusal {
        1 => "port outside 128 to 143",
        2 => "port 132 to 143 (reserved)",
        4 => "RAM not 65,536 bytes",
        5 => "height 0 or over 1,024",
        8 => "external input neither empty nor 736 times the height",
        19 => "script length not a multiple of 3, or a step of a kind over 3",
        _ => unreachable!("no run from the fresh state gives {refusal}"),
    }
}
