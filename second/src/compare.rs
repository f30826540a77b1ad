//! A capture compared with a frame: document 02, item 1.

use crate::nick::{levels, BYTES_PER_RECORD, DOTS_PER_LINE, MAX_HEIGHT, REFUSED_RECORD};

/// Which side a refusal names.
#[derive(Clone, Copy, PartialEq, Eq, Debug)]
pub enum Side {
    Neither = 0,
    Capture = 1,
    Frame = 2,
}

/// The smallest and the largest difference of one level.
#[derive(Clone, Copy, PartialEq, Eq, Debug)]
pub struct Range {
    pub smallest: i8,
    pub largest: i8,
}

#[derive(Clone, Copy, PartialEq, Eq, Debug)]
pub struct Comparison {
    /// How many dots differ.
    pub differing: u32,
    /// Line and dot of the first that differs.
    pub first: Option<(usize, usize)>,
    /// Red, green and blue, capture minus frame, over all dots.
    pub ranges: [Range; 3],
}

/// Compares a capture with a frame. Refusals 5, 6, 7, 12.
pub fn compare(
    height: u32,
    capture: &[u8],
    capture_records: &[u8],
    frame: &[u8],
    frame_records: &[u8],
) -> Result<Comparison, (u8, Side)> {
    let lines = height as usize;
    let dots = DOTS_PER_LINE * lines;
    let records = BYTES_PER_RECORD * lines;
    // The first that holds is given.
    let faults = [
        (5, Side::Neither, height == 0 || height > MAX_HEIGHT),
        (6, Side::Capture, capture.len() != dots),
        (6, Side::Frame, frame.len() != dots),
        (7, Side::Capture, capture_records.len() != records),
        (7, Side::Frame, frame_records.len() != records),
        (12, Side::Capture, has_refused_record(capture_records)),
        (12, Side::Frame, has_refused_record(frame_records)),
    ];
    match faults.into_iter().find(|&(_, _, holds)| holds) {
        Some((number, side, _)) => Err((number, side)),
        None => Ok(compare_dots(capture, frame)),
    }
}

fn has_refused_record(records: &[u8]) -> bool {
    records.chunks(BYTES_PER_RECORD).any(|record| record[0] == REFUSED_RECORD)
}

/// Both sides are whole lines, as many and at least one.
fn compare_dots(capture: &[u8], frame: &[u8]) -> Comparison {
    Comparison {
        differing: capture.iter().zip(frame).filter(|(captured, painted)| captured != painted).count() as u32,
        first: first_difference(capture, frame),
        ranges: seen_differences(capture, frame).map(|seen| range(&seen)),
    }
}

fn first_difference(capture: &[u8], frame: &[u8]) -> Option<(usize, usize)> {
    let lines = capture.chunks_exact(DOTS_PER_LINE).zip(frame.chunks_exact(DOTS_PER_LINE));
    lines.enumerate().find_map(|(line, (captured, painted))| {
        let dot = captured.iter().zip(painted).position(|(captured, painted)| captured != painted)?;
        Some((line, dot))
    })
}

const MAX_LEVEL: u8 = 7;
/// Differences of a level: -7 to 7.
const DIFFERENCES: usize = 15;

/// Which differences of red, green and blue the dots have, -7 first.
fn seen_differences(capture: &[u8], frame: &[u8]) -> [[bool; DIFFERENCES]; 3] {
    let mut seen = [[false; DIFFERENCES]; 3];
    for (&captured, &painted) in capture.iter().zip(frame) {
        let ((red, green, blue), (less_red, less_green, less_blue)) = (levels(captured), levels(painted));
        seen[0][usize::from(MAX_LEVEL + red - less_red)] = true;
        seen[1][usize::from(MAX_LEVEL + green - less_green)] = true;
        seen[2][usize::from(MAX_LEVEL + blue - less_blue)] = true;
    }
    seen
}

fn range(seen: &[bool; DIFFERENCES]) -> Range {
    let difference = |place: Option<usize>| place.expect("a frame has dots") as i8 - MAX_LEVEL as i8;
    Range {
        smallest: difference(seen.iter().position(|&has| has)),
        largest: difference(seen.iter().rposition(|&has| has)),
    }
}
