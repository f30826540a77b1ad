//! Scripts and the interrupt latch: document 02, item 3.

use crate::nick::{line_input, paint_line, painting_refusal, write_register, State};
use crate::nick::{BYTES_PER_RECORD, DOTS_PER_LINE, REFUSED_RECORD};

const BYTES_PER_STEP: usize = 3;

/// The kinds of steps.
pub const WRITE: u8 = 0;
pub const PAINT: u8 = 1;
pub const ENABLE: u8 = 2;
pub const RESET: u8 = 3;

struct Step {
    kind: u8,
    port: u8,
    data: u8,
}

/// How a run ended, with latch and enable as they then stand.
#[derive(Clone, Copy, PartialEq, Eq, Debug)]
pub struct Ending {
    /// 0 if all steps were done.
    pub refusal: u8,
    /// Place of the refused step; none also where the script was refused before its first step.
    pub place: Option<usize>,
    /// Lines painted.
    pub painted: usize,
    pub latch: bool,
    pub enable: bool,
}

impl Ending {
    pub fn request(&self) -> bool {
        self.latch && self.enable
    }
}

/// Runs a script. Before the first step refusals 3 to 8 and 19, at a step 1, 2 and 19.
pub fn run(
    state: &mut State,
    ram: &[u8],
    script: &[u8],
    dots: &mut [u8],
    records: &mut [u8],
    external: &[u8],
) -> Ending {
    let refusal = script_refusal(state, ram, script, dots, records, external);
    // The records of lines that are not painted stay stamped.
    records.fill(REFUSED_RECORD);
    if refusal != 0 {
        return Ending { refusal, place: None, painted: 0, latch: false, enable: false };
    }
    let steps = whole_steps(script);
    let place = steps.iter().position(|step| step_refusal(step) != 0);
    let done = &steps[..place.unwrap_or(steps.len())];
    do_steps(done, state, ram, dots, records, external);
    Ending {
        refusal: place.map_or(0, |place| step_refusal(&steps[place])),
        place,
        painted: paintings(done),
        latch: latch_after(done, records),
        enable: enable_after(done),
    }
}

/// Refusals before the first step, the smallest first; 0 if none.
fn script_refusal(
    state: &State,
    ram: &[u8],
    script: &[u8],
    dots: &[u8],
    records: &[u8],
    external: &[u8],
) -> u8 {
    let height = u32::try_from(lines_asked(script)).unwrap_or(u32::MAX);
    match painting_refusal(state, ram, 0, height, dots, records, external) {
        0 if script.len() % BYTES_PER_STEP != 0 => 19,
        refusal => refusal,
    }
}

/// A step is refused by its own bytes alone: the lengths and the state were tested before.
fn step_refusal(step: &Step) -> u8 {
    match step.kind {
        WRITE => write_register(&mut State::fresh(), u32::from(step.port), step.data),
        PAINT | ENABLE | RESET => 0,
        _ => 19,
    }
}

/// One or two bytes after the last whole step are no step.
fn whole_steps(script: &[u8]) -> Vec<Step> {
    let step = |bytes: &[u8]| Step { kind: bytes[0], port: bytes[1], data: bytes[2] };
    script.chunks_exact(BYTES_PER_STEP).map(step).collect()
}

fn paintings(steps: &[Step]) -> usize {
    steps.iter().filter(|step| step.kind == PAINT).count()
}

/// The lines of all whole steps of kind 1, reached or not.
pub fn lines_asked(script: &[u8]) -> usize {
    paintings(&whole_steps(script))
}

/// What the steps do to chip and picture. None of them is refused.
fn do_steps(
    steps: &[Step],
    state: &mut State,
    ram: &[u8],
    dots: &mut [u8],
    records: &mut [u8],
    external: &[u8],
) {
    let mut lines = dots.chunks_exact_mut(DOTS_PER_LINE).zip(records.chunks_exact_mut(BYTES_PER_RECORD)).enumerate();
    for step in steps {
        if step.kind == WRITE {
            write_register(state, u32::from(step.port), step.data);
        }
        if step.kind == PAINT {
            let (y, (line, record)) = lines.next().expect("the lengths were tested");
            paint_line(state, ram, line, record, line_input(external, y));
        }
    }
}

/// The latch is on if a line painted since the last reset has the edge of VIRQ, bit 1 of its record.
fn latch_after(done: &[Step], records: &[u8]) -> bool {
    let last_reset = done.iter().rposition(|step| step.kind == RESET).unwrap_or(0);
    let (before, since) = done.split_at(last_reset);
    let mut painted = records.chunks_exact(BYTES_PER_RECORD).skip(paintings(before)).take(paintings(since));
    painted.any(|record| record[0] & 2 != 0)
}

/// The last step that sets the enable decides.
fn enable_after(done: &[Step]) -> bool {
    done.iter().rfind(|step| step.kind == ENABLE).is_some_and(|step| step.data & 1 == 1)
}
