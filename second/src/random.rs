//! The seeded generator, the digest and the random cases.
//! README.md specifies all of it under "Random cases".

use crate::nick::{Block, State, BYTES_PER_RECORD, RAM_BYTES, REFUSED_RECORD};
use crate::script::{lines_asked, ENABLE, PAINT, RESET, WRITE};

const SEED: u64 = 88_172_645_463_325_252;
const DIGEST_START: u64 = 1_469_598_103_934_665_603;

pub const FRAMES: u64 = 1;
pub const DOTS: u64 = 2;
pub const LISTINGS: u64 = 3;
pub const WRITES: u64 = 5;
pub const BENCH: u64 = 6;
pub const COMPARISONS: u64 = 7;
pub const SCRIPTS: u64 = 8;

pub const DOT_BUFFER: usize = 754_400;
pub const RECORD_BUFFER: usize = 1026 * BYTES_PER_RECORD;
/// The bytes of an old stored record: a buffer of such records gets refusal 7.
pub const OLD_BYTES_PER_RECORD: usize = 4;
pub const LISTING_BUFFER: usize = 330_000;
/// RAM and one byte more, for the length that is too large.
pub const RAM_BUFFER: usize = RAM_BYTES + 1;
/// External bytes that are drawn; those after repeat them.
pub const EXTERNAL_PERIOD: usize = 5_888;

fn xorshift(mut x: u64) -> u64 {
    x ^= x << 13;
    x ^= x >> 7;
    x ^= x << 17;
    x
}

pub struct Random(u64);

impl Random {
    pub fn new(family: u64, case: u64) -> Random {
        let mut random = Random(SEED ^ ((family << 40) | (case + 1)));
        for _ in 0..16 {
            random.byte();
        }
        random
    }

    pub fn byte(&mut self) -> u8 {
        self.0 = xorshift(self.0);
        (self.0 >> 32) as u8
    }

    /// Two bytes, the low one first.
    pub fn word(&mut self) -> u16 {
        let low = self.byte();
        let high = self.byte();
        u16::from_le_bytes([low, high])
    }

    pub fn bytes<const N: usize>(&mut self) -> [u8; N] {
        let mut bytes = [0; N];
        self.fill(&mut bytes);
        bytes
    }

    pub fn fill(&mut self, buffer: &mut [u8]) {
        for byte in buffer {
            *byte = self.byte();
        }
    }
}

#[derive(Clone, Copy)]
pub struct Digest(u64);

impl Digest {
    pub fn new() -> Digest {
        Digest(DIGEST_START)
    }

    pub fn byte(&mut self, byte: u8) {
        self.0 = xorshift(self.0 ^ u64::from(byte));
    }

    pub fn bytes(&mut self, bytes: &[u8]) {
        for &byte in bytes {
            self.byte(byte);
        }
    }

    /// A number in four bytes, low first.
    pub fn number(&mut self, number: u32) {
        self.bytes(&number.to_le_bytes());
    }

    pub fn state(&mut self, state: &State) {
        self.bytes(&state_bytes(state));
    }

    /// The state and RAM that a call is given.
    pub fn given(&mut self, state: &State, ram: &[u8]) {
        self.state(state);
        self.bytes(ram);
    }

    /// The state, dots and records that a painting or a script leaves.
    pub fn left(&mut self, state: &State, dots: &[u8], records: &[u8]) {
        self.state(state);
        self.bytes(dots);
        self.bytes(records);
    }

    pub fn value(&self) -> u64 {
        self.0
    }
}

/// A state as 32 bytes.
pub fn state_bytes(state: &State) -> [u8; 32] {
    let mut bytes = [0; 32];
    bytes[0] = state.fixbias;
    bytes[1] = state.border;
    bytes[2] = state.lpl;
    bytes[3] = state.lph;
    bytes[4] = u8::from(state.pending) + 2 * u8::from(state.virq_low) + 4 * u8::from(state.sync_on);
    bytes[6..8].copy_from_slice(&state.number.to_le_bytes());
    bytes[8..10].copy_from_slice(&state.ld1.to_le_bytes());
    bytes[10..12].copy_from_slice(&state.ld2.to_le_bytes());
    bytes[12..14].copy_from_slice(&state.left.to_le_bytes());
    bytes[16..].copy_from_slice(&state.block.0);
    bytes
}

fn bit(byte: u8, n: u8) -> bool {
    byte >> n & 1 == 1
}

/// The first bytes of a case: edits, state, height and faults.
pub struct Head {
    pub edits: u8,
    pub call: u8,
    pub flags: u8,
    pub state: State,
    pub height: u32,
    faults: [u8; 10],
}

impl Head {
    pub fn draw(random: &mut Random) -> Head {
        let edits = random.byte();
        let call = random.byte();
        let [fixbias, border, mut lpl, mut lph, flags] = random.bytes();
        let mut number = random.word() % 4096;
        let ld1 = random.word();
        let ld2 = random.word();
        let left = random.word();
        let block = Block(random.bytes());
        let heights = random.bytes();
        let faults = random.bytes();

        if bit(flags, 4) {
            lph = lph % 64 + 192;
        }
        if bit(flags, 6) {
            lpl = 240 + lpl % 16;
            lph = lph - lph % 16 + 15;
            number = 4080 + number % 16;
        }
        let state = State {
            fixbias,
            border,
            lpl,
            lph,
            pending: bit(flags, 0),
            block,
            number,
            ld1,
            ld2,
            left: if bit(flags, 3) { left % 4 } else { left % 257 },
            virq_low: bit(flags, 1),
            sync_on: bit(flags, 2),
        };
        Head { edits, call, flags, state, height: drawn_height(heights), faults }
    }

    /// Whether the case has fault n (0 to 6).
    fn has_fault(&self, n: u8) -> bool {
        match self.faults[0] {
            0..=31 => self.faults[1] % 7 == n,
            32..=63 => bit(self.faults[1], n),
            _ => false,
        }
    }

    /// The state with faults 0 and 1.
    pub fn faulty_state(&self) -> State {
        let mut state = self.state;
        let [_, _, kind, size, ..] = self.faults;
        let size = u16::from(size) * 64;
        if self.has_fault(0) {
            state.left = 257 + u16::from(kind % 4) * size;
        }
        if self.has_fault(1) {
            state.number = 4096 + u16::from(kind / 4 % 4) * size;
        }
        state
    }

    /// How fault 3 is made, if the case has it.
    fn height_fault(&self) -> Option<u8> {
        self.has_fault(3).then_some(self.faults[5] % 4)
    }

    /// RAM length, with fault 2.
    pub fn ram_length(&self) -> usize {
        if !self.has_fault(2) {
            return RAM_BYTES;
        }
        match self.faults[4] % 4 {
            0 => 65_535,
            1 => 0,
            2 => 65_537,
            _ => 32_768,
        }
    }

    /// Length of dots for the lines; with fault n it is wrong, how is in byte t of the faults.
    fn dots_length(&self, lines: usize, n: u8, t: usize) -> usize {
        let right = 736 * lines;
        let length = if self.has_fault(n) { wrong_length(right, 736, 0, self.faults[t]) } else { right };
        length.min(DOT_BUFFER)
    }

    /// Length of records for the lines; with fault n it is wrong, how is in byte t of the faults.
    fn records_length(&self, lines: usize, n: u8, t: usize) -> usize {
        let right = BYTES_PER_RECORD * lines;
        let length = match self.faults[t] % 5 {
            _ if !self.has_fault(n) => right,
            4 => OLD_BYTES_PER_RECORD * lines,
            kind => wrong_length(right, BYTES_PER_RECORD, 0, kind),
        };
        length.min(RECORD_BUFFER)
    }

    /// Length of external input for the lines, with fault 6.
    fn external_length(&self, lines: usize) -> usize {
        let right = 736 * lines;
        let length = if self.has_fault(6) {
            wrong_length(right, 736, 1, self.faults[9])
        } else if bit(self.call, 3) {
            right
        } else {
            0
        };
        length.min(DOT_BUFFER)
    }

    /// What is lent to a painting or a script of these lines, with faults 2 and 4 to 6.
    fn lengths(&self, lines: usize) -> Lengths {
        Lengths {
            ram: self.ram_length(),
            dots: self.dots_length(lines, 4, 7),
            records: self.records_length(lines, 5, 8),
            external: self.external_length(lines),
        }
    }
}

fn drawn_height(bytes: [u8; 3]) -> u32 {
    let [kind, low, high] = bytes;
    match kind {
        0..=3 => 1024,
        4..=19 => 1 + u32::from(u16::from_le_bytes([low, high])) % 1024,
        20..=83 => 1 + u32::from(low % 64),
        _ => 1 + u32::from(low % 8),
    }
}

/// Lengths for one buffer with a fault.
fn wrong_length(right: usize, unit: usize, zeroth: usize, kind: u8) -> usize {
    match kind % 4 {
        0 => right + 1,
        1 => right.saturating_sub(1),
        2 => zeroth,
        _ => right + unit,
    }
}

/// The lengths of the buffers lent to a painting or a script.
#[derive(Debug)]
pub struct Lengths {
    pub ram: usize,
    pub dots: usize,
    pub records: usize,
    pub external: usize,
}

/// A painting call: state, height and buffer lengths.
pub struct Call {
    pub single: bool,
    pub state: State,
    pub asked: u32,
    pub lengths: Lengths,
}

impl Call {
    /// The painting call of a case, with its faults.
    pub fn of(head: &Head) -> Call {
        let single = head.call % 8 == 0;
        let (asked, lines) = heights(head, single);
        Call { single, state: head.faulty_state(), asked, lengths: head.lengths(lines) }
    }
}

/// The height asked for and the height that the buffers are made for.
fn heights(head: &Head, single: bool) -> (u32, usize) {
    if single {
        return (1, 1);
    }
    let drawn = head.height;
    match head.height_fault() {
        None => (drawn, drawn as usize),
        Some(0) => (0, 0),
        Some(1) => (1025, 1025),
        Some(2) => (0, drawn as usize),
        Some(_) => (1025 + 256 * u32::from(head.faults[6]), drawn as usize),
    }
}

/// Draws RAM as it comes. The byte after it is 0.
pub fn draw_plain_ram(random: &mut Random, ram: &mut [u8]) {
    random.fill(&mut ram[..RAM_BYTES]);
    ram[RAM_BYTES] = 0;
}

/// Draws RAM, then edits its blocks by the edits.
pub fn draw_ram(random: &mut Random, edits: u8, ram: &mut [u8]) {
    draw_plain_ram(random, ram);
    for (n, block) in ram[..RAM_BYTES].chunks_exact_mut(16).enumerate() {
        edit_block(edits, n, block);
    }
}

fn edit_block(edits: u8, n: usize, block: &mut [u8]) {
    // Short mode lines.
    if bit(edits, 0) {
        block[0] = 252 + block[0] % 4;
    }
    // Pointers near the end.
    if bit(edits, 1) {
        block[4] = 192 + block[4] % 64;
        block[5] = 255;
        block[6] = 192 + block[6] % 64;
        block[7] = 255;
    }
    // Usual margins.
    if bit(edits, 2) {
        block[2] = block[2] / 64 * 64 + 8 + block[2] % 8;
        block[3] = block[3] / 64 * 64 + 46 + block[3] % 8;
    }
    // VSYNC in three of four blocks.
    if bit(edits, 3) && n % 4 != 0 {
        block[1] = block[1] / 16 * 16 + block[1] % 2;
    }
    // Margins about the right edge.
    if bit(edits, 4) && n % 2 == 1 {
        block[2] = block[2] / 64 * 64 + 50 + block[2] % 8;
        block[3] = block[3] / 64 * 64 + 50 + block[3] % 8;
    }
    // Long tables.
    if bit(edits, 5) && n % 8 != 7 {
        block[1] = block[1] / 2 * 2;
    }
    // 256 scanlines.
    if bit(edits, 6) && n % 4 == 1 {
        block[0] = 0;
    }
}

/// The stored block is the one in RAM, where the flags say so.
pub fn settle_block(head: &mut Head, ram: &[u8]) {
    if bit(head.flags, 5) {
        let start = 16 * usize::from(head.state.number);
        head.state.block.0.copy_from_slice(&ram[start..start + 16]);
    }
}

/// Draws external input; it repeats after its period.
pub fn draw_external(random: &mut Random, external: &mut [u8]) {
    for i in 0..external.len() {
        external[i] = if i < EXTERNAL_PERIOD { random.byte() } else { external[i - EXTERNAL_PERIOD] };
    }
}

/// A question for the direct answer.
pub struct Question {
    pub line: u32,
    pub dot: u32,
    pub external: u8,
}

impl Question {
    pub fn draw(random: &mut Random) -> Question {
        let kind = random.byte();
        let mut line = u32::from(random.word() % 1024);
        let mut dot = u32::from(random.word() % 736);
        let external = random.byte();
        if kind % 2 == 0 {
            line %= 8;
        }
        match kind / 2 % 32 {
            0 => line = 1024,
            1 => line += 1024,
            2 => dot = 736,
            3 => dot += 736,
            4 => (line, dot) = (1024, 736),
            _ => {}
        }
        Question { line, dot, external }
    }
}

/// A register write.
pub struct Write {
    pub port: u32,
    pub data: u8,
}

impl Write {
    pub fn draw(random: &mut Random) -> Write {
        let kind = random.byte();
        let bytes: [u8; 4] = random.bytes();
        let data = random.byte();
        let low = u32::from(bytes[0]);
        let port = match kind % 8 {
            0..=3 => 128 + low % 4,
            4 => 128 + low % 16,
            5 => 120 + low % 31,
            6 => 128 + low % 16 + 256 * (u32::from(bytes[1]) + 256 * u32::from(bytes[2])),
            _ => u32::from_le_bytes(bytes),
        };
        Write { port, data }
    }
}

/// A script call: state, script and buffer lengths.
pub struct ScriptCall {
    pub state: State,
    pub script: Vec<u8>,
    pub lengths: Lengths,
}

impl ScriptCall {
    /// Draws the script; the call has the faults of the case.
    pub fn draw(random: &mut Random, head: &Head) -> ScriptCall {
        let mut script: Vec<u8> = (0..step_count(head)).flat_map(|_| draw_step(random, head)).collect();
        // Half a step, which would ask for a line.
        if head.call / 8 % 8 == 0 {
            let one_or_two = 1 + usize::from(head.call / 64 % 2);
            script.extend(&[1, 129][..one_or_two]);
        }
        let lengths = head.lengths(script_lines(head, &script));
        ScriptCall { state: head.faulty_state(), script, lengths }
    }
}

fn step_count(head: &Head) -> u32 {
    match head.height_fault() {
        Some(0) => 0,
        Some(1) => 1025,
        Some(2) => 1025 + u32::from(head.faults[6]),
        _ if head.height <= 64 => 8 * head.height,
        _ => head.height,
    }
}

/// Kind, port and data.
fn draw_step(random: &mut Random, head: &Head) -> [u8; 3] {
    let [k, p, data] = random.bytes();
    let kind = step_kind(head, k, p);
    [kind, step_port(head, kind, p), data]
}

fn step_kind(head: &Head, k: u8, p: u8) -> u8 {
    let kind = match k % 32 {
        20..=24 => WRITE,
        25..=27 => ENABLE,
        28..=30 => RESET,
        31 if head.call % 4 == 0 => 4 + p % 252,
        _ => PAINT,
    };
    match head.height_fault() {
        Some(1 | 2) => PAINT,
        Some(3) if kind == PAINT => ENABLE,
        _ => kind,
    }
}

fn step_port(head: &Head, kind: u8, p: u8) -> u8 {
    if kind != WRITE {
        p
    } else if bit(head.call, 2) && p % 8 == 0 {
        [127, 132, 143, 144][usize::from(p / 8 % 4)]
    } else {
        128 + p % 4
    }
}

/// The height that the buffers of a script are made for.
fn script_lines(head: &Head, script: &[u8]) -> usize {
    match head.height_fault() {
        Some(2) => head.height as usize,
        Some(3) if head.faults[6] % 2 == 1 => head.height as usize,
        _ => lines_asked(script),
    }
}

/// The dots and records of one side of a comparison.
pub struct Picture {
    pub dots: Vec<u8>,
    pub records: Vec<u8>,
}

impl Picture {
    fn new(dots: usize, records: usize) -> Picture {
        Picture { dots: vec![0; dots], records: vec![85; records] }
    }
}

/// A comparison: the height asked and the two sides.
pub struct Pair {
    pub asked: u32,
    pub capture: Picture,
    pub frame: Picture,
}

impl Pair {
    pub fn draw(case: u64) -> Pair {
        let mut random = Random::new(COMPARISONS, case);
        let head = Head::draw(&mut random);
        let (asked, lines) = heights(&head, false);
        let mut capture = Picture::new(head.dots_length(lines, 4, 7), head.records_length(lines, 5, 8));
        let mut frame = Picture::new(head.dots_length(lines, 0, 4), head.records_length(lines, 6, 9));
        draw_external(&mut random, &mut capture.dots);
        draw_frame_dots(&mut random, &head, &mut capture.dots, &mut frame.dots);
        draw_stamp(&mut random, head.has_fault(1), &mut capture.records);
        draw_stamp(&mut random, head.has_fault(2), &mut frame.records);
        Pair { asked, capture, frame }
    }
}

/// The dots of the frame, which are 0 before: like the capture's, or drawn, or both sides of one colour.
fn draw_frame_dots(random: &mut Random, head: &Head, capture: &mut [u8], frame: &mut [u8]) {
    match head.call % 4 {
        0 => copy_dots(capture, frame),
        1 => {
            copy_dots(capture, frame);
            change_dots(random, 1 + head.call / 4, frame);
        }
        2 => draw_external(random, frame),
        _ => {
            frame.fill(head.state.fixbias);
            capture.fill(head.state.border);
        }
    }
}

/// Copies as far as both go.
fn copy_dots(capture: &[u8], frame: &mut [u8]) {
    for (dot, &captured) in frame.iter_mut().zip(capture) {
        *dot = captured;
    }
}

fn change_dots(random: &mut Random, changes: u8, dots: &mut [u8]) {
    for _ in 0..changes {
        let low = usize::from(random.word());
        let high = usize::from(random.byte());
        let colour = random.byte();
        if !dots.is_empty() {
            dots[(low + 65_536 * high) % dots.len()] = colour;
        }
    }
}

/// Draws a stamp: at the start of a record with the fault, else anywhere or nowhere.
fn draw_stamp(random: &mut Random, fault: bool, records: &mut [u8]) {
    let kind = random.byte();
    let word = usize::from(random.word());
    if records.is_empty() {
        return;
    }
    let place = word % records.len();
    if fault {
        records[place - place % BYTES_PER_RECORD] = REFUSED_RECORD;
    } else if kind % 4 == 0 {
        records[place] = REFUSED_RECORD;
    }
}

/// Clears RELOAD in all blocks, in most, or in none.
pub fn lengthen_table(edits: u8, ram: &mut [u8]) {
    for (n, block) in ram[..RAM_BYTES].chunks_exact_mut(16).enumerate() {
        let clear = match edits % 8 {
            0 => true,
            1..=3 => n % 16 != 0,
            _ => false,
        };
        if clear {
            block[1] = block[1] / 2 * 2;
        }
    }
}

/// Length of the second output, from the length of the whole listing.
pub fn output_length(kind: u8, more: u8, whole: usize) -> usize {
    match kind % 8 {
        0 => whole.saturating_sub(1),
        1 => 0,
        2..=4 => whole,
        5 | 6 => whole + usize::from(more),
        _ => LISTING_BUFFER,
    }
}
