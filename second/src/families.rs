//! Runs the families of cases and prints their digests.

use crate::compare::{compare, Comparison, Side};
use crate::nick::{self, Answer, Block, Cell, State, BYTES_PER_RECORD};
use crate::random::*;
use crate::script::{self, Ending};

pub const FRAME_CASES: u64 = 2000;
pub const DOT_CASES: u64 = 1000;
pub const LISTING_CASES: u64 = 400;
pub const WRITE_CASES: u64 = 1000;
pub const COMPARISON_CASES: u64 = 1000;
pub const SCRIPT_CASES: u64 = 1000;

const QUESTIONS: usize = 8;
const WRITES_PER_CASE: usize = 16;

/// The buffers lent to the chip, made once.
pub struct Buffers {
    pub ram: Vec<u8>,
    pub dots: Vec<u8>,
    pub records: Vec<u8>,
    pub external: Vec<u8>,
    pub text: Vec<u8>,
}

impl Buffers {
    pub fn new() -> Buffers {
        Buffers {
            ram: vec![0; RAM_BUFFER],
            dots: vec![0; DOT_BUFFER],
            records: vec![0; RECORD_BUFFER],
            external: vec![0; DOT_BUFFER],
            text: vec![0; LISTING_BUFFER],
        }
    }

    /// What a painting or a script is lent; all dots are 170 and all records 85.
    pub fn lend(&mut self, lengths: &Lengths) -> Lent<'_> {
        let dots = &mut self.dots[..lengths.dots];
        let records = &mut self.records[..lengths.records];
        dots.fill(170);
        records.fill(85);
        Lent { ram: &self.ram[..lengths.ram], dots, records, external: &self.external[..lengths.external] }
    }
}

pub struct Lent<'a> {
    pub ram: &'a [u8],
    pub dots: &'a mut [u8],
    pub records: &'a mut [u8],
    pub external: &'a [u8],
}

/// Refusal numbers run to 19, and 0 is an accepted call.
const REFUSALS: usize = 20;

/// How often each refusal number was given.
pub struct Tally([u64; REFUSALS]);

impl Tally {
    pub fn new() -> Tally {
        Tally([0; REFUSALS])
    }

    fn add(&mut self, refusal: u8) {
        self.0[usize::from(refusal)] += 1;
    }

    fn text(&self) -> String {
        let mut text = String::from("refusals");
        for (number, count) in self.0.iter().enumerate().filter(|(_, &count)| count > 0) {
            text.push_str(&format!(" {number}:{count}"));
        }
        text
    }
}

/// Runs one case into the digest and tells about it in a line.
pub type Run = fn(u64, &mut Buffers, &mut Digest, &mut Tally) -> String;

pub struct Family {
    pub name: &'static str,
    pub cases: u64,
    pub per_line: u64,
    pub run: Run,
}

pub const FAMILIES: [Family; 6] = [
    Family { name: "frames", cases: FRAME_CASES, per_line: 50, run: run_frame },
    Family { name: "dots", cases: DOT_CASES, per_line: 25, run: run_dots },
    Family { name: "listings", cases: LISTING_CASES, per_line: 10, run: run_listing },
    Family { name: "writes", cases: WRITE_CASES, per_line: 25, run: run_writes },
    Family { name: "comparisons", cases: COMPARISON_CASES, per_line: 25, run: run_comparison },
    Family { name: "scripts", cases: SCRIPT_CASES, per_line: 25, run: run_script },
];

/// All cases: one line for each group, then the refusals.
pub fn print_family(family: &Family) {
    let mut buffers = Buffers::new();
    let mut tally = Tally::new();
    for from in (0..family.cases).step_by(family.per_line as usize) {
        let to = from + family.per_line - 1;
        let mut digest = Digest::new();
        for case in from..=to {
            (family.run)(case, &mut buffers, &mut digest, &mut tally);
        }
        println!("{} {from} {to} {}", family.name, digest.value());
    }
    println!("cases {} {}", family.cases, tally.text());
}

/// One case alone.
pub fn print_case(family: &Family, case: u64) {
    let mut digest = Digest::new();
    let mut tally = Tally::new();
    let told = (family.run)(case, &mut Buffers::new(), &mut digest, &mut tally);
    println!("{told}");
    println!("{} {case} {case} {}", family.name, digest.value());
}

/// The head of a case and its edited RAM, the stored block taken from it where the head says so.
fn draw_head(family: u64, case: u64, ram: &mut [u8]) -> (Random, Head) {
    let mut random = Random::new(family, case);
    let mut head = Head::draw(&mut random);
    draw_ram(&mut random, head.edits, ram);
    settle_block(&mut head, ram);
    (random, head)
}

/// The inputs of a painting case, drawn into the buffers.
pub fn draw_frame(case: u64, buffers: &mut Buffers) -> Call {
    let (mut random, head) = draw_head(FRAMES, case, &mut buffers.ram);
    let call = Call::of(&head);
    draw_external(&mut random, &mut buffers.external[..call.lengths.external]);
    call
}

/// The inputs of a script case, drawn into the buffers.
pub fn draw_script(case: u64, buffers: &mut Buffers) -> ScriptCall {
    let (mut random, head) = draw_head(SCRIPTS, case, &mut buffers.ram);
    let call = ScriptCall::draw(&mut random, &head);
    draw_external(&mut random, &mut buffers.external[..call.lengths.external]);
    call
}

fn run_frame(case: u64, buffers: &mut Buffers, digest: &mut Digest, tally: &mut Tally) -> String {
    let call = draw_frame(case, buffers);
    let Lent { ram, dots, records, external } = buffers.lend(&call.lengths);
    digest.byte(u8::from(call.single));
    digest.number(call.asked);
    digest.given(&call.state, ram);
    digest.bytes(external);
    let mut state = call.state;
    let refusal = if call.single {
        nick::paint_line(&mut state, ram, dots, records, external)
    } else {
        nick::paint_frame(&mut state, ram, call.asked, dots, records, external)
    };
    tally.add(refusal);
    digest.byte(refusal);
    digest.left(&state, dots, records);
    format!(
        "single {} height {} {:?} refusal {refusal}\nbefore {:?}\nafter  {:?}",
        call.single, call.asked, call.lengths, call.state, state
    )
}

fn run_dots(case: u64, buffers: &mut Buffers, digest: &mut Digest, tally: &mut Tally) -> String {
    let (mut random, head) = draw_head(DOTS, case, &mut buffers.ram);
    let state = head.faulty_state();
    let ram = &buffers.ram[..head.ram_length()];
    let mut told = format!("ram {} state {state:?}", ram.len());
    digest.given(&state, ram);
    for _ in 0..QUESTIONS {
        let question = Question::draw(&mut random);
        digest.number(question.line);
        digest.number(question.dot);
        digest.byte(question.external);
        let answer = nick::ask_dot(&state, ram, question.line, question.dot, question.external);
        tally.add(answer.err().unwrap_or(0));
        digest_answer(digest, &answer);
        told.push_str(&format!(
            "\nline {} dot {} external {}: {answer:?}",
            question.line, question.dot, question.external
        ));
    }
    told
}

fn digest_answer(digest: &mut Digest, answer: &Result<Answer, u8>) {
    match answer {
        Err(refusal) => digest.byte(*refusal),
        Ok(answer) => {
            digest.byte(0);
            digest.byte(answer.colour);
            digest.byte(answer.count as u8);
            for address in &answer.addresses[..answer.count] {
                digest.bytes(&address.to_le_bytes());
            }
        }
    }
}

fn run_listing(case: u64, buffers: &mut Buffers, digest: &mut Digest, tally: &mut Tally) -> String {
    let mut random = Random::new(LISTINGS, case);
    let head = Head::draw(&mut random);
    let [kind, more] = random.bytes();
    draw_plain_ram(&mut random, &mut buffers.ram);
    lengthen_table(head.edits, &mut buffers.ram);
    let state = head.faulty_state();
    let ram = &buffers.ram[..head.ram_length()];
    digest.given(&state, ram);
    let first = list_into(&state, ram, &mut buffers.text, digest);
    let lent = output_length(kind, more, first.unwrap_or(0));
    let second = list_into(&state, ram, &mut buffers.text[..lent], digest);
    for answer in [first, second] {
        tally.add(answer.err().unwrap_or(0));
    }
    format!(
        "base {} ram {} lent {LISTING_BUFFER}: {first:?} lent {lent}: {second:?}",
        state.base(),
        ram.len()
    )
}

fn list_into(state: &State, ram: &[u8], out: &mut [u8], digest: &mut Digest) -> Result<usize, u8> {
    out.fill(170);
    let answer = nick::list_table(state, ram, out);
    digest.byte(answer.err().unwrap_or(0));
    digest.number(answer.unwrap_or(0) as u32);
    digest.bytes(out);
    answer
}

fn run_writes(case: u64, _: &mut Buffers, digest: &mut Digest, tally: &mut Tally) -> String {
    let mut random = Random::new(WRITES, case);
    let head = Head::draw(&mut random);
    let mut state = head.faulty_state();
    let mut told = format!("state {state:?}");
    digest.state(&state);
    for _ in 0..WRITES_PER_CASE {
        let write = Write::draw(&mut random);
        digest.number(write.port);
        digest.byte(write.data);
        let refusal = nick::write_register(&mut state, write.port, write.data);
        tally.add(refusal);
        digest.byte(refusal);
        digest.state(&state);
        told.push_str(&format!("\nport {} data {}: refusal {refusal}", write.port, write.data));
    }
    told
}

fn run_comparison(case: u64, _: &mut Buffers, digest: &mut Digest, tally: &mut Tally) -> String {
    let Pair { asked, capture, frame } = Pair::draw(case);
    digest.number(asked);
    for lent in [&capture.dots, &capture.records, &frame.dots, &frame.records] {
        digest.bytes(lent);
    }
    let answer = compare(asked, &capture.dots, &capture.records, &frame.dots, &frame.records);
    tally.add(answer.map_or_else(|(refusal, _)| refusal, |_| 0));
    digest_comparison(digest, &answer);
    format!(
        "height {asked} capture: dots {} records {} frame: dots {} records {}\n{answer:?}",
        capture.dots.len(), capture.records.len(), frame.dots.len(), frame.records.len()
    )
}

fn digest_comparison(digest: &mut Digest, answer: &Result<Comparison, (u8, Side)>) {
    match answer {
        Err((refusal, side)) => digest.bytes(&[*refusal, *side as u8]),
        Ok(comparison) => {
            digest.bytes(&[0, Side::Neither as u8]);
            digest.number(comparison.differing);
            let (line, dot) = comparison.first.unwrap_or((65_535, 65_535));
            digest.bytes(&(line as u16).to_le_bytes());
            digest.bytes(&(dot as u16).to_le_bytes());
            for range in comparison.ranges {
                digest.bytes(&[range.smallest as u8, range.largest as u8]);
            }
        }
    }
}

fn run_script(case: u64, buffers: &mut Buffers, digest: &mut Digest, tally: &mut Tally) -> String {
    let call = draw_script(case, buffers);
    let Lent { ram, dots, records, external } = buffers.lend(&call.lengths);
    digest.number(call.script.len() as u32);
    digest.bytes(&call.script);
    digest.given(&call.state, ram);
    digest.bytes(external);
    let mut state = call.state;
    let ending = script::run(&mut state, ram, &call.script, dots, records, external);
    tally.add(ending.refusal);
    digest_ending(digest, &ending);
    digest.left(&state, dots, records);
    format!(
        "script of {} bytes and {} lines {:?}\n{ending:?}\nbefore {:?}\nafter  {:?}",
        call.script.len(), script::lines_asked(&call.script), call.lengths, call.state, state
    )
}

fn digest_ending(digest: &mut Digest, ending: &Ending) {
    digest.byte(ending.refusal);
    digest.byte(u8::from(ending.place.is_some()));
    digest.number(ending.place.unwrap_or(0) as u32);
    for on in [ending.latch, ending.enable, ending.request()] {
        digest.byte(u8::from(on));
    }
}

// ---------------------------------------------------------------------------
// Colours: every display byte in every mode

const CELL_MODES: [(&str, u8); 6] = [
    ("PIXEL", nick::PIXEL),
    ("LPIXEL", nick::LPIXEL),
    ("ATTR", nick::ATTR),
    ("CH256", nick::CH256),
    ("CH128", nick::CH128),
    ("CH64", nick::CH64),
];
/// Attributes and codes, which are fetched before the display byte.
const FIRST_BYTES: [u8; 6] = [0, 64, 128, 192, 27, 255];

pub fn print_colours() {
    for (name, mode) in CELL_MODES {
        for colour_mode in 0..4 {
            let digest = digest_mode(mode, colour_mode);
            println!("colours {name} {colour_mode} {}", digest.value());
        }
    }
    println!("colours palette {}", digest_palettes().value());
    for priority in 0..4 {
        println!("colours external {priority} {}", digest_external(priority).value());
    }
    println!("colours levels {}", digest_levels().value());
}

/// A block of the mode: margins 8 and 9 with alternate bits.
pub fn mode_block(mode: u8, colour_mode: u8, lm_bits: u8, rm_bits: u8) -> Block {
    let mut bytes = [0; 16];
    bytes[1] = 32 * colour_mode + 2 * mode;
    bytes[2] = 64 * lm_bits + 8;
    bytes[3] = 64 * rm_bits + 9;
    Block(bytes)
}

pub fn first_bytes(mode: u8) -> &'static [u8] {
    match mode {
        nick::PIXEL | nick::LPIXEL => &FIRST_BYTES[..1],
        _ => &FIRST_BYTES,
    }
}

pub fn mode_cell(block: &Block, first: u8, byte: u8) -> Cell {
    match block.video_mode() {
        nick::PIXEL | nick::LPIXEL => Cell::graphics(block, byte),
        nick::ATTR => Cell::attribute(first, byte),
        _ => Cell::character(block, first, byte),
    }
}

fn digest_mode(mode: u8, colour_mode: u8) -> Digest {
    let width = if mode == nick::PIXEL { 8 } else { 16 };
    let mut digest = Digest::new();
    for bits in 0..16 {
        let block = mode_block(mode, colour_mode, bits / 4, bits % 4);
        for &first in first_bytes(mode) {
            for byte in 0..=255 {
                let cell = mode_cell(&block, first, byte);
                for dot in 0..width {
                    match cell.index(dot, width) {
                        Some(index) => digest.byte(index),
                        None => digest.bytes(&[255, byte]),
                    }
                }
            }
        }
    }
    digest
}

/// COLn is 37 n + 11.
fn stepped_columns(state: &mut State) {
    for n in 0..8 {
        state.block.0[8 + n] = 37u8.wrapping_mul(n as u8).wrapping_add(11);
    }
}

/// COLn is 255 - n.
fn falling_columns(state: &mut State) {
    for n in 0..8 {
        state.block.0[8 + n] = 255 - n as u8;
    }
}

fn digest_palettes() -> Digest {
    let mut digest = Digest::new();
    for fixbias in [0, 21, 31, 32, 96, 255] {
        for columns in [stepped_columns, falling_columns] {
            let mut state = State { fixbias, ..State::fresh() };
            columns(&mut state);
            digest.bytes(&state.palette());
        }
    }
    digest
}

fn digest_external(priority: u8) -> Digest {
    let mut state = State { fixbias: 32 * priority + 21, ..State::fresh() };
    stepped_columns(&mut state);
    let palette = state.palette();
    let mut digest = Digest::new();
    for inner in 0..=16 {
        let (index, colour) = match inner {
            16 => (None, 200),
            n => (Some(n as u8), palette[n]),
        };
        for external in 0..=255 {
            digest.byte(nick::mix_external(priority, &palette, index, colour, external));
        }
    }
    digest
}

fn digest_levels() -> Digest {
    let mut digest = Digest::new();
    for colour in 0..=255 {
        let (red, green, blue) = nick::levels(colour);
        digest.bytes(&[red, green, blue]);
    }
    digest
}

// ---------------------------------------------------------------------------
// Benchmark and coverage

const BENCH_HEIGHT: u32 = 312;

/// Video RAM and state of the benchmark frame.
fn bench_frame(mode: u8, colour_mode: u8, ram: &mut [u8]) -> State {
    draw_plain_ram(&mut Random::new(BENCH, u64::from(mode)), ram);
    let vres = u8::from(!(nick::CH256..=nick::CH64).contains(&mode));
    let mode_byte = 32 * colour_mode + 16 * vres + 2 * mode;
    ram[0..8].copy_from_slice(&[0, mode_byte, 10, 52, 0, 64, 0, 128]);
    ram[16..24].copy_from_slice(&[200, mode_byte + 1, 10, 52, 0, 64, 0, 128]);
    State { fixbias: 21, border: 73, ..State::fresh() }
}

/// Paints the benchmark frame `times` times in each of the colour modes.
pub fn print_bench(mode: u8, times: u64, colour_modes: std::ops::Range<u8>) {
    let mut buffers = Buffers::new();
    let dots = &mut buffers.dots[..736 * BENCH_HEIGHT as usize];
    let records = &mut buffers.records[..BYTES_PER_RECORD * BENCH_HEIGHT as usize];
    for colour_mode in colour_modes {
        let mut state = bench_frame(mode, colour_mode, &mut buffers.ram);
        let ram = &buffers.ram[..nick::RAM_BYTES];
        for _ in 0..times {
            nick::paint_frame(&mut state, ram, BENCH_HEIGHT, dots, records, &[]);
        }
        let mut digest = Digest::new();
        digest.bytes(dots);
        digest.bytes(records);
        println!("bench {mode} {colour_mode} {times} {}", digest.value());
    }
}

/// Counts what the accepted frames show, line by line.
pub fn print_coverage() {
    let mut buffers = Buffers::new();
    let mut modes = [[0u64; 4]; 8];
    let mut active = [[0u64; 4]; 8];
    let mut seen = [0u64; 12];
    for case in 0..FRAME_CASES {
        let call = draw_frame(case, &mut buffers);
        let mut state = call.state;
        let Lent { ram, dots, records, external } = buffers.lend(&call.lengths);
        if nick::paint_frame(&mut state, ram, call.asked, dots, records, external) != 0 {
            continue;
        }
        state = call.state;
        for y in 0..call.asked as usize {
            let before = state;
            let input = nick::line_input(external, y);
            let dots = &mut dots[736 * y..736 * (y + 1)];
            let record = &mut records[BYTES_PER_RECORD * y..BYTES_PER_RECORD * (y + 1)];
            nick::paint_line(&mut state, ram, dots, record, input);
            let block = state.block;
            let (mode, colours) = (usize::from(block.video_mode()), usize::from(block.colour_mode()));
            modes[mode][colours] += 1;
            active[mode][colours] += u64::from(record[3] > 0);
            let loaded = record[0] & 8 != 0;
            seen[0] += u64::from(loaded);
            seen[1] += u64::from(loaded && block.0[0] == 0);
            seen[2] += u64::from(loaded && !before.pending && before.block.reload());
            seen[3] += u64::from(loaded && !before.pending && !before.block.reload() && before.lph & 64 == 0);
            seen[4] += u64::from(loaded && before.number == 4095 && state.number == 0);
            seen[5] += u64::from(record[0] & 3 == 1);
            seen[6] += u64::from(record[0] & 3 == 3);
            seen[7] += u64::from(record[1] > 0);
            seen[8] += u64::from(state.ld1 < before.ld1 && before.ld1 > 65_000 && state.ld1 < 500);
            seen[9] += u64::from(record[3] > 0 && !input.is_empty());
            seen[10] += u64::from(record[4]);
            seen[11] += u64::from(record[6] > 0);
        }
    }
    for (mode, counts) in modes.iter().enumerate() {
        println!("mode {mode}: lines by colour mode {counts:?}, with active slots {:?}", active[mode]);
    }
    let names = [
        "loads", "loads of SC 0", "loads by RELOAD", "loads of the same number", "4095 to 0",
        "VIRQ held low", "VIRQ edges", "lines with sync", "LD1 wrapped", "lines with external input", "lines with VC1",
        "lines of blocks over 255",
    ];
    for (name, count) in names.iter().zip(seen) {
        println!("{name}: {count}");
    }
}
