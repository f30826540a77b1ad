//! The fixed examples, the refusals, the slips, and comparisons with
//! slow models that follow the papers sentence by sentence.

use crate::compare::{compare, Comparison, Range, Side};
use crate::families::{first_bytes, draw_frame, draw_script, mode_block, mode_cell, Buffers, Lent};
use crate::families::{COMPARISON_CASES, SCRIPT_CASES};
use crate::nick::*;
use crate::random::*;
use crate::script::{self, Ending};
use crate::{comparison_words, refusal_words, run_fresh};

// ---------------------------------------------------------------------------
// Helpers

fn block(sc: u8, mb: u8, lm: u8, rm: u8, ld1: u16, ld2: u16, colours: [u8; 8]) -> [u8; 16] {
    let mut bytes = [sc, mb, lm, rm, 0, 0, 0, 0, 0, 0, 0, 0, 0, 0, 0, 0];
    bytes[4..6].copy_from_slice(&ld1.to_le_bytes());
    bytes[6..8].copy_from_slice(&ld2.to_le_bytes());
    bytes[8..].copy_from_slice(&colours);
    bytes
}

const SAME: [u8; 8] = [0, 1, 2, 3, 4, 5, 6, 7];

/// With these columns and FIXBIAS 1, a colour is its palette number.
fn numbered() -> State {
    State { fixbias: 1, border: 99, ..State::fresh() }
}

fn table(blocks: &[[u8; 16]]) -> Vec<u8> {
    let mut ram = vec![0; RAM_BYTES];
    for (n, bytes) in blocks.iter().enumerate() {
        ram[16 * n..16 * n + 16].copy_from_slice(bytes);
    }
    ram
}

struct Painted {
    dots: Vec<u8>,
    records: Vec<u8>,
}

impl Painted {
    fn record(&self, y: usize) -> &[u8] {
        &self.records[BYTES_PER_RECORD * y..BYTES_PER_RECORD * (y + 1)]
    }

    fn line(&self, y: usize) -> &[u8] {
        &self.dots[736 * y..736 * (y + 1)]
    }
}

fn paint_with(state: &mut State, ram: &[u8], height: u32, external: &[u8]) -> Painted {
    let mut dots = vec![170; 736 * height as usize];
    let mut records = vec![85; BYTES_PER_RECORD * height as usize];
    assert_eq!(paint_frame(state, ram, height, &mut dots, &mut records, external), 0);
    Painted { dots, records }
}

fn paint(state: &mut State, ram: &[u8], height: u32) -> Painted {
    paint_with(state, ram, height, &[])
}

fn addresses(answer: Result<Answer, u8>) -> Vec<u16> {
    let answer = answer.unwrap();
    answer.addresses[..answer.count].to_vec()
}

/// Palette numbers of the dots of one graphics byte in PIXEL, one each pixel.
fn pixels(colour_mode: u8, lm_bits: u8, byte: u8) -> Vec<u8> {
    let bytes = block(255, 32 * colour_mode + 2, 64 * lm_bits + 8, 9, 1000, 0, SAME);
    let mut ram = table(&[bytes]);
    ram[1000] = byte;
    let painted = paint(&mut numbered(), &ram, 1);
    let step = [1, 2, 4, 8][usize::from(colour_mode)];
    painted.dots[..8].iter().copied().step_by(step).collect()
}

// ---------------------------------------------------------------------------
// Fixed examples

#[test]
fn p1_scanlines() {
    for (sc, lines) in [(0, 256), (1, 255), (255, 1)] {
        let ram = table(&[block(sc, 2, 8, 9, 0, 0, SAME)]);
        let mut state = State::fresh();
        paint(&mut state, &ram, 1);
        assert_eq!(state.left + 1, lines);
        assert_eq!(Block(block(sc, 2, 8, 9, 0, 0, SAME)).scanlines(), lines);
    }
}

#[test]
fn p2_palette() {
    let state = State { fixbias: 21, ..State::fresh() };
    assert_eq!(state.palette()[8], 168);
    assert_eq!(state.palette()[15], 175);
}

#[test]
fn p3_two_colours() {
    assert_eq!(pixels(0, 0, 165), [1, 0, 1, 0, 0, 1, 0, 1]);
}

#[test]
fn p4_alternate_bits() {
    assert_eq!(pixels(0, 2, 192), [2, 3, 2, 2, 2, 2, 2, 2]);
    assert_eq!(pixels(0, 3, 129), [6; 8]);
}

#[test]
fn p5_four_colours() {
    assert_eq!(pixels(1, 0, 129), [1, 0, 0, 2]);
}

#[test]
fn p6_sixteen_colours() {
    assert_eq!(pixels(2, 0, 160), [5, 0]);
}

#[test]
fn p7_font_addresses() {
    for (mode, ld2, code, address) in [(CH128, 2, 130, 258), (CH256, 258, 130, 642), (CH64, 1023, 255, 65_535)] {
        assert_eq!(font_address(mode, ld2, code), address);
        let mut ram = table(&[block(255, 2 * mode, 8, 9, 1000, ld2, SAME)]);
        ram[1000] = code;
        let answer = ask_dot(&State::fresh(), &ram, 0, 0, 0);
        assert_eq!(addresses(answer), [1000, address]);
    }
}

#[test]
fn p8_pixel_wraps() {
    let ram = table(&[block(255, 2, 8, 9, 65_535, 0, SAME)]);
    assert_eq!(addresses(ask_dot(&State::fresh(), &ram, 0, 0, 0)), [65_535]);
    assert_eq!(addresses(ask_dot(&State::fresh(), &ram, 0, 8, 0)), [0]);
    let mut state = State::fresh();
    paint(&mut state, &ram, 1);
    assert_eq!(state.ld1, 1);
}

#[test]
fn p9_margins() {
    for (lm, rm, slots, first) in [(10, 52, 42, 32), (6, 63, 46, 0), (20, 20, 0, 0), (53, 54, 1, 720), (54, 63, 0, 0)] {
        let ram = table(&[block(255, 2, lm, rm, 1000, 0, [7; 8])]);
        let painted = paint(&mut numbered(), &ram, 1);
        assert_eq!(painted.record(0)[3], slots);
        for (x, &colour) in painted.dots.iter().enumerate() {
            let active = x >= first && x < first + 16 * usize::from(slots);
            assert_eq!(colour, if active { 7 } else { 99 });
        }
    }
}

#[test]
fn p10_table_at_the_end() {
    let mut ram = table(&[block(255, 2, 8, 9, 0, 0, SAME)]);
    ram[65_520] = 255;
    let mut state = State { lpl: 255, lph: 255, ..State::fresh() };
    paint(&mut state, &ram, 1);
    assert_eq!(16 * u32::from(state.number), 65_520);
    paint(&mut state, &ram, 1);
    assert_eq!(state.number, 0);
}

/// "Byte 4 holds VC1 (FIXBIAS bit 7) as 0 or 1": bits 0 to 6 don't count.
#[test]
fn vc1_in_the_record() {
    let ram = table(&[block(254, 3, 8, 9, 0, 0, SAME)]);
    for fixbias in 0..=255 {
        let painted = paint(&mut State { fixbias, ..State::fresh() }, &ram, 2);
        for y in 0..2 {
            assert_eq!(painted.record(y)[4], if fixbias < 128 { 0 } else { 1 });
        }
    }
}

/// "Bytes 5 and 6 the number of the block in force, low byte first": two lines of each block from 254 on, then 4,095 and 0.
#[test]
fn block_numbers_in_the_record() {
    let mut ram = vec![0; RAM_BYTES];
    for n in 0..4096 {
        ram[16 * n] = 254;
    }
    let mut state = State { lpl: 254, ..State::fresh() };
    let painted = paint(&mut state, &ram, 8);
    let numbers: Vec<&[u8]> = (0..8).map(|y| &painted.record(y)[5..]).collect();
    assert_eq!(numbers, [[254, 0], [254, 0], [255, 0], [255, 0], [0, 1], [0, 1], [1, 1], [1, 1]]);
    let mut state = State { lpl: 255, lph: 255, ..State::fresh() };
    let painted = paint(&mut state, &ram, 3);
    let numbers: Vec<&[u8]> = (0..3).map(|y| &painted.record(y)[5..]).collect();
    assert_eq!(numbers, [[255, 15], [255, 15], [0, 0]]);
}

fn vertical_sequence() -> Vec<u8> {
    table(&[
        block(253, 0, 63, 0, 0, 0, [0; 8]),
        block(254, 0, 6, 63, 0, 0, [0; 8]),
        block(255, 0, 63, 32, 0, 0, [0; 8]),
        block(237, 3, 6, 63, 0, 0, [0; 8]),
    ])
}

#[test]
fn p11_sync_counts() {
    let painted = paint(&mut State::fresh(), &vertical_sequence(), 25);
    let counts: Vec<u8> = (0..25).map(|y| painted.record(y)[1]).collect();
    assert_eq!(counts[..6], [0, 0, 0, 51, 57, 32]);
    assert_eq!(counts[6..], [0; 19]);
}

/// Colour of the first dot with palette number `index` inside, in sixteen colours.
fn with_external(priority: u8, index: u8, external: u8) -> u8 {
    let byte = (0..=255).find(|&byte| pixels(2, 0, byte)[0] == index).unwrap();
    let mut ram = table(&[block(255, 64 + 2, 8, 9, 1000, 0, SAME)]);
    ram[1000] = byte;
    let mut state = State { fixbias: 32 * priority + 1, ..State::fresh() };
    let mut input = vec![0; 736];
    input[0] = external;
    let asked = ask_dot(&state, &ram, 0, 0, external).unwrap().colour;
    let painted = paint_with(&mut state, &ram, 1, &input).dots[0];
    assert_eq!(asked, painted);
    painted
}

#[test]
fn p12_external_priority() {
    assert_eq!(with_external(2, 3, 135), 7);
    assert_eq!(with_external(2, 3, 136), 3);
    assert_eq!(with_external(3, 3, 136), 8);
    assert_eq!(with_external(3, 3, 132), 3);
}

#[test]
fn pixel_with_vres() {
    let ram = table(&[block(0, 2 + 16, 10, 52, 1000, 0, SAME)]);
    let state = State::fresh();
    let dot = (10 - 8 + 5) * 16;
    assert_eq!(addresses(ask_dot(&state, &ram, 3, dot, 0)), [1262]);
    assert_eq!(addresses(ask_dot(&state, &ram, 3, dot + 8, 0)), [1263]);
    let painted = paint(&mut state.clone(), &ram, 4);
    let counts: Vec<u8> = (0..4).map(|y| painted.record(y)[2]).collect();
    assert_eq!(counts, [100, 84, 84, 84]);
}

#[test]
fn colour_levels() {
    assert_eq!(levels(73), (7, 0, 0));
    assert_eq!(levels(36), (0, 0, 3));
    assert_eq!(levels(0), (0, 0, 0));
    assert_eq!(levels(255), (7, 7, 3));
    assert_eq!(levels(146), (0, 7, 0));
    assert_eq!(levels(1), (4, 0, 0));
}

#[test]
fn vertical_sequence_listing() {
    let whole = "NICKTABLE>0
0>3>VSYNC>2>0>0>0>63>0>0>0>0>0>0>0>0>0>0>0
16>2>VSYNC>2>0>0>0>6>63>0>0>0>0>0>0>0>0>0>0
32>1>VSYNC>2>0>0>0>63>32>0>0>0>0>0>0>0>0>0>0
48>19>PIXEL>2>0>0>1>6>63>0>0>0>0>0>0>0>0>0>0
END>4
"
    .replace('>', "\t");
    assert_eq!(whole.len(), 195);
    let mut out = [170; 200];
    assert_eq!(list_table(&State::fresh(), &vertical_sequence(), &mut out), Ok(195));
    assert_eq!(&out[..195], whole.as_bytes());
    assert_eq!(out[195..], [170; 5]);
    let mut exact = [170; 195];
    assert_eq!(list_table(&State::fresh(), &vertical_sequence(), &mut exact), Ok(195));
    let mut short = [170; 194];
    assert_eq!(list_table(&State::fresh(), &vertical_sequence(), &mut short), Err(10));
    assert_eq!(short, [170; 194]);
}

#[test]
fn fresh_state() {
    let bytes = state_bytes(&State::fresh());
    let mut wanted = [0; 32];
    wanted[3] = 192;
    wanted[4] = 1;
    assert_eq!(bytes, wanted);
}

// ---------------------------------------------------------------------------
// Refusals

#[test]
fn refusals_1_and_2_of_register_writes() {
    let given = State { left: 300, number: 5000, ..State::fresh() };
    for (port, refusal) in [
        (0, 1), (127, 1), (144, 1), (128 + 256, 1), (131 + 65_536, 1), (u32::MAX, 1),
        (132, 2), (143, 2),
    ] {
        let mut state = given;
        assert_eq!(write_register(&mut state, port, 7), refusal);
        assert_eq!(state, given);
    }
    let mut state = given;
    for (port, data) in [(128, 1), (129, 2), (130, 3), (131, 196)] {
        assert_eq!(write_register(&mut state, port, data), 0);
    }
    assert_eq!(state, State { fixbias: 1, border: 2, lpl: 3, lph: 196, ..given });
}

#[test]
fn pending_reload() {
    let mut state = State { pending: false, ..State::fresh() };
    write_register(&mut state, 131, 128);
    assert!(!state.pending);
    write_register(&mut state, 131, 64);
    assert!(state.pending);
    write_register(&mut state, 131, 192);
    assert!(state.pending);
}

/// A painting that must be refused, with everything it may touch checked.
fn refused(state: State, ram: usize, height: u32, dots: usize, records: usize, external: usize) -> u8 {
    let ram = vec![0; ram];
    let mut dots = vec![170; dots];
    let mut records = vec![85; records];
    let external = vec![0; external];
    let mut after = state;
    let refusal = paint_frame(&mut after, &ram, height, &mut dots, &mut records, &external);
    assert_ne!(refusal, 0);
    assert_eq!(after, state);
    assert!(dots.iter().all(|&dot| dot == 170));
    assert!(records.iter().all(|&byte| byte == 255));
    refusal
}

#[test]
fn refusals_3_to_8_of_painting() {
    let good = State::fresh();
    let left = State { left: 257, ..good };
    let number = State { number: 4096, ..good };
    assert_eq!(refused(left, 65_536, 1, 736, 7, 0), 3);
    assert_eq!(refused(number, 65_536, 1, 736, 7, 0), 3);
    assert_eq!(refused(left, 0, 0, 1, 1, 1), 3);
    for ram in [0, 65_535, 65_537] {
        assert_eq!(refused(good, ram, 1, 736, 7, 0), 4);
    }
    assert_eq!(refused(good, 0, 0, 1, 1, 1), 4);
    assert_eq!(refused(good, 65_536, 0, 0, 0, 0), 5);
    assert_eq!(refused(good, 65_536, 1025, 736 * 1025, 7 * 1025, 0), 5);
    assert_eq!(refused(good, 65_536, u32::MAX, 1, 1, 1), 5);
    assert_eq!(refused(good, 65_536, 2, 736, 14, 0), 6);
    assert_eq!(refused(good, 65_536, 2, 1473, 13, 1), 6);
    assert_eq!(refused(good, 65_536, 2, 1472, 13, 0), 7);
    assert_eq!(refused(good, 65_536, 2, 1472, 15, 1), 7);
    assert_eq!(refused(good, 65_536, 2, 1472, 0, 0), 7);
    assert_eq!(refused(good, 65_536, 2, 1472, 14, 736), 8);
    assert_eq!(refused(good, 65_536, 2, 1472, 14, 1473), 8);
}

/// "Old stored records, lent with their own height, get refusal 7": they have 4 bytes a line.
#[test]
fn refusal_7_of_old_records() {
    for height in 1..=1024 {
        let lines = height as usize;
        assert_eq!(refused(State::fresh(), 65_536, height, 736 * lines, 4 * lines, 0), 7);
    }
}

#[test]
fn refusals_of_one_line() {
    let ram = vec![0; RAM_BYTES];
    let mut state = State::fresh();
    let mut dots = [170; 736];
    let mut records = [85; BYTES_PER_RECORD];
    assert_eq!(paint_line(&mut state, &ram, &mut dots[1..], &mut records, &[]), 6);
    assert_eq!(paint_line(&mut state, &ram, &mut dots, &mut records[1..], &[]), 7);
    assert_eq!(paint_line(&mut state, &ram, &mut dots, &mut records, &[0]), 8);
    assert_eq!(paint_line(&mut state, &ram[1..], &mut dots, &mut records, &[]), 4);
    assert_eq!((state, dots), (State::fresh(), [170; 736]));
    assert_eq!(paint_line(&mut state, &ram, &mut dots, &mut records, &[]), 0);
}

#[test]
fn state_limits_are_accepted() {
    let ram = vec![0; RAM_BYTES];
    let mut state = State { left: 256, number: 4095, pending: false, ..State::fresh() };
    paint(&mut state, &ram, 1024);
}

#[test]
fn refusal_9_of_the_direct_answer() {
    let ram = vec![0; RAM_BYTES];
    let state = State::fresh();
    assert_eq!(ask_dot(&state, &ram, 1024, 0, 0), Err(9));
    assert_eq!(ask_dot(&state, &ram, 0, 736, 0), Err(9));
    assert!(ask_dot(&state, &ram, 1023, 735, 0).is_ok());
    assert_eq!(ask_dot(&state, &ram[1..], 1024, 0, 0), Err(4));
    let broken = State { left: 257, ..state };
    assert_eq!(ask_dot(&broken, &ram[1..], 1024, 0, 0), Err(3));
}

#[test]
fn refusals_4_and_10_of_the_listing() {
    let ram = vec![0; RAM_BYTES];
    let broken = State { left: 300, number: 5000, ..State::fresh() };
    assert_eq!(list_table(&broken, &ram[1..], &mut []), Err(4));
    assert_eq!(list_table(&broken, &ram, &mut []), Err(10));
    assert!(list_table(&broken, &ram, &mut vec![0; LISTING_BUFFER]).is_ok());
}

/// Every base, and from every well-formed block number every way to the next block: it ends inside RAM.
#[test]
fn no_block_runs_past_ram() {
    let ends_inside = |number: u16| 16 * usize::from(number) + 15 < RAM_BYTES;
    for (lpl, lph) in (0..=255).flat_map(|lpl| (0..=255).map(move |lph| (lpl, lph))) {
        assert!(ends_inside(State { lpl, lph, ..State::fresh() }.base()));
    }
    let ram = vec![0; RAM_BYTES];
    for number in 0..4096 {
        for way in 0..8 {
            let (pending, reload, next) = (way & 1 != 0, way >> 1 & 1, way & 4);
            let block = Block(block(0, reload, 0, 0, 0, 0, SAME));
            let mut state = State { lpl: 255, lph: 143 + 16 * next, pending, block, number, left: 0, ..State::fresh() };
            paint(&mut state, &ram, 1);
            assert!(ends_inside(state.number));
        }
    }
}

// ---------------------------------------------------------------------------
// Slips

#[test]
fn vres_clear_repeats_and_border_keeps_ld1() {
    let mut ram = table(&[block(0, 2, 20, 21, 1000, 0, SAME)]);
    ram[1000..1008].copy_from_slice(&[255, 255, 0, 0, 255, 255, 0, 0]);
    let mut state = numbered();
    let repeated = paint(&mut state, &ram, 3);
    assert_eq!(repeated.line(0), repeated.line(1));
    assert_eq!(state.ld1, 1002);
    ram[1] |= 16;
    let mut state = numbered();
    let moving = paint(&mut state, &ram, 3);
    assert_eq!(moving.line(0)[192], 1);
    assert_eq!(moving.line(1)[192], 0);
    assert_eq!(moving.line(2)[192], 1);
    assert_eq!(state.ld1, 1006);
}

#[test]
fn attr_keeps_ld2_running() {
    let ram = table(&[block(0, 2 * ATTR, 10, 13, 1000, 2000, SAME)]);
    let mut state = numbered();
    paint(&mut state, &ram, 4);
    assert_eq!((state.ld1, state.ld2), (1003, 2012));
    assert_eq!(addresses(ask_dot(&numbered(), &ram, 3, 32, 0)), [1000, 2009]);
}

#[test]
fn first_character_row_is_ld2_itself() {
    let ram = table(&[block(0, 2 * CH256, 10, 13, 1000, 5, SAME)]);
    assert_eq!(addresses(ask_dot(&numbered(), &ram, 0, 32, 0)), [1000, 1280]);
    assert_eq!(addresses(ask_dot(&numbered(), &ram, 1, 32, 0)), [1000, 1536]);
}

#[test]
fn ld2_rises_without_active_slots_and_wraps() {
    let ram = table(&[block(0, 2 * CH64, 20, 20, 1000, 65_535, SAME)]);
    let mut state = numbered();
    paint(&mut state, &ram, 2);
    assert_eq!(state.ld2, 1);
}

#[test]
fn reload_waits_for_the_end_of_its_mode_line() {
    let ram = table(&[
        block(255, 2, 8, 9, 0, 0, SAME),
        block(253, 3, 8, 9, 0, 0, SAME),
        block(255, 2, 8, 9, 0, 0, SAME),
    ]);
    let mut state = numbered();
    let mut numbers = vec![];
    for _ in 0..6 {
        paint(&mut state, &ram, 1);
        numbers.push(state.number);
    }
    assert_eq!(numbers, [0, 1, 1, 1, 0, 1]);
}

#[test]
fn reload_takes_the_base_as_it_stands() {
    let mut ram = table(&[block(255, 3, 8, 9, 0, 0, SAME)]);
    ram[16 * 300] = 255;
    let mut state = numbered();
    paint(&mut state, &ram, 1);
    write_register(&mut state, 130, 44);
    write_register(&mut state, 131, 193);
    paint(&mut state, &ram, 1);
    assert_eq!(state.number, 300);
}

#[test]
fn lph_bit_6_holds_the_number_and_bit_7_reloads_each_line() {
    let ram = table(&[block(0, 2, 8, 9, 0, 0, SAME); 4]);
    let mut state = State { lph: 128, number: 2, left: 0, pending: false, ..numbered() };
    paint(&mut state, &ram, 1);
    assert_eq!((state.number, state.pending), (2, false));
    let mut state = State { lph: 64, lpl: 3, ..numbered() };
    let painted = paint(&mut state, &ram, 3);
    assert!((0..3).all(|y| painted.record(y)[0] & 8 != 0));
    assert_eq!((state.number, state.pending), (3, true));
}

/// VINT in lines 0 to 2 and 4 to 7, so that VIRQ falls in lines 0 and 4.
fn interrupts() -> Vec<u8> {
    table(&[
        block(255, 130, 8, 9, 0, 0, SAME),
        block(254, 130, 8, 9, 0, 0, SAME),
        block(255, 2, 8, 9, 0, 0, SAME),
        block(255, 131, 8, 9, 0, 0, SAME),
    ])
}

#[test]
fn virq_edge_only_once() {
    let ram = interrupts();
    let mut state = numbered();
    let mut bits = vec![];
    for _ in 0..6 {
        bits.push(paint(&mut state, &ram, 1).record(0)[0] & 3);
        write_register(&mut state, 129, 1);
    }
    assert_eq!(bits, [3, 1, 1, 0, 3, 1]);
}

#[test]
fn alternate_bits_are_not_swapped() {
    let mut ram = table(&[block(255, 2 * LPIXEL, 8, 64 * 3 + 9, 1000, 0, SAME)]);
    ram[1000] = 129;
    assert_eq!(paint(&mut numbered(), &ram, 1).dots[..16], [1, 1, 0, 0, 0, 0, 0, 0, 0, 0, 0, 0, 0, 0, 1, 1]);
    let mut ram = table(&[block(255, 2 * CH64, 64 * 3 + 8, 9, 1000, 100, SAME)]);
    ram[1000] = 192;
    ram[6400] = 129;
    assert_eq!(paint(&mut numbered(), &ram, 1).dots[..4], [1, 1, 0, 0]);
    for (bits, paper) in [(2, 2), (1, 4), (3, 6)] {
        ram[3] = 64 * bits + 9;
        assert_eq!(paint(&mut numbered(), &ram, 1).dots[..4], [paper + 1, paper + 1, paper, paper]);
    }
}

#[test]
fn attr_is_two_coloured_in_every_colour_mode() {
    for colour_mode in 0..4 {
        let mut ram = table(&[block(255, 32 * colour_mode + 2 * ATTR, 192 + 8, 192 + 9, 1000, 2000, SAME)]);
        ram[1000] = 0xC3;
        ram[2000] = 0x81;
        let painted = paint(&mut numbered(), &ram, 1);
        assert_eq!(painted.dots[..16], [3, 3, 12, 12, 12, 12, 12, 12, 12, 12, 12, 12, 12, 12, 3, 3]);
    }
}

#[test]
fn a_256_colour_dot_has_no_index() {
    let mut ram = table(&[block(255, 96 + 2, 8, 9, 1000, 0, SAME)]);
    ram[1000] = 9;
    let colour = |priority: u8, external: u8| {
        let state = State { fixbias: 32 * priority + 1, ..State::fresh() };
        ask_dot(&state, &ram, 0, 0, external).unwrap().colour
    };
    assert_eq!(colour(0, 143), 15);
    assert_eq!(colour(1, 128), 9);
    assert_eq!(colour(2, 128), 0);
    assert_eq!(colour(2, 136), 9);
    assert_eq!(colour(3, 136), 8);
    assert_eq!(colour(3, 132), 9);
    assert_eq!(colour(0, 127), 9);
}

#[test]
fn modes_without_fetches() {
    for (mode, colour, bits) in [(VSYNC, 0, 8 + 16), (UNUSED, 99, 4 + 8 + 16 + 32)] {
        let ram = table(&[block(255, 2 * mode, 10, 52, 1000, 0, SAME)]);
        let painted = paint_with(&mut numbered(), &ram, 1, &[128; 736]);
        assert_eq!(painted.dots, [colour; 736]);
        assert_eq!(painted.record(0)[0], bits);
        assert_eq!(painted.record(0)[2..4], [16, 0]);
    }
}

#[test]
fn ld1_restarts_in_every_mode() {
    for mode in 0..8 {
        let ram = table(&[block(0, 2 * mode, 20, 20, 1000, 0, SAME)]);
        let mut state = numbered();
        paint(&mut state, &ram, 1);
        state.ld1 = 7;
        paint(&mut state, &ram, 1);
        assert_eq!(state.ld1, 1000);
    }
}

#[test]
fn sync_level_carries_over_and_goes_off_in_other_modes() {
    let ram = table(&[
        block(255, 0, 6, 6, 0, 0, SAME),
        block(255, 0, 56, 57, 0, 0, SAME),
        block(255, 0, 63, 63, 0, 0, SAME),
        block(255, 12, 8, 9, 0, 0, SAME),
        block(255, 1, 63, 63, 0, 0, SAME),
    ]);
    let mut state = State { sync_on: true, ..numbered() };
    let painted = paint(&mut state, &ram, 5);
    let counts: Vec<u8> = (0..5).map(|y| painted.record(y)[1]).collect();
    assert_eq!(counts, [6, 1, 57, 0, 0]);
    assert!(!state.sync_on);
}

#[test]
fn listing_of_4096_blocks_wraps() {
    let mut ram = vec![0; RAM_BYTES];
    ram[16 * 4095 + 1] = 254;
    let state = State { lpl: 255, lph: 255, ..State::fresh() };
    let mut out = vec![0; LISTING_BUFFER];
    let length = list_table(&state, &ram, &mut out).unwrap();
    let text = String::from_utf8(out[..length].to_vec()).unwrap();
    let lines: Vec<&str> = text.lines().collect();
    assert_eq!(lines[0], "NICKTABLE\t65520");
    assert!(lines[1].starts_with("65520\t256\tLPIXEL\t256\t1\t1\t0\t0\t0\t0\t0\t0"));
    assert!(lines[2].starts_with("0\t256\tVSYNC\t2\t0\t0\t0\t"));
    assert_eq!(lines[4097], "END\t4096");
    assert_eq!(lines.len(), 4098);
}

#[test]
fn longest_listing_fits_its_buffer() {
    let ram = vec![254; RAM_BYTES];
    let length = list_table(&State::fresh(), &ram, &mut vec![0; LISTING_BUFFER]).unwrap();
    assert!(length + 255 <= LISTING_BUFFER);
    let widest = 4096 * (5 + 3 + 6 + 3 + 3 + 6 + 10 + 24 + 19) + 16 + 9;
    assert!(widest + 255 <= LISTING_BUFFER);
}

// ---------------------------------------------------------------------------
// A slow model, slot by slot and dot by dot

/// Bits of each pixel, the one that weighs least first.
const TWO: [&[u32]; 8] = [&[7], &[6], &[5], &[4], &[3], &[2], &[1], &[0]];
const FOUR: [&[u32]; 4] = [&[7, 3], &[6, 2], &[5, 1], &[4, 0]];
const SIXTEEN: [&[u32]; 2] = [&[7, 3, 5, 1], &[6, 2, 4, 0]];

fn groups(colour_mode: u8) -> Vec<&'static [u32]> {
    match colour_mode {
        0 => TWO.to_vec(),
        1 => FOUR.to_vec(),
        2 => SIXTEEN.to_vec(),
        _ => vec![],
    }
}

fn raw_index(byte: u8, bits: &[u32]) -> u32 {
    bits.iter().rev().fold(0, |index, &n| index * 2 + u32::from(byte) / 2u32.pow(n) % 2)
}

#[derive(Clone, Default)]
struct SlowDot {
    /// A palette number, or the byte itself in 256 colours; neither outside the margins.
    index: Option<u32>,
    byte: Option<u8>,
    addresses: Vec<u16>,
}

struct SlowLine {
    dots: Vec<SlowDot>,
    fetches: Vec<u16>,
    record: [u8; BYTES_PER_RECORD],
    blank: bool,
}

/// Dots of one display byte, `width` of them.
fn slow_byte(s: &State, byte: u8, width: usize, first: Option<u8>, named: Vec<u16>) -> Vec<SlowDot> {
    let mode = s.block.0[1] / 2 % 8;
    let colour_mode = if mode == 2 { 0 } else { s.block.0[1] / 32 % 4 };
    let (lm, rm) = (s.block.0[2], s.block.0[3]);
    let mut dots = vec![];
    if colour_mode == 3 {
        return vec![SlowDot { index: None, byte: Some(byte), addresses: named }; width];
    }
    let pixels = groups(colour_mode);
    for bits in &pixels {
        let mut index = raw_index(byte, bits);
        if mode == 2 {
            let attribute = u32::from(first.unwrap());
            index = if index == 0 { attribute / 16 } else { attribute % 16 };
        } else if colour_mode == 0 && (mode == 1 || mode == 7) {
            if lm >= 128 && bits[0] == 7 {
                index = 0;
            }
            if lm / 64 % 2 == 1 && bits[0] == 0 {
                index = 0;
            }
            if lm >= 128 && byte >= 128 {
                index += 2;
            }
            if lm / 64 % 2 == 1 && byte % 2 == 1 {
                index += 4;
            }
        } else if colour_mode == 0 {
            let code = first.unwrap();
            if rm >= 128 && code >= 128 {
                index += 2;
            }
            if rm / 64 % 2 == 1 && code / 64 % 2 == 1 {
                index += 4;
            }
        }
        for _ in 0..width / pixels.len() {
            dots.push(SlowDot { index: Some(index), byte: None, addresses: named.clone() });
        }
    }
    dots
}

/// Fetches one slot and gives its sixteen dots.
fn slow_slot(s: &mut State, ram: &[u8], fetches: &mut Vec<u16>) -> Vec<SlowDot> {
    let mode = s.block.0[1] / 2 % 8;
    let mut fetch = |address: u16| {
        fetches.push(address);
        (ram[address as usize], address)
    };
    let up = |pointer: u16| if pointer == 65_535 { 0 } else { pointer + 1 };
    match mode {
        1 => {
            let (one, first) = fetch(s.ld1);
            let (two, second) = fetch(up(s.ld1));
            s.ld1 = up(up(s.ld1));
            let mut dots = slow_byte(s, one, 8, None, vec![first]);
            dots.extend(slow_byte(s, two, 8, None, vec![second]));
            dots
        }
        2 => {
            let (attribute, first) = fetch(s.ld1);
            let (byte, second) = fetch(s.ld2);
            s.ld1 = up(s.ld1);
            s.ld2 = up(s.ld2);
            slow_byte(s, byte, 16, Some(attribute), vec![first, second])
        }
        7 => {
            let (byte, first) = fetch(s.ld1);
            s.ld1 = up(s.ld1);
            slow_byte(s, byte, 16, None, vec![first])
        }
        _ => {
            let (code, first) = fetch(s.ld1);
            s.ld1 = up(s.ld1);
            let size = [256, 128, 64][usize::from(mode - 3)];
            let rows = 65_536 / size;
            let address = u32::from(s.ld2) % rows * size + u32::from(code) % size;
            let (byte, second) = fetch(address as u16);
            slow_byte(s, byte, 16, Some(code), vec![first, second])
        }
    }
}

fn slow_line(s: &mut State, ram: &[u8]) -> SlowLine {
    let mut fetches = vec![];
    let loads = s.pending || s.left == 0;
    if loads {
        let base = u16::from(s.lph % 16) * 256 + u16::from(s.lpl);
        if s.pending {
            s.number = base;
        } else if s.block.0[1] % 2 == 1 {
            s.number = base;
        } else if s.lph / 64 % 2 == 1 {
            s.number = if s.number == 4095 { 0 } else { s.number + 1 };
        }
        for i in 0..16 {
            fetches.push(s.number * 16 + i);
            s.block.0[i as usize] = ram[usize::from(s.number) * 16 + i as usize];
        }
        s.left = 256 - u16::from(s.block.0[0]);
        s.ld2 = u16::from(s.block.0[6]) + 256 * u16::from(s.block.0[7]);
        s.pending = s.lph < 128;
    }
    let [_, mb, lm, rm, ..] = s.block.0;
    if loads || mb / 16 % 2 == 0 {
        s.ld1 = u16::from(s.block.0[4]) + 256 * u16::from(s.block.0[5]);
    }
    let mode = mb / 2 % 8;
    let mut dots = vec![];
    let (mut sync, mut active) = (0, 0);
    if mode != 0 {
        s.sync_on = false;
    }
    for slot in 0..57 {
        if mode == 0 {
            if slot == lm % 64 {
                s.sync_on = true;
            }
            if slot == rm % 64 {
                s.sync_on = false;
            }
            if s.sync_on {
                sync += 1;
            }
        }
        if (8..54).contains(&slot) {
            if mode != 0 && mode != 6 && slot >= lm % 64 && slot < rm % 64 {
                active += 1;
                dots.extend(slow_slot(s, ram, &mut fetches));
            } else {
                dots.extend(vec![SlowDot::default(); 16]);
            }
        }
    }
    if (3..=5).contains(&mode) {
        s.ld2 = if s.ld2 == 65_535 { 0 } else { s.ld2 + 1 };
    }
    s.left -= 1;
    let low = mb >= 128;
    let mut bits = 0;
    for (n, on) in [low, low && !s.virq_low, mode != 0, loads, s.left == 0, mode == 6].into_iter().enumerate() {
        if on {
            bits += 1 << n;
        }
    }
    s.virq_low = low;
    let vc1 = u8::from(s.fixbias >= 128);
    let record = [bits, sync, fetches.len() as u8, active, vc1, (s.number % 256) as u8, (s.number / 256) as u8];
    SlowLine { dots, fetches, record, blank: mode == 0 }
}

fn slow_palette(s: &State, n: u32) -> u8 {
    if n < 8 {
        s.block.0[8 + n as usize]
    } else {
        (u32::from(s.fixbias) % 32 * 8 + n - 8) as u8
    }
}

fn slow_colour(s: &State, line: &SlowLine, dot: usize, external: u8) -> u8 {
    let SlowDot { index, byte, .. } = line.dots[dot];
    if line.blank {
        return 0;
    }
    if index.is_none() && byte.is_none() {
        return s.border;
    }
    let ec = u32::from(external) % 16;
    let high = index.is_some_and(|n| n >= 8);
    let wins = [true, high, high || ec < 8, high || ec / 4 % 2 == 0][usize::from(s.fixbias / 32 % 4)];
    if external >= 128 && wins {
        return slow_palette(s, ec);
    }
    match index {
        Some(n) => slow_palette(s, n),
        None => byte.unwrap(),
    }
}

#[test]
fn frames_agree_with_the_slow_model() {
    let mut buffers = Buffers::new();
    let mut lines = 0;
    let mut with_vc1 = [0; 2];
    let mut beyond_255 = 0;
    for case in 0..600 {
        let call = draw_frame(case, &mut buffers);
        let Lent { ram, dots, records, external } = buffers.lend(&call.lengths);
        let mut state = call.state;
        if call.asked > 300 || paint_frame(&mut state, ram, call.asked, dots, records, external) != 0 {
            continue;
        }
        let mut slow = call.state;
        for y in 0..call.asked as usize {
            let line = slow_line(&mut slow, ram);
            assert_eq!(line.record, records[BYTES_PER_RECORD * y..BYTES_PER_RECORD * (y + 1)]);
            assert!(line.fetches.len() <= 108);
            for x in 0..736 {
                let input = if external.is_empty() { 0 } else { external[736 * y + x] };
                assert_eq!(slow_colour(&slow, &line, x, input), dots[736 * y + x]);
            }
            lines += 1;
            with_vc1[usize::from(line.record[4])] += 1;
            beyond_255 += u32::from(line.record[6] > 0);
        }
        assert_eq!(slow, state);
    }
    assert!(lines > 3000);
    assert!(with_vc1[0] > 1000 && with_vc1[1] > 1000 && beyond_255 > 1000);
}

#[test]
fn direct_answers_agree_with_painting_and_the_slow_model() {
    let mut buffers = Buffers::new();
    let mut asked = 0;
    for case in 0..400 {
        let call = draw_frame(case, &mut buffers);
        let Lent { ram, dots, records, external } = buffers.lend(&call.lengths);
        if paint_frame(&mut call.state.clone(), ram, call.asked, dots, records, external) != 0 {
            continue;
        }
        let mut slow = call.state;
        for y in 0..call.asked as usize {
            let line = slow_line(&mut slow, ram);
            if y >= 8 && y % 61 != 0 && y != 1023 {
                continue;
            }
            for x in (case as usize % 7..736).step_by(7) {
                let input = if external.is_empty() { 0 } else { external[736 * y + x] };
                let answer = ask_dot(&call.state, ram, y as u32, x as u32, input).unwrap();
                assert_eq!(answer.colour, dots[736 * y + x]);
                assert_eq!(answer.addresses[..answer.count], line.dots[x].addresses);
                asked += 1;
            }
        }
    }
    assert!(asked > 100_000);
}

#[test]
fn single_lines_make_the_frame() {
    let mut buffers = Buffers::new();
    for case in 0..100 {
        let call = draw_frame(case, &mut buffers);
        let Lent { ram, dots, records, external } = buffers.lend(&call.lengths);
        let mut whole = call.state;
        if paint_frame(&mut whole, ram, call.asked, dots, records, external) != 0 {
            continue;
        }
        let mut state = call.state;
        for y in 0..call.asked as usize {
            let input = line_input(external, y);
            let (mut line, mut record) = ([170; 736], [85; BYTES_PER_RECORD]);
            assert_eq!(paint_line(&mut state, ram, &mut line, &mut record, input), 0);
            assert_eq!(line, dots[736 * y..736 * (y + 1)]);
            assert_eq!(record, records[BYTES_PER_RECORD * y..BYTES_PER_RECORD * (y + 1)]);
        }
        assert_eq!(state, whole);
    }
}

/// The recipe of README.md: a colour shows its palette number.
#[test]
fn colour_groups_agree_with_painting() {
    for mode in [PIXEL, LPIXEL, ATTR, CH256, CH128, CH64] {
        let width = if mode == PIXEL { 8 } else { 16 };
        for (colour_mode, bits) in (0..4).flat_map(|c| (0..16).map(move |b| (c, b))) {
            let mut bytes = mode_block(mode, colour_mode, bits / 4, bits % 4);
            bytes.0[4..8].copy_from_slice(&[0xE8, 3, 100, 0]);
            bytes.0[8..].copy_from_slice(&SAME);
            let mut ram = table(&[bytes.0]);
            for &first in first_bytes(mode) {
                for byte in (0..=255).step_by(3) {
                    let address = match mode {
                        PIXEL | LPIXEL => 1000,
                        ATTR => 100,
                        _ => usize::from(font_address(mode, 100, first)),
                    };
                    ram[1000] = first;
                    ram[address] = byte;
                    let painted = paint(&mut numbered(), &ram, 1);
                    let cell = mode_cell(&bytes, first, byte);
                    for x in 0..width {
                        assert_eq!(painted.dots[x], cell.index(x, width).unwrap_or(byte));
                    }
                }
            }
        }
    }
}

#[test]
fn external_groups_agree_with_the_rule() {
    for (priority, index) in (0..4).flat_map(|p| (0..16).map(move |i| (p, i))) {
        for external in (0..=255u8).step_by(5) {
            let ec = external % 16;
            let wins = external >= 128
                && match priority {
                    0 => true,
                    1 => index >= 8,
                    2 => index >= 8 || ec < 8,
                    _ => index >= 8 || [0, 1, 2, 3, 8, 9, 10, 11].contains(&ec),
                };
            assert_eq!(with_external(priority, index, external), if wins { ec } else { index });
        }
    }
}

// ---------------------------------------------------------------------------
// A capture compared with a frame

type Compared = Result<Comparison, (u8, Side)>;

fn compare_pair(pair: &Pair) -> Compared {
    let Pair { asked, capture, frame } = pair;
    compare(*asked, &capture.dots, &capture.records, &frame.dots, &frame.records)
}

/// Whole sides, the capture of one colour and the frame of another.
fn plain_pair(height: u32, captured: u8, painted: u8) -> Pair {
    let lines = height as usize;
    let side = |colour: u8| Picture { dots: vec![colour; 736 * lines], records: vec![0; 7 * lines] };
    Pair { asked: height, capture: side(captured), frame: side(painted) }
}

fn ranges(bounds: [(i8, i8); 3]) -> [Range; 3] {
    bounds.map(|(smallest, largest)| Range { smallest, largest })
}

/// The levels that document 01 names: colour 73 has red 7, colour 36 blue 3.
#[test]
fn differences_of_named_colours() {
    for (captured, painted, bounds) in [
        (73, 0, [(7, 7), (0, 0), (0, 0)]),
        (0, 73, [(-7, -7), (0, 0), (0, 0)]),
        (36, 0, [(0, 0), (0, 0), (3, 3)]),
        (73, 36, [(7, 7), (0, 0), (-3, -3)]),
        (146, 255, [(-7, -7), (0, 0), (-3, -3)]),
        (64, 128, [(1, 1), (-1, -1), (0, 0)]),
    ] {
        let answer = compare_pair(&plain_pair(2, captured, painted));
        assert_eq!(answer, Ok(Comparison { differing: 1472, first: Some((0, 0)), ranges: ranges(bounds) }));
    }
}

#[test]
fn equal_sides_have_no_first_dot() {
    for height in [1, 2, 312, 1024] {
        for colour in [0, 73, 255] {
            let answer = compare_pair(&plain_pair(height, colour, colour));
            assert_eq!(answer, Ok(Comparison { differing: 0, first: None, ranges: ranges([(0, 0); 3]) }));
        }
    }
}

/// One dot apart, at the ends of lines and of the largest frame.
#[test]
fn first_dot_at_the_ends_of_lines() {
    for (height, line, dot) in [(2, 0, 0), (2, 0, 735), (2, 1, 0), (2, 1, 735), (1, 0, 735), (1024, 1023, 735)] {
        let mut pair = plain_pair(height, 0, 0);
        pair.capture.dots[736 * line + dot] = 255;
        let answer = compare_pair(&pair);
        let one = Comparison { differing: 1, first: Some((line, dot)), ranges: ranges([(0, 7), (0, 7), (0, 3)]) };
        assert_eq!(answer, Ok(one));
    }
}

/// The smallest line comes first, and only then the smallest dot.
#[test]
fn first_line_before_first_dot() {
    let mut pair = plain_pair(3, 0, 0);
    pair.frame.dots[736 + 700] = 73;
    pair.frame.dots[2 * 736] = 36;
    let answer = compare_pair(&pair).unwrap();
    assert_eq!((answer.differing, answer.first), (2, Some((1, 700))));
    assert_eq!(answer.ranges, ranges([(-7, 0), (0, 0), (-3, 0)]));
}

/// "Taken over all dots": a range keeps to what the dots have, and one dot more widens it.
#[test]
fn ranges_of_dots_that_all_differ() {
    let mut pair = plain_pair(1024, 255, 0);
    let all = Comparison { differing: 753_664, first: Some((0, 0)), ranges: ranges([(7, 7), (7, 7), (3, 3)]) };
    assert_eq!(compare_pair(&pair), Ok(all));
    pair.capture.dots[753_663] = 0;
    let but_one = Comparison { differing: 753_663, ranges: ranges([(0, 7), (0, 7), (0, 3)]), ..all };
    assert_eq!(compare_pair(&pair), Ok(but_one));
}

/// All differences are 0 exactly if the colours are the same.
#[test]
fn levels_determine_the_colour() {
    for (captured, painted) in (0..=255).flat_map(|c| (0..=255).map(move |p| (c, p))) {
        let answer = compare_pair(&plain_pair(1, captured, painted)).unwrap();
        assert_eq!(answer.ranges == ranges([(0, 0); 3]), captured == painted);
        assert_eq!(answer.differing, if captured == painted { 0 } else { 736 });
        assert!(answer.ranges.iter().all(|range| range.smallest == range.largest));
    }
}

/// Every fault that a comparison can have, with the number and side it has alone.
const FAULTS: [(u8, Side); 7] = [
    (12, Side::Frame),
    (12, Side::Capture),
    (7, Side::Frame),
    (7, Side::Capture),
    (6, Side::Frame),
    (6, Side::Capture),
    (5, Side::Neither),
];

fn make_fault(pair: &mut Pair, (number, side): (u8, Side)) {
    let picture = if side == Side::Capture { &mut pair.capture } else { &mut pair.frame };
    match number {
        5 => pair.asked = 1025,
        6 => picture.dots.push(0),
        7 => picture.records.push(0),
        _ => picture.records[7] = 255,
    }
}

/// All sets of faults: the smallest number first, and only then the side.
#[test]
fn refusals_of_comparisons() {
    for set in 1..128 {
        let faults: Vec<(u8, Side)> = (0..7).filter(|n| set >> n & 1 == 1).map(|n| FAULTS[n]).collect();
        let mut pair = plain_pair(2, 1, 2);
        for &fault in &faults {
            make_fault(&mut pair, fault);
        }
        let (number, alone) = *faults.iter().min_by_key(|(number, _)| number).unwrap();
        let side = if faults.contains(&(number, Side::Capture)) { Side::Capture } else { alone };
        assert_eq!(compare_pair(&pair), Err((number, side)));
    }
    assert_eq!(compare_pair(&plain_pair(2, 1, 2)).unwrap().differing, 1472);
}

#[test]
fn refusal_5_of_comparisons() {
    for height in [0, 1025, 65_537, u32::MAX] {
        assert_eq!(compare(height, &[], &[], &[], &[]), Err((5, Side::Neither)));
    }
    assert_eq!(compare_pair(&plain_pair(0, 0, 0)), Err((5, Side::Neither)));
    assert_eq!(compare_pair(&plain_pair(1025, 0, 0)), Err((5, Side::Neither)));
    assert!(compare_pair(&plain_pair(1, 0, 0)).is_ok());
    assert!(compare_pair(&plain_pair(1024, 0, 0)).is_ok());
}

/// Lengths of 6 and 7: only 736 and 7 times the height are right.
#[test]
fn refusals_6_and_7_of_comparisons() {
    let (dots, records) = (vec![0; 3000], vec![0; 30]);
    for length in [0, 735, 736, 1471, 1473, 2208] {
        let (lent, right) = (&dots[..length], &dots[..1472]);
        assert_eq!(compare(2, lent, &[], right, &[]), Err((6, Side::Capture)));
        assert_eq!(compare(2, right, &[], lent, &[]), Err((6, Side::Frame)));
        assert_eq!(compare(2, lent, &[], lent, &[]), Err((6, Side::Capture)));
    }
    let dots = &dots[..1472];
    for length in (0..30).filter(|&length| length != 14) {
        let (lent, right) = (&records[..length], &records[..14]);
        assert_eq!(compare(2, dots, lent, dots, right), Err((7, Side::Capture)));
        assert_eq!(compare(2, dots, right, dots, lent), Err((7, Side::Frame)));
        assert_eq!(compare(2, dots, lent, dots, lent), Err((7, Side::Capture)));
    }
}

/// Document 02, item 7: records of 4 bytes a line get 7, even where they are stamped.
#[test]
fn refusal_7_of_old_records_in_comparisons() {
    for height in [1, 2, 7, 312, 1024] {
        let old = vec![255; 4 * height as usize];
        let Pair { capture, frame, .. } = plain_pair(height, 0, 0);
        let of_capture = compare(height, &capture.dots, &old, &frame.dots, &frame.records);
        assert_eq!(of_capture, Err((7, Side::Capture)));
        let of_frame = compare(height, &capture.dots, &capture.records, &frame.dots, &old);
        assert_eq!(of_frame, Err((7, Side::Frame)));
    }
}

/// 255 counts at the start of a record only, in every line.
#[test]
fn refusal_12_of_comparisons() {
    for place in 0..21 {
        let (mut captured, mut painted) = (plain_pair(3, 1, 1), plain_pair(3, 1, 1));
        captured.capture.records[place] = 255;
        painted.frame.records[place] = 255;
        let begins = [0, 7, 14].contains(&place);
        assert_eq!(compare_pair(&captured).err(), begins.then_some((12, Side::Capture)));
        assert_eq!(compare_pair(&painted).err(), begins.then_some((12, Side::Frame)));
    }
    let mut pair = plain_pair(1024, 1, 1);
    pair.capture.records.fill(254);
    assert!(compare_pair(&pair).is_ok());
    pair.frame.records[7 * 1023] = 255;
    assert_eq!(compare_pair(&pair), Err((12, Side::Frame)));
    pair.capture.records[7 * 1023] = 255;
    assert_eq!(compare_pair(&pair), Err((12, Side::Capture)));
}

/// The records of a refused painting give 12, those of an accepted one don't.
#[test]
fn painted_records_in_comparisons() {
    let painted = paint(&mut State::fresh(), &vertical_sequence(), 25);
    let Painted { dots, records } = &painted;
    assert_eq!(compare(25, dots, records, dots, records).unwrap().first, None);
    let mut stamped = records.clone();
    let mut kept = dots.clone();
    assert_eq!(paint_frame(&mut State::fresh(), &[], 25, &mut kept, &mut stamped, &[]), 4);
    assert_eq!(compare(25, dots, records, &kept, &stamped), Err((12, Side::Frame)));
}

fn slow_levels(colour: u8) -> [i8; 3] {
    let bits: [&[u32]; 3] = [&[6, 3, 0], &[7, 4, 1], &[5, 2]];
    bits.map(|bits| raw_index(colour, bits) as i8)
}

/// Number by number, and for each number side by side.
fn slow_refusal(height: u32, sides: [(Side, &Picture); 2]) -> Option<(u8, Side)> {
    if !(1..=1024).contains(&height) {
        return Some((5, Side::Neither));
    }
    let lines = height as usize;
    for number in [6, 7, 12] {
        for (side, Picture { dots, records }) in sides {
            let at_fault = match number {
                6 => dots.len() / 736 != lines || dots.len() % 736 != 0,
                7 => records.len() / 7 != lines || records.len() % 7 != 0,
                _ => (0..lines).any(|line| records[7 * line] == 255),
            };
            if at_fault {
                return Some((number, side));
            }
        }
    }
    None
}

/// From the last dot to the first; the ranges are the ends of the sorted differences.
fn slow_comparison(pair: &Pair) -> Compared {
    let Pair { asked, capture, frame } = pair;
    if let Some(refusal) = slow_refusal(*asked, [(Side::Capture, capture), (Side::Frame, frame)]) {
        return Err(refusal);
    }
    let table: Vec<[i8; 3]> = (0..=255).map(slow_levels).collect();
    let mut differences = [vec![], vec![], vec![]];
    let (mut differing, mut first) = (0, None);
    for at in (0..736 * *asked as usize).rev() {
        let (captured, painted) = (capture.dots[at], frame.dots[at]);
        if captured != painted {
            differing += 1;
            first = Some((at / 736, at % 736));
        }
        for (n, list) in differences.iter_mut().enumerate() {
            list.push(table[usize::from(captured)][n] - table[usize::from(painted)][n]);
        }
    }
    let ranges = differences.map(|mut list| {
        list.sort_unstable();
        Range { smallest: list[0], largest: list[list.len() - 1] }
    });
    Ok(Comparison { differing, first, ranges })
}

#[test]
fn comparisons_agree_with_the_slow_model() {
    for case in 0..COMPARISON_CASES {
        let pair = Pair::draw(case);
        assert_eq!(compare_pair(&pair), slow_comparison(&pair));
    }
}

/// The other way round: the same number, count and first dot; each range is negated and its ends change places.
#[test]
fn exchanged_sides_negate_the_ranges() {
    for case in 0..COMPARISON_CASES {
        let Pair { asked, capture, frame } = Pair::draw(case);
        let there = compare(asked, &capture.dots, &capture.records, &frame.dots, &frame.records);
        let back = compare(asked, &frame.dots, &frame.records, &capture.dots, &capture.records);
        match (there, back) {
            (Ok(there), Ok(back)) => {
                let negated = there.ranges.map(|Range { smallest, largest }| (-largest, -smallest));
                assert_eq!(back, Comparison { ranges: ranges(negated), ..there });
            }
            (Err((5, side)), Err((5, other))) => assert_eq!((side, other), (Side::Neither, Side::Neither)),
            (Err((number, side)), Err((other_number, other))) => {
                assert_eq!(number, other_number);
                assert!(side == Side::Capture || other == Side::Capture);
            }
            _ => panic!("one way is refused and the other is not"),
        }
    }
}

/// What the random cases must hold to be of use.
#[test]
fn comparison_cases_reach_every_answer() {
    let mut refusals = vec![];
    let mut accepted = vec![];
    for case in 0..COMPARISON_CASES {
        let pair = Pair::draw(case);
        match compare_pair(&pair) {
            Ok(comparison) => accepted.push((736 * pair.asked, comparison)),
            Err(refusal) => refusals.push(refusal),
        }
    }
    for fault in FAULTS {
        assert!(refusals.iter().filter(|&&refusal| refusal == fault).count() >= 10);
    }
    let often = |holds: fn(u32, &Comparison) -> bool| {
        accepted.iter().filter(|(dots, comparison)| holds(*dots, comparison)).count() >= 10
    };
    assert!(often(|_, comparison| comparison.differing == 0));
    assert!(often(|_, comparison| (1..=64).contains(&comparison.differing)));
    assert!(often(|dots, comparison| comparison.differing == dots));
    assert!(often(|dots, comparison| comparison.differing > 64 && comparison.differing < dots));
    assert!(often(|_, comparison| comparison.first.is_some_and(|(line, dot)| line > 0 && dot > 0)));
    for n in [0, 1, 2] {
        let ends = |end: fn(&Range) -> bool| accepted.iter().filter(|(_, comparison)| end(&comparison.ranges[n])).count();
        assert!(ends(|range| range.smallest > 0) >= 10);
        assert!(ends(|range| range.largest < 0) >= 10);
        assert!(ends(|range| range.smallest < 0 && range.largest > 0) >= 10);
    }
}

#[test]
fn words_of_comparisons() {
    let mut pair = plain_pair(312, 0, 0);
    pair.capture.dots[736 * 60 + 200..736 * 60 + 204].fill(255);
    pair.frame.dots[736 * 61] = 64;
    let words = comparison_words(&compare_pair(&pair).unwrap(), &pair.capture.dots, &pair.frame.dots);
    let wanted = "5 of 229632 dots differ
first: line 60, dot 200
capture: colour 255: red 7 of 7, green 7 of 7, blue 3 of 3
frame: colour 0: red 0 of 7, green 0 of 7, blue 0 of 3
capture minus frame: red -1 to 7, green 0 to 7, blue 0 to 3
";
    assert_eq!(words, wanted);
    let words = comparison_words(&compare_pair(&plain_pair(312, 9, 9)).unwrap(), &[9; 229_632], &[9; 229_632]);
    let wanted = "0 of 229632 dots differ
first: none
capture minus frame: red 0 to 0, green 0 to 0, blue 0 to 0
";
    assert_eq!(words, wanted);
    assert_eq!(refusal_words((5, Side::Neither)), "refusal 5");
    assert_eq!(refusal_words((6, Side::Capture)), "refusal 6 of the capture");
    assert_eq!(refusal_words((12, Side::Frame)), "refusal 12 of the frame");
}

// ---------------------------------------------------------------------------
// Scripts and the interrupt latch

const LINE: [u8; 3] = [1, 0, 0];
const ON: [u8; 3] = [2, 0, 1];
const OFF: [u8; 3] = [2, 0, 0];
const RESET: [u8; 3] = [3, 0, 0];
/// Steps that are refused with 1, 2 and 19.
const OUTSIDE: [u8; 3] = [0, 127, 0];
const RESERVED: [u8; 3] = [0, 132, 0];
const UNKNOWN: [u8; 3] = [4, 0, 0];

const NOTHING_DONE: Ending = Ending { refusal: 0, place: None, painted: 0, latch: false, enable: false };

#[derive(PartialEq, Debug)]
struct Ran {
    ending: Ending,
    state: State,
    dots: Vec<u8>,
    records: Vec<u8>,
}

/// Runs a script in buffers of these lengths, with dots of 170 and records of 85.
fn run_lent(mut state: State, ram: &[u8], script: &[u8], dots: usize, records: usize, external: &[u8]) -> Ran {
    let mut dots = vec![170; dots];
    let mut records = vec![85; records];
    let ending = script::run(&mut state, ram, script, &mut dots, &mut records, external);
    Ran { ending, state, dots, records }
}

/// Runs a script in buffers of these lines.
fn run_lines(state: State, ram: &[u8], script: &[u8], lines: usize, external: &[u8]) -> Ran {
    run_lent(state, ram, script, 736 * lines, 7 * lines, external)
}

/// A script that must be refused before its first step, with everything it may touch checked.
fn refused_script(state: State, ram: usize, script: &[u8], dots: usize, records: usize, external: usize) -> u8 {
    let ran = run_lent(state, &vec![0; ram], script, dots, records, &vec![0; external]);
    let refusal = ran.ending.refusal;
    assert_ne!(refusal, 0);
    assert!(!ran.ending.request());
    let ending = Ending { refusal, ..NOTHING_DONE };
    assert_eq!(ran, Ran { ending, state, dots: vec![170; dots], records: vec![255; records] });
    refusal
}

/// All sets of faults: the smallest number is given, and no step is done or refused.
#[test]
fn refusals_before_the_first_step() {
    for set in 1..128 {
        let faults: Vec<u8> = (0..7).filter(|n| set >> n & 1 == 1).map(|n| [3, 4, 5, 6, 7, 8, 19][n]).collect();
        let wrong = |number: u8| usize::from(faults.contains(&number));
        let lines = if wrong(5) == 1 { 1025 } else { 2 };
        let mut script = [ON, [0, 129, 7], OUTSIDE, UNKNOWN, LINE, LINE].concat();
        script.extend(LINE.repeat(lines - 2));
        script.resize(script.len() + wrong(19), 1);
        let state = State { left: 256 + wrong(3) as u16, ..State::fresh() };
        let (dots, records, external) = (736 * lines + wrong(6), 7 * lines + wrong(7), 736 * lines + wrong(8));
        assert_eq!(refused_script(state, 65_536 - wrong(4), &script, dots, records, external), faults[0]);
    }
}

#[test]
fn refusals_3_to_8_of_scripts() {
    let good = State::fresh();
    let script = [OUTSIDE, LINE, RESET, LINE].concat();
    for state in [State { left: 257, ..good }, State { number: 4096, ..good }] {
        assert_eq!(refused_script(state, 65_536, &script, 1472, 14, 0), 3);
    }
    for ram in [0, 65_535, 65_537] {
        assert_eq!(refused_script(good, ram, &script, 1472, 14, 0), 4);
    }
    for dots in [0, 1, 736, 1471, 1473, 2208] {
        assert_eq!(refused_script(good, 65_536, &script, dots, 14, 0), 6);
    }
    for records in (0..30).filter(|&records| records != 14) {
        assert_eq!(refused_script(good, 65_536, &script, 1472, records, 0), 7);
    }
    for external in [1, 735, 736, 1471, 1473, 2208] {
        assert_eq!(refused_script(good, 65_536, &script, 1472, 14, external), 8);
    }
    for external in [0, 1472] {
        let ran = run_lines(good, &[0; RAM_BYTES], &script, 2, &vec![0; external]);
        assert_eq!(ran.ending, Ending { refusal: 1, place: Some(0), ..NOTHING_DONE });
    }
}

/// 1,024 lines are the most, however many steps there are.
#[test]
fn refusal_5_of_scripts() {
    let ram = vec![0; RAM_BYTES];
    let most = [LINE.repeat(1024), RESET.repeat(5000)].concat();
    let ran = run_lines(State::fresh(), &ram, &most, 1024, &[]);
    assert_eq!(ran.ending, Ending { painted: 1024, ..NOTHING_DONE });
    for lines in [1025, 1026, 2048, 65_536, 65_537] {
        let script = LINE.repeat(lines);
        assert_eq!(refused_script(State::fresh(), 65_536, &script, 736 * lines, 7 * lines, 0), 5);
        assert_eq!(refused_script(State::fresh(), 65_536, &script, 1, 1, 1), 5);
    }
}

/// "With none, 5 isn't given": 736 and 7 times no lines is nothing, and so is all external input.
#[test]
fn scripts_without_lines() {
    let ram = vec![0; RAM_BYTES];
    let good = State::fresh();
    for script in [vec![], ON.to_vec(), [[0, 129, 7], ON, RESET].concat()] {
        let ran = run_lines(good, &ram, &script, 0, &[]);
        let border = if script.len() == 9 { 7 } else { 0 };
        assert_eq!(ran.ending, Ending { enable: !script.is_empty(), ..NOTHING_DONE });
        assert_eq!(ran.state, State { border, ..good });
        for length in [1, 7, 736] {
            assert_eq!(refused_script(good, 65_536, &script, length, 0, 0), 6);
            assert_eq!(refused_script(good, 65_536, &script, 0, length, 0), 7);
            assert_eq!(refused_script(good, 65_536, &script, 0, 0, length), 8);
        }
        assert_eq!(refused_script(good, 65_535, &script, 0, 0, 0), 4);
        assert_eq!(refused_script(State { left: 257, ..good }, 65_536, &script, 0, 0, 0), 3);
    }
}

/// "A script length not a multiple of 3": what is left over is no step and asks for no line.
#[test]
fn half_steps() {
    let good = State::fresh();
    for half in [vec![1], vec![1, 0], vec![0], vec![4, 1]] {
        assert_eq!(refused_script(good, 65_536, &half, 0, 0, 0), 19);
        assert_eq!(refused_script(good, 65_536, &half, 736, 7, 0), 6);
        let script = [LINE.to_vec(), half].concat();
        assert_eq!(refused_script(good, 65_536, &script, 736, 7, 0), 19);
        assert_eq!(refused_script(good, 65_536, &script, 736, 7, 736), 19);
        assert_eq!(refused_script(good, 65_536, &script, 1472, 14, 0), 6);
        assert_eq!(refused_script(good, 65_536, &script, 736, 14, 0), 7);
        assert_eq!(refused_script(good, 65_536, &script, 736, 7, 1472), 8);
    }
}

/// A 1 as port or data asks for no line.
#[test]
fn only_kinds_ask_for_lines() {
    let script = [[3, 1, 1], [2, 1, 1], LINE, [0, 129, 1]].concat();
    let ran = run_lines(State::fresh(), &[0; RAM_BYTES], &script, 1, &[]);
    assert_eq!(ran.ending, Ending { painted: 1, enable: true, ..NOTHING_DONE });
}

/// All whole steps of kind 1 ask for a line, also those after the refused one; these lines aren't painted.
#[test]
fn lines_after_the_refused_step() {
    let ram = interrupts();
    let script = [LINE, LINE, ON, RESERVED, RESET, OFF, [0, 129, 7], LINE, LINE, LINE].concat();
    let ran = run_lines(numbered(), &ram, &script, 5, &[]);
    assert_eq!(ran.ending, Ending { refusal: 2, place: Some(3), painted: 2, latch: true, enable: true });
    let mut state = numbered();
    let painted = paint(&mut state, &ram, 2);
    assert_eq!(ran.state, state);
    assert_eq!(ran.dots, [painted.dots, vec![170; 3 * 736]].concat());
    assert_eq!(ran.records, [painted.records, vec![255; 3 * 7]].concat());
    assert_eq!(refused_script(numbered(), 65_536, &script, 2 * 736, 2 * 7, 0), 6);
}

/// Every port, at several places: 1 and 2 as for a register write, and the place counts steps.
#[test]
fn refusals_1_and_2_at_a_step() {
    let ram = vec![0; RAM_BYTES];
    for (port, place) in (0..=255).flat_map(|port| [0, 1, 4, 300].map(|place| (port, place))) {
        let script = [ON.repeat(place), vec![0, port, 5], OFF.to_vec()].concat();
        let ran = run_lines(State::fresh(), &ram, &script, 0, &[]);
        let (refusal, state) = match port {
            128 => (0, State { fixbias: 5, ..State::fresh() }),
            129 => (0, State { border: 5, ..State::fresh() }),
            130 => (0, State { lpl: 5, ..State::fresh() }),
            131 => (0, State { lph: 5, ..State::fresh() }),
            132..=143 => (2, State::fresh()),
            _ => (1, State::fresh()),
        };
        let stopped = refusal != 0;
        let ending = Ending { refusal, place: stopped.then_some(place), enable: stopped && place > 0, ..NOTHING_DONE };
        assert_eq!((ran.ending, ran.state), (ending, state));
    }
}

/// "A kind over 3 gives 19": 4 and 255 and all between, whatever port and data are.
#[test]
fn refusal_19_at_a_step() {
    let ram = interrupts();
    let mut state = numbered();
    let first = paint(&mut state, &ram, 1);
    for (kind, port) in (4..=255).flat_map(|kind| [0, 129, 132].map(|port| (kind, port))) {
        let script = [ON, LINE, [kind, port, 1], RESET, LINE].concat();
        let ran = run_lines(numbered(), &ram, &script, 2, &[]);
        assert_eq!(ran.ending, Ending { refusal: 19, place: Some(2), painted: 1, latch: true, enable: true });
        assert!(ran.ending.request());
        assert_eq!(ran.state, state);
        assert_eq!((&ran.dots[..736], &ran.dots[736..]), (&first.dots[..], &[170; 736][..]));
        assert_eq!((&ran.records[..7], &ran.records[7..]), (&first.records[..], &[255; 7][..]));
    }
}

/// The first refused step alone is told, not the smallest number.
#[test]
fn the_first_refused_step_counts() {
    let refused = [(OUTSIDE, 1), (RESERVED, 2), (UNKNOWN, 19)];
    for ((step, refusal), (later, _)) in refused.into_iter().flat_map(|one| refused.map(|other| (one, other))) {
        let ran = run_lines(State::fresh(), &[0; RAM_BYTES], &[RESET, step, later].concat(), 0, &[]);
        assert_eq!(ran.ending, Ending { refusal, place: Some(1), ..NOTHING_DONE });
    }
}

/// Port and data of kinds 1 and 3, the port of kind 2 and bits 1 to 7 of its data change nothing.
#[test]
fn bytes_that_a_kind_does_not_use() {
    let ram = interrupts();
    let plain = [LINE, ON, RESET, LINE, OFF].concat();
    let wanted = run_lines(numbered(), &ram, &plain, 2, &[]);
    for byte in 0..=255 {
        let (odd, even) = (byte | 1, byte & 254);
        let script = [[1, byte, !byte], [2, byte, odd], [3, byte, byte], [1, !byte, byte], [2, !byte, even]].concat();
        assert_eq!(run_lines(numbered(), &ram, &script, 2, &[]), wanted);
    }
}

/// Steps, and latch, enable and request after each.
fn check_levels(state: State, ram: &[u8], levels: &[([u8; 3], [bool; 3])]) {
    for end in 0..=levels.len() {
        let steps: Vec<[u8; 3]> = levels[..end].iter().map(|(step, _)| *step).collect();
        let lines = steps.iter().filter(|step| **step == LINE).count();
        let ending = run_lines(state, ram, &steps.concat(), lines, &[]).ending;
        let after = if end == 0 { [false; 3] } else { levels[end - 1].1 };
        assert_eq!([ending.latch, ending.enable, ending.request()], after);
        assert_eq!((ending.refusal, ending.place, ending.painted), (0, None, lines));
    }
}

/// The edges are in lines 0 and 4. The latch takes them disabled and enabled, and keeps them till a reset.
#[test]
fn latch_enable_and_request() {
    check_levels(numbered(), &interrupts(), &[
        (RESET, [false, false, false]),
        (LINE, [true, false, false]),
        (ON, [true, true, true]),
        (OFF, [true, false, false]),
        (LINE, [true, false, false]),
        (ON, [true, true, true]),
        (ON, [true, true, true]),
        (RESET, [false, true, false]),
        (LINE, [false, true, false]),
        (LINE, [false, true, false]),
        (RESET, [false, true, false]),
        (LINE, [true, true, true]),
        (LINE, [true, true, true]),
        (OFF, [true, false, false]),
        (RESET, [false, false, false]),
        (ON, [false, true, false]),
    ]);
}

/// VIRQ held low sets nothing, also after a reset: the latch is taken by the edge. A register write makes no edge.
#[test]
fn virq_held_low_sets_no_latch() {
    let low = State { virq_low: true, ..numbered() };
    check_levels(low, &interrupts(), &[
        (ON, [false, true, false]),
        (LINE, [false, true, false]),
        ([0, 131, 0], [false, true, false]),
        (LINE, [false, true, false]),
        ([0, 131, 192], [false, true, false]),
        (LINE, [false, true, false]),
        (LINE, [false, true, false]),
        (LINE, [false, true, false]),
        (LINE, [false, true, false]),
        (LINE, [true, true, true]),
        (RESET, [false, true, false]),
        (LINE, [false, true, false]),
    ]);
}

/// Records that are stamped have bit 1 too, but set no latch.
#[test]
fn stamps_set_no_latch() {
    let ram = table(&[block(0, 2, 8, 9, 0, 0, SAME)]);
    let ran = run_lines(numbered(), &ram, &[LINE, UNKNOWN, LINE].concat(), 2, &[]);
    assert_eq!(ran.ending, Ending { refusal: 19, place: Some(1), painted: 1, ..NOTHING_DONE });
    assert_eq!(ran.records[7..], [255; 7]);
}

/// Each line has the registers as they stand at its step, and its own external bytes.
#[test]
fn lines_between_writes() {
    let ram = table(&[block(0, 2 * LPIXEL, 8, 9, 1000, 0, SAME)]);
    let script = [LINE, [0, 129, 5], LINE, ON, LINE, [0, 129, 6], [0, 128, 33], [0, 129, 7], LINE].concat();
    let external: Vec<u8> = (0..4 * 736).map(|at| 129 + (at / 736) as u8).collect();
    let ran = run_lines(numbered(), &ram, &script, 4, &external);
    let ends: Vec<(u8, u8)> = ran.dots.chunks(736).map(|line| (line[15], line[16])).collect();
    assert_eq!(ends, [(1, 99), (2, 5), (3, 5), (0, 7)]);
    assert_eq!((ran.state.fixbias, ran.state.border), (33, 7));
}

/// A script of ones alone and the painting of as many lines: the same refusal, state, dots and records.
#[test]
fn a_script_of_lines_is_a_frame() {
    let mut buffers = Buffers::new();
    for case in 0..500 {
        let call = draw_frame(case, &mut buffers);
        let Lent { ram, dots, records, external } = buffers.lend(&call.lengths);
        let ran = run_lent(call.state, ram, &LINE.repeat(call.asked as usize), dots.len(), records.len(), external);
        let mut state = call.state;
        let refusal = paint_frame(&mut state, ram, call.asked, dots, records, external);
        if call.asked == 0 && refusal == 5 {
            assert_ne!(ran.ending.refusal, 5);
            continue;
        }
        let painted = if refusal == 0 { call.asked as usize } else { 0 };
        let latch = refusal == 0 && records.chunks(7).any(|record| record[0] / 2 % 2 == 1);
        let ending = Ending { refusal, painted, latch, ..NOTHING_DONE };
        assert_eq!(ran, Ran { ending, state, dots: dots.to_vec(), records: records.to_vec() });
    }
}

fn asked_in(script: &[u8]) -> usize {
    script.chunks_exact(3).filter(|step| step[0] == 1).count()
}

/// The first steps of a script by themselves, with the external bytes of their lines.
fn run_beginning(state: State, ram: &[u8], script: &[u8], steps: usize, external: &[u8]) -> Ran {
    let beginning = &script[..3 * steps];
    let lines = asked_in(beginning);
    run_lines(state, ram, beginning, lines, external.get(..736 * lines).unwrap_or(&[]))
}

/// A random case and what its run leaves.
fn run_case(case: u64, buffers: &mut Buffers) -> (ScriptCall, Ran) {
    let call = draw_script(case, buffers);
    let Lent { ram, dots, records, external } = buffers.lend(&call.lengths);
    let ran = run_lent(call.state, ram, &call.script, dots.len(), records.len(), external);
    (call, ran)
}

/// "What earlier steps did stands, that step changes nothing": the steps before it, run alone, leave the same.
#[test]
fn a_stopped_run_is_the_run_of_the_steps_before() {
    let mut buffers = Buffers::new();
    let mut stopped = 0;
    for case in 0..SCRIPT_CASES {
        let (call, ran) = run_case(case, &mut buffers);
        let Lent { ram, external, .. } = buffers.lend(&call.lengths);
        let Some(place) = ran.ending.place else { continue };
        let before = run_beginning(call.state, ram, &call.script, place, external);
        assert_eq!(before.ending, Ending { refusal: 0, place: None, ..ran.ending });
        assert_eq!(before.state, ran.state);
        let (painted, kept) = ran.dots.split_at(before.dots.len());
        assert!(painted == before.dots && kept.iter().all(|&dot| dot == 170));
        let (made, stamped) = ran.records.split_at(before.records.len());
        assert!(made == before.records && stamped.iter().all(|&byte| byte == 255));
        stopped += 1;
    }
    assert!(stopped > 200);
}

/// Asks for dots of the lines between the first steps and the next port write, from the state that these steps left.
fn ask_stretch(state: State, ram: &[u8], script: &[u8], steps: usize, external: &[u8], dots: &[u8]) -> usize {
    let before = run_beginning(state, ram, script, steps, external);
    let stretch = script[3 * steps..].chunks(3).take_while(|step| (1..=3).contains(&step[0]));
    let lines = stretch.filter(|step| step[0] == 1).count();
    let first = before.ending.painted;
    for (y, x) in (0..lines).flat_map(|y| (y % 31..736).step_by(31).map(move |x| (y, x))) {
        let at = 736 * (first + y) + x;
        let input = external.get(at).copied().unwrap_or(0);
        let answer = ask_dot(&before.state, ram, y as u32, x as u32, input).unwrap();
        assert_eq!(answer.colour, dots[at]);
    }
    lines
}

/// Demand 3 from the state after the first write up to the second; past it the border is another.
#[test]
fn direct_answers_between_two_writes() {
    let ram = table(&[block(0, 2 + 16, 10, 52, 1000, 0, SAME)]);
    let script = [LINE, LINE, [0, 129, 5], LINE, RESET, LINE, ON, LINE, [0, 129, 6], LINE].concat();
    let ran = run_lines(numbered(), &ram, &script, 6, &[]);
    assert_eq!(ask_stretch(numbered(), &ram, &script, 3, &[], &ran.dots), 3);
    let written = run_beginning(numbered(), &ram, &script, 3, &[]).state;
    let border = |line: u32| ask_dot(&written, &ram, line, 0, 0).unwrap().colour;
    assert_eq!((border(2), ran.dots[736 * 4]), (5, 5));
    assert_eq!((border(3), ran.dots[736 * 5]), (5, 6));
}

#[test]
fn direct_answers_between_random_writes() {
    let mut buffers = Buffers::new();
    let mut lines = 0;
    for case in 0..300 {
        let (call, ran) = run_case(case, &mut buffers);
        let Lent { ram, external, .. } = buffers.lend(&call.lengths);
        let done = ran.ending.place.unwrap_or(call.script.len() / 3);
        if done > 100 || (ran.ending.refusal != 0 && ran.ending.place.is_none()) {
            continue;
        }
        for steps in (0..=done).filter(|&steps| steps == 0 || call.script[3 * steps - 3] == 0) {
            lines += ask_stretch(call.state, ram, &call.script[..3 * done], steps, external, &ran.dots);
        }
    }
    assert!(lines > 1500);
}

/// A bench on which steps are done one by one.
struct SlowBench {
    state: State,
    latch: bool,
    enable: bool,
    dots: Vec<u8>,
    records: Vec<u8>,
}

impl SlowBench {
    fn new(state: State) -> SlowBench {
        SlowBench { state, latch: false, enable: false, dots: vec![], records: vec![] }
    }

    fn step(&mut self, step: &[u8], ram: &[u8], external: &[u8]) -> Result<(), u8> {
        match *step {
            [0, 128, data] => self.state.fixbias = data,
            [0, 129, data] => self.state.border = data,
            [0, 130, data] => self.state.lpl = data,
            [0, 131, data] => {
                self.state.lph = data;
                if data < 128 {
                    self.state.pending = true;
                }
            }
            [0, 132..=143, _] => return Err(2),
            [0, ..] => return Err(1),
            [1, ..] => self.paint(ram, external),
            [2, _, data] => self.enable = data % 2 == 1,
            [3, ..] => self.latch = false,
            _ => return Err(19),
        }
        Ok(())
    }

    fn paint(&mut self, ram: &[u8], external: &[u8]) {
        let line = slow_line(&mut self.state, ram);
        for x in 0..736 {
            let input = if external.is_empty() { 0 } else { external[self.dots.len()] };
            self.dots.push(slow_colour(&self.state, &line, x, input));
        }
        self.records.extend(line.record);
        if line.record[0] / 2 % 2 == 1 {
            self.latch = true;
        }
    }

    /// The buffers have these lengths; what was not painted is kept or stamped.
    fn end(mut self, refusal: u8, place: Option<usize>, dots: usize, records: usize) -> Ran {
        let SlowBench { state, latch, enable, .. } = self;
        let painted = self.records.len() / 7;
        self.dots.resize(dots, 170);
        self.records.resize(records, 255);
        let ending = Ending { refusal, place, painted, latch, enable };
        Ran { ending, state, dots: self.dots, records: self.records }
    }
}

fn slow_script_refusal(call: &ScriptCall) -> Option<u8> {
    let ScriptCall { state, script, lengths } = call;
    let lines = asked_in(script);
    let faults = [
        (3, state.left > 256 || state.number > 4095),
        (4, lengths.ram != 65_536),
        (5, lines > 1024),
        (6, lengths.dots != 736 * lines),
        (7, lengths.records != 7 * lines),
        (8, lengths.external != 0 && lengths.external != 736 * lines),
        (19, script.len() % 3 != 0),
    ];
    faults.into_iter().find(|&(_, holds)| holds).map(|(number, _)| number)
}

/// Every step is judged when its turn comes.
fn slow_run(call: &ScriptCall, ram: &[u8], external: &[u8]) -> Ran {
    let mut bench = SlowBench::new(call.state);
    let Lengths { dots, records, .. } = call.lengths;
    if let Some(refusal) = slow_script_refusal(call) {
        return bench.end(refusal, None, dots, records);
    }
    for (place, step) in call.script.chunks(3).enumerate() {
        if let Err(refusal) = bench.step(step, ram, external) {
            return bench.end(refusal, Some(place), dots, records);
        }
    }
    bench.end(0, None, dots, records)
}

#[test]
fn scripts_agree_with_the_slow_model() {
    let mut buffers = Buffers::new();
    for case in 0..SCRIPT_CASES {
        let (call, ran) = run_case(case, &mut buffers);
        let Lent { ram, external, .. } = buffers.lend(&call.lengths);
        assert!(ran == slow_run(&call, ram, external), "case {case}");
    }
}

/// What the random cases must hold to be of use.
#[test]
fn script_cases_reach_every_answer() {
    let mut buffers = Buffers::new();
    let mut endings = vec![];
    for case in 0..SCRIPT_CASES {
        let (call, ran) = run_case(case, &mut buffers);
        endings.push((call.script.len() / 3, ran.ending));
    }
    let often = |least: usize, holds: &dyn Fn(usize, &Ending) -> bool| {
        endings.iter().filter(|(steps, ending)| holds(*steps, ending)).count() >= least
    };
    for number in [3, 4, 5, 6, 7, 8, 19] {
        assert!(often(10, &|_, ending| ending.refusal == number && ending.place.is_none()));
    }
    for number in [1, 2, 19] {
        assert!(often(30, &|_, ending| ending.refusal == number && ending.place.is_some()));
    }
    for (latch, enable) in [(false, false), (false, true), (true, false), (true, true)] {
        let stands = |ending: &Ending| (ending.latch, ending.enable) == (latch, enable);
        assert!(often(15, &|_, ending| ending.refusal == 0 && stands(ending)));
        assert!(often(15, &|_, ending| ending.place.is_some() && stands(ending)));
    }
    assert!(often(300, &|_, ending| ending.refusal == 0));
    assert!(often(1, &|steps, ending| ending.refusal == 0 && ending.painted == 0 && steps > 0));
    assert!(often(30, &|_, ending| ending.painted > 100));
    assert!(often(5, &|_, ending| ending.place == Some(0)));
}

/// What `second run` prints and writes of a script.
fn check_told(ram: &[u8], script: &[u8], external: &[u8], words: &str, dots: Option<Vec<u8>>, records: Vec<u8>) {
    let told = run_fresh(ram, script, external);
    assert_eq!(told.words, words);
    assert!(told.dots == dots && told.records == records);
}

#[test]
fn words_of_finished_and_stopped_runs() {
    let ram = interrupts();
    check_told(&ram, &[], &[], "painted 0 lines\nlatch off, enable off, request off\n", Some(vec![]), vec![]);
    let Painted { mut dots, mut records } = paint(&mut State::fresh(), &ram, 2);
    let finished = [LINE, LINE, ON].concat();
    let words = "painted 2 lines\nlatch on, enable on, request on\n";
    check_told(&ram, &finished, &[], words, Some(dots.clone()), records.clone());
    dots.resize(3 * 736, 0);
    records.resize(3 * 7, 255);
    for (step, number, meaning) in [
        (OUTSIDE, 1, "port outside 128 to 143"),
        (RESERVED, 2, "port 132 to 143 (reserved)"),
        (UNKNOWN, 19, "script length not a multiple of 3, or a step of a kind over 3"),
    ] {
        let stopped = [LINE, LINE, step, ON, LINE].concat();
        let standing = "painted 2 lines\nlatch on, enable off, request off\n";
        let words = format!("refused {number}: step 2: {meaning}\n{standing}");
        check_told(&ram, &stopped, &[], &words, Some(dots.clone()), records.clone());
    }
}

#[test]
fn words_of_runs_refused_before_the_first_step() {
    let ram = vec![0; RAM_BYTES];
    let stamps = |lines: usize| vec![255; 7 * lines];
    let two = LINE.repeat(2);
    check_told(&ram[1..], &two, &[], "refused 4: RAM not 65,536 bytes\n", None, stamps(2));
    check_told(&ram[1..], &[1, 0], &[0], "refused 4: RAM not 65,536 bytes\n", None, stamps(1));
    check_told(&ram, &LINE.repeat(1025), &[], "refused 5: height 0 or over 1,024\n", None, stamps(1025));
    let words = "refused 8: external input neither empty nor 736 times the height\n";
    check_told(&ram, &two, &[0; 736], words, None, stamps(2));
    check_told(&ram, &ON, &[0; 736], words, None, stamps(1));
    let words = "refused 19: script length not a multiple of 3, or a step of a kind over 3\n";
    check_told(&ram, &[&two[..], &[1]].concat(), &[0; 1472], words, None, stamps(2));
    check_told(&ram, &[1], &[], words, None, stamps(1));
}

// ---------------------------------------------------------------------------
// Generator and digest

#[test]
fn generator_and_digest() {
    let mut digest = Digest::new();
    assert_eq!(digest.value(), 1_469_598_103_934_665_603);
    let mut x: u128 = 1_469_598_103_934_665_603 ^ 200;
    x ^= x * 8192 % (1 << 64);
    x ^= x / 128;
    x ^= x * 131_072 % (1 << 64);
    digest.byte(200);
    assert_eq!(u128::from(digest.value()), x);
    let mut x: u128 = 88_172_645_463_325_252 ^ (3 * (1 << 40) + 8);
    let mut random = Random::new(3, 7);
    for n in 0..40 {
        x ^= x * 8192 % (1 << 64);
        x ^= x / 128;
        x ^= x * 131_072 % (1 << 64);
        if n >= 16 {
            assert_eq!(u128::from(random.byte()), x / (1 << 32) % 256);
        }
    }
}
