//! The NICK video chip: registers, scanlines, the direct answer for one dot,
//! the listing of the line parameter table and the levels of a colour byte.
//!
//! Every call answers with a refusal number; 0 means that it was not refused.

pub const RAM_BYTES: usize = 65_536;
pub const DOTS_PER_LINE: usize = 736;
pub const BYTES_PER_RECORD: usize = 7;
pub const MAX_HEIGHT: u32 = 1024;
const BLOCKS: u16 = 4096;

/// The stamp that a refused painting leaves on its records.
pub const REFUSED_RECORD: u8 = 255;

pub const VSYNC: u8 = 0;
pub const PIXEL: u8 = 1;
pub const ATTR: u8 = 2;
pub const CH256: u8 = 3;
pub const CH128: u8 = 4;
pub const CH64: u8 = 5;
pub const UNUSED: u8 = 6;
pub const LPIXEL: u8 = 7;

const TWO_COLOURS: u8 = 0;
const FOUR_COLOURS: u8 = 1;
const SIXTEEN_COLOURS: u8 = 2;

const SLOTS: u8 = 57;
const FIRST_DISPLAY_SLOT: u8 = 8;
const END_DISPLAY_SLOT: u8 = 54;
const DOTS_PER_SLOT: usize = 16;

/// Video RAM of the right size; a 16-bit address always lies inside it.
type Ram = [u8; RAM_BYTES];

// ---------------------------------------------------------------------------
// Line parameter block

/// One line parameter block: SC, MB, LM, RM, LD1, LD2, COL0 to COL7.
#[derive(Clone, Copy, PartialEq, Eq, Debug)]
pub struct Block(pub [u8; 16]);

impl Block {
    /// A block number is at most 4,095, so its last byte is at most at 65,535.
    fn read(ram: &Ram, number: u16) -> Block {
        let start = 16 * usize::from(number);
        let mut bytes = [0; 16];
        bytes.copy_from_slice(&ram[start..start + 16]);
        Block(bytes)
    }

    pub fn scanlines(&self) -> u16 {
        256 - u16::from(self.0[0])
    }

    pub fn vint(&self) -> bool {
        self.0[1] & 128 != 0
    }

    /// 0 two colours, 1 four, 2 sixteen, 3 256.
    pub fn colour_mode(&self) -> u8 {
        self.0[1] >> 5 & 3
    }

    pub fn vres(&self) -> bool {
        self.0[1] & 16 != 0
    }

    pub fn video_mode(&self) -> u8 {
        self.0[1] >> 1 & 7
    }

    pub fn reload(&self) -> bool {
        self.0[1] & 1 != 0
    }

    fn left_margin(&self) -> u8 {
        self.0[2] & 63
    }

    fn right_margin(&self) -> u8 {
        self.0[3] & 63
    }

    fn msbalt(&self) -> bool {
        self.0[2] & 128 != 0
    }

    fn lsbalt(&self) -> bool {
        self.0[2] & 64 != 0
    }

    fn altind1(&self) -> bool {
        self.0[3] & 128 != 0
    }

    fn altind0(&self) -> bool {
        self.0[3] & 64 != 0
    }

    fn ld1(&self) -> u16 {
        u16::from_le_bytes([self.0[4], self.0[5]])
    }

    fn ld2(&self) -> u16 {
        u16::from_le_bytes([self.0[6], self.0[7]])
    }

    fn is_character(&self) -> bool {
        (CH256..=CH64).contains(&self.video_mode())
    }

    fn fetches(&self) -> bool {
        !matches!(self.video_mode(), VSYNC | UNUSED)
    }

    /// Bytes that one active slot reads.
    fn bytes_per_slot(&self) -> u8 {
        match self.video_mode() {
            VSYNC | UNUSED => 0,
            LPIXEL => 1,
            _ => 2,
        }
    }

    /// How far LD1 moves in one active slot.
    fn ld1_step(&self) -> u16 {
        match self.video_mode() {
            VSYNC | UNUSED => 0,
            PIXEL => 2,
            _ => 1,
        }
    }

    /// How far LD2 moves in one active slot.
    fn ld2_step(&self) -> u16 {
        u16::from(self.video_mode() == ATTR)
    }

    /// First active slot and the one after the last; equal if there is none.
    pub fn active_slots(&self) -> (u8, u8) {
        let first = self.left_margin().max(FIRST_DISPLAY_SLOT);
        let end = self.right_margin().min(END_DISPLAY_SLOT);
        (first, end.max(first))
    }

    /// Active slots that fetch; none in VSYNC and in the unused mode.
    fn fetching_slots(&self) -> u8 {
        let (first, end) = self.active_slots();
        if self.fetches() {
            end - first
        } else {
            0
        }
    }
}

/// Address of the font byte of a character code.
pub fn font_address(video_mode: u8, ld2: u16, code: u8) -> u16 {
    match video_mode {
        CH256 => (ld2 % 256) * 256 + u16::from(code),
        CH128 => (ld2 % 512) * 128 + u16::from(code % 128),
        _ => (ld2 % 1024) * 64 + u16::from(code % 64),
    }
}

// ---------------------------------------------------------------------------
// Chip state and registers

#[derive(Clone, Copy, PartialEq, Eq, Debug)]
pub struct State {
    pub fixbias: u8,
    pub border: u8,
    pub lpl: u8,
    pub lph: u8,
    /// A forced reload is pending.
    pub pending: bool,
    /// The stored line parameter block and its number.
    pub block: Block,
    pub number: u16,
    pub ld1: u16,
    pub ld2: u16,
    /// Scanlines left in the mode line.
    pub left: u16,
    pub virq_low: bool,
    pub sync_on: bool,
}

impl State {
    pub fn fresh() -> State {
        State {
            fixbias: 0,
            border: 0,
            lpl: 0,
            lph: 192,
            pending: true,
            block: Block([0; 16]),
            number: 0,
            ld1: 0,
            ld2: 0,
            left: 0,
            virq_low: false,
            sync_on: false,
        }
    }

    /// Number of the first block of the line parameter table.
    pub fn base(&self) -> u16 {
        u16::from(self.lph % 16) * 256 + u16::from(self.lpl)
    }

    fn is_well_formed(&self) -> bool {
        self.left <= 256 && self.number < BLOCKS
    }

    /// The sixteen colours of the current mode line.
    pub fn palette(&self) -> [u8; 16] {
        let mut palette = [0; 16];
        palette[..8].copy_from_slice(&self.block.0[8..]);
        for n in 8..16 {
            palette[n] = 8 * (self.fixbias % 32) + (n as u8 - 8);
        }
        palette
    }

    fn priority(&self) -> u8 {
        self.fixbias >> 5 & 3
    }

    fn vc1(&self) -> u8 {
        self.fixbias >> 7
    }

    /// Number of the block that a load takes now.
    fn next_number(&self) -> u16 {
        if self.pending || self.block.reload() {
            self.base()
        } else if self.lph & 64 == 0 {
            self.number
        } else {
            (self.number + 1) % BLOCKS
        }
    }

    fn load_block(&mut self, ram: &Ram) {
        self.number = self.next_number();
        self.block = Block::read(ram, self.number);
        self.left = self.block.scanlines();
        self.ld1 = self.block.ld1();
        self.ld2 = self.block.ld2();
        self.pending = self.lph & 128 == 0;
    }

    /// Slots 0 to 7: load a block, or restart LD1. Tells whether one was loaded.
    fn start_scanline(&mut self, ram: &Ram) -> bool {
        let loads = self.pending || self.left == 0;
        if loads {
            self.load_block(ram);
        } else if !self.block.vres() {
            self.ld1 = self.block.ld1();
        }
        loads
    }

    /// The slots of a scanline at sync level.
    fn run_sync(&mut self) -> u8 {
        if self.block.video_mode() != VSYNC {
            self.sync_on = false;
            return 0;
        }
        let mut count = 0;
        for slot in 0..SLOTS {
            if slot == self.block.left_margin() {
                self.sync_on = true;
            }
            if slot == self.block.right_margin() {
                self.sync_on = false;
            }
            count += u8::from(self.sync_on);
        }
        count
    }

    fn end_scanline(&mut self) {
        if self.block.is_character() {
            self.ld2 = self.ld2.wrapping_add(1);
        }
        self.virq_low = self.block.vint();
        self.left -= 1;
    }

    /// A whole scanline without its dots and its record.
    fn pass_scanline(&mut self, ram: &Ram) {
        self.start_scanline(ram);
        let slots = u16::from(self.block.fetching_slots());
        self.ld1 = self.ld1.wrapping_add(slots * self.block.ld1_step());
        self.ld2 = self.ld2.wrapping_add(slots * self.block.ld2_step());
        self.run_sync();
        self.end_scanline();
    }
}

/// Writes a register. Refusals 1 and 2.
pub fn write_register(state: &mut State, port: u32, data: u8) -> u8 {
    match port {
        128 => state.fixbias = data,
        129 => state.border = data,
        130 => state.lpl = data,
        131 => {
            state.lph = data;
            state.pending |= data & 128 == 0;
        }
        132..=143 => return 2,
        _ => return 1,
    }
    0
}

// ---------------------------------------------------------------------------
// From display byte to colour

/// The bits of each pixel and what each weighs: in four colours "b7 weighs 1 and b3 weighs 2", and so on to the right.
const FOUR_WEIGHTS: [[(usize, u8); 2]; 4] = [[(7, 1), (3, 2)], [(6, 1), (2, 2)], [(5, 1), (1, 2)], [(4, 1), (0, 2)]];
/// "In sixteen b7, b3, b5, b1 weigh 1, 2, 4, 8, and the second pixel likewise."
const SIXTEEN_WEIGHTS: [[(usize, u8); 4]; 2] = [[(7, 1), (3, 2), (5, 4), (1, 8)], [(6, 1), (2, 2), (4, 4), (0, 8)]];
static FOUR: [[u8; 4]; 256] = weighed(FOUR_WEIGHTS);
static SIXTEEN: [[u8; 2]; 256] = weighed(SIXTEEN_WEIGHTS);

/// The palette numbers of every byte's pixels: what its set bits weigh.
const fn weighed<const BITS: usize, const PIXELS: usize>(weights: [[(usize, u8); BITS]; PIXELS]) -> [[u8; PIXELS]; 256] {
    let mut numbers = [[0; PIXELS]; 256];
    let mut at = 0;
    while at < 256 * PIXELS * BITS {
        let (byte, pixel) = (at / BITS / PIXELS, at / BITS % PIXELS);
        let (bit, weight) = weights[pixel][at % BITS];
        if byte >> bit & 1 == 1 {
            numbers[byte][pixel] += weight;
        }
        at += 1;
    }
    numbers
}

/// A display byte and how its pixels are to be read.
#[derive(Clone, Copy)]
pub struct Cell {
    colour_mode: u8,
    byte: u8,
    /// Palette number of a clear and of a set bit in two colours.
    paper: u8,
    ink: u8,
}

impl Cell {
    /// A byte of PIXEL or LPIXEL.
    pub fn graphics(block: &Block, byte: u8) -> Cell {
        let mut shown = byte;
        let mut paper = 0;
        if block.colour_mode() == TWO_COLOURS {
            if block.msbalt() {
                paper += 2 * (byte >> 7);
                shown &= 127;
            }
            if block.lsbalt() {
                paper += 4 * (byte & 1);
                shown &= 254;
            }
        }
        Cell { colour_mode: block.colour_mode(), byte: shown, paper, ink: paper + 1 }
    }

    /// A byte of ATTR; the colour mode doesn't count.
    pub fn attribute(attribute: u8, byte: u8) -> Cell {
        Cell { colour_mode: TWO_COLOURS, byte, paper: attribute >> 4, ink: attribute & 15 }
    }

    /// A font byte. Paper and ink are used in two colours only.
    pub fn character(block: &Block, code: u8, byte: u8) -> Cell {
        let mut paper = 0;
        if block.altind1() {
            paper += 2 * (code >> 7);
        }
        if block.altind0() {
            paper += 4 * (code >> 6 & 1);
        }
        Cell { colour_mode: block.colour_mode(), byte, paper, ink: paper + 1 }
    }

    fn bit(&self, n: usize) -> u8 {
        self.byte >> n & 1
    }

    fn two(&self, pixel: usize) -> u8 {
        if self.bit(7 - pixel) == 1 {
            self.ink
        } else {
            self.paper
        }
    }

    fn four(&self, pixel: usize) -> u8 {
        FOUR[usize::from(self.byte)][pixel]
    }

    fn sixteen(&self, pixel: usize) -> u8 {
        SIXTEEN[usize::from(self.byte)][pixel]
    }

    /// Palette number of a dot when the byte has `width` dots; none in 256 colours.
    pub fn index(&self, dot: usize, width: usize) -> Option<u8> {
        match self.colour_mode {
            TWO_COLOURS => Some(self.two(dot * 8 / width)),
            FOUR_COLOURS => Some(self.four(dot * 4 / width)),
            SIXTEEN_COLOURS => Some(self.sixteen(dot * 2 / width)),
            _ => None,
        }
    }

    /// Colour of a dot without external input.
    pub fn colour(&self, palette: &[u8; 16], index: Option<u8>) -> u8 {
        match index {
            Some(n) => palette[usize::from(n & 15)],
            None => self.byte,
        }
    }

    /// Paints all dots of the byte.
    #[inline(always)]
    fn show<const WIDTH: usize>(&self, palette: &[u8; 16], dots: &mut [u8]) {
        let colour = |n: u8| palette[usize::from(n & 15)];
        match self.colour_mode {
            TWO_COLOURS => {
                let (paper, ink) = (colour(self.paper), colour(self.ink));
                for (pixel, dots) in dots.chunks_exact_mut(WIDTH / 8).enumerate() {
                    dots.fill(if self.byte << pixel & 128 != 0 { ink } else { paper });
                }
            }
            FOUR_COLOURS => {
                for (pixel, dots) in dots.chunks_exact_mut(WIDTH / 4).enumerate() {
                    dots.fill(colour(self.four(pixel)));
                }
            }
            SIXTEEN_COLOURS => {
                for (pixel, dots) in dots.chunks_exact_mut(WIDTH / 2).enumerate() {
                    dots.fill(colour(self.sixteen(pixel)));
                }
            }
            _ => dots.fill(self.byte),
        }
    }
}

/// Whether external colour EC replaces an active dot.
fn external_wins(priority: u8, index: Option<u8>, ec: u8) -> bool {
    let upper_half = matches!(index, Some(8..=15));
    match priority {
        0 => true,
        1 => upper_half,
        2 => upper_half || ec < 8,
        _ => upper_half || ec & 4 == 0,
    }
}

/// Colour of an active dot: `inner`, or palette EC where external input wins.
pub fn mix_external(priority: u8, palette: &[u8; 16], index: Option<u8>, inner: u8, external: u8) -> u8 {
    let ec = external & 15;
    if external & 128 != 0 && external_wins(priority, index, ec) {
        palette[usize::from(ec)]
    } else {
        inner
    }
}

/// Levels of a colour byte: red and green of 7, blue of 3.
pub fn levels(colour: u8) -> (u8, u8, u8) {
    let bit = |n: u8| colour >> n & 1;
    (
        4 * bit(0) + 2 * bit(3) + bit(6),
        4 * bit(1) + 2 * bit(4) + bit(7),
        2 * bit(2) + bit(5),
    )
}

// ---------------------------------------------------------------------------
// Painting

/// What an active slot shows.
enum Slot {
    /// PIXEL: two bytes of 8 dots.
    Two(Cell, Cell),
    /// All other modes: one byte of 16 dots.
    One(Cell),
}

impl Slot {
    #[inline(always)]
    fn show(&self, palette: &[u8; 16], dots: &mut [u8]) {
        match self {
            Slot::Two(left, right) => {
                let (first, second) = dots.split_at_mut(8);
                left.show::<8>(palette, first);
                right.show::<8>(palette, second);
            }
            Slot::One(cell) => cell.show::<16>(palette, dots),
        }
    }

    fn index(&self, dot: usize) -> Option<u8> {
        match self {
            Slot::Two(left, _) if dot < 8 => left.index(dot, 8),
            Slot::Two(_, right) => right.index(dot - 8, 8),
            Slot::One(cell) => cell.index(dot, 16),
        }
    }

    fn overlay(&self, priority: u8, palette: &[u8; 16], dots: &mut [u8], external: &[u8]) {
        for (dot, (colour, &input)) in dots.iter_mut().zip(external).enumerate() {
            if input & 128 != 0 {
                *colour = mix_external(priority, palette, self.index(dot), *colour, input);
            }
        }
    }
}

fn take(ram: &Ram, pointer: &mut u16) -> u8 {
    let byte = ram[usize::from(*pointer)];
    *pointer = pointer.wrapping_add(1);
    byte
}

/// Reads the bytes of one active slot and moves the pointers.
#[inline(always)]
fn fetch_slot(state: &mut State, ram: &Ram, mode: u8) -> Slot {
    match mode {
        PIXEL => {
            let left = take(ram, &mut state.ld1);
            let right = take(ram, &mut state.ld1);
            Slot::Two(Cell::graphics(&state.block, left), Cell::graphics(&state.block, right))
        }
        LPIXEL => {
            let byte = take(ram, &mut state.ld1);
            Slot::One(Cell::graphics(&state.block, byte))
        }
        ATTR => {
            let attribute = take(ram, &mut state.ld1);
            let byte = take(ram, &mut state.ld2);
            Slot::One(Cell::attribute(attribute, byte))
        }
        _ => {
            let code = take(ram, &mut state.ld1);
            let byte = ram[usize::from(font_address(mode, state.ld2, code))];
            Slot::One(Cell::character(&state.block, code, byte))
        }
    }
}

/// Paints the active slots; the dots hold the border already.
fn paint_slots(state: &mut State, ram: &Ram, dots: &mut [u8], external: &[u8]) {
    let mode = state.block.video_mode();
    let palette = state.palette();
    let priority = state.priority();
    let (first, end) = state.block.active_slots();
    for slot in first..end {
        let start = DOTS_PER_SLOT * usize::from(slot - FIRST_DISPLAY_SLOT);
        let part = start..start + DOTS_PER_SLOT;
        let shown = fetch_slot(state, ram, mode);
        shown.show(&palette, &mut dots[part.clone()]);
        if !external.is_empty() {
            shown.overlay(priority, &palette, &mut dots[part.clone()], &external[part]);
        }
    }
}

/// One scanline: 736 dots and a record; external input is empty or 736 bytes.
fn paint_scanline(state: &mut State, ram: &Ram, dots: &mut [u8], record: &mut [u8], external: &[u8]) {
    let virq_was_low = state.virq_low;
    let loaded = state.start_scanline(ram);
    let block = state.block;
    let mode = block.video_mode();

    dots.fill(if mode == VSYNC { 0 } else { state.border });
    if block.fetches() {
        paint_slots(state, ram, dots, external);
    }
    let sync = state.run_sync();
    state.end_scanline();

    let slots = block.fetching_slots();
    record[0] = u8::from(block.vint())
        + 2 * u8::from(block.vint() && !virq_was_low)
        + 4 * u8::from(mode != VSYNC)
        + 8 * u8::from(loaded)
        + 16 * u8::from(state.left == 0)
        + 32 * u8::from(mode == UNUSED);
    record[1] = sync;
    record[2] = 16 * u8::from(loaded) + block.bytes_per_slot() * slots;
    record[3] = slots;
    record[4] = state.vc1();
    record[5..].copy_from_slice(&state.number.to_le_bytes());
}

/// Refusals 3 to 8, the smallest first; 0 if none. A painting has at least one line, a script may ask for none.
pub fn painting_refusal(
    state: &State,
    ram: &[u8],
    least: u32,
    height: u32,
    dots: &[u8],
    records: &[u8],
    external: &[u8],
) -> u8 {
    if !state.is_well_formed() {
        return 3;
    }
    if ram.len() != RAM_BYTES {
        return 4;
    }
    if height < least || height > MAX_HEIGHT {
        return 5;
    }
    let height = height as usize;
    if dots.len() != DOTS_PER_LINE * height {
        return 6;
    }
    if records.len() != BYTES_PER_RECORD * height {
        return 7;
    }
    if !external.is_empty() && external.len() != DOTS_PER_LINE * height {
        return 8;
    }
    0
}

/// The external input of line y: its own 736 bytes, or nothing where nothing is connected.
pub fn line_input(external: &[u8], y: usize) -> &[u8] {
    match external.len() {
        0 => external,
        _ => &external[DOTS_PER_LINE * y..DOTS_PER_LINE * (y + 1)],
    }
}

/// Paints 1 to 1,024 scanlines. Refusals 3 to 8.
pub fn paint_frame(
    state: &mut State,
    ram: &[u8],
    height: u32,
    dots: &mut [u8],
    records: &mut [u8],
    external: &[u8],
) -> u8 {
    let refusal = painting_refusal(state, ram, 1, height, dots, records, external);
    if refusal != 0 {
        records.fill(REFUSED_RECORD);
        return refusal;
    }
    let ram: &Ram = ram.try_into().expect("the length was tested");
    let lines = dots.chunks_exact_mut(DOTS_PER_LINE);
    for (y, (line, record)) in lines.zip(records.chunks_exact_mut(BYTES_PER_RECORD)).enumerate() {
        paint_scanline(state, ram, line, record, line_input(external, y));
    }
    0
}

/// Paints one scanline. Refusals 3, 4, 6, 7, 8.
pub fn paint_line(
    state: &mut State,
    ram: &[u8],
    dots: &mut [u8],
    records: &mut [u8],
    external: &[u8],
) -> u8 {
    paint_frame(state, ram, 1, dots, records, external)
}

// ---------------------------------------------------------------------------
// The direct answer for one dot

#[derive(Clone, Copy, PartialEq, Eq, Debug)]
pub struct Answer {
    pub colour: u8,
    /// How many of the addresses count.
    pub count: usize,
    pub addresses: [u16; 2],
}

/// Colour of one dot and the addresses it is made from. Refusals 3, 4, 9.
pub fn ask_dot(state: &State, ram: &[u8], line: u32, dot: u32, external: u8) -> Result<Answer, u8> {
    if !state.is_well_formed() {
        return Err(3);
    }
    let Ok(ram) = <&Ram>::try_from(ram) else {
        return Err(4);
    };
    if line > 1023 || dot > 735 {
        return Err(9);
    }
    let mut now = *state;
    for _ in 0..line {
        now.pass_scanline(ram);
    }
    now.start_scanline(ram);
    Ok(answer_in_scanline(&now, ram, dot as usize, external))
}

/// The state is that of a scanline whose slots 0 to 7 are over.
fn answer_in_scanline(state: &State, ram: &Ram, dot: usize, external: u8) -> Answer {
    let block = &state.block;
    let mode = block.video_mode();
    let slot = FIRST_DISPLAY_SLOT + (dot / DOTS_PER_SLOT) as u8;
    let (first, end) = block.active_slots();
    if mode == VSYNC {
        return Answer { colour: 0, count: 0, addresses: [0; 2] };
    }
    if mode == UNUSED || slot < first || slot >= end {
        return Answer { colour: state.border, count: 0, addresses: [0; 2] };
    }

    let before = u16::from(slot - first);
    let ld1 = state.ld1.wrapping_add(before * block.ld1_step());
    let ld2 = state.ld2.wrapping_add(before * block.ld2_step());
    let in_slot = dot % DOTS_PER_SLOT;
    let at = |address: u16| ram[usize::from(address)];

    let (cell, in_byte, width, count, addresses) = match mode {
        PIXEL => {
            let address = ld1.wrapping_add((in_slot / 8) as u16);
            (Cell::graphics(block, at(address)), in_slot % 8, 8, 1, [address, 0])
        }
        LPIXEL => (Cell::graphics(block, at(ld1)), in_slot, 16, 1, [ld1, 0]),
        ATTR => (Cell::attribute(at(ld1), at(ld2)), in_slot, 16, 2, [ld1, ld2]),
        _ => {
            let code = at(ld1);
            let font = font_address(mode, ld2, code);
            (Cell::character(block, code, at(font)), in_slot, 16, 2, [ld1, font])
        }
    };
    let palette = state.palette();
    let index = cell.index(in_byte, width);
    let inner = cell.colour(&palette, index);
    let colour = mix_external(state.priority(), &palette, index, inner, external);
    Answer { colour, count, addresses }
}

// ---------------------------------------------------------------------------
// The listing of the line parameter table

const MODE_NAMES: [&str; 8] = ["VSYNC", "PIXEL", "ATTR", "CH256", "CH128", "CH64", "UNUSED", "LPIXEL"];
const COLOUR_NAMES: [&str; 4] = ["2", "4", "16", "256"];

/// Writes the listing and answers its length. Refusals 4 and 10.
pub fn list_table(state: &State, ram: &[u8], out: &mut [u8]) -> Result<usize, u8> {
    let Ok(ram) = <&Ram>::try_from(ram) else {
        return Err(4);
    };
    let text = listing_text(state.base(), ram);
    if out.len() < text.len() {
        return Err(10);
    }
    out[..text.len()].copy_from_slice(text.as_bytes());
    Ok(text.len())
}

fn listing_text(base: u16, ram: &Ram) -> String {
    let mut text = format!("NICKTABLE\t{}\n", 16 * u32::from(base));
    let mut number = base;
    let mut blocks = 0;
    loop {
        let block = Block::read(ram, number);
        text.push_str(&listing_line(number, &block));
        blocks += 1;
        if block.reload() || blocks == BLOCKS {
            break;
        }
        number = (number + 1) % BLOCKS;
    }
    text.push_str(&format!("END\t{blocks}\n"));
    text
}

fn listing_line(number: u16, block: &Block) -> String {
    let mut fields = vec![
        (16 * u32::from(number)).to_string(),
        block.scanlines().to_string(),
        MODE_NAMES[usize::from(block.video_mode())].to_string(),
        COLOUR_NAMES[usize::from(block.colour_mode())].to_string(),
        u8::from(block.vres()).to_string(),
        u8::from(block.vint()).to_string(),
        u8::from(block.reload()).to_string(),
        block.0[2].to_string(),
        block.0[3].to_string(),
        block.ld1().to_string(),
        block.ld2().to_string(),
    ];
    fields.extend(block.0[8..].iter().map(u8::to_string));
    fields.join("\t") + "\n"
}
