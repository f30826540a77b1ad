//! The functions of libnick_c.a for Rust. include/nick.h says what each does.

mod declared {
    extern "C" {
        pub fn nick_fresh(state: *mut u8, state_bytes: usize) -> u32;
        pub fn nick_write(state: *mut u8, state_bytes: usize, port: u32, value: u8) -> u32;
        pub fn nick_paint_line(
            state: *mut u8,
            state_bytes: usize,
            ram: *const u8,
            ram_bytes: usize,
            dots: *mut u8,
            dot_bytes: usize,
            records: *mut u8,
            record_bytes: usize,
            external: *const u8,
            external_bytes: usize,
        ) -> u32;
        pub fn nick_paint(
            state: *mut u8,
            state_bytes: usize,
            ram: *const u8,
            ram_bytes: usize,
            height: usize,
            dots: *mut u8,
            dot_bytes: usize,
            records: *mut u8,
            record_bytes: usize,
            external: *const u8,
            external_bytes: usize,
        ) -> u32;
        pub fn nick_dot(
            state: *const u8,
            state_bytes: usize,
            ram: *const u8,
            ram_bytes: usize,
            line: usize,
            dot: usize,
            external: u8,
        ) -> u64;
        pub fn nick_list(
            state: *const u8,
            state_bytes: usize,
            ram: *const u8,
            ram_bytes: usize,
            out: *mut u8,
            out_bytes: usize,
        ) -> u64;
        pub fn nick_levels(colour: u8) -> u32;
        pub fn nick_compare(
            height: usize,
            capture: *const u8,
            capture_bytes: usize,
            capture_records: *const u8,
            capture_record_bytes: usize,
            frame: *const u8,
            frame_bytes: usize,
            frame_records: *const u8,
            frame_record_bytes: usize,
            answer: *mut u8,
            answer_bytes: usize,
        ) -> u32;
        pub fn nick_run(
            state: *mut u8,
            state_bytes: usize,
            ram: *const u8,
            ram_bytes: usize,
            script: *const u8,
            script_bytes: usize,
            dots: *mut u8,
            dot_bytes: usize,
            records: *mut u8,
            record_bytes: usize,
            external: *const u8,
            external_bytes: usize,
            place: *mut u64,
        ) -> u32;
    }
}

// SAFETY, for every call below: a Rust slice is a pointer, never null, and the number of bytes behind it; what a `&mut` lends
// overlaps nothing else. The functions ask nothing more.

/// The fresh state. Answers the refusal, 0 for none.
pub fn fresh(state: &mut [u8]) -> u32 {
    unsafe { declared::nick_fresh(state.as_mut_ptr(), state.len()) }
}

/// Writes one register. Answers the refusal, 0 for none.
pub fn write(state: &mut [u8], port: u32, value: u8) -> u32 {
    unsafe { declared::nick_write(state.as_mut_ptr(), state.len(), port, value) }
}

/// Paints the next scanline. Answers the refusal, 0 for none.
pub fn paint_line(state: &mut [u8], ram: &[u8], dots: &mut [u8], records: &mut [u8], external: &[u8]) -> u32 {
    unsafe {
        declared::nick_paint_line(
            state.as_mut_ptr(),
            state.len(),
            ram.as_ptr(),
            ram.len(),
            dots.as_mut_ptr(),
            dots.len(),
            records.as_mut_ptr(),
            records.len(),
            external.as_ptr(),
            external.len(),
        )
    }
}

/// Paints the next `height` scanlines. Answers the refusal, 0 for none.
pub fn paint(
    state: &mut [u8],
    ram: &[u8],
    height: usize,
    dots: &mut [u8],
    records: &mut [u8],
    external: &[u8],
) -> u32 {
    unsafe {
        declared::nick_paint(
            state.as_mut_ptr(),
            state.len(),
            ram.as_ptr(),
            ram.len(),
            height,
            dots.as_mut_ptr(),
            dots.len(),
            records.as_mut_ptr(),
            records.len(),
            external.as_ptr(),
            external.len(),
        )
    }
}

/// The colour of one dot and the addresses that it came from, or the refusal.
pub fn dot(state: &[u8], ram: &[u8], line: usize, dot: usize, external: u8) -> Result<(u8, Vec<u16>), u8> {
    let answer =
        unsafe { declared::nick_dot(state.as_ptr(), state.len(), ram.as_ptr(), ram.len(), line, dot, external) };
    match answer as u8 {
        0 => {
            let count = (answer >> 16) as u8;
            let addresses = [(answer >> 24) as u16, (answer >> 40) as u16];
            Ok(((answer >> 8) as u8, addresses[..usize::from(count)].to_vec()))
        }
        refusal => Err(refusal),
    }
}

/// Writes the listing of the line parameter table. Answers its length, or the refusal.
pub fn list(state: &[u8], ram: &[u8], out: &mut [u8]) -> Result<usize, u32> {
    let answer = unsafe {
        declared::nick_list(state.as_ptr(), state.len(), ram.as_ptr(), ram.len(), out.as_mut_ptr(), out.len())
    };
    match answer as u32 {
        0 => Ok((answer >> 32) as usize),
        refusal => Err(refusal),
    }
}

/// The levels of a colour byte: red, green, blue.
pub fn levels(colour: u8) -> (u8, u8, u8) {
    let levels = unsafe { declared::nick_levels(colour) };
    (levels as u8, (levels >> 8) as u8, (levels >> 16) as u8)
}

/// Compares a capture with a frame into the answer's 14 bytes. The refusal and the number of the side that it names, 0 for none.
pub fn compare(
    height: usize,
    capture: &[u8],
    capture_records: &[u8],
    frame: &[u8],
    frame_records: &[u8],
    answer: &mut [u8],
) -> (u8, u8) {
    let told = unsafe {
        declared::nick_compare(
            height,
            capture.as_ptr(),
            capture.len(),
            capture_records.as_ptr(),
            capture_records.len(),
            frame.as_ptr(),
            frame.len(),
            frame_records.as_ptr(),
            frame_records.len(),
            answer.as_mut_ptr(),
            answer.len(),
        )
    };
    (told as u8, (told >> 8) as u8)
}

/// Runs a script. Answers bits 0 to 7 the refusal, 8 latch, 9 enable, 10 request, 11 stopped at a step, whose place is then
/// written.
pub fn run(
    state: &mut [u8],
    ram: &[u8],
    script: &[u8],
    dots: &mut [u8],
    records: &mut [u8],
    external: &[u8],
    place: &mut u64,
) -> u32 {
    unsafe {
        declared::nick_run(
            state.as_mut_ptr(),
            state.len(),
            ram.as_ptr(),
            ram.len(),
            script.as_ptr(),
            script.len(),
            dots.as_mut_ptr(),
            dots.len(),
            records.as_mut_ptr(),
            records.len(),
            external.as_ptr(),
            external.len(),
            place,
        )
    }
}
