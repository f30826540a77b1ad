//! Compares the proved painter with the second program on a 312-line frame in each video mode and colour mode, without and
//! with external input. Both paint the same frame in turn, and the least time of several rounds counts; the last column is the
//! ratio.
//! bench/run.sh builds and runs it.

#[allow(dead_code)]
#[path = "../examples/rust/library.rs"]
mod library;
#[allow(dead_code)]
#[path = "../second/src/nick.rs"]
mod second;

use std::time::{Duration, Instant};

const LINES: usize = 312;
const ROUNDS: usize = 40;

struct Frame {
    dots: Vec<u8>,
    records: Vec<u8>,
}

impl Frame {
    fn new() -> Frame {
        Frame { dots: vec![0; 736 * LINES], records: vec![0; second::BYTES_PER_RECORD * LINES] }
    }
}

/// Random bytes, by a seed.
fn random(seed: u8, bytes: usize) -> Vec<u8> {
    let mut x: u64 = 88172645463325252 ^ u64::from(seed);
    let draw = |_| {
        x ^= x << 13;
        x ^= x >> 7;
        x ^= x << 17;
        (x >> 32) as u8
    };
    (0..bytes).map(draw).collect()
}

/// RAM with two line parameter blocks that make 312 lines, the rest random.
fn ram(mode: u8, colour_mode: u8) -> Vec<u8> {
    let mut ram = random(mode, 65536);
    let vres = if (3..=5).contains(&mode) { 0 } else { 16 };
    let mb = 32 * colour_mode + vres + 2 * mode;
    ram[0..8].copy_from_slice(&[0, mb, 10, 52, 0, 64, 0, 128]);
    ram[16..24].copy_from_slice(&[200, mb + 1, 10, 52, 0, 64, 0, 128]);
    ram
}

fn paint_second(ram: &[u8], external: &[u8], frame: &mut Frame) -> Duration {
    let mut state = second::State::fresh();
    second::write_register(&mut state, 128, 21);
    let start = Instant::now();
    let refusal = second::paint_frame(&mut state, ram, LINES as u32, &mut frame.dots, &mut frame.records, external);
    let took = start.elapsed();
    assert_eq!(refusal, 0);
    took
}

fn paint_proved(ram: &[u8], external: &[u8], frame: &mut Frame) -> Duration {
    let mut state = [0u8; 32];
    assert_eq!(library::fresh(&mut state), 0);
    assert_eq!(library::write(&mut state, 128, 21), 0);
    let start = Instant::now();
    let refusal = library::paint(&mut state, ram, LINES, &mut frame.dots, &mut frame.records, external);
    let took = start.elapsed();
    assert_eq!(refusal, 0);
    took
}

/// The least times of both, in microseconds.
fn compare(ram: &[u8], external: &[u8]) -> [f64; 2] {
    let (mut proved, mut second) = (Frame::new(), Frame::new());
    let mut least = [Duration::MAX; 2];
    for _ in 0..ROUNDS {
        least[0] = least[0].min(paint_proved(ram, external, &mut proved));
        least[1] = least[1].min(paint_second(ram, external, &mut second));
    }
    assert!(proved.dots == second.dots && proved.records == second.records);
    least.map(|d| d.as_nanos() as f64 / 1000.0)
}

fn main() {
    let input = random(8, 736 * LINES);
    for (name, external) in [("no external input", &[][..]), ("external input", &input[..])] {
        println!("{name}\nmode colours  proved us  second us  ratio");
        for mode in 0..8 {
            for (colour_mode, colours) in [2, 4, 16, 256].into_iter().enumerate() {
                let [p, s] = compare(&ram(mode, colour_mode as u8), external);
                println!("{mode:4} {colours:7} {p:10.0} {s:10.0} {:6.2}", p / s);
            }
        }
    }
}
