//! Compares the proved library with the second program, call by call, on random cases of fresh seeds. From the repository's
//! root:
//!
//!   (cd crates/nick_c && rt lib)
//!   rustc --edition 2021 -O -D warnings -L crates/nick_c/out -l static=nick_c examples/rust/main.rs -o compare
//!   ./compare CASES [SEED]
//!
//! It makes CASES cases of each family that second/README.md describes. Without SEED, the seed comes from the clock; it is
//! printed, so that a run can be repeated. The first difference is told, and ends the run with status 1.

#[allow(dead_code)]
#[path = "../../second/src/compare.rs"]
mod compare;
#[allow(dead_code)]
#[path = "../../second/src/families.rs"]
mod families;
#[path = "library.rs"]
mod library;
#[allow(dead_code)]
#[path = "../../second/src/nick.rs"]
mod nick;
#[allow(dead_code)]
#[path = "../../second/src/random.rs"]
mod random;
#[allow(dead_code)]
#[path = "../../second/src/script.rs"]
mod script;

use compare::{Comparison, Side};
use families::{draw_frame, draw_script, Buffers, Lent};
use nick::State;
use random::{state_bytes, Head, Pair, Question, Random, Write};
use script::Ending;
use std::process::ExitCode;
use std::time::{SystemTime, UNIX_EPOCH};

/// Families of its own for the bytes that a state ignores.
const IGNORED: u64 = 100;

/// What differs, in words.
type Outcome = Result<(), String>;

fn main() -> ExitCode {
    let mut words = std::env::args().skip(1).map(|word| word.parse::<u64>());
    let cases = match words.next() {
        Some(Ok(cases)) => cases,
        _ => {
            eprintln!("usage: compare CASES [SEED]");
            return ExitCode::FAILURE;
        }
    };
    let seed = match words.next() {
        None => fresh_seed(),
        Some(Ok(seed)) => seed % (1 << 39),
        Some(Err(problem)) => {
            eprintln!("the seed: {problem}");
            return ExitCode::FAILURE;
        }
    };
    println!("seed {seed}");
    match compare_all(cases, seed) {
        Ok(()) => {
            println!("{cases} cases of each family: no difference");
            ExitCode::SUCCESS
        }
        Err(difference) => {
            println!("{difference}");
            ExitCode::FAILURE
        }
    }
}

/// From the clock, below the numbers that a family has room for.
fn fresh_seed() -> u64 {
    let now = SystemTime::now().duration_since(UNIX_EPOCH).expect("the clock is right");
    now.as_nanos() as u64 % (1 << 39)
}

fn compare_all(cases: u64, seed: u64) -> Outcome {
    compare_fresh()?;
    compare_levels()?;
    let mut lent = Buffers::new();
    let mut kept = Buffers::new();
    for case in seed..seed + cases {
        let told = |difference| format!("case {case}: {difference}");
        compare_frame(case, &mut lent, &mut kept).map_err(told)?;
        compare_dots(case, &mut lent).map_err(told)?;
        compare_listings(case, &mut lent, &mut kept).map_err(told)?;
        compare_writes(case).map_err(told)?;
        compare_comparisons(case).map_err(told)?;
        compare_runs(case, &mut lent, &mut kept).map_err(told)?;
    }
    Ok(())
}

fn same<T: PartialEq + std::fmt::Debug>(what: &str, library: T, second: T) -> Outcome {
    if library == second {
        return Ok(());
    }
    Err(format!("{what}: the library has {library:?}, the second program {second:?}"))
}

fn same_bytes(what: &str, library: &[u8], second: &[u8]) -> Outcome {
    same(&format!("length of {what}"), library.len(), second.len())?;
    match (0..library.len()).find(|&i| library[i] != second[i]) {
        None => Ok(()),
        Some(i) => same(&format!("{what}, byte {i}"), library[i], second[i]),
    }
}

/// A state as bytes, with anything in the bits and bytes that are ignored.
fn bytes_given(state: &State, family: u64, case: u64) -> [u8; 32] {
    let mut random = Random::new(IGNORED + family, case);
    let mut bytes = state_bytes(state);
    bytes[4] += random.byte() / 8 * 8;
    bytes[5] = random.byte();
    bytes[14] = random.byte();
    bytes[15] = random.byte();
    bytes
}

/// What every call answers for a state of another length than 32, before all else.
const WRONG_LENGTH: u32 = 20;

/// A state of another length than 32: 0 to 31 bytes, or 33 to 63.
fn wrong_state(case: u64) -> Vec<u8> {
    let length = case % 63;
    vec![90; (length + length / 32) as usize]
}

fn compare_fresh() -> Outcome {
    let mut bytes = [90; 32];
    same("fresh state's refusal", library::fresh(&mut bytes), 0)?;
    same_bytes("fresh state", &bytes, &state_bytes(&State::fresh()))?;
    for case in 0..63 {
        let mut bytes = wrong_state(case);
        same("refusal of a fresh state of another length", library::fresh(&mut bytes), WRONG_LENGTH)?;
        same_bytes("state of another length", &bytes, &wrong_state(case))?;
    }
    Ok(())
}

fn compare_levels() -> Outcome {
    for colour in 0..=255 {
        same(&format!("levels of colour {colour}"), library::levels(colour), nick::levels(colour))?;
    }
    Ok(())
}

/// One painting from the state of the case, and one from a state of another length.
fn compare_frame(case: u64, lent: &mut Buffers, kept: &mut Buffers) -> Outcome {
    let call = draw_frame(case, lent);
    let Lent { ram, dots, records, external } = lent.lend(&call.lengths);
    let Lent { dots: dots_kept, records: records_kept, .. } = kept.lend(&call.lengths);
    let paint = |state: &mut [u8], dots: &mut [u8], records: &mut [u8]| {
        dots.fill(170);
        records.fill(85);
        match call.single {
            true => library::paint_line(state, ram, dots, records, external),
            false => library::paint(state, ram, call.asked as usize, dots, records, external),
        }
    };

    let given = bytes_given(&call.state, random::FRAMES, case);
    let mut bytes = given;
    let refusal = paint(&mut bytes, dots, records);
    let mut state = call.state;
    let expected = match call.single {
        true => nick::paint_line(&mut state, ram, dots_kept, records_kept, external),
        false => nick::paint_frame(&mut state, ram, call.asked, dots_kept, records_kept, external),
    };
    same("refusal of a painting", refusal, u32::from(expected))?;
    same_bytes("state after a painting", &bytes, &state_left(expected, &state, &given))?;
    same_bytes("dots", dots, dots_kept)?;
    same_bytes("records", records, records_kept)?;

    let mut bytes = wrong_state(case);
    same("refusal of a painting, state of another length", paint(&mut bytes, dots, records), WRONG_LENGTH)?;
    kept_and_stamped(case, &bytes, dots, records)
}

/// What a painting or a run from a state of another length leaves: state and dots, which were 170, stay; all records are 255.
fn kept_and_stamped(case: u64, bytes: &[u8], dots: &[u8], records: &[u8]) -> Outcome {
    same_bytes("state of another length", bytes, &wrong_state(case))?;
    same("dots kept", dots.iter().all(|&dot| dot == 170), true)?;
    same("records stamped", records.iter().all(|&byte| byte == 255), true)
}

/// The bytes that a call leaves: those given, if it is refused.
fn state_left(refusal: u8, state: &State, given: &[u8; 32]) -> [u8; 32] {
    match refusal {
        0 => state_bytes(state),
        _ => *given,
    }
}

fn compare_dots(case: u64, lent: &mut Buffers) -> Outcome {
    let mut random = Random::new(random::DOTS, case);
    let mut head = Head::draw(&mut random);
    random::draw_ram(&mut random, head.edits, &mut lent.ram);
    random::settle_block(&mut head, &lent.ram);
    let state = head.faulty_state();
    let ram = &lent.ram[..head.ram_length()];
    let bytes = bytes_given(&state, random::DOTS, case);
    for _ in 0..8 {
        let q = Question::draw(&mut random);
        let (line, dot) = (q.line as usize, q.dot as usize);
        let expected = nick::ask_dot(&state, ram, q.line, q.dot, q.external)
            .map(|answer| (answer.colour, answer.addresses[..answer.count].to_vec()));
        let what = format!("line {line}, dot {dot}");
        same(&what, library::dot(&bytes, ram, line, dot, q.external), expected)?;
        let refused = library::dot(&wrong_state(case), ram, line, dot, q.external).map_err(u32::from);
        same(&what, refused, Err(WRONG_LENGTH))?;
    }
    Ok(())
}

fn compare_listings(case: u64, lent: &mut Buffers, kept: &mut Buffers) -> Outcome {
    let mut random = Random::new(random::LISTINGS, case);
    let head = Head::draw(&mut random);
    let [kind, more] = random.bytes();
    random::draw_plain_ram(&mut random, &mut lent.ram);
    random::lengthen_table(head.edits, &mut lent.ram);
    let state = head.faulty_state();
    let ram = &lent.ram[..head.ram_length()];
    let bytes = bytes_given(&state, random::LISTINGS, case);
    let mut list = |room: usize| {
        let (out, expected) = (&mut lent.text[..room], &mut kept.text[..room]);
        out.fill(170);
        expected.fill(170);
        same("listing, state of another length", library::list(&wrong_state(case), ram, out), Err(WRONG_LENGTH))?;
        same_bytes("output of a refused listing", out, expected)?;
        let answer = nick::list_table(&state, ram, expected).map_err(u32::from);
        same("listing's answer", library::list(&bytes, ram, out), answer)?;
        same_bytes("listing", out, expected)?;
        Ok(answer.unwrap_or(0))
    };
    let whole = list(random::LISTING_BUFFER)?;
    list(random::output_length(kind, more, whole)).map(|_| ())
}

fn compare_writes(case: u64) -> Outcome {
    let mut random = Random::new(random::WRITES, case);
    let mut state = Head::draw(&mut random).faulty_state();
    let mut bytes = bytes_given(&state, random::WRITES, case);
    for _ in 0..16 {
        let Write { port, data } = Write::draw(&mut random);
        let given = bytes;
        let expected = nick::write_register(&mut state, port, data);
        let what = format!("write of {data} to port {port}");
        same(&what, library::write(&mut bytes, port, data), u32::from(expected))?;
        same_bytes(&what, &bytes, &state_left(expected, &state, &given))?;

        let mut wrong = wrong_state(case);
        same(&what, library::write(&mut wrong, port, data), WRONG_LENGTH)?;
        same_bytes("state of another length", &wrong, &wrong_state(case))?;
    }
    Ok(())
}

/// One comparison into the answer's bytes, and one into an answer of another length.
fn compare_comparisons(case: u64) -> Outcome {
    let Pair { asked, capture, frame } = Pair::draw(case);
    let compare = |answer: &mut [u8]| {
        library::compare(asked as usize, &capture.dots, &capture.records, &frame.dots, &frame.records, answer)
    };
    let mut answer = [90; 14];
    let told = compare(&mut answer);
    let expected = compare::compare(asked, &capture.dots, &capture.records, &frame.dots, &frame.records);
    same("refusal of a comparison", told, expected.map_or_else(|(refusal, side)| (refusal, side as u8), |_| (0, 0)))?;
    same_bytes("answer of a comparison", &answer, &expected.map_or([90; 14], |found| comparison_bytes(&found)))?;

    let length = (case % 28) as usize;
    let mut wrong = vec![90; length + length / 14];
    same("answer of another length", compare(&mut wrong), (WRONG_LENGTH as u8, Side::Neither as u8))?;
    same("answer of another length kept", wrong.iter().all(|&byte| byte == 90), true)
}

/// The bytes of a comparison, as the header has them.
fn comparison_bytes(found: &Comparison) -> [u8; 14] {
    let mut bytes = [255; 14];
    bytes[..4].copy_from_slice(&found.differing.to_le_bytes());
    if let Some((line, dot)) = found.first {
        bytes[4..6].copy_from_slice(&(line as u16).to_le_bytes());
        bytes[6..8].copy_from_slice(&(dot as u16).to_le_bytes());
    }
    for (place, range) in found.ranges.iter().enumerate() {
        bytes[8 + 2 * place..10 + 2 * place].copy_from_slice(&[range.smallest as u8, range.largest as u8]);
    }
    bytes
}

/// What the place holds before a run.
const PLACE_BEFORE: u64 = u64::MAX / 3;

/// One run from the state of the case, and one from a state of another length.
fn compare_runs(case: u64, lent: &mut Buffers, kept: &mut Buffers) -> Outcome {
    let call = draw_script(case, lent);
    let Lent { ram, dots, records, external } = lent.lend(&call.lengths);
    let Lent { dots: dots_kept, records: records_kept, .. } = kept.lend(&call.lengths);
    let run = |state: &mut [u8], dots: &mut [u8], records: &mut [u8], place: &mut u64| {
        dots.fill(170);
        records.fill(85);
        library::run(state, ram, &call.script, dots, records, external, place)
    };

    let given = bytes_given(&call.state, random::SCRIPTS, case);
    let (mut bytes, mut place) = (given, PLACE_BEFORE);
    let answer = run(&mut bytes, dots, records, &mut place);
    let mut state = call.state;
    let ending = script::run(&mut state, ram, &call.script, dots_kept, records_kept, external);
    same("answer of a run", answer, run_answer(&ending))?;
    same("place", place, ending.place.map_or(PLACE_BEFORE, |place| place as u64))?;
    let refused_before = if ending.place.is_some() { 0 } else { ending.refusal };
    same_bytes("state after a run", &bytes, &state_left(refused_before, &state, &given))?;
    same_bytes("dots", dots, dots_kept)?;
    same_bytes("records", records, records_kept)?;

    let (mut bytes, mut place) = (wrong_state(case), PLACE_BEFORE);
    same("refusal of a run, state of another length", run(&mut bytes, dots, records, &mut place), WRONG_LENGTH)?;
    same("place of a refused run", place, PLACE_BEFORE)?;
    kept_and_stamped(case, &bytes, dots, records)
}

/// The answer of a run, as the header has it.
fn run_answer(ending: &Ending) -> u32 {
    let bits = [ending.latch, ending.enable, ending.request(), ending.place.is_some()];
    let told = bits.iter().zip(8..).map(|(&on, bit)| u32::from(on) << bit);
    u32::from(ending.refusal) + told.sum::<u32>()
}
