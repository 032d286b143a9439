//! The block call and the constellation read of document 01, on a state, and the commands that
//! dump, load, enable, list and judge states.

use crate::admitted::{admitted, MOST_SAMPLES};
use crate::helpers::{bits32, bits64};
use crate::options::Options;
use crate::overload::overloads;
use crate::random_state::random_state;
use crate::receive::{accepted, write_dibits};
use crate::samples::SampleFile;
use crate::state::State;
use crate::trace::Decision;
use crate::{Complex32, Snapshot};
use std::io::{self, Read, Write};

const LONGEST_BLOCK: usize = 65_536;
const PROGRAM_BLOCK: usize = 1024;

/// What an accepted block gives besides the state.
pub struct Block {
    pub dibits: Vec<u8>,
    pub soft: Vec<[u8; 2]>,
    /// The second stream.
    pub others: Vec<u8>,
    pub other_soft: Vec<[u8; 2]>,
    pub overload: u64,
    pub snapshot: Snapshot,
}

impl Block {
    /// The decisions of both streams, side by side.
    pub fn decisions(&self) -> Vec<[Decision; 2]> {
        let first = self.dibits.iter().copied().zip(self.soft.iter().copied());
        let second = self.others.iter().copied().zip(self.other_soft.iter().copied());
        first.zip(second).map(|(a, b)| [a, b]).collect()
    }
}

/// A block of both streams with enough room and a table of the state's own length; or the refusal's number.
pub fn block(state: &mut State, samples: &[Complex32]) -> Result<Block, u32> {
    if admitted(state).is_err() {
        return Err(7);
    }
    let total = state.total + samples.len() as u64;
    if samples.len() > LONGEST_BLOCK || total > MOST_SAMPLES {
        return Err(4);
    }
    let finite = |s: &Complex32| s.real.is_finite() && s.imaginary.is_finite();
    if !samples.iter().all(finite) {
        return Err(5);
    }
    let room = 2 * samples.len() + 4;
    let (mut dibits, mut soft) = (vec![0; room], vec![[0; 2]; room]);
    let (mut others, mut other_soft) = (dibits.clone(), soft.clone());
    let written = state.demodulator.process_dual(
        samples,
        [&mut dibits, &mut others],
        [&mut soft, &mut other_soft],
    );
    for stream in [&mut dibits, &mut others] {
        stream.truncate(written);
    }
    for stream in [&mut soft, &mut other_soft] {
        stream.truncate(written);
    }
    state.total = total;
    Ok(Block {
        dibits,
        soft,
        others,
        other_soft,
        overload: overloads(samples),
        snapshot: state.demodulator.snapshot(),
    })
}

pub fn run(words: &[&str]) -> Result<(), String> {
    let options = Options::parse(words, &[])?;
    options.only(&["profile", "lines"])?;
    match options.words() {
        ["dump"] => dump(options.number("profile", 0)?),
        ["load", path] => load(path, options.text("lines")),
        ["enable"] => enable(),
        ["show"] => put(from_input()?.listing().as_bytes()),
        ["view", room] => view(room.parse().map_err(|_| "ROOM is a whole number")?),
        ["admitted"] => judge(),
        _ => Err("state dump, load, enable, show, view or admitted".into()),
    }
}

pub fn write_random(seed: &str) -> Result<(), String> {
    let seed = seed.parse().map_err(|_| "SEED is a whole number")?;
    put(&random_state(seed).to_bytes())
}

pub fn load_file(path: &str) -> Result<State, String> {
    State::from_bytes(&std::fs::read(path).map_err(|e| format!("{path}: {e}"))?)
}

/// A fresh state with a file's settings.
pub fn fresh_for(file: &SampleFile, profile: i32) -> Result<State, String> {
    accepted(file.rate, file.offset).map_err(|n| format!("refused {n}"))?;
    Ok(State::fresh(file.rate, file.offset, profile))
}

fn put(bytes: &[u8]) -> Result<(), String> {
    io::stdout().write_all(bytes).map_err(|e| e.to_string())
}

fn from_input() -> Result<State, String> {
    let mut bytes = Vec::new();
    io::stdin()
        .read_to_end(&mut bytes)
        .map_err(|e| e.to_string())?;
    State::from_bytes(&bytes)
}

fn dump(profile: i32) -> Result<(), String> {
    let file = SampleFile::read(&mut io::stdin())?;
    let mut state = fresh_for(&file, profile)?;
    for samples in file.samples.chunks(PROGRAM_BLOCK) {
        block(&mut state, samples).map_err(|n| format!("refused {n}"))?;
    }
    put(&state.to_bytes())
}

fn load(path: &str, lines: Option<&str>) -> Result<(), String> {
    let mut state = load_file(path)?;
    let file = SampleFile::read(&mut io::stdin())?;
    let answer = block(&mut state, &file.samples);
    if let Some(lines) = lines {
        std::fs::write(lines, report(&answer)).map_err(|e| format!("{lines}: {e}"))?;
    }
    put(&state.to_bytes())
}

/// Enables the second; a state that is not admitted stays as it is.
fn enable() -> Result<(), String> {
    let mut state = from_input()?;
    match admitted(&state) {
        Ok(()) => state.enable(),
        Err(clause) => eprintln!("refused 7: {clause}"),
    }
    put(&state.to_bytes())
}

/// A line per dibit of the first stream, then every number of the answer.
fn report(answer: &Result<Block, u32>) -> Vec<u8> {
    let mut text = Vec::new();
    let written = match answer {
        Err(refusal) => writeln!(text, "refused {refusal}"),
        Ok(block) => write_dibits(&block.dibits, &block.soft, &mut text).and_then(|()| {
            let s = &block.snapshot;
            writeln!(text, "written {}", block.dibits.len())?;
            writeln!(text, "overload {}", block.overload)?;
            writeln!(text, "symbols {}", s.symbols)?;
            writeln!(text, "locked {}", s.locked_symbols)?;
            writeln!(text, "error {:016x}", bits64(s.carrier_error))?;
            writeln!(text, "frequency {:016x}", bits64(s.frequency_offset_hz))?;
            writeln!(text, "lock {}", s.carrier_locked)
        }),
    };
    written.expect("memory takes every line");
    text
}

fn view(room: usize) -> Result<(), String> {
    let state = from_input()?;
    if admitted(&state).is_err() {
        return put(b"refused 7\n");
    }
    let mut points = vec![Complex32::default(); room];
    let (count, error) = state.demodulator.read_signal(&mut points);
    let mut text = format!("count {count}\nerror {:016x}\n", bits64(error));
    for p in &points[..count] {
        text += &format!("point {:08x} {:08x}\n", bits32(p.real), bits32(p.imaginary));
    }
    put(text.as_bytes())
}

fn judge() -> Result<(), String> {
    let verdict = match from_input() {
        Err(reason) => format!("not admitted: {reason}\n"),
        Ok(state) => match admitted(&state) {
            Err(clause) => format!("not admitted: {clause}\n"),
            Ok(()) => "admitted\n".to_string(),
        },
    };
    put(verdict.as_bytes())
}
