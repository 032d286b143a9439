//! The list of recordings for the sample program's steps: every refusal that the program can give, every
//! way in which a recording can be malformed, and some that are good; and the upstream's answers to it.
//!
//! A recording is its length in an 8-byte word, then its bytes. Its answer is a line with its number and
//! length, then what the sample program writes.
//!
//! The program cannot give three of the refusals. 4: its blocks have an even number of floats, at most
//! 1,024 samples, and a count of four bytes keeps the total below 2^52. 6: it lends 2,052 places for
//! dibits and 4,104 for reliabilities, enough for 1,024 samples. 7: its state comes from an accepted
//! setup or block, so it is admitted. 3 comes from a setup alone: what it accepts has room in the table.

use crate::generator::generated;
use crate::overload::around_the_ends;
use crate::plan::Plan;
use crate::receive::answered;
use crate::samples::word64;
use crate::Complex32;
use std::io::{self, BufWriter, Read, Write};

/// Where the count of samples and the first sample stand.
const COUNT: usize = 20;
const FIRST: usize = 24;
const BLOCK_BYTES: usize = 8192;
/// A setup at this rate computes the fewest taps.
const LOW: f64 = 9600.0;
const MIDDLE: f64 = 48000.0;
/// Parts that are no numbers: NaNs, quiet and signalling, and infinities.
const NOT_FINITE: [u32; 4] = [0x7fc0_0000, 0xff80_0001, 0x7f80_0000, 0xff80_0000];

type Recording = Vec<u8>;

pub fn run(words: &[&str]) -> Result<(), String> {
    match words {
        ["inputs"] => write_inputs(),
        ["answers"] => write_answers(),
        _ => Err("inputs or answers".into()),
    }
}

fn write_inputs() -> Result<(), String> {
    let mut output = BufWriter::new(io::stdout());
    for recording in recordings()? {
        output
            .write_all(&(recording.len() as u64).to_le_bytes())
            .and_then(|()| output.write_all(&recording))
            .map_err(|e| e.to_string())?;
    }
    output.flush().map_err(|e| e.to_string())
}

fn write_answers() -> Result<(), String> {
    let mut list = Vec::new();
    io::stdin()
        .read_to_end(&mut list)
        .map_err(|e| e.to_string())?;
    let mut output = BufWriter::new(io::stdout());
    let (mut rest, mut number) = (&list[..], 1);
    while rest.len() >= 8 {
        let (head, more) = rest.split_at(8);
        let length = word64(head) as usize;
        if length > more.len() {
            return Err("the list ends within a recording".into());
        }
        let (mut recording, more) = more.split_at(length);
        writeln!(output, "recording {number} of {length} bytes").map_err(|e| e.to_string())?;
        answered(&mut recording, &mut output)?;
        (rest, number) = (more, number + 1);
    }
    output.flush().map_err(|e| e.to_string())
}

fn recordings() -> Result<Vec<Recording>, String> {
    let short = signal("--rate 9600 --offset 599.5 --samples 3 --seed 3")?;
    let long = signal("--offset 1500 --samples 1025 --seed 5 --noise 0.02")?;
    let line = "--offset -7500 --samples 2500 --seed 7 --amplitude 0.7 --noise 0.02 --echo 0.5,0.3,0.2";
    let heard = signal(line)?;
    let mut all = vec![settings(2, MIDDLE, 0.0, 0), heard];
    all.extend(rates());
    all.extend(offsets());
    all.extend(tables());
    all.extend(counts_of_settings(&short));
    all.extend(cut(&short, &long));
    all.extend(too_long(&short, &long));
    all.extend(not_finite(&short, &long));
    all.extend(overloads(&short));
    // the signal as a 16-bit converter gives it, which clips
    all.push(signal(&format!("{line} --bits 16"))?);
    Ok(all)
}

fn signal(line: &str) -> Result<Recording, String> {
    let mut bytes = Vec::new();
    generated(&Plan::of(line)?)
        .file
        .write(&mut bytes)
        .map_err(|e| e.to_string())?;
    Ok(bytes)
}

/// A recording without samples; `count` says how many there should be.
fn settings(settings: u32, rate: f64, offset: f64, count: u32) -> Recording {
    [
        &settings.to_le_bytes()[..],
        &rate.to_le_bytes(),
        &offset.to_le_bytes(),
        &count.to_le_bytes(),
    ]
    .concat()
}

/// A recording with other bytes from a place on.
fn with(recording: &[u8], place: usize, bytes: &[u8]) -> Recording {
    let mut changed = recording.to_vec();
    changed[place..place + bytes.len()].copy_from_slice(bytes);
    changed
}

fn joined(recording: &[u8], more: usize) -> Recording {
    [recording, &vec![0; more]].concat()
}

/// The next f64 of a size larger, or smaller.
fn above(x: f64) -> f64 {
    f64::from_bits(x.to_bits() + 1)
}

fn below(x: f64) -> f64 {
    f64::from_bits(x.to_bits() - 1)
}

/// Refusal 1, also before an offset that is bad; the lowest rate and the highest.
fn rates() -> Vec<Recording> {
    let (most, large) = (20_000_000.0, f64::MAX);
    let bad = [f64::NAN, f64::INFINITY, -f64::INFINITY, 0.0, -0.0];
    let bad = bad.into_iter().chain([-MIDDLE, below(LOW), above(most), large]);
    bad.map(|rate| settings(2, rate, 0.0, 0))
        .chain([settings(2, below(LOW), f64::NAN, 0)])
        .chain([LOW, most].map(|rate| settings(2, rate, 0.0, 0)))
        .collect()
}

/// Refusal 2, also before a table that is too short, and the offsets next to it.
fn offsets() -> Vec<Recording> {
    let edge = MIDDLE / 2.0 - 4200.0;
    let all = [
        (MIDDLE, f64::NAN),
        (MIDDLE, f64::INFINITY),
        (MIDDLE, -f64::INFINITY),
        (MIDDLE, f64::MAX),
        (MIDDLE, edge),
        (MIDDLE, -edge),
        (LOW, 600.0),
        (LOW, -600.0),
        (383_999.0, 200_000.0),
        (LOW, 599.5),
        (LOW, -599.5),
        (LOW, -0.0),
        (MIDDLE, edge - 0.001),
    ];
    all.map(|(rate, offset)| settings(2, rate, offset, 0)).into()
}

/// Refusal 3, case 11 of document 01 first, and the rates next to it.
fn tables() -> Vec<Recording> {
    [383_999.0, 341_667.0, 341_666.0, 384_000.0]
        .map(|rate| settings(2, rate, 0.0, 0))
        .into()
}

/// Refusal 8: another count of settings, with nothing after it and with a good recording.
fn counts_of_settings(short: &[u8]) -> Vec<Recording> {
    [0_u32, 1, 3, 2 + (1 << 24), 2 << 24, u32::MAX]
        .into_iter()
        .flat_map(|count| {
            let count = count.to_le_bytes();
            [count.to_vec(), with(short, 0, &count)]
        })
        .collect()
}

/// Refusal 8: cut at every byte of the count of settings, the settings, the count of samples and a
/// short block; after a whole block at every byte of the next. Bad settings are refused before what
/// is missing behind them, and not before they are whole.
fn cut(short: &[u8], long: &[u8]) -> Vec<Recording> {
    let bad = settings(2, f64::NAN, 0.0, 0);
    let second = FIRST + BLOCK_BYTES;
    let short = (0..=short.len()).map(|length| short[..length].to_vec());
    let long = (second..=long.len()).map(|length| long[..length].to_vec());
    short
        .chain(long)
        .chain([COUNT - 1, COUNT, COUNT + 3].map(|length| bad[..length].to_vec()))
        .collect()
}

/// Refusal 8: bytes after the last sample, and counts of samples that are not those there.
fn too_long(short: &[u8], long: &[u8]) -> Vec<Recording> {
    let none = settings(2, MIDDLE, 0.0, 0);
    let more = [1, 2, 7, 8, 9, 8192].map(|more| joined(short, more));
    let other = [0_u32, 1, 2, 4, 1024, 1025, u32::MAX]
        .map(|count| with(short, COUNT, &count.to_le_bytes()));
    let missing = [1, 1024, u32::MAX].map(|count| settings(2, LOW, 0.0, count));
    more.into_iter()
        .chain(other)
        .chain(missing)
        .chain([joined(&none, 1), joined(&none, 8), joined(long, 1)])
        .collect()
}

/// Refusal 5: in either part of the first sample, of the last and of a later block's. In a block cut
/// short it is 8; before a byte too many it is 5.
fn not_finite(short: &[u8], long: &[u8]) -> Vec<Recording> {
    let mut all = Vec::new();
    for part in NOT_FINITE.map(u32::to_le_bytes) {
        for place in [FIRST, FIRST + 4, short.len() - 8, short.len() - 4] {
            all.push(with(short, place, &part));
        }
        let first = with(short, FIRST, &part);
        all.push(first[..first.len() - 1].to_vec());
        all.push(joined(&first, 1));
    }
    let nan = NOT_FINITE[0].to_le_bytes();
    all.push(with(long, FIRST + BLOCK_BYTES - 4, &nan));
    let later = with(long, FIRST + BLOCK_BYTES + 4, &nan);
    all.push(later[..later.len() - 1].to_vec());
    all.push(later);
    all
}

/// A first sample that tells whether overload is counted right.
fn overloads(short: &[u8]) -> Vec<Recording> {
    let first = |(s, _): (Complex32, u64)| {
        let sample = [s.real.to_le_bytes(), s.imaginary.to_le_bytes()].concat();
        with(short, FIRST, &sample)
    };
    around_the_ends().into_iter().map(first).collect()
}
