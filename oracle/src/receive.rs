//! The sample program of document 01, run by the upstream receiver. Refusals 1, 2 and 5 are the
//! Rust's own errors; 3 and 8 are added here.

use crate::overload::overloads;
use crate::receiver::Dsp;
use crate::samples::{decoded, read_full, word32, word64};
use crate::Snapshot;
use std::io::{self, BufReader, BufWriter, Read, Write};

const BLOCK: usize = 1024;
const TABLE_ROOM: usize = 16_384;

enum Ending {
    Refused(u32),
    Closed(Snapshot, u64),
}

pub fn receive() -> Result<(), String> {
    let mut input = BufReader::new(io::stdin());
    let mut output = BufWriter::new(io::stdout());
    answered(&mut input, &mut output)?;
    output.flush().map_err(|e| e.to_string())
}

/// All that the program writes for a recording.
pub fn answered(input: &mut impl Read, output: &mut impl Write) -> Result<(), String> {
    let ending = program(input, output)?;
    closing(ending, output).map_err(|e| e.to_string())
}

fn closing(ending: Ending, output: &mut impl Write) -> io::Result<()> {
    match ending {
        Ending::Refused(n) => writeln!(output, "refused {n}"),
        Ending::Closed(snapshot, overload) => {
            writeln!(output, "symbols {}", snapshot.symbols)?;
            writeln!(output, "locked {}", snapshot.locked_symbols)?;
            writeln!(output, "lock {}", snapshot.carrier_locked)?;
            writeln!(output, "overload {overload}")
        }
    }
}

fn program(input: &mut impl Read, output: &mut impl Write) -> Result<Ending, String> {
    let mut count = [0; 4];
    if read_full(input, &mut count)? < 4 || word32(&count) != 2 {
        return Ok(Ending::Refused(8));
    }
    let mut settings = [0; 16];
    if read_full(input, &mut settings)? < 16 {
        return Ok(Ending::Refused(8));
    }
    let rate = f64::from_bits(word64(&settings));
    let offset = f64::from_bits(word64(&settings[8..]));
    let mut dsp = match set_up(rate, offset) {
        Ok(dsp) => dsp,
        Err(refusal) => return Ok(Ending::Refused(refusal)),
    };
    if read_full(input, &mut count)? < 4 {
        return Ok(Ending::Refused(8));
    }
    blocks(&mut dsp, word32(&count) as usize, input, output)
}

/// Refusals 1 and 2.
pub fn accepted(rate: f64, offset: f64) -> Result<Dsp, u32> {
    Dsp::new(rate, offset).map_err(|reason| refusal_of(&reason))
}

fn set_up(rate: f64, offset: f64) -> Result<Dsp, u32> {
    let dsp = accepted(rate, offset)?;
    let arms = &dsp.0.resampler.arms;
    if arms.iter().map(Vec::len).sum::<usize>() > TABLE_ROOM {
        return Err(3);
    }
    Ok(dsp)
}

/// Document 01's number for an error of the Rust.
fn refusal_of(reason: &str) -> u32 {
    if reason.starts_with("IQ sample rate") {
        1
    } else if reason.starts_with("Channel lies outside") {
        2
    } else {
        5
    }
}

fn blocks(
    dsp: &mut Dsp,
    samples: usize,
    input: &mut impl Read,
    output: &mut impl Write,
) -> Result<Ending, String> {
    let mut snapshot = dsp.0.snapshot();
    let mut overload = 0;
    let mut left = samples;
    let mut bytes = [0; 8 * BLOCK];
    while left > 0 {
        let count = left.min(BLOCK);
        let block = &mut bytes[..8 * count];
        if read_full(input, block)? < block.len() {
            return Ok(Ending::Refused(8));
        }
        let iq = decoded(block);
        let (mut dibits, mut soft) = (Vec::new(), Vec::new());
        snapshot = match dsp.process_soft(&iq, &mut dibits, &mut soft) {
            Ok(snapshot) => snapshot,
            Err(reason) => return Ok(Ending::Refused(refusal_of(&reason))),
        };
        write_dibits(&dibits, &soft, output).map_err(|e| e.to_string())?;
        overload += overloads(&iq);
        left -= count;
    }
    if read_full(input, &mut [0; 1])? > 0 {
        return Ok(Ending::Refused(8));
    }
    Ok(Ending::Closed(snapshot, overload))
}

/// A line per dibit: value, first reliability, second.
pub fn write_dibits(dibits: &[u8], soft: &[[u8; 2]], output: &mut impl Write) -> io::Result<()> {
    for (dibit, [first, second]) in dibits.iter().zip(soft) {
        writeln!(output, "{dibit} {first} {second}")?;
    }
    Ok(())
}
