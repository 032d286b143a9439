//! Document 01's admitted states, as a test that names the first clause that fails.

use crate::dsp::{Carrier, ClockRecovery, Resampler};
use crate::sequence::Sequence;
use crate::state::State;

/// The most samples a receiver takes.
pub const MOST_SAMPLES: u64 = 1 << 52;

pub fn admitted(state: &State) -> Result<(), &'static str> {
    let d = &state.demodulator;
    let symbols = &d.symbols;
    let all = [
        ("renormalising counter", d.renormalize < 4096),
        ("total", state.total <= MOST_SAMPLES),
        ("counts", counts(state)),
        ("decimation", decimation(&d.resampler)),
        ("arm", arm(&d.resampler, state.arm_length())),
        ("input index", input_index(&d.resampler, state.total)),
        ("next output", next_output(&d.resampler, state.arm_length())),
        ("peak keeper", symbols.head < 64 && symbols.fill <= 64),
        ("clock", clock(&symbols.clock)),
        ("alternation", alternation(&symbols.carrier)),
        ("detector", detector(&symbols.carrier.sequence)),
        ("second", symbols.alternate.as_ref().is_none_or(second)),
        (
            "view",
            symbols.signal.head < 1024 && symbols.signal.count <= 1024,
        ),
    ];
    match all.iter().find(|(_, holds)| !holds) {
        Some((clause, _)) => Err(clause),
        None => Ok(()),
    }
}

fn counts(state: &State) -> bool {
    let symbols = &state.demodulator.symbols;
    let most = 2 * state.total.min(MOST_SAMPLES) as i64;
    0 <= symbols.locked_symbols
        && symbols.locked_symbols <= symbols.symbols
        && symbols.symbols <= most
}

fn decimation(r: &Resampler) -> bool {
    (1..=78).contains(&r.decimation) && r.counter < r.decimation
}

fn arm(r: &Resampler, length: usize) -> bool {
    (14..=576).contains(&length)
        && r.half == (length / 2) as i64
        && (0.5..=20.0).contains(&r.step)
        && r.write < length + 16
}

fn input_index(r: &Resampler, total: u64) -> bool {
    r.input_index >= 0 && r.input_index as u64 <= total
}

/// The next output lies within 600 of the input and needs a value that is not yet in. Its position
/// is the carried one: phase 32 counts as the next position.
pub fn next_output(r: &Resampler, length: usize) -> bool {
    if !(0 <= r.input_index && r.input_index <= MOST_SAMPLES as i64) {
        return false;
    }
    if !(0.0..=(r.input_index + 600) as f64).contains(&r.next_output) {
        return false;
    }
    let whole = r.next_output.floor();
    let carried = ((r.next_output - whole) * 32.0).round() == 32.0;
    let position = whole as i64 + carried as i64;
    position + length as i64 > r.input_index + r.half
}

fn clock(c: &ClockRecovery) -> bool {
    let place = if c.warm {
        (5..=12).contains(&c.position) && c.count <= 100 + c.position as usize
    } else {
        c.position == 0 && c.count <= 82
    };
    place
        && c.start < 256
        && (c.phase.is_nan() || (-16.0..=48.0).contains(&c.phase))
        && (c.rate.is_nan() || (-0.1..=0.1).contains(&c.rate))
}

/// An enabled second is held to what the first is held to.
fn second(c: &Carrier) -> bool {
    alternation(c) && detector(&c.sequence)
}

fn alternation(c: &Carrier) -> bool {
    (0..=7).contains(&c.alternation)
}

fn detector(s: &Sequence) -> bool {
    s.write < 32
        && s.filled <= 32
        && s.previous.unwrap_or(0) < 4
        && s.history.iter().flatten().all(|&parent| parent < 64)
}
