//! The whole state as a row of 8-byte words, in one order for dump, load and listing, and the
//! loading of such a row into the upstream receiver.

use crate::dsp::Carrier;
use crate::samples::word64;
use crate::sequence::{Sequence, Tracking};
use crate::tracker::{by_quad, by_tap};
use crate::words::{one, row, Lister, Port, Reader, Writer};
use crate::{Complex32, Demodulator};
use std::fmt::Display;

/// The longest arm of an admitted state, and the places its ring needs.
pub const LONGEST_ARM: usize = 576;
pub const RING_ROOM: usize = LONGEST_ARM + 16;
const PHASES: usize = 32;
/// The first of the second's words, which says if it is enabled; and the words without the table.
pub const SECOND: usize = 6757;
pub const STATE_WORDS: usize = SECOND + SECOND_WORDS;
/// The detectors' equalized observations, which are overwritten before they are read.
pub const UNREAD: [std::ops::Range<usize>; 2] = [48..51, SECOND + 13..SECOND + 16];
const SECOND_WORDS: usize = 11_505;

/// The upstream receiver, with what it does not keep: the total of samples taken, the values of a
/// full ring's places beyond those in use, and the second's words while it is not enabled.
pub struct State {
    pub total: u64,
    pub demodulator: Demodulator,
    pub spare: Vec<Complex32>,
    pub idle: Vec<u64>,
}

impl State {
    pub fn fresh(rate: f64, offset: f64, profile: i32) -> Self {
        let demodulator = Demodulator::new(rate, offset, profile);
        let spare = RING_ROOM.saturating_sub(demodulator.resampler.ring.len());
        Self {
            total: 0,
            demodulator,
            spare: vec![Complex32::default(); spare],
            idle: vec![0; SECOND_WORDS - 1],
        }
    }

    pub fn from_bytes(bytes: &[u8]) -> Result<Self, String> {
        let mut state = Self::fresh(48000.0, 0.0, 0);
        let mut reader = Reader { bytes };
        walk(&mut state, &mut reader)?;
        if reader.bytes.is_empty() {
            Ok(state)
        } else {
            Err("bytes after the state's last word".into())
        }
    }

    pub fn to_bytes(&mut self) -> Vec<u8> {
        let mut writer = Writer { bytes: Vec::new() };
        walk(self, &mut writer).expect("a state in memory fits its words");
        writer.bytes
    }

    /// A line per word: its name and its value in hex.
    pub fn listing(&mut self) -> String {
        let mut lister = Lister {
            text: String::new(),
        };
        walk(self, &mut lister).expect("a state in memory fits its words");
        lister.text
    }

    /// Enables the second, whose words are then the upstream's own.
    pub fn enable(&mut self) {
        self.demodulator.enable_alternate();
        self.idle.fill(0);
    }

    pub fn arm_length(&self) -> usize {
        self.demodulator.resampler.arms[0].len()
    }

    /// Gives the ring and the table the lengths of an arm of `length`.
    pub fn set_arm_length(&mut self, length: usize) {
        let resampler = &mut self.demodulator.resampler;
        resampler.arms = vec![vec![0.0; length]; PHASES];
        resampler.ring = vec![Complex32::default(); length + 16];
        self.spare = vec![Complex32::default(); LONGEST_ARM - length];
    }

    /// Gives the decimator's scale the value that the Rust derives from the decimation.
    pub fn derive_scale(&mut self) {
        let resampler = &mut self.demodulator.resampler;
        let d = resampler.decimation as f64;
        resampler.cic_scale = 1.0 / (32768.0 * d * d * d);
    }
}

/// All real parts, then all imaginary parts.
fn planes(port: &mut impl Port, name: &str, values: &mut [&mut Complex32]) -> Result<(), String> {
    let real = values.iter_mut().map(|v| &mut v.real);
    row(port, format_args!("{name} real"), real)?;
    let imaginary = values.iter_mut().map(|v| &mut v.imaginary);
    row(port, format_args!("{name} imaginary"), imaginary)
}

/// 1 and the two parts, or three zeros.
fn point(port: &mut impl Port, name: impl Display, value: &mut Option<Complex32>) -> Result<(), String> {
    let mut present = value.is_some();
    let mut inside = value.unwrap_or_default();
    one(port, format_args!("{name} present"), &mut present)?;
    one(port, format_args!("{name} real"), &mut inside.real)?;
    one(port, format_args!("{name} imaginary"), &mut inside.imaginary)?;
    *value = present.then_some(inside);
    Ok(())
}

/// Every word of the state, in the order of the layout.
fn walk(state: &mut State, port: &mut impl Port) -> Result<(), String> {
    one(port, "total", &mut state.total)?;
    one(port, "profile", &mut state.demodulator.symbols.profile)?;
    front(state, port)?;
    let symbols = &mut state.demodulator.symbols;
    one(port, "keeper head", &mut symbols.head)?;
    one(port, "keeper fill", &mut symbols.fill)?;
    one(port, "keeper reference", &mut symbols.reference_peak)?;
    clock(state, port)?;
    let symbols = &mut state.demodulator.symbols;
    turn(&mut symbols.carrier, "carrier", port)?;
    detector(&mut symbols.carrier.sequence, "detector", port)?;
    point(port, "view previous", &mut symbols.signal.previous)?;
    one(port, "view head", &mut symbols.signal.head)?;
    one(port, "view count", &mut symbols.signal.count)?;
    one(port, "symbols", &mut symbols.symbols)?;
    one(port, "locked", &mut symbols.locked_symbols)?;
    memory(state, port)?;
    second(state, port)?;
    let table = &mut state.demodulator.resampler.arms;
    row(port, "table", table.iter_mut().flatten())
}

fn front(state: &mut State, port: &mut impl Port) -> Result<(), String> {
    let d = &mut state.demodulator;
    one(port, "oscillator real", &mut d.oscillator_real)?;
    one(port, "oscillator imaginary", &mut d.oscillator_imaginary)?;
    one(port, "oscillator step real", &mut d.step_real)?;
    one(port, "oscillator step imaginary", &mut d.step_imaginary)?;
    one(port, "oscillator renormalize", &mut d.renormalize)?;
    let r = &mut d.resampler;
    one(port, "decimation", &mut r.decimation)?;
    one(port, "decimation counter", &mut r.counter)?;
    row(port, "integrator", &mut r.integrators)?;
    row(port, "delay", &mut r.delays)?;
    let before = r.arms[0].len();
    let mut length = before;
    one(port, "arm length", &mut length)?;
    if length != before {
        if length > LONGEST_ARM {
            return Err(format!("arm length {length}: more than {LONGEST_ARM}"));
        }
        state.set_arm_length(length);
    }
    state.derive_scale();
    let r = &mut state.demodulator.resampler;
    one(port, "arm half", &mut r.half)?;
    one(port, "resampler step", &mut r.step)?;
    one(port, "input index", &mut r.input_index)?;
    one(port, "next output", &mut r.next_output)?;
    one(port, "ring place", &mut r.write)
}

fn clock(state: &mut State, port: &mut impl Port) -> Result<(), String> {
    let c = &mut state.demodulator.symbols.clock;
    one(port, "clock start", &mut c.start)?;
    one(port, "clock count", &mut c.count)?;
    one(port, "clock position", &mut c.position)?;
    one(port, "clock warm", &mut c.warm)?;
    one(port, "clock phase", &mut c.phase)?;
    one(port, "clock rate", &mut c.rate)
}

fn turn(c: &mut Carrier, name: &str, port: &mut impl Port) -> Result<(), String> {
    one(port, format_args!("{name} phase"), &mut c.phase)?;
    one(port, format_args!("{name} frequency"), &mut c.frequency)?;
    one(port, format_args!("{name} alternation"), &mut c.alternation)?;
    one(port, format_args!("{name} locked"), &mut c.locked)?;
    one(port, format_args!("{name} error"), &mut c.error)
}

fn detector(s: &mut Sequence, name: &str, port: &mut impl Port) -> Result<(), String> {
    one(port, format_args!("{name} place"), &mut s.write)?;
    one(port, format_args!("{name} fill"), &mut s.filled)?;
    let mut present = s.previous.is_some();
    let mut symbol = s.previous.unwrap_or_default();
    one(port, format_args!("{name} previous present"), &mut present)?;
    one(port, format_args!("{name} previous"), &mut symbol)?;
    s.previous = present.then_some(symbol);
    point(port, format_args!("{name} combined"), &mut s.combined)?;
    point(port, format_args!("{name} equalized"), &mut s.equalized)?;
    one(port, format_args!("{name} noise"), &mut s.noise)
}

/// The arrays, as planes.
fn memory(state: &mut State, port: &mut impl Port) -> Result<(), String> {
    let r = &mut state.demodulator.resampler;
    let mut ring: Vec<_> = r.ring.iter_mut().chain(&mut state.spare).collect();
    planes(port, "ring", &mut ring)?;
    let symbols = &mut state.demodulator.symbols;
    planes(port, "keeper", &mut lent(&mut symbols.agc))?;
    planes(port, "clock", &mut lent(&mut symbols.clock.ring))?;
    planes(port, "weight", &mut lent(&mut symbols.equalizer.weights))?;
    let s = &mut state.demodulator.symbols.carrier.sequence;
    planes(port, "channel", &mut by_tap(&mut s.channels))?;
    row(port, "cost", &mut s.costs)?;
    row(port, "parent", s.history.iter_mut().flatten())?;
    records(s, "soft", port)?;
    let view = &mut state.demodulator.symbols.signal.ring;
    planes(port, "view", &mut lent(view))
}

/// The words of a carrier with the second tracker, in their order.
pub fn second_words(carrier: &mut Carrier) -> Vec<u64> {
    let mut writer = Writer { bytes: Vec::new() };
    second_carrier(carrier, &mut writer).expect("a carrier in memory fits its words");
    writer.bytes.chunks_exact(8).map(word64).collect()
}

/// Whether the second is enabled, and its carrier and detector, or the words that stand there.
fn second(state: &mut State, port: &mut impl Port) -> Result<(), String> {
    let alternate = &mut state.demodulator.symbols.alternate;
    let mut enabled = alternate.is_some();
    one(port, "second enabled", &mut enabled)?;
    if enabled {
        let fresh = || Carrier::new(Tracking::Drift);
        second_carrier(alternate.get_or_insert_with(fresh), port)
    } else {
        *alternate = None;
        row(port, "second idle", &mut state.idle)
    }
}

fn second_carrier(c: &mut Carrier, port: &mut impl Port) -> Result<(), String> {
    turn(c, "second carrier", port)?;
    let s = &mut c.sequence;
    detector(s, "second detector", port)?;
    records(s, "second soft", port)?;
    planes(port, "second channel", &mut by_tap(&mut s.channels))?;
    planes(port, "second drift", &mut by_tap(&mut s.drift.drift))?;
    planes(port, "second inverse", &mut by_quad(&mut s.drift.inverse))?;
    row(port, "second cost", &mut s.costs)?;
    row(port, "second parent", s.history.iter_mut().flatten())
}

fn lent(values: &mut [Complex32]) -> Vec<&mut Complex32> {
    values.iter_mut().collect()
}

/// Each soft record: 1, two sign bits and two reliabilities, or five zeros.
fn records(s: &mut Sequence, name: &str, port: &mut impl Port) -> Result<(), String> {
    for (i, record) in s.soft.iter_mut().enumerate() {
        let mut present = record.is_some();
        let (bits, mut reliabilities) = record.unwrap_or_default();
        let mut bits = bits.map(|bit| bit != 0);
        one(port, format_args!("{name} {i} present"), &mut present)?;
        row(port, format_args!("{name} {i} bit"), &mut bits)?;
        row(port, format_args!("{name} {i} reliability"), &mut reliabilities)?;
        *record = present.then_some((bits.map(u8::from), reliabilities));
    }
    Ok(())
}
