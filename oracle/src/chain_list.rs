//! The list of runs for the chain, and the upstream's answers to it.
//!
//! A run is a row of 8-byte words. First the state: the seed; the detector's start (see
//! `sequence_list`); keeper head, keeper fill, alternation, locked and profile, a byte each; clock
//! start, count, position and warm, two bytes each; clock phase and rate, four bytes each; view head
//! and count and keeper reference, four bytes each in two words; symbols; locked symbols; carrier
//! phase, frequency and error. Then the number of rows, and for each row the number of its values and
//! of dibits that stand there already, four bytes each, and its values, the real part in the low half.
//!
//! The planes are made from the seed as `chain` does it, of the detector's kind of floats. A row's
//! answer is a line: the digest of the number of dibits, of 264 dibits and 528 reliabilities that were
//! 170 before, and of the whole state after it.
//!
//! Two more bytes, after the profile, say whether the run has a second (`second.rs`), whose six words
//! then follow the number of rows, and whether both streams are asked for. A row of such a run is
//! answered by the digest of the same, with as many bytes of the second stream after the first's, and
//! with the second after the rest: whether it is enabled, its loop, its detector's place, channels,
//! drifts, inverses, costs, parents and records.

use crate::clock_list::{signal, PHASES, RATES, STRANGE};
use crate::dsp::{Carrier, SymbolChain};
use crate::helpers::{bits32, bits64};
use crate::list::folded;
use crate::made::{self, Made};
use crate::random::Random;
use crate::routines::{cosine, sine};
use crate::samples::word64;
use crate::sequence::Tracking;
use crate::second::Made as Second;
use crate::sequence_list::{detector, mixed_detector, mixed_point, Start};
use crate::Complex32;
use std::io::{self, BufWriter, Read, Write};

const STATE: usize = 12;
/// The words of a second.
const SECOND: usize = 6;
const ROOM: usize = 264;
const BEFORE: u8 = 170;

pub fn run(words: &[&str]) -> Result<(), String> {
    match words {
        ["inputs"] => write_inputs(),
        ["answers"] => write_answers(),
        _ => Err("inputs or answers".into()),
    }
}

/// The chain of a run's first words. From the seed, in this order: keeper, clock ring, weights, the
/// detector, and the view's previous symbol and ring.
fn chain(words: &[u64]) -> SymbolChain {
    let byte = |k: u32| (words[2] >> (8 * k) & 255) as usize;
    let pair = |k: u32| (words[3] >> (16 * k) & 0xffff) as usize;
    let start = Start::from_words(words[0], words[1]);
    let mut made = Made::new(start.seed);
    let mut c = SymbolChain::new(byte(4) as i32);
    c.head = byte(0);
    c.fill = byte(1);
    c.reference_peak = f32::from_bits(words[6] as u32);
    c.clock.start = pair(0);
    c.clock.count = pair(1);
    c.clock.position = pair(2) as i32;
    c.clock.warm = pair(3) == 1;
    c.clock.phase = f32::from_bits(words[4] as u32);
    c.clock.rate = f32::from_bits((words[4] >> 32) as u32);
    c.carrier.alternation = byte(2) as i32;
    c.carrier.locked = byte(3) == 1;
    c.carrier.phase = f64::from_bits(words[9]);
    c.carrier.frequency = f64::from_bits(words[10]);
    c.carrier.error = f64::from_bits(words[11]);
    c.signal.head = (words[5] & 0xffff_ffff) as usize;
    c.signal.count = (words[5] >> 32) as usize;
    c.symbols = words[7] as i64;
    c.locked_symbols = words[8] as i64;
    made.planes(start.floats, c.agc.iter_mut());
    made.planes(start.floats, c.clock.ring.iter_mut());
    made.planes(start.floats, c.equalizer.weights.iter_mut());
    c.carrier.sequence = detector(&start, Tracking::Lms, &mut made);
    c.signal.previous = made.point(start.floats);
    made.planes(start.floats, c.signal.ring.iter_mut());
    c
}

fn mixed_planes(h: u64, values: &[Complex32]) -> u64 {
    let real = values.iter().map(|z| bits32(z.real));
    real.chain(values.iter().map(|z| bits32(z.imaginary)))
        .fold(h, folded)
}

fn mixed_chain(h: u64, c: &mut SymbolChain) -> u64 {
    let places = [
        c.head as u64,
        c.fill as u64,
        bits32(c.reference_peak),
        c.clock.start as u64,
        c.clock.count as u64,
        c.clock.position as u64,
        c.clock.warm as u64,
        bits32(c.clock.phase),
        bits32(c.clock.rate),
        bits64(c.carrier.phase),
        bits64(c.carrier.frequency),
        c.carrier.alternation as u64,
        c.carrier.locked as u64,
        bits64(c.carrier.error),
        c.signal.head as u64,
        c.signal.count as u64,
        c.symbols as u64,
        c.locked_symbols as u64,
    ];
    let h = mixed_point(places.into_iter().fold(h, folded), c.signal.previous);
    let h = mixed_planes(mixed_planes(h, &c.agc), &c.clock.ring);
    let h = mixed_planes(h, &c.equalizer.weights);
    let h = mixed_detector(h, &mut c.carrier.sequence);
    mixed_planes(h, &c.signal.ring)
}

/// The second's: where it is not enabled, what is handed through.
fn mixed_second(h: u64, enabled: bool, c: &mut Carrier) -> u64 {
    let places = [
        enabled.into(),
        bits64(c.phase),
        bits64(c.frequency),
        c.alternation as u64,
        c.locked as u64,
        bits64(c.error),
    ];
    mixed_detector(places.into_iter().fold(h, folded), &mut c.sequence)
}

/// A run's chain, and its second as long as that is not enabled.
struct Run {
    chain: SymbolChain,
    idle: Option<Carrier>,
    second: bool,
    both: bool,
}

impl Run {
    fn from_words(state: &[u64], second: &[u64]) -> Self {
        let mut run = Self {
            chain: chain(state),
            idle: None,
            second: !second.is_empty(),
            both: asks_both(state),
        };
        if run.second {
            let made = Second::from_words(second);
            let carrier = Some(made.carrier());
            match made.enabled {
                true => run.chain.alternate = carrier,
                false => run.idle = carrier,
            }
        }
        run
    }

    fn answer(&mut self, before: usize, values: &[u64]) -> u64 {
        let mut dibits = [[BEFORE; ROOM]; 2];
        let mut reliabilities = [[[BEFORE; 2]; ROOM]; 2];
        let mut written = before;
        for word in values {
            let value = Complex32 {
                real: f32::from_bits(*word as u32),
                imaginary: f32::from_bits((*word >> 32) as u32),
            };
            if let Some(streams) = self.chain.process(value) {
                let asked = if self.both { 2 } else { 1 };
                for (stream, (dibit, soft)) in streams.into_iter().enumerate().take(asked) {
                    dibits[stream][written] = dibit;
                    reliabilities[stream][written] = soft;
                }
                written += 1;
            }
        }
        let streams = if self.second { 2 } else { 1 };
        let mut h = folded(0, written as u64);
        for (dibits, reliabilities) in dibits.iter().zip(&reliabilities).take(streams) {
            let bytes = dibits.iter().chain(reliabilities.iter().flatten());
            h = bytes.fold(h, |h, b| folded(h, *b as u64));
        }
        let h = mixed_chain(h, &mut self.chain);
        match (&mut self.chain.alternate, &mut self.idle) {
            (Some(second), _) => mixed_second(h, true, second),
            (None, Some(idle)) => mixed_second(h, false, idle),
            (None, None) => h,
        }
    }
}

fn has_second(state: &[u64]) -> bool {
    state[2] >> 40 & 255 == 1
}

fn asks_both(state: &[u64]) -> bool {
    state[2] >> 48 & 255 == 1
}

fn write_answers() -> Result<(), String> {
    let mut bytes = Vec::new();
    io::stdin()
        .read_to_end(&mut bytes)
        .map_err(|e| e.to_string())?;
    let words: Vec<u64> = bytes.chunks_exact(8).map(word64).collect();
    let mut output = BufWriter::new(io::stdout());
    let mut rest = &words[..];
    while rest.len() > STATE {
        let (state, body) = rest.split_at(STATE);
        let second = if has_second(state) { SECOND } else { 0 };
        let mut run = Run::from_words(state, &body[1..=second]);
        rest = &body[1 + second..];
        for _ in 0..body[0] {
            let count = (rest[0] & 0xffff_ffff) as usize;
            let line = run.answer((rest[0] >> 32) as usize, &rest[1..=count]);
            writeln!(output, "{line:016x}").map_err(|e| e.to_string())?;
            rest = &rest[1 + count..];
        }
    }
    output.flush().map_err(|e| e.to_string())
}

fn write_inputs() -> Result<(), String> {
    let mut list = List {
        words: Vec::new(),
        random: Random::new(10),
    };
    for profile in [0, 1] {
        list.from_fresh(profile);
    }
    for n in 0..400 {
        list.handed_in(n);
    }
    list.second_from_fresh();
    for filled in 0..=32 {
        for n in 0..4 {
            list.second_handed_in(filled, n);
        }
    }
    let mut output = BufWriter::new(io::stdout());
    for word in list.words {
        output
            .write_all(&word.to_le_bytes())
            .map_err(|e| e.to_string())?;
    }
    output.flush().map_err(|e| e.to_string())
}

/// The first words of a run from fresh.
fn fresh(profile: u64) -> [u64; STATE] {
    let mut words = [0; STATE];
    words[2] = profile << 32;
    words[4] = 16.0_f32.to_bits() as u64;
    words
}

/// A list in the making.
struct List {
    words: Vec<u64>,
    random: Random,
}

const LEVELS: [f32; 8] = [1.0, 1e30, 3e38, 1e10, 1e-20, 0.0, 1e-30, 1.0];

impl List {
    fn unit(&mut self) -> f32 {
        self.random.below(1 << 24) as f32 / (1 << 23) as f32 - 1.0
    }

    /// The values in rows of any length, over some dibits that stand there.
    fn run(&mut self, state: &[u64], values: &[Complex32]) {
        self.words.extend(state);
        self.rows(&[], values);
    }

    /// The same with a second.
    fn run_with(&mut self, state: &[u64], second: &Second, both: bool, values: &[Complex32]) {
        let at = self.words.len();
        self.words.extend(state);
        self.words[at + 2] |= 1 << 40 | u64::from(both) << 48;
        self.rows(&second.to_words(), values);
    }

    fn rows(&mut self, second: &[u64], values: &[Complex32]) {
        let rows = self.words.len();
        self.words.push(0);
        self.words.extend(second);
        let mut rest = values;
        while !rest.is_empty() {
            let most = rest.len().min(256);
            let count = 1 + self.random.below(most as u64) as usize;
            let (row, after) = rest.split_at(count);
            self.words
                .push(count as u64 | self.random.below(9) << 32);
            for value in row {
                let imaginary = value.imaginary.to_bits() as u64;
                self.words.push(value.real.to_bits() as u64 | imaginary << 32);
            }
            self.words[rows] += 1;
            rest = after;
        }
    }

    fn from_fresh(&mut self, profile: u64) {
        let state = fresh(profile);
        let clean = self.signal(0.0, 0.0);
        self.run(&state, &clean);
        let noisy = self.signal(0.2, 0.01);
        self.run(&state, &noisy);
        let echoing = self.echoing();
        self.run(&state, &echoing);
        let faded = self.faded();
        self.run(&state, &faded);
        let huge = self.huge();
        self.run(&state, &huge);
        let strange = self.strange();
        self.run(&state, &strange);
    }

    /// A signal with noise, turned by `turn` a value.
    fn signal(&mut self, noise: f32, turn: f64) -> Vec<Complex32> {
        let mut values = signal(&mut self.random, 700, 50e-6);
        for (n, value) in values.iter_mut().enumerate() {
            let (c, s) = (cosine(turn * n as f64), sine(turn * n as f64));
            let (x, y) = (value.real as f64, value.imaginary as f64);
            value.real = (0.5 * (x * c - y * s)) as f32 + noise * self.unit();
            value.imaginary = (0.5 * (x * s + y * c)) as f32 + noise * self.unit();
        }
        values
    }

    /// With a second path, three quarters of a symbol later and turned by a quarter.
    fn echoing(&mut self) -> Vec<Complex32> {
        let first = self.signal(0.02, -0.005);
        let late = first.iter().skip(3);
        let mut values = first.clone();
        for (value, echo) in values.iter_mut().skip(3).zip(late) {
            value.real -= 0.5 * echo.imaginary;
            value.imaginary += 0.5 * echo.real;
        }
        values
    }

    /// With gaps that pass the peak keeper's threshold.
    fn faded(&mut self) -> Vec<Complex32> {
        let mut values = self.signal(0.01, 0.002);
        for (n, value) in values.iter_mut().enumerate() {
            let level = if n % 350 > 270 { 0.01 } else { 1.0 };
            value.real *= level;
            value.imaginary *= level;
        }
        values
    }

    fn huge(&mut self) -> Vec<Complex32> {
        let mut values = self.signal(0.05, 0.0);
        for (n, value) in values.iter_mut().enumerate() {
            let level = LEVELS[n / 88];
            value.real *= level;
            value.imaginary *= level;
        }
        values
    }

    /// Values that are no ordinary numbers among ordinary ones.
    fn strange(&mut self) -> Vec<Complex32> {
        let mut values = self.signal(0.1, 0.003);
        for value in values.iter_mut().skip(400) {
            if self.random.below(40) == 0 {
                value.real = STRANGE[self.random.below(8) as usize];
            }
            if self.random.below(40) == 0 {
                value.imaginary = STRANGE[self.random.below(8) as usize];
            }
        }
        values
    }

    /// A few values into a state that no run reaches.
    fn handed_in(&mut self, n: u64) {
        let state = self.any_state(n);
        let values = self.any_values();
        self.run(&state, &values);
    }

    fn any_values(&mut self) -> Vec<Complex32> {
        (0..1 + self.random.below(8))
            .map(|_| Complex32 {
                real: self.any_part(),
                imaginary: self.any_part(),
            })
            .collect()
    }

    /// With a second from the first value on, which is enabled or not, and from a first that is full.
    fn second_from_fresh(&mut self) {
        let off = Second::fresh(false);
        let on = Second::fresh(true);
        let clean = self.signal(0.0, 0.0);
        self.run_with(&fresh(1), &off, true, &clean[..400]);
        let echoing = self.echoing();
        self.run_with(&fresh(0), &on, true, &echoing);
        let noisy = self.signal(0.2, 0.01);
        self.run_with(&fresh(1), &on, false, &noisy[..400]);
        let faded = self.faded();
        self.run_with(&fresh(1), &on, true, &faded);
        let huge = self.huge();
        self.run_with(&fresh(0), &on, true, &huge);
        let strange = self.strange();
        self.run_with(&fresh(0), &on, true, &strange[300..]);
        for both in [true, false] {
            let mut state = fresh(u64::from(both));
            // the keeper and the clock are full, and so is the first detector
            state[1] = 32 << 24;
            state[2] |= 64 << 8;
            state[3] = 100 << 16 | 8 << 32 | 1 << 48;
            let values = self.signal(0.05, 0.004);
            self.run_with(&state, &on, both, &values[..200]);
        }
    }

    /// A few values into a state that no run reaches, with a second that is filled so far, and in one of
    /// four runs not enabled.
    fn second_handed_in(&mut self, filled: u64, n: u64) {
        let state = self.any_state(filled + n);
        let kinds = 1 + made::SIGNED;
        let inverses = [made::KEPT, self.random.below(kinds)];
        let start = Start {
            seed: self.random.below(1 << 32),
            floats: self.random.below(kinds),
            costs: self.random.below(kinds),
            write: self.random.below(32),
            filled,
            previous: self.random.below(5),
            inverses: inverses[self.random.below(2) as usize],
        };
        let second = Second {
            start,
            enabled: n > 0,
            alternation: self.random.below(8),
            locked: self.random.below(2) == 1,
            phase: self.loop_float(),
            frequency: self.loop_float(),
            error: self.loop_float(),
        };
        let values = self.any_values();
        self.run_with(&state, &second, (filled + n) % 3 > 0, &values);
    }

    fn any_state(&mut self, n: u64) -> [u64; STATE] {
        let floats = [made::MODERATE, made::SPECIAL, made::ANY][(n % 3) as usize];
        let costs = [made::QUARTERS, made::SPECIAL, made::SIGNED, made::ANY, made::INFINITE];
        let start = Start {
            seed: self.random.below(1 << 32),
            floats,
            costs: costs[self.random.below(5) as usize],
            write: self.random.below(32),
            filled: [self.random.below(33), 31, 32][(n % 3) as usize],
            previous: self.random.below(5),
            inverses: made::KEPT,
        };
        let fill = [self.random.below(65), 62, 63, 64][(n / 3 % 4) as usize];
        let bytes = [
            self.random.below(64),
            fill,
            self.random.below(8),
            self.random.below(2),
            [0, 1, 2, 255][self.random.below(4) as usize],
        ];
        let digits = 1 + self.random.below(52);
        let symbols = self.random.below(1 << digits);
        [
            start.seed,
            start.word(),
            bytes.iter().rev().fold(0, |word, byte| word << 8 | byte),
            self.clock_counts(),
            PHASES[self.random.below(14) as usize].to_bits() as u64
                | (RATES[self.random.below(5) as usize].to_bits() as u64) << 32,
            self.random.below(1024) | self.random.below(1025) << 32,
            self.reference().to_bits() as u64,
            symbols,
            self.random.below(symbols + 1),
            self.loop_float().to_bits(),
            self.loop_float().to_bits(),
            self.loop_float().to_bits(),
        ]
    }

    /// Cold and warm, near where they turn warm or have a symbol.
    fn clock_counts(&mut self) -> u64 {
        let start = self.random.below(256);
        if self.random.below(4) == 0 {
            return start | (76 + self.random.below(7)) << 16;
        }
        let position = 5 + self.random.below(8);
        let count = [self.random.below(101 + position), 70 + position, 100 + position];
        start | count[self.random.below(3) as usize] << 16 | position << 32 | 1 << 48
    }

    fn reference(&mut self) -> f32 {
        let all = [0.0, f32::INFINITY, f32::NAN, 1e-13, 1e30, self.unit(), self.unit()];
        all[self.random.below(7) as usize]
    }

    fn loop_float(&mut self) -> f64 {
        let all = [0.0, f64::NAN, f64::INFINITY, 100.0, -1e300, 0.39, -0.65];
        match self.random.below(14) {
            k if k < 7 => all[k as usize],
            _ => 3.0 * self.unit() as f64,
        }
    }

    fn any_part(&mut self) -> f32 {
        match self.random.below(20) {
            0 => STRANGE[self.random.below(8) as usize],
            1 => f32::from_bits(self.random.word() as u32),
            _ => self.unit(),
        }
    }
}
