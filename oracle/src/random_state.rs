//! Random admitted states and tap tables that no run reaches.

use crate::admitted::{admitted, MOST_SAMPLES};
use crate::drift_edges::{denominators, traces, Entry};
use crate::dsp::Carrier;
use crate::random::Random;
use crate::sequence::{DriftState, Inverse8, Sequence, Tracking};
use crate::state::{second_words, State};
use crate::Complex32;
use std::sync::OnceLock;

/// How far the free floats stray: moderate ones only, now and then a special one, or any pattern.
#[derive(Clone, Copy)]
enum Manner {
    Tame,
    Mixed,
    Wild,
}

struct Maker {
    random: Random,
    manner: Manner,
}

/// The state of a seed. Seeds that leave 0, 1, 2 or 3 modulo 4 give: moderate floats; the same
/// with costs as from a run; special values among them; any bit patterns. Of each 64 seeds the first
/// 16 have no second, the next 16 one that is not enabled and holds anything, and the others one that
/// is enabled; its detector is full, or its fill goes through all its values, by turns of 64 seeds.
pub fn random_state(seed: u64) -> State {
    let manner = match seed % 4 {
        0 | 1 => Manner::Tame,
        2 => Manner::Mixed,
        _ => Manner::Wild,
    };
    let mut maker = Maker {
        random: Random::new(seed),
        manner,
    };
    let mut state = State::fresh(48000.0, 0.0, 0);
    maker.counts(&mut state);
    maker.front(&mut state);
    maker.keeper_and_view(&mut state);
    maker.clock(&mut state);
    let first = &mut state.demodulator.symbols.carrier;
    maker.turn(first);
    maker.detector(&mut first.sequence);
    if seed % 4 == 1 {
        maker.costs_of_a_run(&mut first.sequence);
    }
    match seed / 16 % 4 {
        0 => (),
        1 => maker.idle(&mut state),
        _ => maker.second(&mut state, seed),
    }
    if let Err(clause) = admitted(&state) {
        panic!("the state of seed {seed} is not admitted: {clause}");
    }
    state
}

impl Maker {
    fn up_to(&mut self, last: u64) -> u64 {
        self.random.below(last + 1)
    }

    /// A whole number up to `last`, near an end every other time.
    fn end_or_up_to(&mut self, last: u64) -> u64 {
        match self.up_to(3) {
            0 => self.up_to(last.min(2)),
            1 => last - self.up_to(last.min(2)),
            _ => self.up_to(last),
        }
    }

    fn chance(&mut self, of: u64) -> bool {
        self.random.below(of) == 0
    }

    /// In 0..1, a multiple of 2^-24.
    fn unit(&mut self) -> f64 {
        self.random.below(1 << 24) as f64 / (1 << 24) as f64
    }

    fn within(&mut self, low: f64, high: f64) -> f64 {
        low + (high - low) * self.unit()
    }

    fn float64(&mut self) -> f64 {
        let moderate = self.within(-2.0, 2.0);
        let special = self.chance(4);
        match self.manner {
            Manner::Tame => moderate,
            Manner::Mixed if special => self.special() as f64,
            Manner::Mixed => moderate,
            Manner::Wild => f64::from_bits(self.random.word()),
        }
    }

    fn float32(&mut self) -> f32 {
        let moderate = self.within(-2.0, 2.0) as f32;
        let special = self.chance(16);
        match self.manner {
            Manner::Tame => moderate,
            Manner::Mixed if special => self.special(),
            Manner::Mixed => moderate,
            Manner::Wild => f32::from_bits(self.random.word() as u32),
        }
    }

    fn special(&mut self) -> f32 {
        const SPECIAL: [f32; 10] = [
            0.0,
            -0.0,
            f32::NAN,
            f32::INFINITY,
            f32::NEG_INFINITY,
            f32::MAX,
            f32::MIN,
            1e-45,
            -1e-45,
            1e-30,
        ];
        SPECIAL[self.random.below(10) as usize]
    }

    fn complex(&mut self) -> Complex32 {
        Complex32 {
            real: self.float32(),
            imaginary: self.float32(),
        }
    }

    fn maybe_complex(&mut self) -> Option<Complex32> {
        (!self.chance(3)).then(|| self.complex())
    }

    fn fill(&mut self, values: &mut [Complex32]) {
        for value in values {
            *value = self.complex();
        }
    }

    fn counts(&mut self, state: &mut State) {
        let room = 1 << self.up_to(52);
        state.total = match self.up_to(7) {
            0 => 0,
            1 => MOST_SAMPLES - self.up_to(3000),
            _ => self.up_to(room).min(MOST_SAMPLES),
        };
        let symbols = &mut state.demodulator.symbols;
        symbols.profile = self.up_to(3) as i32 - 1;
        symbols.symbols = self.end_or_up_to(2 * state.total) as i64;
        symbols.locked_symbols = self.end_or_up_to(symbols.symbols as u64) as i64;
    }

    fn front(&mut self, state: &mut State) {
        let arm = 14 + self.end_or_up_to(576 - 14);
        state.set_arm_length(arm as usize);
        let d = &mut state.demodulator;
        d.oscillator_real = self.float64();
        d.oscillator_imaginary = self.float64();
        d.step_real = self.float64();
        d.step_imaginary = self.float64();
        d.renormalize = self.end_or_up_to(4095) as usize;
        let r = &mut d.resampler;
        r.decimation = 1 + self.decimation_less_one() as usize;
        r.counter = self.end_or_up_to(r.decimation as u64 - 1) as usize;
        r.integrators = [(); 6].map(|()| self.random.word() as i64);
        r.delays = [(); 6].map(|()| self.random.word() as i64);
        r.half = arm as i64 / 2;
        r.step = self.resampler_step();
        r.write = self.end_or_up_to(arm + 15) as usize;
        r.input_index = self.end_or_up_to(state.total) as i64;
        self.fill(&mut r.ring);
        self.fill(&mut state.spare);
        for tap in r.arms.iter_mut().flatten() {
            *tap = self.float32() / 8.0;
        }
        state.derive_scale();
        self.next_output(state);
    }

    /// Mostly low, so that a short run gives many values.
    fn decimation_less_one(&mut self) -> u64 {
        match self.up_to(7) {
            0..=3 => 0,
            4 | 5 => self.up_to(3),
            _ => self.end_or_up_to(77),
        }
    }

    /// Mostly short, so that a short run gives many values.
    fn resampler_step(&mut self) -> f64 {
        match self.up_to(7) {
            0 => 0.5,
            1 => 20.0,
            2 => self.within(0.5, 20.0),
            _ => self.within(0.5, 2.0),
        }
    }

    /// Anywhere between what is no longer pending and 600 past the input.
    fn next_output(&mut self, state: &mut State) {
        let r = &state.demodulator.resampler;
        let last = (r.input_index + 600) as f64;
        let first = (r.input_index + r.half - state.arm_length() as i64).max(0) as f64;
        loop {
            let next = match self.up_to(4) {
                0 => last,
                1 => first + self.within(0.9, 2.1),
                _ => self.within(first, last),
            };
            state.demodulator.resampler.next_output = next;
            if admitted_next(state) {
                return;
            }
        }
    }

    fn keeper_and_view(&mut self, state: &mut State) {
        let symbols = &mut state.demodulator.symbols;
        symbols.head = self.end_or_up_to(63) as usize;
        symbols.fill = self.end_or_up_to(64) as usize;
        symbols.reference_peak = self.float32();
        self.fill(&mut symbols.agc);
        self.fill(&mut symbols.equalizer.weights);
        let view = &mut symbols.signal;
        view.head = self.end_or_up_to(1023) as usize;
        view.count = self.end_or_up_to(1024) as usize;
        view.previous = self.maybe_complex();
        self.fill(&mut view.ring);
    }

    fn clock(&mut self, state: &mut State) {
        let c = &mut state.demodulator.symbols.clock;
        c.warm = !self.chance(4);
        c.position = if c.warm { 5 + self.up_to(7) as i32 } else { 0 };
        let most = if c.warm { 100 + c.position as u64 } else { 82 };
        c.count = self.end_or_up_to(most) as usize;
        c.start = self.end_or_up_to(255) as usize;
        c.phase = match self.up_to(7) {
            0 => f32::NAN,
            1 => -16.0,
            2 => 48.0,
            3 => self.up_to(64) as f32 - 16.0,
            _ => self.within(-16.0, 48.0) as f32,
        };
        c.rate = match self.up_to(7) {
            0 => f32::NAN,
            1 => -0.1,
            2 => 0.1,
            _ => self.within(-0.1, 0.1) as f32,
        };
        self.fill(&mut c.ring);
    }

    fn turn(&mut self, c: &mut Carrier) {
        c.phase = self.float64();
        c.frequency = self.float64();
        c.alternation = self.up_to(7) as i32;
        c.locked = self.chance(2);
        c.error = self.float64();
    }

    fn detector(&mut self, s: &mut Sequence) {
        s.write = self.end_or_up_to(31) as usize;
        s.filled = self.end_or_up_to(32) as usize;
        s.previous = (!self.chance(4)).then(|| self.up_to(3) as usize);
        s.combined = self.maybe_complex();
        s.equalized = self.maybe_complex();
        s.noise = self.float32();
        for parent in s.history.iter_mut().flatten() {
            *parent = self.up_to(63) as u8;
        }
        for channel in &mut s.channels {
            self.fill(channel);
        }
        for record in &mut s.soft {
            let bits = [self.up_to(1) as u8, self.up_to(1) as u8];
            let reliabilities = [self.float32(), self.float32()];
            *record = (!self.chance(3)).then_some((bits, reliabilities));
        }
        let all_infinite = self.chance(16);
        for cost in &mut s.costs {
            *cost = if all_infinite || self.chance(8) {
                f32::INFINITY
            } else {
                self.float32()
            };
        }
    }

    /// Costs from 0 to 48 in quarters, so that ties are common.
    fn costs_of_a_run(&mut self, s: &mut Sequence) {
        for cost in &mut s.costs {
            *cost = self.up_to(192) as f32 / 4.0;
        }
    }

    fn second(&mut self, state: &mut State, seed: u64) {
        let mut c = Carrier::new(Tracking::Drift);
        self.turn(&mut c);
        self.detector(&mut c.sequence);
        let turn = seed / 64;
        c.sequence.filled = if turn % 2 == 0 { turn / 2 % 33 } else { 32 } as usize;
        if seed % 4 == 1 {
            self.costs_of_a_run(&mut c.sequence);
        }
        self.drift(&mut c.sequence.drift);
        state.demodulator.symbols.alternate = Some(c);
        if !self.chance(4) {
            self.soon(state);
        }
    }

    /// Lets values come soon, and symbols of them.
    fn soon(&mut self, state: &mut State) {
        let r = &mut state.demodulator.resampler;
        r.decimation = 1;
        r.counter = 0;
        r.step = self.within(0.5, 2.0);
        r.next_output = (r.input_index + 1) as f64 + self.unit();
        state.demodulator.symbols.fill = 64;
        state.derive_scale();
    }

    /// Drifts of this manner, and inverses: fresh, of this manner, with some numbers that stand out, or
    /// at the limits of the update's two tests.
    fn drift(&mut self, d: &mut DriftState) {
        let small = self.chance(2);
        for drift in d.drift.iter_mut().flatten() {
            let z = self.complex();
            let scale = if small { 1.0 / 256.0 } else { 1.0 };
            drift.real = z.real * scale;
            drift.imaginary = z.imaginary * scale;
        }
        match self.up_to(5) {
            0 => (),
            1 => self.fill(d.inverse.as_flattened_mut().as_flattened_mut()),
            2 => self.scattered(&mut d.inverse),
            3 => self.grown(&mut d.inverse),
            4 => self.cases(&mut d.inverse, &limits()[0]),
            _ => self.cases(&mut d.inverse, &limits()[1]),
        }
    }

    /// Fresh inverses in which a few numbers of some states are special ones.
    fn scattered(&mut self, inverses: &mut [Inverse8]) {
        for inverse in inverses {
            for _ in 0..self.up_to(3) {
                let z = &mut inverse[self.up_to(7) as usize][self.up_to(7) as usize];
                let part = if self.chance(2) { &mut z.real } else { &mut z.imaginary };
                *part = match self.up_to(2) {
                    0 => self.special(),
                    1 => -0.0,
                    _ => -*part - 0.5,
                };
            }
        }
    }

    /// Fresh inverses that have grown, the trace to around its limit, or that have turned negative.
    fn grown(&mut self, inverses: &mut [Inverse8]) {
        for inverse in inverses {
            let gain = match self.up_to(3) {
                0 => -1.0,
                1 => self.within(0.0, 1.0) as f32,
                _ => self.within(300.0, 900.0) as f32,
            };
            for z in inverse.as_flattened_mut() {
                z.real *= gain;
                z.imaginary *= gain;
            }
        }
    }

    /// An inverse in each of four states that have their successors in common.
    fn cases(&mut self, inverses: &mut [Inverse8], cases: &[Vec<Entry>]) {
        let first = self.up_to(15) as usize;
        for (state, inverse) in inverses.iter_mut().enumerate() {
            for (row, column, z) in &cases[(first + state) % 16] {
                inverse[*row][*column] = *z;
            }
        }
    }

    /// The words of a second that is not enabled: anything, also what no enabled one may hold.
    fn idle(&mut self, state: &mut State) {
        let mut c = Carrier::new(Tracking::Drift);
        self.turn(&mut c);
        self.detector(&mut c.sequence);
        self.drift(&mut c.sequence.drift);
        c.alternation = (self.random.word() >> 33) as i32;
        let s = &mut c.sequence;
        s.equalized = None;
        s.write = self.random.word() as usize;
        s.filled = self.random.word() as usize;
        s.previous = s.previous.map(|_| self.random.word() as usize);
        for parent in s.history.iter_mut().flatten() {
            *parent = self.up_to(255) as u8;
        }
        state.idle = second_words(&mut c);
    }
}

/// Inverses at the limits of the denominator and of the trace, 16 of each.
fn limits() -> &'static [Vec<Vec<Entry>>; 2] {
    static LIMITS: OnceLock<[Vec<Vec<Entry>>; 2]> = OnceLock::new();
    LIMITS.get_or_init(|| [denominators().expect("such inverses are found"), traces()])
}

fn admitted_next(state: &State) -> bool {
    let r = &state.demodulator.resampler;
    crate::admitted::next_output(r, state.arm_length())
}
