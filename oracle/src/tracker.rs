//! The second tracker by hand: its numbers in the order in which the lists fill and digest them, and a
//! step of all 64 states by the upstream's own prediction and update, from given parents and
//! predictions.

use crate::helpers::bits32;
use crate::list::folded;
use crate::random::Random;
use crate::selftest::Verdict;
use crate::sequence::{
    drift_predict, drift_update, DriftState, Inverse8, Sequence, Tracking, SYMBOLS,
};
use crate::trellis::prediction;
use crate::Complex32;

pub const STATES: usize = 64;

pub type Taps = [[Complex32; 4]; STATES];

/// Taps of all states: tap t of state s is number 64 t + s.
pub fn by_tap(rows: &mut Taps) -> Vec<&mut Complex32> {
    let mut taps: [Vec<&mut Complex32>; 4] = Default::default();
    for row in rows {
        for (tap, value) in row.iter_mut().enumerate() {
            taps[tap].push(value);
        }
    }
    taps.into_iter().flatten().collect()
}

/// Inverses of all states, four states side by side: row i and column j of state s is number
/// 256 (s / 4) + 4 (8 i + j) + s % 4.
pub fn by_quad(inverses: &mut [Inverse8; STATES]) -> Vec<&mut Complex32> {
    let mut all = Vec::with_capacity(64 * STATES);
    for quad in inverses.chunks_exact_mut(4) {
        let mut lanes: Vec<_> = quad
            .iter_mut()
            .map(|p| p.as_flattened_mut().iter_mut())
            .collect();
        for _ in 0..64 {
            all.extend(lanes.iter_mut().filter_map(|lane| lane.next()));
        }
    }
    all
}

/// The digest with all real parts, then all imaginary ones.
pub fn mixed_planes(h: u64, values: &[&mut Complex32]) -> u64 {
    let real = values.iter().map(|z| bits32(z.real));
    real.chain(values.iter().map(|z| bits32(z.imaginary)))
        .fold(h, folded)
}

/// The digest with drifts and inverses.
pub fn mixed_drift(h: u64, drift: &mut DriftState) -> u64 {
    let h = mixed_planes(h, &by_tap(&mut drift.drift));
    mixed_planes(h, &by_quad(&mut drift.inverse))
}

/// What a step is given: of each state its parent and its prediction.
pub struct Given {
    pub parents: [usize; STATES],
    pub predictions: [Complex32; STATES],
    pub input: Complex32,
    pub reliable: bool,
}

/// An update of one state: its inverse before and after, and its four symbols.
pub struct Update<'a> {
    pub before: &'a Inverse8,
    pub after: &'a Inverse8,
    pub symbols: [Complex32; 4],
}

#[derive(Clone)]
pub struct Tracker {
    pub taps: Taps,
    pub drift: Box<DriftState>,
}

impl Tracker {
    pub fn of(s: &Sequence) -> Self {
        Self {
            taps: s.channels,
            drift: s.drift.clone(),
        }
    }

    pub fn fresh() -> Self {
        Self::of(&Sequence::new(Tracking::Drift))
    }

    fn advance(&mut self) {
        for state in 0..STATES {
            let drift = &self.drift.drift[state];
            let inverse = &mut self.drift.inverse[state];
            drift_predict(&mut self.taps[state], drift, inverse);
        }
    }

    /// A step as `Sequence::process` takes it. `seen` is told of every update.
    pub fn step(&mut self, given: &Given, seen: &mut impl FnMut(Update)) {
        if given.reliable {
            self.advance();
        }
        let before = self.clone();
        for state in 0..STATES {
            let parent = given.parents[state];
            let h = &mut self.taps[state];
            let d = &mut self.drift.drift[state];
            let p = &mut self.drift.inverse[state];
            *h = before.taps[parent];
            *d = before.drift.drift[parent];
            *p = before.drift.inverse[parent];
            if given.reliable {
                let path = [state % 4, parent % 4, parent / 4 % 4, parent / 16];
                let symbols = path.map(|place| SYMBOLS[place]);
                let error = Complex32 {
                    real: given.input.real - given.predictions[state].real,
                    imaginary: given.input.imaginary - given.predictions[state].imaginary,
                };
                drift_update(h, d, p, &symbols, error);
                seen(Update {
                    before: &before.drift.inverse[parent],
                    after: p,
                    symbols,
                });
            }
        }
    }

    /// The digest of all taps, drifts and inverses.
    pub fn digest(&mut self) -> u64 {
        let h = mixed_planes(0, &by_tap(&mut self.taps));
        mixed_drift(h, &mut self.drift)
    }
}

/// For the self-test: steps by hand against the upstream's own, given the parents that it chose.
pub fn tested() -> Verdict {
    const STEPS: usize = 4000;
    let mut random = Random::new(12);
    let mut s = Sequence::new(Tracking::Drift);
    for n in 0..STEPS {
        let mut part = || match random.below(400) {
            0 => f32::from_bits(random.word() as u32),
            k => k as f32 / 100.0 - 2.0,
        };
        let input = Complex32 {
            real: part(),
            imaginary: part(),
        };
        let reliable = random.below(5) != 0;
        let mut hand = Tracker::of(&s);
        s.process(input, reliable);
        hand.step(&chosen(&hand, &s, input, reliable), &mut |_| ());
        if hand.digest() != Tracker::of(&s).digest() {
            return Err(format!("step {n} differs"));
        }
        // A NaN tap stays for good.
        let mut taps = hand.taps.iter().flatten();
        if taps.any(|z| !(z.real + z.imaginary).is_finite()) {
            s = Sequence::new(Tracking::Drift);
        }
    }
    Ok(format!("{STEPS} steps agree"))
}

/// What the detector's last step gave its tracker, which stood as `before`.
fn chosen(before: &Tracker, s: &Sequence, input: Complex32, reliable: bool) -> Given {
    let mut ahead = before.clone();
    if reliable {
        ahead.advance();
    }
    let last = (s.write + s.history.len() - 1) % s.history.len();
    let parents = s.history[last].map(|parent| parent as usize);
    let predictions =
        std::array::from_fn(|k| prediction(&ahead.taps[parents[k]], parents[k], k % 4));
    Given {
        parents,
        predictions,
        input,
        reliable,
    }
}
