//! The list of runs that the second tracker is replayed on, and the upstream's answers to it.
//!
//! A run is a row of 8-byte words: what is asked; the seed; the kind of the floats of taps and drifts,
//! of the inverses, and of predictions and input; the number of steps; the number of places that are
//! set, and for each of them a word, the place among the inverses in its high half and the pattern in
//! its low half. What is asked: 0, every step is reliable; 1, the seed says which are.
//!
//! The state is a fresh one, filled from the seed: real parts of the taps, imaginary parts, those of
//! the drifts, those of the inverses (`tracker` says in which order they stand); then the places are
//! set. Each step goes on from the seed: a word w for each state s, whose parent is s / 4 + 16 (w % 4);
//! over zeros, the real parts of the 64 predictions, their imaginary parts, and the input's two parts;
//! a word, and where it is asked, the step is unreliable if 4 divides it. A step's answer is a line,
//! the digest of the whole state after it in the order in which it is filled.

use crate::drift_edges::{denominators, traces, Entry, Met, TAP_MINUS_ZERO};
use crate::made::{self, Made};
use crate::random::Random;
use crate::samples::word64;
use crate::tracker::{by_quad, by_tap, Given, Tracker, STATES};
use crate::Complex32;
use std::io::{self, BufWriter, Read, Write};

const HEAD: usize = 7;
const INVERSES: usize = 64 * STATES;

pub fn run(words: &[&str]) -> Result<(), String> {
    match words {
        ["inputs"] => write_inputs(),
        ["answers"] => write_answers(),
        ["counts"] => {
            print!("{}", met(&read()?)?);
            Ok(())
        }
        _ => Err("inputs, answers or counts".into()),
    }
}

#[derive(Clone, Default)]
struct Run {
    asked: u64,
    seed: u64,
    taps: u64,
    inverses: u64,
    inputs: u64,
    steps: u64,
    /// Place and number.
    set: Vec<(usize, f32)>,
}

impl Run {
    fn words(&self) -> Vec<u64> {
        let mut words = vec![
            self.asked,
            self.seed,
            self.taps,
            self.inverses,
            self.inputs,
            self.steps,
            self.set.len() as u64,
        ];
        let set = self.set.iter();
        words.extend(set.map(|(place, x)| (*place as u64) << 32 | x.to_bits() as u64));
        words
    }

    /// The run at the head of the words, and the words after it.
    fn from_words(words: &[u64]) -> Option<(Self, &[u64])> {
        let (head, body) = words.split_at_checked(HEAD)?;
        let (set, after) = body.split_at_checked(head[6] as usize)?;
        let run = Self {
            asked: head[0],
            seed: head[1],
            taps: head[2],
            inverses: head[3],
            inputs: head[4],
            steps: head[5],
            set: set
                .iter()
                .map(|word| ((word >> 32) as usize, f32::from_bits(*word as u32)))
                .collect(),
        };
        Some((run, after))
    }

    fn tracker(&self, made: &mut Made) -> Tracker {
        let mut tracker = Tracker::fresh();
        made.planes(self.taps, by_tap(&mut tracker.taps).into_iter());
        made.planes(self.taps, by_tap(&mut tracker.drift.drift).into_iter());
        let mut inverses = by_quad(&mut tracker.drift.inverse);
        made.planes(self.inverses, inverses.iter_mut().map(|z| &mut **z));
        for (place, x) in &self.set {
            let z = &mut inverses[place % INVERSES];
            if *place < INVERSES {
                z.real = *x;
            } else {
                z.imaginary = *x;
            }
        }
        tracker
    }

    fn given(&self, made: &mut Made) -> Given {
        let parents = std::array::from_fn(|state| state / 4 + 16 * (made.word() % 4) as usize);
        let mut predictions = [Complex32::default(); STATES];
        made.planes(self.inputs, predictions.iter_mut());
        let input = Complex32 {
            real: made.part(self.inputs, 0.0),
            imaginary: made.part(self.inputs, 0.0),
        };
        let word = made.word();
        Given {
            parents,
            predictions,
            input,
            reliable: self.asked == 0 || word % 4 != 0,
        }
    }
}

fn read() -> Result<Vec<Run>, String> {
    let mut bytes = Vec::new();
    io::stdin()
        .read_to_end(&mut bytes)
        .map_err(|e| e.to_string())?;
    let words: Vec<u64> = bytes.chunks_exact(8).map(word64).collect();
    let mut rest = &words[..];
    let mut runs = Vec::new();
    while !rest.is_empty() {
        let (run, after) = Run::from_words(rest).ok_or("the list ends inside a run")?;
        runs.push(run);
        rest = after;
    }
    Ok(runs)
}

fn write_answers() -> Result<(), String> {
    let mut output = BufWriter::new(io::stdout());
    for run in read()? {
        let mut made = Made::new(run.seed);
        let mut tracker = run.tracker(&mut made);
        for _ in 0..run.steps {
            tracker.step(&run.given(&mut made), &mut |_| ());
            writeln!(output, "{:016x}", tracker.digest()).map_err(|e| e.to_string())?;
        }
    }
    output.flush().map_err(|e| e.to_string())
}

fn met(runs: &[Run]) -> Result<Met, String> {
    let mut met = Met::default();
    for run in runs {
        let mut made = Made::new(run.seed);
        let mut tracker = run.tracker(&mut made);
        for _ in 0..run.steps {
            let given = run.given(&mut made);
            let mut outcome = Ok(());
            tracker.step(&given, &mut |update| {
                if outcome.is_ok() {
                    outcome = met.update(&update);
                }
            });
            outcome?;
            met.step(&mut tracker, given.reliable);
        }
    }
    Ok(met)
}

/// For the self-test: the list meets everything that is counted.
pub fn tested() -> Result<String, String> {
    let met = met(&inputs()?)?;
    match met.missing() {
        None => Ok("every renewal and every edge is met".into()),
        Some(name) => Err(format!("never met: {name}")),
    }
}

fn write_inputs() -> Result<(), String> {
    let mut output = BufWriter::new(io::stdout());
    for word in inputs()?.iter().flat_map(Run::words) {
        output
            .write_all(&word.to_le_bytes())
            .map_err(|e| e.to_string())?;
    }
    output.flush().map_err(|e| e.to_string())
}

/// A list in the making.
struct List {
    runs: Vec<Run>,
    random: Random,
}

fn inputs() -> Result<Vec<Run>, String> {
    let mut list = List {
        runs: Vec::new(),
        random: Random::new(11),
    };
    list.from_fresh();
    list.handed_in();
    list.zeros()?;
    for asked in [0, 1] {
        list.cases(asked, &denominators()?);
        list.cases(asked, &traces());
    }
    for _ in 0..12 {
        list.scattered();
    }
    Ok(list.runs)
}

/// Numbers that stand alone among ordinary ones.
const LONE: [f32; 14] = [
    f32::MAX,
    f32::MIN,
    1.7e38,
    -1.7e38,
    1e30,
    -1e30,
    1e20,
    -1e19,
    1e10,
    -1e4,
    1e-45,
    -1e-40,
    -0.0,
    -4.0,
];

impl List {
    fn seed(&mut self) -> u64 {
        self.random.below(1 << 32)
    }

    /// As a detector begins, with errors of a few sizes.
    fn from_fresh(&mut self) {
        for (asked, inputs) in [(0, made::MODERATE), (1, made::MODERATE), (1, made::SIGNED)] {
            let run = Run {
                asked,
                seed: self.seed(),
                inputs,
                steps: 40,
                ..Run::default()
            };
            self.runs.push(run);
        }
    }

    /// A few steps from inverses of each kind, with taps, predictions and inputs of any.
    fn handed_in(&mut self) {
        for inverses in made::KEPT..=made::SIGNED {
            for _ in 0..5 {
                let run = Run {
                    asked: self.random.below(2),
                    seed: self.seed(),
                    taps: self.random.below(8),
                    inverses,
                    inputs: self.random.below(8),
                    steps: 4,
                    set: Vec::new(),
                };
                self.runs.push(run);
            }
        }
    }

    /// Errors of 0 and taps of -0 that stay so.
    fn zeros(&mut self) -> Result<(), String> {
        loop {
            let run = Run {
                seed: self.seed(),
                taps: made::SPECIAL,
                steps: 2,
                ..Run::default()
            };
            if met(std::slice::from_ref(&run))?.has(TAP_MINUS_ZERO) {
                self.runs.push(run);
                return Ok(());
            }
        }
    }

    /// Sixteen inverses, each in the four states that can be the parent of the same four.
    fn cases(&mut self, asked: u64, cases: &[Vec<Entry>]) {
        let mut set = Vec::new();
        for (case, entries) in cases.iter().enumerate() {
            for state in (case..STATES).step_by(16) {
                for (row, column, z) in entries {
                    let place = 256 * (state / 4) + 4 * (8 * row + column) + state % 4;
                    set.push((place, z.real));
                    if z.imaginary.to_bits() != 0 {
                        set.push((INVERSES + place, z.imaginary));
                    }
                }
            }
        }
        let run = Run {
            asked,
            seed: self.seed(),
            taps: [made::MODERATE, made::SPECIAL][asked as usize],
            inputs: made::MODERATE,
            steps: 3,
            set,
            ..Run::default()
        };
        self.runs.push(run);
    }

    /// Fresh inverses in which a number or two are others.
    fn scattered(&mut self) {
        let set = (0..2 * STATES)
            .map(|k| {
                let state = k % STATES;
                let place = 256 * (state / 4) + 4 * self.random.below(64) as usize + state % 4;
                let part = INVERSES * self.random.below(2) as usize;
                (part + place, LONE[self.random.below(14) as usize])
            })
            .collect();
        let run = Run {
            asked: self.random.below(2),
            seed: self.seed(),
            taps: made::MODERATE,
            inputs: made::MODERATE,
            steps: 4,
            set,
            ..Run::default()
        };
        self.runs.push(run);
    }
}
