//! The customer's story: a strong neighbour, then silence, then a weak channel. A line for each dibit,
//! with its two reliabilities, and after each chapter what the front still holds of the neighbour.
//! `crates/story` answers the same with the proved receiver. Its samples are
//!
//!     oracle/run signal --rate 384000 --offset 12500 --samples 24576 --seed 7 --amplitude 0.004 \
//!         --neighbour 25000,160,4096 --onset 6144

use crate::helpers::bits32;
use crate::list::folded;
use crate::receive::write_dibits;
use crate::samples::SampleFile;
use crate::state::State;
use crate::Complex32;
use std::io::{self, BufWriter, Write};

const BLOCK: usize = 1024;
/// The blocks of each chapter.
const NEIGHBOUR: usize = 4;
const SILENCE: usize = 2;
const WEAK: usize = 18;

pub fn run() -> Result<(), String> {
    let file = SampleFile::read(&mut io::stdin())?;
    if file.samples.len() != BLOCK * (NEIGHBOUR + SILENCE + WEAK) {
        return Err("not the story's samples".into());
    }
    let mut output = BufWriter::new(io::stdout());
    told(&file, &mut output)
        .and_then(|()| output.flush())
        .map_err(|e| e.to_string())
}

fn told(file: &SampleFile, output: &mut impl Write) -> io::Result<()> {
    let mut with = State::fresh(file.rate, file.offset, 0);
    let mut without = State::fresh(file.rate, file.offset, 0);
    let mut unlike = Vec::new();
    for (k, block) in file.samples.chunks_exact(BLOCK).enumerate() {
        let quiet = [Complex32::default(); BLOCK];
        let (dibits, soft) = heard(&mut with, block);
        heard(&mut without, if k < NEIGHBOUR { &quiet } else { block });
        unlike.push(values(&with) != values(&without));
        write_dibits(&dibits, &soft, output)?;
        if k + 1 == NEIGHBOUR {
            let last = last_value(&mut with);
            let what = "the last decimated value that is not 0 comes with sample";
            writeln!(output, "neighbour off: {what} {last}")?;
        }
        if k + 1 == NEIGHBOUR + SILENCE {
            let rest = &file.samples[BLOCK * (NEIGHBOUR + SILENCE)..];
            left(&mut with, file.rate, rest, output)?;
        }
    }
    let count = |blocks: &[bool]| blocks.iter().filter(|&&x| x).count();
    let (first, rest) = unlike.split_at(NEIGHBOUR);
    let (second, third) = rest.split_at(SILENCE);
    let [first, second, third] = [first, second, third].map(count);
    writeln!(
        output,
        "blocks whose values from the front are unlike those without the neighbour: \
         {first} of {NEIGHBOUR}, {second} of {SILENCE}, {third} of {WEAK}"
    )
}

fn heard(state: &mut State, block: &[Complex32]) -> (Vec<u8>, Vec<[u8; 2]>) {
    let mut dibits = vec![0; 2 * BLOCK + 4];
    let mut soft = vec![[0; 2]; 2 * BLOCK + 4];
    let count = state
        .demodulator
        .process_soft(block, &mut dibits, Some(&mut soft));
    dibits.truncate(count);
    soft.truncate(count);
    (dibits, soft)
}

/// The peak keeper holds the last 64 values from the front; a block makes 52 at most.
fn values(state: &State) -> u64 {
    let kept = &state.demodulator.symbols.agc;
    let real = kept.iter().map(|v| bits32(v.real));
    real.chain(kept.iter().map(|v| bits32(v.imaginary)))
        .fold(0, folded)
}

fn copied(state: &mut State) -> State {
    State::from_bytes(&state.to_bytes()).expect("a state reads what it wrote")
}

/// The decimated value that a sample makes, if it makes one.
fn decimated(state: &mut State, sample: Complex32) -> Option<Complex32> {
    let r = &mut state.demodulator.resampler;
    let before = r.input_index;
    r.process(sample, &mut |_| {});
    (r.input_index > before).then(|| r.ring[(r.write + r.ring.len() - 1) % r.ring.len()])
}

fn is_zero(v: Complex32) -> bool {
    v.real == 0.0 && v.imaginary == 0.0
}

/// Of samples that are 0, the last with a decimated value that is not.
fn last_value(state: &mut State) -> usize {
    let mut state = copied(state);
    let mut last = 0;
    for n in 1..=BLOCK * SILENCE {
        if decimated(&mut state, Complex32::default()).is_some_and(|v| !is_zero(v)) {
            last = n;
        }
    }
    last
}

fn left(
    state: &mut State,
    rate: f64,
    rest: &[Complex32],
    output: &mut impl Write,
) -> io::Result<()> {
    let ring = &state.demodulator.resampler.ring;
    let held = ring.iter().filter(|&&v| !is_zero(v)).count();
    let places = ring.len();
    let mut state = copied(state);
    let mut fresh = State::fresh(rate, 0.0, 0);
    let (mut made, mut unlike) = (0, 0);
    for &sample in rest {
        let ours = decimated(&mut state, sample).map(pair);
        let other = decimated(&mut fresh, sample).map(pair);
        made += u64::from(ours.is_some());
        unlike += u64::from(ours != other);
    }
    writeln!(
        output,
        "silence over: values in the ring that are not 0: {held} of {places}"
    )?;
    writeln!(
        output,
        "decimated values after it unlike a fresh decimator's: {unlike} of {made}"
    )
}

fn pair(v: Complex32) -> [u64; 2] {
    [bits32(v.real), bits32(v.imaginary)]
}
