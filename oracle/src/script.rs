//! Scripts of calls: setups, blocks, constellation reads and handed-in states, and what the Rust
//! answers to each, with document 01's refusals around it. `crates/replay_receiver` reads the same
//! scripts and answers them with the proved receiver.
//!
//! README.md says how a script is laid out, and what is answered.

use crate::admitted::{admitted, MOST_SAMPLES};
use crate::helpers::{bits32, bits64};
use crate::list::folded;
use crate::overload::overloads;
use crate::receive::accepted;
use crate::samples::{read_full, word64};
use crate::second::Made;
use crate::state::{State, SECOND, STATE_WORDS, UNREAD};
use crate::{Complex32, Snapshot};
use std::io::{self, BufReader, BufWriter, Read, Write};

pub const TABLE_FLOATS: usize = 18_440;
pub const MOST_FLOATS: usize = 131_080;
const LONGEST_BLOCK: usize = 65_536;

/// Both halves of a word.
fn halves(word: u64) -> [f32; 2] {
    [word as u32, (word >> 32) as u32].map(f32::from_bits)
}

/// Floats two to a word, the last alone where their number is odd.
pub fn packed(floats: &[f32]) -> Vec<u64> {
    let pair = |p: &[f32]| {
        let high = p.get(1).map_or(0, |x| u64::from(x.to_bits()));
        u64::from(p[0].to_bits()) | high << 32
    };
    floats.chunks(2).map(pair).collect()
}

/// The floats of a seed: from -gain to gain in steps of gain x 2^-23.
pub fn seeded(seed: u64, gain: f32, floats: usize) -> Vec<f32> {
    let mut s = seed;
    let mut next = || {
        s = folded(s, 1);
        ((s >> 40) as f32 / 8_388_608.0 - 1.0) * gain
    };
    (0..floats).map(|_| next()).collect()
}

/// The state and the table that the entries work on.
struct Desk {
    words: Vec<u64>,
    table: Vec<f32>,
}

struct Line {
    refusal: u64,
    count: u64,
    answer: u64,
}

/// What a block is lent: bytes of the streams, and floats of the table.
struct Rooms {
    dibits: [usize; 2],
    reliabilities: [usize; 2],
    table: usize,
}

/// What an accepted block answers besides what it was lent.
type Taken = (u64, u64, Snapshot);

/// What a call came to, over a script.
#[derive(Default)]
struct Count {
    calls: u64,
    refused: u64,
    samples: u64,
    dibits: u64,
    /// Of the samples, those on an enabled receiver, and the calls that took them.
    enabled_calls: u64,
    enabled_samples: u64,
}

/// What a script came to.
#[derive(Default)]
struct Counts {
    blocks: Count,
    both: Count,
    /// Setups, reads and enablings.
    others: Count,
    enablings: u64,
    states: u64,
    /// Of them, and of these those whose second a call then moved.
    enabled_states: u64,
    moved: u64,
}

impl Counts {
    fn add(&mut self, head: &[u64], line: &Line, enabled: bool) {
        let count = match head[0] {
            1 => &mut self.blocks,
            6 => &mut self.both,
            _ => &mut self.others,
        };
        count.calls += 1;
        if line.refusal > 0 {
            count.refused += 1;
            return;
        }
        self.enablings += u64::from(head[0] == 7);
        if head[0] == 1 || head[0] == 6 {
            count.samples += head[1] / 2;
            count.dibits += line.count;
            if enabled {
                count.enabled_calls += 1;
                count.enabled_samples += head[1] / 2;
            }
        }
    }

    fn report(&self) {
        for (name, c) in [("take", &self.blocks), ("take_both", &self.both)] {
            eprintln!(
                "{name}: {} calls, {} of them refused, {} samples, {} dibits; enabled: {} calls, {} samples",
                c.calls, c.refused, c.samples, c.dibits, c.enabled_calls, c.enabled_samples
            );
        }
        eprintln!(
            "{} setups, reads and enablings, {} of them refused; {} enabled",
            self.others.calls, self.others.refused, self.enablings
        );
        eprintln!(
            "{} states handed in, {} of them enabled, the second moved in {}",
            self.states, self.enabled_states, self.moved
        );
    }
}

pub fn answers() -> Result<(), String> {
    let mut input = BufReader::with_capacity(1 << 20, io::stdin());
    let mut output = BufWriter::new(io::stdout());
    let mut desk = Desk {
        words: vec![0; STATE_WORDS],
        table: vec![0.0; TABLE_FLOATS],
    };
    let mut counts = Counts::default();
    // The second's digest as it was handed in, until it moves.
    let mut given: Option<u64> = None;
    let mut handed_in = false;
    let digest = |words: &[u64]| words.iter().fold(0, |h, &x| folded(h, x));
    while let Some(head) = next_words(&mut input, 8, true)? {
        let Some(line) = desk.entry(&head, &mut input)? else {
            if head[0] == 4 || head[0] == 5 {
                handed_in = true;
                let second = &desk.words[SECOND..];
                given = (second[0] == 1).then(|| digest(second));
            }
            continue;
        };
        let (first, second) = desk.words.split_at(SECOND);
        let enabled = second[0] == 1;
        let (state, second) = (digest(first), digest(second));
        counts.add(&head, &line, enabled);
        counts.states += u64::from(handed_in);
        counts.enabled_states += u64::from(handed_in && enabled);
        handed_in = false;
        if given.is_some_and(|before| before != second) {
            counts.moved += 1;
            given = None;
        }
        let first = line.refusal + 16 * line.count;
        writeln!(output, "{first:016x} {:016x} {state:016x} {second:016x}", line.answer)
            .map_err(|e| e.to_string())?;
    }
    counts.report();
    output.flush().map_err(|e| e.to_string())
}

/// So many words, or nothing where the input ends before the first and may.
fn next_words(input: &mut impl Read, count: usize, may_end: bool) -> Result<Option<Vec<u64>>, String> {
    let mut bytes = vec![0; 8 * count];
    let got = read_full(input, &mut bytes)?;
    if got == 0 && count > 0 && may_end {
        return Ok(None);
    }
    if got < bytes.len() {
        return Err("the script ends inside an entry".into());
    }
    Ok(Some(bytes.chunks_exact(8).map(word64).collect()))
}

fn floats_of(input: &mut impl Read, floats: usize) -> Result<Vec<f32>, String> {
    let words = next_words(input, floats.div_ceil(2), false)?.unwrap_or_default();
    let mut all: Vec<f32> = words.into_iter().flat_map(halves).collect();
    all.truncate(floats);
    Ok(all)
}

impl Desk {
    fn entry(&mut self, head: &[u64], input: &mut impl Read) -> Result<Option<Line>, String> {
        let size = |at: usize, most: usize| match usize::try_from(head[at]) {
            Ok(n) if n <= most => Ok(n),
            _ => Err(format!("entry {head:x?}: word {at} is above {most}")),
        };
        match head[0] {
            0 => {
                let (rate, offset) = (f64::from_bits(head[1]), f64::from_bits(head[2]));
                let room = size(4, TABLE_FLOATS)?;
                Ok(Some(self.set_up(rate, offset, head[3] as i32, room)))
            }
            1 | 6 => {
                let floats = size(1, MOST_FLOATS)?;
                let others = match head[0] {
                    1 => [0, 0],
                    _ => [head[7] as u32 as usize, (head[7] >> 32) as usize],
                };
                if others.iter().any(|&room| room > 4 * MOST_FLOATS) {
                    return Err(format!("entry {head:x?}: more is lent than there is"));
                }
                let rooms = Rooms {
                    dibits: [size(2, 4 * MOST_FLOATS)?, others[0]],
                    reliabilities: [size(3, 4 * MOST_FLOATS)?, others[1]],
                    table: size(4, TABLE_FLOATS)?,
                };
                let samples = match head[5] {
                    0 => floats_of(input, floats)?,
                    seed => seeded(seed, f32::from_bits(head[6] as u32), floats),
                };
                Ok(Some(self.block(&samples, rooms, head[0] == 6)))
            }
            2 => Ok(Some(self.read(size(1, MOST_FLOATS)?))),
            3 => {
                self.words[size(1, STATE_WORDS - 1)?] = head[2];
                Ok(None)
            }
            4 => {
                let floats = size(1, TABLE_FLOATS)?;
                let given = if head[2] == 1 { STATE_WORDS } else { SECOND };
                self.words = next_words(input, given, false)?.unwrap_or_default();
                self.words.resize(STATE_WORDS, 0);
                self.leave_unread();
                let table = floats_of(input, floats)?;
                self.table[..floats].copy_from_slice(&table);
                Ok(None)
            }
            5 => {
                self.words.truncate(SECOND);
                self.words.extend(Made::from_words(&head[1..]).words());
                Ok(None)
            }
            7 => Ok(Some(self.enable())),
            _ => Err(format!("no entry is called {}", head[0])),
        }
    }

    fn set_up(&mut self, rate: f64, offset: f64, profile: i32, room: usize) -> Line {
        for (i, tap) in self.table.iter_mut().enumerate() {
            *tap = f32::from_bits(0x4000_0000 + i as u32);
        }
        let refusal = self.fresh(rate, offset, profile, room).err().unwrap_or(0);
        if refusal > 0 {
            self.words.fill(0);
        }
        let answer = self.table.iter().fold(0, |h, &x| folded(h, bits32(x)));
        Line {
            refusal,
            count: 0,
            answer: folded(answer, refusal),
        }
    }

    fn fresh(&mut self, rate: f64, offset: f64, profile: i32, room: usize) -> Result<(), u64> {
        accepted(rate, offset).map_err(u64::from)?;
        let state = State::fresh(rate, offset, profile);
        if room < 32 * state.arm_length() {
            return Err(3);
        }
        let taps = state.demodulator.resampler.arms.iter().flatten();
        for (place, &tap) in self.table.iter_mut().zip(taps) {
            *place = tap;
        }
        self.keep(state);
        Ok(())
    }

    fn keep(&mut self, mut state: State) {
        let bytes = state.to_bytes();
        self.words = bytes[..8 * STATE_WORDS].chunks_exact(8).map(word64).collect();
        self.leave_unread();
    }

    /// The equalized observations are no part of ours.
    fn leave_unread(&mut self) {
        for range in UNREAD {
            self.words[range].fill(0);
        }
    }

    /// The state on the desk with the first 32c floats of the table, if it is admitted.
    fn state(&self) -> Option<State> {
        let arm = usize::try_from(self.words[21]).ok().filter(|&c| c <= 576)?;
        let taps = self.table[..32 * arm].iter().map(|x| u64::from(x.to_bits()));
        let words = self.words.iter().copied().chain(taps);
        let bytes: Vec<u8> = words.flat_map(u64::to_le_bytes).collect();
        let state = State::from_bytes(&bytes).ok()?;
        admitted(&state).ok()?;
        Some(state)
    }

    fn block(&mut self, floats: &[f32], rooms: Rooms, both: bool) -> Line {
        let lent = |room: usize, modulus: usize| (0..room).map(|i| (i % modulus) as u8).collect();
        let mut streams: [[Vec<u8>; 2]; 2] = [
            [lent(rooms.dibits[0], 251), lent(rooms.reliabilities[0], 241)],
            [lent(rooms.dibits[1], 239), lent(rooms.reliabilities[1], 233)],
        ];
        let outcome = self.run(floats, rooms.table, &mut streams, both);
        let (refusal, (count, overload, snapshot)) = match outcome {
            Ok(taken) => (0, taken),
            Err(refusal) => (refusal, (0, 0, Snapshot::default())),
        };
        let answer = [
            refusal,
            count,
            overload,
            snapshot.symbols as u64,
            snapshot.locked_symbols as u64,
            bits64(snapshot.carrier_error),
            bits64(snapshot.frequency_offset_hz),
            snapshot.carrier_locked as u64,
        ];
        let lent = streams.iter().flatten().flatten();
        let all = answer.into_iter().chain(lent.map(|&x| u64::from(x)));
        Line {
            refusal,
            count,
            answer: all.fold(0, folded),
        }
    }

    /// Checks 7, 3, 4, 6, 5, then the Rust's own block of one stream or of both.
    fn run(
        &mut self,
        floats: &[f32],
        table_room: usize,
        streams: &mut [[Vec<u8>; 2]; 2],
        both: bool,
    ) -> Result<Taken, u64> {
        let mut state = self.state().ok_or(7_u64)?;
        if table_room < 32 * state.arm_length() {
            return Err(3);
        }
        let n = floats.len() / 2;
        let total = state.total + n as u64;
        if floats.len() % 2 == 1 || n > LONGEST_BLOCK || total > MOST_SAMPLES {
            return Err(4);
        }
        let short = |[dibits, reliabilities]: &[Vec<u8>; 2]| {
            dibits.len() < 2 * n + 4 || reliabilities.len() < 4 * n + 8
        };
        if short(&streams[0]) || (both && short(&streams[1])) {
            return Err(6);
        }
        if !floats.iter().all(|x| x.is_finite()) {
            return Err(5);
        }
        let sample = |p: &[f32]| Complex32 {
            real: p[0],
            imaginary: p[1],
        };
        let samples: Vec<Complex32> = floats.chunks_exact(2).map(sample).collect();
        let [[dibits, reliabilities], [others, other_reliabilities]] = streams;
        let mut soft = vec![[0; 2]; dibits.len()];
        let mut other_soft = vec![[0; 2]; others.len()];
        let count = if both {
            let softs = [&mut soft[..], &mut other_soft[..]];
            state.demodulator.process_dual(&samples, [dibits, others], softs)
        } else {
            state.demodulator.process_soft(&samples, dibits, Some(&mut soft))
        };
        put_pairs(reliabilities, &soft[..count]);
        if both {
            put_pairs(other_reliabilities, &other_soft[..count]);
        }
        state.total = total;
        let snapshot = state.demodulator.snapshot();
        self.keep(state);
        Ok((count as u64, overloads(&samples), snapshot))
    }

    /// 7 and the state as given, or the state enabled.
    fn enable(&mut self) -> Line {
        let refusal = match self.state() {
            None => 7,
            Some(mut state) => {
                state.enable();
                self.keep(state);
                0
            }
        };
        Line {
            refusal,
            count: 0,
            answer: folded(0, refusal),
        }
    }

    fn read(&mut self, room: usize) -> Line {
        let mut floats: Vec<f32> = (0..room)
            .map(|i| f32::from_bits(0x4000_0000 + i as u32))
            .collect();
        let (refusal, count, error) = match self.state() {
            None => (7, 0, 0.0),
            Some(state) => {
                let mut points = vec![Complex32::default(); room / 2];
                let (count, error) = state.demodulator.read_signal(&mut points);
                for (pair, point) in floats.chunks_exact_mut(2).zip(&points[..count]) {
                    pair.copy_from_slice(&[point.real, point.imaginary]);
                }
                (0, count as u64, error)
            }
        };
        let lent = floats.iter().map(|&x| bits32(x));
        let all = [refusal, count, bits64(error)].into_iter().chain(lent);
        Line {
            refusal,
            count,
            answer: all.fold(0, folded),
        }
    }
}

fn put_pairs(bytes: &mut [u8], pairs: &[[u8; 2]]) {
    for (place, pair) in bytes.chunks_exact_mut(2).zip(pairs) {
        place.copy_from_slice(pair);
    }
}
