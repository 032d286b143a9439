//! The help text of all subcommands.

use crate::trace::STAGES;

const BEFORE_STAGES: &str = "\
oracle/run SUBCOMMAND ..    the upstream receiver with our five routines

SAMPLES is a sample file of document 01, STATE a dumped state, LIST a list of inputs.

  receive < SAMPLES
      the sample program: a line per dibit, then four closing lines or `refused N`

  signal [OPTION VALUE ..] > SAMPLES
      a pi/4-DQPSK signal, the same on every machine:
      --rate HZ (48000)  --offset HZ (0)  --samples N (48000)  --seed N (1)  --profile P (0)
      --amplitude A (0.5)  --huge (1e30)  --tiny (1e-30)  --clip LEVEL
      --bits N (what a converter of N bits gives: -1 up to a step below 1)
      --noise DEVIATION  --drift PPM  --echo SYMBOLS,GAIN,TURN  --fade HZ,DEPTH
      --neighbour HZ,GAIN,SAMPLES (off from then on)  --onset SAMPLES (the signal is on from then on)
      --sent FILE (the sent dibits, a line each)

  trace STAGE [--profile P | --state STATE] < SAMPLES
      a line per value of the stage: its name, then bit patterns in hex and whole numbers, a
      complex number as real, imaginary; STAGE `all` gives all but costs and channels; they are:
";

const AFTER_STAGES: &str = "
  state dump [--profile P] < SAMPLES > STATE
      the state after the samples, from a fresh receiver with the file's settings
  state load STATE [--lines FILE] < SAMPLES > STATE
      the state after one block from STATE (as given where refused); FILE gets the answer's first stream
  state enable < STATE > STATE
      the state with the second enabled (as given where it is not admitted)
  state show < STATE
      a line per word: name and value in hex
  state view ROOM < STATE
      the constellation read with room for ROOM points
  state admitted < STATE
      `admitted`, or `not admitted` with the first clause that fails
  random-state SEED > STATE
      a random admitted state with a random tap table

  numbers inputs > LIST | numbers answers < LIST | numbers explain K < LIST
      the list of inputs for the number helpers, records of three 8-byte words; a line per record,
      the digest of all answers in 16 hex digits; or record K (from 0) with every answer by name
  routines inputs > LIST | routines answers < LIST | routines explain K < LIST
      the same for the five routines
  decimator inputs > LIST | decimator answers < LIST
      runs of samples for the decimator, each with its state; a line per run, the digest of its
      values and its last state
  resampler inputs > LIST | resampler answers < LIST
      the same for the filter design and the resampler; the samples are made from seeds

  view inputs > LIST | view answers < LIST
      pushes and reads of the constellation view, and a digest of what each answered
  equalizer inputs > LIST | equalizer answers < LIST
      windows, weights and flags of the equalizer, and a digest of each step

  clock inputs > LIST | clock answers < LIST
      samples, updates and handed-in places for clock recovery; a line per record, the digest of the
      place after it and of a sample's windows
  oscillator inputs > LIST | oscillator answers < LIST
      runs of the mixer; a line per run, the digest of its samples and oscillators
  front inputs > LIST | front answers < LIST
      runs of mixer, decimator and resampler together; a line per run, the digest of its values and
      its last state
  chain inputs > LIST | chain answers < LIST
      rows of values for the chain, from fresh and from states made from seeds, with the second and
      without; a line per row, the digest of its dibits and of the whole state after it
  sequence inputs > LIST | sequence answers < LIST
      runs of the detector, from fresh and from states made from seeds; a line per step, the digest of
      its answer and of the whole state after it
  sequence-drift inputs > LIST | sequence-drift answers < LIST
      the same for a detector with the second tracker
  drift inputs > LIST | drift answers < LIST | drift counts < LIST
      runs of the second tracker from given parents and predictions; a line per step, the digest of all
      taps, drifts and inverses after it; or how often the list meets each edge
  recordings inputs > LIST | recordings answers < LIST
      recordings for the sample program: each refusal that it can give, each way to be malformed, and
      good ones; a line with number and length, then what the program writes
  tables source | tables bits
      crates/taps/src/table.rt and crates/taps/specs/TapBits.antt, as oracle/check-tables wants them

  taps matched | taps derivative | taps table RATE
      the matched filter's 1,025 taps, their derivatives, or a rate's tap table, a line each
  script edges | script signals SEED COUNT | script states SEED COUNT > LIST
      calls of the receiver: the edges of every check; signals cut into blocks; states and tables that
      no setup made (README.md says how a script is laid out)
  script answers < LIST
      a line per setup, block, read and enabling: refusal and count, digest of the answer and of what was
      lent, digest of the first's state, digest of the second's; what came to each call, to standard error
  story < SAMPLES
      a neighbour that goes off, silence, a weak channel: the dibits, and what is left of the neighbour
      (src/story.rs says of which signal)
  fading [OPTION VALUE ..]
      the errors of both streams over two fading paths, a line for each Doppler shift and delay: bit
      errors, windows in which a stream moved, wrong dibits with both reliabilities above 128:
      --seed N (1)  --symbols N (101000)  --window DIBITS (200, aligned at once)
  bench < FOUR WORDS
      what bench/run times
  size RATE
      the bytes of a receiver: itself, ring, drift tracking, the resampler's taps, the clock's tables

  selftest [STATES]
      the oracle's test of itself, on so many random states (400)
  help
      this text
";

pub fn print() -> Result<(), String> {
    print!("{BEFORE_STAGES}");
    for (stage, values) in STAGES {
        println!("        {stage:10} {values}");
    }
    print!("{AFTER_STAGES}");
    Ok(())
}
