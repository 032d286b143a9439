//! The oracle: the upstream receiver, opened, and our driver around it. One subcommand each.

// The upstream files, changed by oracle/build.
#[allow(dead_code)]
mod dsp;
#[allow(dead_code)]
mod equalizer;
#[allow(dead_code)]
mod receiver;
#[allow(dead_code)]
mod sequence;
#[allow(dead_code)]
mod signal;

// receiver.rs finds these beside itself.
use dsp::{Complex32, Demodulator, Snapshot};

// Where the upstream calls go: ours in one binary, the machine's in the other.
#[allow(dead_code)]
mod platform;
#[allow(dead_code)]
mod routines;

mod accuracy;
mod admitted;
mod bench;
mod calls;
mod chain_list;
mod chosen;
mod clock_list;
mod drift_edges;
mod drift_list;
mod equalizer_list;
mod decimator_list;
mod fading;
mod front_list;
mod generator;
mod help;
mod helpers;
mod list;
mod made;
mod numbers;
mod options;
mod oscillator_list;
mod overload;
mod plan;
mod random;
mod random_state;
mod receive;
mod recording_list;
mod resampler_list;
mod routine_list;
mod samples;
mod script;
mod script_writer;
mod second;
mod selftest;
mod sequence_list;
mod state;
mod story;
mod table;
mod tables;
mod taps;
mod trace;
mod tracker;
mod trellis;
mod view_list;
mod words;

use sequence::Tracking;
use std::process::ExitCode;

type Outcome = Result<(), String>;

fn main() -> ExitCode {
    let arguments: Vec<String> = std::env::args().skip(1).collect();
    let words: Vec<&str> = arguments.iter().map(String::as_str).collect();
    match run(&words) {
        Ok(()) => ExitCode::SUCCESS,
        Err(message) => {
            eprintln!("oracle: {message}");
            ExitCode::FAILURE
        }
    }
}

fn run(words: &[&str]) -> Outcome {
    match words {
        ["help"] => help::print(),
        ["receive"] => receive::receive(),
        ["signal", rest @ ..] => generator::run(rest),
        ["trace", rest @ ..] => trace::run(rest),
        ["state", rest @ ..] => calls::run(rest),
        ["random-state", seed] => calls::write_random(seed),
        ["numbers", rest @ ..] => numbers::run(rest),
        ["routines", rest @ ..] => routine_list::run(rest),
        ["view", rest @ ..] => view_list::run(rest),
        ["equalizer", rest @ ..] => equalizer_list::run(rest),
        ["decimator", rest @ ..] => decimator_list::run(rest),
        ["drift", rest @ ..] => drift_list::run(rest),
        ["chain", rest @ ..] => chain_list::run(rest),
        ["clock", rest @ ..] => clock_list::run(rest),
        ["front", rest @ ..] => front_list::run(rest),
        ["oscillator", rest @ ..] => oscillator_list::run(rest),
        ["sequence", rest @ ..] => sequence_list::run(Tracking::Lms, rest),
        ["sequence-drift", rest @ ..] => sequence_list::run(Tracking::Drift, rest),
        ["recordings", rest @ ..] => recording_list::run(rest),
        ["tables", rest @ ..] => tables::run(rest),
        ["resampler", rest @ ..] => resampler_list::run(rest),
        ["taps", rest @ ..] => taps::run(rest),
        ["fading", rest @ ..] => fading::run(rest),
        ["bench"] => bench::run(),
        ["size", rate] => bench::size(rate),
        ["script", rest @ ..] => script_writer::run(rest),
        ["story"] => story::run(),
        ["selftest", rest @ ..] => selftest::run(rest),
        _ => Err("no such subcommand; oracle/run help lists them".into()),
    }
}
