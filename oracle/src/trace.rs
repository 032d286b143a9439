//! Every stage's values: the opened upstream parts driven by hand, in the upstream order, with the
//! few sums between them written out here. The self-test compares this with the upstream's own run.

use crate::admitted::admitted;
use crate::calls::{fresh_for, load_file};
use crate::dsp::{Carrier, Resampler, SymbolChain};
use crate::helpers::{bits32, bits64};
use crate::options::Options;
use crate::samples::SampleFile;
use crate::sequence::Sequence;
use crate::trellis::{first_cheapest, raw_costs};
use crate::{chosen, Complex32, Demodulator};
use std::f64::consts::PI;
use std::io::{self, BufWriter, Write};

/// The stages in their order, and what a line of each holds.
pub const STAGES: [(&str, &str); 14] = [
    ("mixer", "mixed value; oscillator; renormalising counter"),
    ("decimator", "value (with decimation 1 the mixed one)"),
    ("resampler", "value"),
    ("peak", "peak, reference, reliable, gain; levelled value"),
    ("clock", "21 values, then 21 derivatives; or `none`"),
    ("equalizer", "symbol; timing error"),
    ("timing", "clock phase, rate, start, count, position"),
    (
        "detector",
        "input; best state, its cost; phase error, error power, noise; equalized or `none`; \
         dibit and reliabilities or `none`",
    ),
    ("costs", "the 64 costs after the step"),
    ("channels", "four taps of each of 64 states after the step"),
    ("carrier", "phase, frequency, alternation, error, locked"),
    ("view", "point"),
    (
        "dibit",
        "as delivered, by profile: value, first reliability, second",
    ),
    ("second", "the second stream's dibit, the same way"),
];

/// A dibit and its two reliabilities.
pub type Decision = (u8, [u8; 2]);

pub fn run(words: &[&str]) -> Result<(), String> {
    let options = Options::parse(words, &[])?;
    options.only(&["profile", "state"])?;
    let [stage] = options.words() else {
        return Err("trace STAGE; oracle/run help lists the stages".into());
    };
    if *stage != "all" && !STAGES.iter().any(|(name, _)| name == stage) {
        return Err(format!("no stage {stage}; oracle/run help lists them"));
    }
    let file = SampleFile::read(&mut io::stdin())?;
    let mut state = match options.text("state") {
        Some(path) => load_file(path)?,
        None => fresh_for(&file, options.number("profile", 0)?)?,
    };
    admitted(&state).map_err(|clause| format!("the state is not admitted: {clause}"))?;
    let mut output = BufWriter::new(io::stdout());
    let mut failure = Ok(());
    let mut print = |name: &str, values: &dyn Fn() -> String| {
        let wide = name == "costs" || name == "channels";
        if name == *stage || (*stage == "all" && !wide) {
            if let Err(e) = writeln!(output, "{name} {}", values()) {
                failure = Err(e.to_string());
            }
        }
    };
    traced(&mut state.demodulator, &file.samples, &mut print);
    output.flush().map_err(|e| e.to_string())?;
    failure
}

/// Takes a stage's name and, where it wants them, its values.
pub type Print<'a> = dyn FnMut(&str, &dyn Fn() -> String) + 'a;

/// The samples through every stage; the decisions of both streams in order.
pub fn traced(d: &mut Demodulator, samples: &[Complex32], print: &mut Print) -> Vec<[Decision; 2]> {
    let mut decisions = Vec::new();
    for sample in samples {
        let sample = mixed(d, *sample);
        print("mixer", &|| {
            let oscillator = [d.oscillator_real, d.oscillator_imaginary].map(hex64);
            format!(
                "{} {} {}",
                pair(sample),
                oscillator.join(" "),
                d.renormalize
            )
        });
        for value in resampled(&mut d.resampler, sample, print) {
            print("resampler", &|| pair(value));
            decisions.extend(decided(&mut d.symbols, value, print));
        }
    }
    decisions
}

/// The values that a sample makes due.
pub fn front(d: &mut Demodulator, sample: Complex32) -> Vec<Complex32> {
    let sample = mixed(d, sample);
    resampled(&mut d.resampler, sample, &mut |_, _| {})
}

/// A sample turned by the oscillator, which then turns itself.
pub fn mixed(d: &mut Demodulator, sample: Complex32) -> Complex32 {
    let (x, y) = (sample.real as f64, sample.imaginary as f64);
    let (c, s) = (d.oscillator_real, d.oscillator_imaginary);
    let (real, imaginary) = (x * c - y * s, x * s + y * c);
    d.oscillator_real = c * d.step_real - s * d.step_imaginary;
    d.oscillator_imaginary = c * d.step_imaginary + s * d.step_real;
    d.renormalize += 1;
    if d.renormalize == 4096 {
        let (c, s) = (d.oscillator_real, d.oscillator_imaginary);
        let size = (c * c + s * s).sqrt();
        d.oscillator_real = c / size;
        d.oscillator_imaginary = s / size;
        d.renormalize = 0;
    }
    let turned = if d.symbols.profile == 1 {
        -imaginary
    } else {
        imaginary
    };
    Complex32 {
        real: real as f32,
        imaginary: turned as f32,
    }
}

/// The outputs that a mixed sample makes due.
fn resampled(r: &mut Resampler, sample: Complex32, print: &mut Print) -> Vec<Complex32> {
    let before = r.input_index;
    let mut values = Vec::new();
    r.process(sample, &mut |value| values.push(value));
    if r.input_index > before {
        let last = r.ring[(r.write + r.ring.len() - 1) % r.ring.len()];
        print("decimator", &|| pair(last));
    }
    values
}

/// A resampled value through the chain.
fn decided(chain: &mut SymbolChain, value: Complex32, print: &mut Print) -> Option<[Decision; 2]> {
    let (levelled, reliable) = levelled(chain, value, print)?;
    let windows = chain.clock.process(levelled);
    print("clock", &|| match &windows {
        None => "none".to_string(),
        Some((values, derivatives)) => {
            let all: Vec<String> = values.iter().chain(derivatives).map(|v| pair(*v)).collect();
            all.join(" ")
        }
    });
    let (values, derivatives) = windows?;
    let (symbol, timing_error) = chain.equalizer.process(&values, &derivatives, reliable);
    print("equalizer", &|| {
        format!("{} {}", pair(symbol), hex32(timing_error))
    });
    chain.clock.update(timing_error);
    print("timing", &|| {
        let c = &chain.clock;
        let loop_values = [c.phase, c.rate].map(hex32).join(" ");
        format!("{loop_values} {} {} {}", c.start, c.count, c.position)
    });
    let first = followed(&mut chain.carrier, symbol, reliable, print);
    // The stages that are printed are the first's.
    let second = match &mut chain.alternate {
        Some(alternate) => followed(alternate, symbol, reliable, &mut |_, _| ()),
        None => first,
    };
    chain.signal.push(chain.carrier.sequence.equalized());
    print("view", &|| {
        let view = &chain.signal;
        pair(view.ring[(view.head + view.ring.len() - 1) % view.ring.len()])
    });
    let decisions = [first?, second?];
    chain.symbols += 1;
    chain.locked_symbols += i64::from(chain.carrier.locked);
    let delivered = decisions.map(|(dibit, soft)| relabelled(chain.profile, dibit, soft));
    for (stream, decision) in ["dibit", "second"].into_iter().zip(delivered) {
        print(stream, &|| {
            let (dibit, [first, second]) = decision;
            format!("{dibit} {first} {second}")
        });
    }
    Some(delivered)
}

/// The peak keeper: the oldest of 64 values at the gain of their peak, and whether it is reliable.
fn levelled(
    chain: &mut SymbolChain,
    value: Complex32,
    print: &mut Print,
) -> Option<(Complex32, bool)> {
    chain.agc[chain.head] = value;
    chain.head = (chain.head + 1) % 64;
    chain.fill = (chain.fill + 1).min(64);
    if chain.fill < 64 {
        return None;
    }
    let envelope = |v: &Complex32| {
        let (x, y) = (v.real.abs(), v.imaginary.abs());
        x.max(y) + 0.4 * x.min(y)
    };
    let peak = chain.agc.iter().map(envelope).fold(0.0, f32::max);
    chain.reference_peak = peak.max(chain.reference_peak * 0.99995);
    let least = chain.reference_peak * 0.08;
    let reliable = peak > 1e-12 && peak >= least;
    let gain = 1.0 / peak.max(least).max(1e-12);
    let oldest = chain.agc[chain.head];
    let levelled = Complex32 {
        real: oldest.real * gain,
        imaginary: oldest.imaginary * gain,
    };
    print("peak", &|| {
        let levels = [peak, chain.reference_peak].map(hex32).join(" ");
        let reliable = reliable as u8;
        format!("{levels} {reliable} {} {}", hex32(gain), pair(levelled))
    });
    Some((levelled, reliable))
}

/// The carrier loop around the detector.
fn followed(
    carrier: &mut Carrier,
    symbol: Complex32,
    reliable: bool,
    print: &mut Print,
) -> Option<Decision> {
    let angle = carrier.phase + carrier.alternation as f64 * PI / 4.0;
    let (s, c) = chosen::sine_cosine(angle);
    let (x, y) = (symbol.real as f64, symbol.imaginary as f64);
    let input = Complex32 {
        real: (x * c + y * s) as f32,
        imaginary: (y * c - x * s) as f32,
    };
    let (decision, phase_error, power) = detected(&mut carrier.sequence, input, reliable, print);
    let error = phase_error.clamp(-0.5, 0.5) as f64;
    carrier.frequency = (carrier.frequency + 0.003 * error).clamp(-0.65, 0.65);
    let phase = carrier.phase + (carrier.frequency + 0.2 * error);
    let turns = (phase / (2.0 * PI)).round_ties_even();
    carrier.phase = phase - turns * (2.0 * PI);
    carrier.error = 0.98 * carrier.error + 0.02 * power.sqrt() as f64;
    carrier.locked = reliable && carrier.error < 0.4;
    carrier.alternation = (carrier.alternation + 1) % 8;
    print("carrier", &|| {
        let [phase, frequency, error] =
            [carrier.phase, carrier.frequency, carrier.error].map(hex64);
        let (alternation, locked) = (carrier.alternation, carrier.locked as u8);
        format!("{phase} {frequency} {alternation} {error} {locked}")
    });
    decision
}

/// One step of the detector.
fn detected(
    s: &mut Sequence,
    input: Complex32,
    reliable: bool,
    print: &mut Print,
) -> (Option<Decision>, f32, f32) {
    let sums = raw_costs(s, input, reliable);
    let best = first_cheapest(&sums);
    let answer = s.process(input, reliable);
    print("detector", &|| {
        let (decision, phase_error, power) = answer;
        let cost = hex32(sums[best]);
        let loop_values = [phase_error, power, s.noise].map(hex32).join(" ");
        let equalized = s.equalized.map_or("none".to_string(), pair);
        let decision = decision.map_or("none".to_string(), |(dibit, [first, second])| {
            format!("{dibit} {first} {second}")
        });
        format!(
            "{} {best} {cost} {loop_values} {equalized} {decision}",
            pair(input)
        )
    });
    print("costs", &|| s.costs.map(hex32).join(" "));
    print("channels", &|| {
        let all: Vec<String> = s.channels.iter().flatten().map(|h| pair(*h)).collect();
        all.join(" ")
    });
    answer
}

/// The labels of profile 1 are those of a conjugated signal.
fn relabelled(profile: i32, dibit: u8, soft: [u8; 2]) -> Decision {
    if profile == 1 {
        let [first, second] = soft;
        ([0, 3, 1, 2][dibit as usize], [second, first.min(second)])
    } else {
        (dibit, soft)
    }
}

fn hex32(x: f32) -> String {
    format!("{:08x}", bits32(x))
}

fn hex64(x: f64) -> String {
    format!("{:016x}", bits64(x))
}

fn pair(v: Complex32) -> String {
    format!("{} {}", hex32(v.real), hex32(v.imaginary))
}
