//! The oracle's test of itself: clean signals are received right, the hand-driven stages give what
//! the upstream's own run gives, with the second enabled and without, and so does the hand-driven
//! second tracker, whose list meets every edge; one stream is the first of two; states survive dump
//! and load, admitted states stay admitted, the five routines are as near the machine's as document 01
//! asks, and overload is counted by its table.

use crate::admitted::admitted;
use crate::calls::block;
use crate::generator::generated;
use crate::plan::Plan;
use crate::random::Random;
use crate::random_state::random_state;
use crate::state::State;
use crate::table::unmet;
use crate::trace::traced;
use crate::trellis::{first_cheapest, raw_costs};
use crate::{accuracy, drift_list, overload, tracker, Complex32};

/// What was found, or what failed.
pub type Verdict = Result<String, String>;

const BLOCK: usize = 1024;
/// The symbols after which a clean signal has been found.
const SETTLED: usize = 200;
const RANDOM_STATES: u64 = 400;

pub fn run(words: &[&str]) -> Result<(), String> {
    let states = match words {
        [] => RANDOM_STATES,
        [count] => count.parse().map_err(|_| "STATES is a whole number")?,
        _ => return Err("selftest [STATES]".into()),
    };
    let mut failures = 0;
    let mut report = |name: String, verdict: Verdict| match verdict {
        Ok(detail) => println!("ok      {name}: {detail}"),
        Err(detail) => {
            println!("FAILED  {name}: {detail}");
            failures += 1;
        }
    };
    for (rate, offset, profile) in [
        (48000.0, 0.0, 0),
        (384000.0, 0.0, 0),
        (48000.0, 3000.0, 1),
        (9600.0, -599.0, 0),
        (2400000.0, 250000.0, 0),
    ] {
        let name = format!("clean signal, rate {rate}, offset {offset}, profile {profile}");
        report(name, clean(rate, offset, profile));
    }
    for channel in CHANNELS {
        let plan = planned(channel)?;
        report(format!("stages by hand, {channel}"), by_hand(&plan));
        report(format!("dump and load midway, {channel}"), midway(&plan));
        report(format!("enabled late, {channel}"), enabled_late(&plan));
    }
    report("document 01's numbers".into(), numbers_to_meet());
    report("overload".into(), overload::tested());
    report("random states".into(), random_states(states));
    report("raw costs".into(), raw_costs_agree());
    report("second tracker by hand".into(), tracker::tested());
    report("drift list".into(), drift_list::tested());
    report("sine and cosine".into(), accuracy::circle());
    report("arctangent".into(), accuracy::arctangent());
    report("hypotenuse".into(), accuracy::hypotenuse());
    if failures == 0 {
        Ok(())
    } else {
        Err(format!("{failures} tests failed"))
    }
}

fn numbers_to_meet() -> Verdict {
    match unmet() {
        None => Ok("P1 to P10 and 11 to 14 are met".into()),
        Some(name) => Err(format!("{name} is not met")),
    }
}

/// A signal through a fresh receiver, block by block; the dibits.
fn received(plan: &Plan, samples: &[Complex32]) -> Result<Vec<u8>, String> {
    let mut state = State::fresh(plan.rate, plan.offset, plan.profile);
    let mut dibits = Vec::new();
    for samples in samples.chunks(BLOCK) {
        let answer = block(&mut state, samples).map_err(|n| format!("refused {n}"))?;
        dibits.extend(answer.dibits);
    }
    Ok(dibits)
}

/// Past the first symbols every dibit of a clean signal is the sent one.
fn clean(rate: f64, offset: f64, profile: i32) -> Verdict {
    let plan = Plan {
        rate,
        offset,
        profile,
        samples: (rate / 2.0) as usize,
        ..Plan::default()
    };
    let made = generated(&plan);
    let dibits = received(&plan, &made.file.samples)?;
    let wrong_at = |shift: i64| {
        (SETTLED..dibits.len())
            .filter(|&i| {
                let k = usize::try_from(i as i64 + shift).ok();
                k.and_then(|k| made.sent.get(k)) != Some(&dibits[i])
            })
            .count()
    };
    let shift = (-100..100)
        .min_by_key(|&shift| wrong_at(shift))
        .unwrap_or(0);
    let (wrong, of) = (wrong_at(shift), dibits.len().saturating_sub(SETTLED));
    if wrong == 0 && of > SETTLED {
        Ok(format!(
            "{of} dibits right, dibit i is sent dibit i + {shift}"
        ))
    } else {
        Err(format!("{wrong} of {of} dibits wrong"))
    }
}

/// What channels do, at several rates and for both profiles.
const CHANNELS: [&str; 17] = [
    "--rate 48000",
    "--profile 1 --offset -7000",
    "--noise 0.2",
    "--noise 3 --seed 2",
    "--noise 0.05 --echo 1.25,0.8,0.3",
    "--noise 0.02 --fade 3,0.99",
    "--neighbour 6250,30,12000",
    "--noise 0.1 --drift 150",
    "--amplitude 2 --clip 1",
    "--huge",
    "--rate 384000 --amplitude 3e37",
    "--tiny",
    "--amplitude 1e-42",
    "--rate 9600 --noise 0.1",
    "--rate 10929 --offset 500 --noise 0.1",
    "--rate 383999",
    "--rate 20000000 --offset -9000000",
];

/// A channel's plan, long enough for dibits to come.
fn planned(channel: &str) -> Result<Plan, String> {
    let mut plan = Plan::of(channel)?;
    plan.samples = (plan.rate / 50.0) as usize + 24_000;
    Ok(plan)
}

/// The stages driven by hand against the upstream's own run: decisions and the whole state.
fn by_hand(plan: &Plan) -> Verdict {
    let samples = generated(plan).file.samples;
    let fresh = || State::fresh(plan.rate, plan.offset, plan.profile);
    let count = same_run(fresh(), fresh(), &samples)?;
    let enabled = || {
        let mut state = fresh();
        state.enable();
        state
    };
    let both = same_run(enabled(), enabled(), &samples)?;
    if both != count {
        return Err(format!("{count} dibits, but {both} with the second"));
    }
    Ok(format!(
        "{count} dibits, their reliabilities and the state agree, with the second and without"
    ))
}

fn same_run(mut own: State, mut hand: State, samples: &[Complex32]) -> Result<usize, String> {
    let mut count = 0;
    for samples in samples.chunks(BLOCK) {
        let answer = block(&mut own, samples).map_err(|n| format!("refused {n}"))?;
        let decisions = traced(&mut hand.demodulator, samples, &mut |_, _| ());
        hand.total += samples.len() as u64;
        if decisions != answer.decisions() {
            return Err("decisions differ".into());
        }
        if own.to_bytes() != hand.to_bytes() {
            return Err(format!(
                "states differ: {}",
                first_difference(&mut own, &mut hand)
            ));
        }
        admitted(&own).map_err(|clause| format!("no longer admitted: {clause}"))?;
        count += decisions.len();
    }
    Ok(count)
}

fn first_difference(a: &mut State, b: &mut State) -> String {
    let (a, b) = (a.listing(), b.listing());
    let differs = a.lines().zip(b.lines()).find(|(x, y)| x != y);
    differs.map_or("lengths".into(), |(x, y)| format!("{x} against {y}"))
}

/// A run through dump and load in its middle against one without.
fn midway(plan: &Plan) -> Verdict {
    let samples = generated(plan).file.samples;
    let (first, second) = samples.split_at(samples.len() / 2);
    let mut straight = State::fresh(plan.rate, plan.offset, plan.profile);
    for samples in first.chunks(BLOCK) {
        block(&mut straight, samples).map_err(|n| format!("refused {n}"))?;
    }
    let bytes = straight.to_bytes();
    let mut loaded = State::from_bytes(&bytes)?;
    if loaded.to_bytes() != bytes {
        return Err("a loaded state dumps differently".into());
    }
    let count = same_run(straight, loaded, second)?;
    Ok(format!(
        "{} bytes, {count} dibits after it agree",
        bytes.len()
    ))
}

/// The symbols for which both streams are silent after an enabling.
const SILENT: usize = 31;

/// Enabled once dibits come, and again before every later block: the first stream is that of a receiver without the second,
/// less the silent symbols; the call of one stream gives the first of two.
fn enabled_late(plan: &Plan) -> Verdict {
    let samples = generated(plan).file.samples;
    let fresh = || State::fresh(plan.rate, plan.offset, plan.profile);
    let (mut alone, mut late, mut one) = (fresh(), fresh(), fresh());
    let (mut expected, mut streams, mut silent) = (Vec::new(), Vec::new(), SILENT);
    for samples in samples.chunks(BLOCK) {
        let enabled = !streams.is_empty();
        if enabled {
            late.enable();
            one.enable();
        }
        let answer = |state: &mut State| block(state, samples).map_err(|n| format!("refused {n}"));
        let given = answer(&mut alone)?.decisions();
        let skipped = if enabled { silent.min(given.len()) } else { 0 };
        silent -= skipped;
        expected.extend(given[skipped..].iter().map(|[first, _]| *first));
        let pairs = answer(&mut late)?.decisions();
        streams.extend(pairs.iter().map(|[first, _]| *first));
        let mut dibits = vec![0; 2 * samples.len() + 4];
        let mut soft = vec![[0; 2]; dibits.len()];
        let count = one.demodulator.process_soft(samples, &mut dibits, Some(&mut soft));
        one.total += samples.len() as u64;
        let single = dibits.into_iter().zip(soft).take(count);
        if !single.eq(pairs.iter().map(|[first, _]| *first)) || one.to_bytes() != late.to_bytes() {
            return Err("one stream is not the first of two".into());
        }
        if !enabled && pairs.iter().any(|[first, second]| first != second) {
            return Err("before enabling the streams differ".into());
        }
    }
    if streams != expected {
        return Err("the first stream is another than without the second".into());
    }
    let counted = late.demodulator.symbols.symbols as usize;
    if counted != streams.len() {
        return Err(format!("{} dibits, {counted} counted", streams.len()));
    }
    Ok(format!(
        "{counted} dibits, {} silent symbols not among them",
        SILENT - silent
    ))
}

/// Random admitted states: dump and load, then both runs, and admitted after every block.
fn random_states(states: u64) -> Verdict {
    let mut dibits = 0;
    for seed in 0..states {
        let name = |reason: String| format!("seed {seed}: {reason}");
        let mut own = random_state(seed);
        let bytes = own.to_bytes();
        let hand = State::from_bytes(&bytes).map_err(name)?;
        let room = (crate::admitted::MOST_SAMPLES - own.total).min(3000) as usize;
        let plan = Plan {
            samples: room,
            noise: 0.1,
            rate: 20000.0,
            seed,
            amplitude: [0.5, 1e-20, 1e20, 1.0][(seed / 4 % 4) as usize],
            ..Plan::default()
        };
        dibits += same_run(own, hand, &generated(&plan).file.samples).map_err(name)?;
    }
    Ok(format!(
        "{states} states, {dibits} dibits agree, all stay admitted"
    ))
}

/// The sums that a trace shows are those that the detector takes its best cost off.
fn raw_costs_agree() -> Verdict {
    let mut random = Random::new(7);
    for seed in 0..RANDOM_STATES {
        let mut state = random_state(seed);
        let s = &mut state.demodulator.symbols.carrier.sequence;
        for _ in 0..8 {
            let part = |word: u64| (word % 4001) as f32 / 1000.0 - 2.0;
            let input = Complex32 {
                real: part(random.word()),
                imaginary: part(random.word()),
            };
            let sums = raw_costs(s, input, seed % 3 != 0);
            let best = sums[first_cheapest(&sums)];
            s.process(input, seed % 3 != 0);
            let same = |(after, sum): (&f32, &f32)| {
                let taken_off = sum - best;
                *after == taken_off || (after.is_nan() && taken_off.is_nan())
            };
            if !s.costs.iter().zip(&sums).all(same) {
                return Err(format!("seed {seed}: costs differ"));
            }
        }
    }
    Ok("all costs are the sums less the best".into())
}
