//! What a generated signal is to be, from options.

use crate::options::Options;

const NAMES: [&str; 17] = [
    "rate",
    "offset",
    "samples",
    "seed",
    "profile",
    "amplitude",
    "noise",
    "echo",
    "fade",
    "neighbour",
    "onset",
    "drift",
    "clip",
    "bits",
    "huge",
    "tiny",
    "sent",
];

/// The options without a value.
pub const FLAGS: [&str; 2] = ["huge", "tiny"];

/// What is sent and what the channel does to it. Levels are against a signal of power 1.
pub struct Plan {
    pub rate: f64,
    pub offset: f64,
    pub samples: usize,
    pub seed: u64,
    pub profile: i32,
    /// The signal's level in the file.
    pub amplitude: f64,
    /// The deviation of each part's noise.
    pub noise: f64,
    /// Delay in symbols, gain, turn in parts of a circle.
    pub echo: Option<[f64; 3]>,
    /// Fades a second, and how much of the level the deepest takes.
    pub fade: Option<[f64; 2]>,
    /// Distance in Hz, gain, and the sample from which it is off.
    pub neighbour: Option<[f64; 3]>,
    /// The sample from which the signal itself is on: until then there is the neighbour and noise.
    pub onset: usize,
    /// The sender's clock is fast by this many parts in a million.
    pub drift: f64,
    /// The largest size of a part.
    pub clip: Option<f64>,
    /// The bits of the converter that the file's parts come from.
    pub bits: Option<i32>,
}

impl Default for Plan {
    fn default() -> Self {
        Self {
            rate: 48000.0,
            offset: 0.0,
            samples: 48000,
            seed: 1,
            profile: 0,
            amplitude: 0.5,
            noise: 0.0,
            echo: None,
            fade: None,
            neighbour: None,
            onset: 0,
            drift: 0.0,
            clip: None,
            bits: None,
        }
    }
}

impl Plan {
    /// The plan of a line of options.
    pub fn of(line: &str) -> Result<Self, String> {
        let words: Vec<&str> = line.split_whitespace().collect();
        Self::from_options(&Options::parse(&words, &FLAGS)?)
    }

    pub fn from_options(options: &Options) -> Result<Self, String> {
        options.only(&NAMES)?;
        if !options.words().is_empty() {
            return Err("signal takes options only".into());
        }
        let usual = Self::default();
        let amplitude = if options.has("huge") {
            1e30
        } else if options.has("tiny") {
            1e-30
        } else {
            options.number("amplitude", usual.amplitude)?
        };
        let clip = match options.text("clip") {
            Some(_) => Some(options.number("clip", 1.0)?),
            None => None,
        };
        let bits = match options.text("bits") {
            Some(_) => Some(options.number("bits", 16)?),
            None => None,
        };
        let plan = Self {
            rate: options.number("rate", usual.rate)?,
            offset: options.number("offset", usual.offset)?,
            samples: options.number("samples", usual.samples)?,
            seed: options.number("seed", usual.seed)?,
            profile: options.number("profile", usual.profile)?,
            amplitude,
            noise: options.number("noise", usual.noise)?,
            echo: options.numbers("echo", 3)?.map(|v| [v[0], v[1], v[2]]),
            fade: options.numbers("fade", 2)?.map(|v| [v[0], v[1]]),
            neighbour: options.numbers("neighbour", 3)?.map(|v| [v[0], v[1], v[2]]),
            onset: options.number("onset", usual.onset)?,
            drift: options.number("drift", usual.drift)?,
            clip,
            bits,
        };
        if plan.bits.is_some_and(|bits| !(1..=24).contains(&bits)) {
            return Err("--bits: 1 to 24, which an f32 holds".into());
        }
        if plan.samples > u32::MAX as usize {
            return Err("--samples: at most 4,294,967,295".into());
        }
        Ok(plan)
    }
}
