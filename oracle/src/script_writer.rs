//! Writes scripts: the edges of every check for the gate, and random signals and states for the
//! comparison at scale.

use crate::generator::generated;
use crate::overload::around_the_ends;
use crate::plan::Plan;
use crate::random::Random;
use crate::random_state::random_state;
use crate::made;
use crate::script::{packed, TABLE_FLOATS};
use crate::second::Made;
use crate::sequence_list::Start;
use crate::state::{SECOND, STATE_WORDS};
use crate::Complex32;
use std::io::{self, BufWriter, Write};

pub fn run(words: &[&str]) -> Result<(), String> {
    let number = |text: &str| text.parse().map_err(|_| format!("{text}: not a whole number"));
    let mut script = Script {
        output: BufWriter::with_capacity(1 << 20, Box::new(io::stdout())),
        failure: None,
    };
    match words {
        ["answers"] => return crate::script::answers(),
        ["edges"] => edges(&mut script),
        ["signals", seed, count] => {
            for k in 0..number(count)? {
                signal(&mut script, number(seed)? + k);
            }
        }
        ["states", seed, count] => {
            for k in 0..number(count)? {
                state(&mut script, number(seed)? + k);
            }
        }
        _ => return Err("script edges, signals SEED COUNT, states SEED COUNT or answers".into()),
    }
    script.finished()
}

struct Script {
    output: BufWriter<Box<dyn Write>>,
    failure: Option<String>,
}

/// What a block is lent.
#[derive(Clone, Copy)]
struct Rooms {
    dibits: usize,
    reliabilities: usize,
    table: usize,
    /// The second stream's, where both are taken.
    others: Option<[usize; 2]>,
}

impl Rooms {
    /// Just enough for so many floats.
    fn exact(floats: usize) -> Self {
        let n = floats / 2;
        Self {
            dibits: 2 * n + 4,
            reliabilities: 4 * n + 8,
            table: TABLE_FLOATS,
            others: None,
        }
    }

    /// Just enough of both streams.
    fn both(floats: usize) -> Self {
        let n = floats / 2;
        Self {
            others: Some([2 * n + 4, 4 * n + 8]),
            ..Self::exact(floats)
        }
    }
}

impl Script {
    fn words(&mut self, words: &[u64]) {
        for word in words {
            if let Err(e) = self.output.write_all(&word.to_le_bytes()) {
                self.failure.get_or_insert(e.to_string());
            }
        }
    }

    fn head(&mut self, words: &[u64]) {
        let mut head = [0; 8];
        head[..words.len()].copy_from_slice(words);
        self.words(&head);
    }

    fn finished(mut self) -> Result<(), String> {
        let flushed = self.output.flush().map_err(|e| e.to_string());
        self.failure.map_or(flushed, Err)
    }

    fn set_up(&mut self, rate: f64, offset: f64, profile: i32, room: usize) {
        let profile = i64::from(profile) as u64;
        self.head(&[0, rate.to_bits(), offset.to_bits(), profile, room as u64]);
    }

    fn block(&mut self, floats: &[f32], rooms: Rooms) {
        self.block_head(floats.len(), rooms, 0, 0);
        self.words(&packed(floats));
    }

    fn noise(&mut self, floats: usize, rooms: Rooms, seed: u64, gain: f32) {
        self.block_head(floats, rooms, seed, gain.to_bits().into());
    }

    fn block_head(&mut self, floats: usize, rooms: Rooms, seed: u64, gain: u64) {
        let [others, other_reliabilities] = rooms.others.unwrap_or_default();
        self.head(&[
            if rooms.others.is_some() { 6 } else { 1 },
            floats as u64,
            rooms.dibits as u64,
            rooms.reliabilities as u64,
            rooms.table as u64,
            seed,
            gain,
            others as u64 | (other_reliabilities as u64) << 32,
        ]);
    }

    fn enable(&mut self) {
        self.head(&[7]);
    }

    fn second(&mut self, made: &Made) {
        let mut head = vec![5];
        head.extend(made.to_words());
        self.head(&head);
    }

    fn read(&mut self, room: usize) {
        self.head(&[2, room as u64]);
    }

    fn word(&mut self, place: usize, value: u64) {
        self.head(&[3, place as u64, value]);
    }
}

fn flat(samples: &[Complex32]) -> Vec<f32> {
    samples.iter().flat_map(|s| [s.real, s.imaginary]).collect()
}

// ---- the edges of every check

const AMPLE: usize = TABLE_FLOATS;

fn edges(s: &mut Script) {
    setups(s);
    refusals(s);
    lengths(s);
    overloads(s);
    clauses(s);
    for line in [
        "--rate 48000 --samples 3000 --noise 0.05",
        "--rate 48000 --samples 2500 --offset 3000 --profile 1 --echo 1.5,0.4,0.3",
        "--rate 384000 --samples 6000 --neighbour 40000,30,3000 --amplitude 0.02",
    ] {
        let plan = Plan::of(line).expect("the plan's options are ours");
        s.set_up(plan.rate, plan.offset, plan.profile, AMPLE);
        for samples in generated(&plan).file.samples.chunks(1000) {
            let floats = flat(samples);
            s.block(&floats, Rooms::exact(floats.len()));
        }
        s.read(2048);
    }
    second_edges(s);
}

/// Both neighbours of a positive number, and itself.
fn around(x: f64) -> [f64; 3] {
    [-1_i64, 0, 1].map(|k| f64::from_bits(x.to_bits().wrapping_add_signed(k)))
}

fn setups(s: &mut Script) {
    let odd = [f64::NAN, f64::INFINITY, f64::NEG_INFINITY, 0.0, -0.0, -9600.0, 1e300];
    for rate in odd.into_iter().chain(around(9600.0)).chain(around(2e7)) {
        s.set_up(rate, 0.0, 0, AMPLE);
        s.set_up(rate, f64::NAN, 0, 0);
    }
    for (rate, limit) in [(9600.0, 600.0), (48000.0, 19800.0), (2e7, 9_995_800.0)] {
        for size in around(limit).into_iter().chain([0.0, limit - 0.5, f64::INFINITY]) {
            for offset in [size, -size] {
                s.set_up(rate, offset, 1, AMPLE);
                s.set_up(rate, offset, 0, 0);
            }
        }
    }
    for (rate, arm) in [
        (9600.0, 14),
        (10929.0, 16),
        (341666.0, 512),
        (341667.0, 513),
        (383999.0, 576),
        (384000.0, 288),
        (2e7, 385),
    ] {
        for room in [0, 32 * arm - 1, 32 * arm, 32 * arm + 1] {
            s.set_up(rate, 0.0, 0, room);
        }
    }
    for profile in [0, 1, 2, -1] {
        s.set_up(48000.0, 1.0, profile, AMPLE);
        s.noise(600, Rooms::exact(600), 5, 1.0);
    }
}

/// Every refusal of a block alone and with each other.
fn refusals(s: &mut Script) {
    const KINDS: [u32; 5] = [7, 3, 4, 6, 5];
    for first in KINDS {
        for second in KINDS {
            s.set_up(48000.0, 0.0, 0, AMPLE);
            s.noise(400, Rooms::exact(400), 1, 1.25);
            let bad = |kind| first == kind || second == kind;
            let mut floats: Vec<f32> = (0..40).map(|i| i as f32 / 16.0).collect();
            if bad(4) {
                floats.pop();
            }
            if bad(5) {
                floats[3] = f32::NAN;
            }
            let mut rooms = Rooms::exact(40);
            if bad(6) {
                rooms.dibits -= 1;
            }
            if bad(3) {
                rooms.table = 32 * 72 - 1;
            }
            if bad(7) {
                s.word(37, 0);
                s.word(38, 8);
            }
            s.block(&floats, rooms);
            s.read(50);
        }
    }
}

fn lengths(s: &mut Script) {
    s.set_up(48000.0, -100.0, 0, AMPLE);
    for floats in [0, 1, 2, 3, 128] {
        let exact = Rooms::exact(floats);
        let dibits = Rooms { dibits: exact.dibits - 1, ..exact };
        let reliabilities = Rooms { reliabilities: exact.reliabilities - 1, ..exact };
        let table = Rooms { table: 32 * 72, ..exact };
        for rooms in [exact, dibits, reliabilities, table] {
            s.noise(floats, rooms, 3, 1.0);
        }
    }
    for bad in [f32::NAN, f32::INFINITY, f32::NEG_INFINITY] {
        for place in [0, 1, 98, 99] {
            let mut floats = [1.0_f32; 100];
            floats[place] = bad;
            s.block(&floats, Rooms::exact(100));
        }
    }
    for tiny in [-0.0_f32, 1e-45] {
        s.block(&[tiny, 0.0, 0.0, tiny, tiny, tiny], Rooms::exact(6));
    }
    s.noise(131_072, Rooms::exact(131_072), 7, 1.5);
    s.read(2048);
    s.noise(131_073, Rooms::exact(131_074), 7, 1.5);
    s.noise(131_074, Rooms::exact(131_074), 7, 1.5);
    for room in [0, 1, 2, 3, 14, 2046, 2047, 2048, 2049, 4000] {
        s.read(room);
    }
    for (total, floats) in [(10, 20), (10, 22), (0, 0), (0, 2)] {
        s.set_up(48000.0, 0.0, 0, AMPLE);
        s.word(0, (1 << 52) - total);
        s.noise(floats, Rooms::exact(floats), 9, 1.0);
    }
}

/// A block for each sample that tells whether overload is counted right.
fn overloads(s: &mut Script) {
    s.set_up(48000.0, -100.0, 0, AMPLE);
    for (sample, _) in around_the_ends() {
        s.block(&flat(&[sample]), Rooms::exact(2));
    }
}

/// Each clause of the admitted state at its ends and one beyond: the words to set, then a block and
/// a read.
fn clauses(s: &mut Script) {
    let whole: [(usize, &[u64]); 21] = [
        (0, &[0, 1 << 52, (1 << 52) + 1, u64::MAX]),
        (6, &[4095, 4096, u64::MAX]),
        (7, &[0, 1, 78, 79, u64::MAX]),
        (8, &[1, 2, u64::MAX]),
        (21, &[13, 14, 71, 73, 576, 577, u64::MAX]),
        (22, &[35, 36, 37, u64::MAX]),
        (24, &[0, 1, 30, u64::MAX]),
        (26, &[87, 88, u64::MAX]),
        (27, &[63, 64, u64::MAX]),
        (28, &[64, 65, u64::MAX]),
        (30, &[255, 256, u64::MAX]),
        (31, &[82, 83, 100, 112, 113, u64::MAX]),
        (32, &[0, 4, 5, 12, 13]),
        (38, &[7, 8]),
        (41, &[31, 32, u64::MAX]),
        (42, &[32, 33, u64::MAX]),
        (55, &[1023, 1024, u64::MAX]),
        (56, &[1024, 1025, u64::MAX]),
        (57, &[0, 1, 200, 201]),
        (58, &[0, 1, 2]),
        (2501, &[63, 64, 255]),
    ];
    for (place, values) in whole {
        for &value in values {
            broken(s, &[(place, value)]);
        }
    }
    let step = |x: f64| (23, x.to_bits());
    let [below, half, _] = around(0.5);
    let [_, twenty, above] = around(20.0);
    for x in [below, half, twenty, above, f64::NAN, -0.5, f64::INFINITY] {
        broken(s, &[step(x)]);
    }
    let next = |x: f64| (25, x.to_bits());
    let [_, last, past] = around(700.0);
    for x in [0.0, -0.0, -1e-300, 63.9, 64.0, 64.97, 64.985, 65.0, 65.1, last, past, f64::NAN, f64::INFINITY] {
        broken(s, &[next(x)]);
    }
    for value in [0_u64, 3, 4, u64::MAX] {
        broken(s, &[(43, 1), (44, value)]);
    }
    for place in [2501 + 64, 4548] {
        for value in [63, 64] {
            broken(s, &[(place, value)]);
        }
    }
    let warm = (33, 1);
    for (position, count) in [(4, 0), (5, 0), (5, 105), (5, 106), (12, 112), (12, 113), (13, 0)] {
        broken(s, &[warm, (32, position), (31, count)]);
    }
    for x in [-16.0, 48.0, -16.000_002, 48.000_004, f32::NAN, f32::INFINITY] {
        broken(s, &[(34, u64::from(f32::to_bits(x)))]);
    }
    for x in [0.1, -0.1, 0.100_000_01, -0.100_000_01, f32::NAN, f32::NEG_INFINITY] {
        broken(s, &[(35, u64::from(f32::to_bits(x)))]);
    }
    broken(s, &[(57, 200), (58, 201)]);
    broken(s, &[(57, 200), (58, 200)]);
}

/// A state after 100 samples at 48,000 with these words set: a block, and a read.
fn broken(s: &mut Script, words: &[(usize, u64)]) {
    s.set_up(48000.0, 0.0, 0, AMPLE);
    s.noise(200, Rooms::exact(200), 11, 1.0);
    for &(place, value) in words {
        s.word(place, value);
    }
    s.noise(60, Rooms::exact(60), 12, 1.0);
    s.read(20);
}

// ---- the edges of the second

fn second_edges(s: &mut Script) {
    enablings(s);
    both_refusals(s);
    both_lengths(s);
    second_clauses(s);
    for fill in 0..=32 {
        enabled_at(s, fill);
        handed_in_at(s, fill);
    }
    for n in 0..8 {
        not_enabled(s, n);
    }
    let plan = Plan::of("--rate 48000 --samples 1600 --profile 1 --noise 0.02 --echo 1,0.6,0.3")
        .expect("the plan's options are ours");
    s.set_up(plan.rate, plan.offset, plan.profile, AMPLE);
    s.enable();
    for (n, samples) in generated(&plan).file.samples.chunks(400).enumerate() {
        let floats = flat(samples);
        s.block(&floats, one_or_both(n % 2 == 0, floats.len()));
    }
    s.read(2048);
}

fn one_or_both(both: bool, floats: usize) -> Rooms {
    if both {
        Rooms::both(floats)
    } else {
        Rooms::exact(floats)
    }
}

/// Nothing, a refused setup and a state that is not admitted; then once, at once again, and after
/// blocks of either kind.
fn enablings(s: &mut Script) {
    s.set_up(0.0, 0.0, 0, AMPLE);
    s.enable();
    s.noise(20, Rooms::both(20), 1, 1.0);
    s.read(20);
    s.set_up(48000.0, 0.0, 0, AMPLE);
    s.word(38, 8);
    s.enable();
    s.word(38, 7);
    s.noise(1000, Rooms::both(1000), 1, 1.0);
    s.enable();
    s.enable();
    for floats in [40, 1000] {
        s.noise(floats, Rooms::exact(floats), 2, 1.0);
        s.enable();
        s.noise(floats, Rooms::both(floats), 3, 1.0);
        s.enable();
    }
    s.word(SECOND + SECOND_ALTERNATION, 8);
    s.enable();
    s.read(20);
}

/// Every refusal of two streams alone and with each other, enabled and not; then what was refused
/// without fault.
fn both_refusals(s: &mut Script) {
    // a letter for each fault: the first's state, the second's, table, floats, the four buffers, a
    // sample that is not finite
    const FAULTS: &str = "fstndrDRx";
    let faults: Vec<char> = FAULTS.chars().collect();
    for (k, first) in faults.iter().enumerate() {
        for second in &faults[k..] {
            let bad = |fault| *first == fault || *second == fault;
            s.set_up(48000.0, 0.0, 0, AMPLE);
            s.noise(400, Rooms::exact(400), 1, 1.25);
            if k % 3 != 2 {
                s.enable();
            }
            let mut floats: Vec<f32> = (0..40).map(|i| i as f32 / 16.0).collect();
            let mut rooms = Rooms::both(40);
            let mut others = [24, 88];
            if bad('n') {
                floats.pop();
            }
            if bad('x') {
                floats[3] = f32::NAN;
            }
            rooms.dibits -= usize::from(bad('d'));
            rooms.reliabilities -= usize::from(bad('r'));
            others[0] -= usize::from(bad('D'));
            others[1] -= usize::from(bad('R'));
            rooms.others = Some(others);
            if bad('t') {
                rooms.table = 32 * 72 - 1;
            }
            if bad('f') {
                s.word(41, 32);
            }
            if bad('s') {
                s.word(SECOND + SECOND_FILL, 33);
            }
            s.block(&floats, rooms);
            s.read(50);
        }
    }
}

/// Each of the four buffers one short, just long enough, and longer, for few and no samples.
fn both_lengths(s: &mut Script) {
    s.set_up(48000.0, -100.0, 0, AMPLE);
    s.enable();
    for floats in [0, 1, 2, 128] {
        let exact = Rooms::both(floats);
        let [others, reliabilities] = exact.others.unwrap_or_default();
        for rooms in [
            exact,
            Rooms { dibits: exact.dibits - 1, ..exact },
            Rooms { reliabilities: exact.reliabilities - 1, ..exact },
            Rooms { others: Some([others - 1, reliabilities]), ..exact },
            Rooms { others: Some([others, reliabilities - 1]), ..exact },
            Rooms { others: Some([0, 0]), ..exact },
            Rooms { others: Some([others + 3, reliabilities + 1]), ..exact },
        ] {
            s.noise(floats, rooms, 3, 1.0);
        }
    }
    s.noise(20_000, Rooms::both(20_000), 7, 1.5);
    s.read(2048);
}

/// Words of the second from its first on.
const SECOND_ALTERNATION: usize = 3;
const SECOND_PLACE: usize = 6;
const SECOND_FILL: usize = 7;
const SECOND_PREVIOUS: usize = 8;
const SECOND_PARENTS: usize = 9457;

/// Each clause of an admitted second at its end and one beyond, enabled and not: the words to set,
/// then both streams, one of them, and a read.
fn second_clauses(s: &mut Script) {
    let mut cases: Vec<Vec<(usize, u64)>> = Vec::new();
    for (place, values) in [
        (SECOND_ALTERNATION, [7, 8, 255]),
        (SECOND_PLACE, [31, 32, u64::MAX]),
        (SECOND_FILL, [32, 33, u64::MAX]),
        (SECOND_PARENTS, [63, 64, 255]),
        (SECOND_PARENTS + 1000, [63, 64, 255]),
        (SECOND_PARENTS + 2047, [63, 64, 255]),
    ] {
        cases.extend(values.map(|value| vec![(place, value)]));
    }
    for symbol in [0, 3, 4, u64::MAX] {
        cases.push(vec![(SECOND_PREVIOUS, 1), (SECOND_PREVIOUS + 1, symbol)]);
    }
    for words in cases {
        for enabled in [true, false] {
            s.set_up(48000.0, 0.0, 0, AMPLE);
            s.noise(200, Rooms::exact(200), 11, 1.0);
            if enabled {
                s.enable();
            }
            for (place, value) in &words {
                s.word(SECOND + place, *value);
            }
            s.noise(60, Rooms::both(60), 12, 1.0);
            s.noise(60, Rooms::exact(60), 13, 1.0);
            s.read(20);
            if !enabled {
                s.enable();
            }
        }
    }
}

/// Samples of the noise of seed 21 at 48,000 after which the first detector is filled so far: the clock's
/// first symbols come closer than 10 samples.
fn samples_to(fill: usize) -> usize {
    match fill {
        0..=2 => [425, 435, 440][fill],
        _ => 415 + 10 * fill,
    }
}

/// Enabled when the first detector is filled so far, and run until both are full.
fn enabled_at(s: &mut Script, fill: usize) {
    let floats = 2 * samples_to(fill);
    s.set_up(48000.0, 200.0, [0, 1][fill % 2], AMPLE);
    s.noise(floats, one_or_both(fill % 3 == 0, floats), 21, 1.0);
    s.enable();
    for (n, floats) in [20, 300, 400].into_iter().enumerate() {
        s.noise(floats, one_or_both((n + fill) % 3 != 0, floats), 60 + n as u64, 1.0);
    }
    if fill % 4 == 0 {
        // so weak that it becomes unreliable, and back
        s.noise(500, Rooms::both(500), 63, 0.01);
        s.noise(400, Rooms::both(400), 64, 1.0);
    }
}

/// A second that is filled so far, of numbers of each kind, beside a first that is full or fills.
fn handed_in_at(s: &mut Script, fill: usize) {
    let floats = [600, 1000, 1600][fill % 3];
    s.set_up(48000.0, 200.0, [1, 0][fill / 2 % 2], AMPLE);
    s.noise(floats, Rooms::exact(floats), 1, 1.0);
    let n = fill as u64;
    let start = Start {
        seed: 1000 + n,
        floats: [1, 2, 1, 3, 0, 7][fill % 6],
        costs: [made::QUARTERS, made::SPECIAL, made::SIGNED, made::INFINITE, made::ANY][fill % 5],
        write: (7 * n) % 32,
        filled: n,
        previous: n % 5,
        inverses: n % 8,
    };
    s.second(&Made {
        start,
        enabled: true,
        alternation: n % 8,
        locked: n % 2 == 1,
        phase: [0.3, -3.0, f64::NAN, 1e300][fill % 4],
        frequency: [0.01, -0.7, f64::INFINITY][fill % 3],
        error: [0.1, f64::NAN, 50.0][fill / 3 % 3],
    });
    s.noise(60, one_or_both(fill % 4 != 0, 60), 2 + n, 1.0);
    s.noise(800, one_or_both(fill % 4 != 1, 800), 3, 1.0);
}

/// Numbers of each kind in a second that is not enabled: every call hands them back, and an enabling
/// puts fresh ones there.
fn not_enabled(s: &mut Script, kind: u64) {
    s.set_up(48000.0, 0.0, 0, AMPLE);
    let start = Start {
        seed: 77 + kind,
        floats: kind,
        costs: 7 - kind,
        write: 3 * kind,
        filled: 4 * kind,
        previous: kind % 5,
        inverses: kind,
    };
    s.second(&Made {
        start,
        enabled: false,
        alternation: kind,
        locked: true,
        phase: f64::NAN,
        frequency: -0.0,
        error: f64::INFINITY,
    });
    s.noise(1000, Rooms::both(1000), 5, 1.0);
    s.noise(41, Rooms::both(42), 5, 1.0);
    s.noise(40, Rooms::exact(40), 6, 1.0);
    s.read(30);
    s.enable();
    s.noise(400, Rooms::both(400), 7, 1.0);
}

// ---- at scale

/// A signal with what a channel does to it, cut into blocks anywhere. Of eight signals one is never
/// enabled, four before the first block, two before any, and one before several.
fn signal(s: &mut Script, seed: u64) {
    let mut random = Random::new(seed);
    let plan = random_plan(&mut random, seed);
    let floats = flat(&generated(&plan).file.samples);
    let mut second = Random::new(seed.wrapping_add(55));
    let (manner, late) = (second.below(8), second.below(floats.len() as u64) as usize);
    let (ever, late) = (manner > 0, if manner > 4 { late } else { 0 });
    s.set_up(plan.rate, plan.offset, plan.profile, AMPLE);
    let (mut at, mut enabled) = (0, false);
    while at < floats.len() {
        let most = [2, 128, 2048, 10_000][random.below(4) as usize];
        let length = 2 * random.below(most / 2 + 1) as usize;
        let block = &floats[at..(at + length).min(floats.len())];
        let again = manner == 7 && second.below(4) == 0;
        if ever && at >= late && (!enabled || again) {
            s.enable();
            enabled = true;
        }
        let rooms = one_or_both(second.below(2) == 0, block.len());
        if random.below(8) == 0 {
            refused(s, &mut random, block, rooms);
        }
        s.block(block, rooms);
        at += block.len();
        if random.below(8) == 0 {
            s.read(random.below(2100) as usize);
        }
    }
    s.read(2048);
}

/// The same block with something wrong.
fn refused(s: &mut Script, random: &mut Random, block: &[f32], lent: Rooms) {
    let mut rooms = lent;
    let mut floats = block.to_vec();
    match (random.below(4), &mut rooms.others) {
        (0, _) => rooms.table = random.below(300) as usize,
        (1, _) => floats.push(0.5),
        (2, Some(others)) => others[block.len() / 2 % 2] -= 1,
        (2, None) => rooms.reliabilities -= 1,
        _ => {
            if let Some(last) = floats.last_mut() {
                *last = f32::INFINITY;
            }
        }
    }
    s.block(&floats, rooms);
}

fn random_plan(random: &mut Random, seed: u64) -> Plan {
    const RATES: [f64; 12] = [
        9600.0, 10929.0, 19200.0, 48000.0, 96000.0, 250000.0, 256000.0, 341000.0, 383999.0, 384000.0,
        2_400_000.0, 20_000_000.0,
    ];
    let mut unit = || random.below(1 << 20) as f64 / (1 << 20) as f64;
    let rate = match (unit() * 16.0) as usize {
        k @ 0..=11 => RATES[k],
        _ => 9600.0 * (2000.0_f64).powf(unit()),
    };
    let room = rate / 2.0 - 4201.0;
    let mut plan = Plan {
        rate,
        offset: if unit() < 0.3 { 0.0 } else { (2.0 * unit() - 1.0) * room },
        samples: 2000 + (unit() * 18_000.0) as usize,
        seed,
        profile: if unit() < 0.3 { 1 } else { 0 },
        amplitude: [0.5, 0.5, 0.01, 1e-4, 1.4, 100.0, 1e30, 1e37, 1e-30, 1e-42][(unit() * 10.0) as usize],
        ..Plan::default()
    };
    if unit() < 0.5 {
        plan.noise = 0.3 * unit() * unit();
    }
    if unit() < 0.3 {
        plan.echo = Some([3.0 * unit(), 0.9 * unit(), unit()]);
    }
    if unit() < 0.3 {
        plan.fade = Some([50.0 * unit(), 1.05 * unit()]);
    }
    if unit() < 0.3 {
        let until = unit() * plan.samples as f64;
        plan.neighbour = Some([(2.0 * unit() - 1.0) * room, 1000.0 * unit(), until]);
        if unit() < 0.5 {
            // silence after it, and then the weak signal
            plan.onset = (until + 3000.0 * unit()) as usize;
        }
    }
    if unit() < 0.3 {
        plan.drift = 200.0 * (2.0 * unit() - 1.0);
    }
    if unit() < 0.2 {
        plan.clip = Some(0.5 * plan.amplitude);
    }
    if unit() < 0.3 {
        plan.bits = Some(16);
    }
    plan
}

/// An admitted state and a table that no setup made, some blocks of one stream or of both, and a read.
/// One in eight seconds is made from a seed instead, and one in eight is enabled after the first block.
fn state(s: &mut Script, seed: u64) {
    let mut state = random_state(seed);
    let mut random = Random::new(seed.wrapping_add(77));
    let bytes = state.to_bytes();
    let words: Vec<u64> = bytes.chunks_exact(8).map(crate::samples::word64).collect();
    let taps: Vec<f32> = words[STATE_WORDS..]
        .iter()
        .map(|&w| f32::from_bits(w as u32))
        .collect();
    let (first, second) = words[..STATE_WORDS].split_at(SECOND);
    let given = second.iter().any(|&word| word != 0);
    s.head(&[4, taps.len() as u64, given.into()]);
    s.words(first);
    if given {
        s.words(second);
    }
    s.words(&packed(&taps));
    // values may be due only after 600 samples
    let most = [120, 900, 900, 900][random.below(4) as usize];
    let floats = 2 * random.below(most) as usize;
    let gain = [1.0, 1.0, 0.05, 300.0, 1e38][random.below(5) as usize];
    let room = random.below(2100) as usize;
    if random.below(8) == 0 {
        s.second(&random_second(&mut random, seed));
    }
    s.noise(floats, one_or_both(random.below(2) == 0, floats), seed + 1, gain);
    if random.below(8) == 0 {
        s.enable();
    }
    s.noise(200, one_or_both(random.below(2) == 0, 200), seed + 2, 1.0);
    s.read(room);
}

fn random_second(random: &mut Random, seed: u64) -> Made {
    let start = Start {
        seed,
        floats: random.below(1 + made::SIGNED),
        costs: random.below(1 + made::SIGNED),
        write: random.below(32),
        filled: seed % 33,
        previous: random.below(5),
        inverses: random.below(1 + made::SIGNED),
    };
    let mut part = || match random.below(8) {
        0 => f64::from_bits(random.word()),
        k => k as f64 / 4.0 - 1.0,
    };
    Made {
        start,
        phase: part(),
        frequency: part(),
        error: part(),
        enabled: random.below(4) != 0,
        alternation: random.below(8),
        locked: random.below(2) == 0,
    }
}
