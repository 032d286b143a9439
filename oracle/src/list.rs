//! Lists of inputs and their answers: the records, the digest of a record's answers, and the
//! commands that write, answer and explain a list.

use crate::samples::word64;
use std::io::{self, BufWriter, Read, Write};

const RECORD_BYTES: usize = 24;

/// One record: three words, each read as the answer's operands ask.
#[derive(Clone, Copy)]
pub struct Record {
    pub a: u64,
    pub b: u64,
    pub c: u64,
}

/// An answer's name and its word.
pub type Answer = (&'static str, u64);

type Answers = fn(Record) -> Vec<Answer>;

pub fn run(words: &[&str], inputs: fn() -> Vec<Record>, answers: Answers) -> Result<(), String> {
    match words {
        ["inputs"] => write_inputs(&inputs()),
        ["answers"] => write_answers(&read_inputs()?, answers),
        ["explain", k] => {
            let k: usize = k.parse().map_err(|_| "K is a whole number")?;
            let records = read_inputs()?;
            explain(
                *records.get(k).ok_or("the list has no such record")?,
                answers,
            );
            Ok(())
        }
        _ => Err("inputs, answers or explain K".into()),
    }
}

pub fn write_inputs(records: &[Record]) -> Result<(), String> {
    let mut output = BufWriter::new(io::stdout());
    for word in records.iter().flat_map(|r| [r.a, r.b, r.c]) {
        output
            .write_all(&word.to_le_bytes())
            .map_err(|e| e.to_string())?;
    }
    output.flush().map_err(|e| e.to_string())
}

pub fn read_inputs() -> Result<Vec<Record>, String> {
    let mut bytes = Vec::new();
    io::stdin()
        .read_to_end(&mut bytes)
        .map_err(|e| e.to_string())?;
    if bytes.len() % RECORD_BYTES != 0 {
        return Err("the list is not a whole number of 24-byte records".into());
    }
    let record = |bytes: &[u8]| Record {
        a: word64(bytes),
        b: word64(&bytes[8..]),
        c: word64(&bytes[16..]),
    };
    Ok(bytes.chunks_exact(RECORD_BYTES).map(record).collect())
}

fn write_answers(records: &[Record], answers: Answers) -> Result<(), String> {
    let mut output = BufWriter::new(io::stdout());
    for r in records {
        let digest = answers(*r).iter().fold(0, |h, (_, x)| folded(h, *x));
        writeln!(output, "{digest:016x}").map_err(|e| e.to_string())?;
    }
    output.flush().map_err(|e| e.to_string())
}

fn explain(r: Record, answers: Answers) {
    for (name, word) in [("a", r.a), ("b", r.b), ("c", r.c)] {
        let (wide, short) = (f64::from_bits(word), f32::from_bits(word as u32));
        println!("{name:16} {word:016x} {wide:e} {short:e} {}", word as i64);
    }
    let mut digest = 0;
    for (name, answer) in answers(r) {
        println!("{name:16} {answer:016x}");
        digest = folded(digest, answer);
    }
    println!("{:16} {digest:016x}", "digest");
}

/// Folds an answer into a digest; each step can be undone, so one wrong answer always shows.
pub fn folded(digest: u64, answer: u64) -> u64 {
    let mut h = digest ^ answer;
    h = h.wrapping_add(h << 21);
    h ^= h >> 24;
    h = h.wrapping_add(h << 3);
    h = h.wrapping_add(h << 8);
    h ^ (h >> 14)
}
