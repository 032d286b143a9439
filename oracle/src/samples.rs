//! The sample file of document 01: settings, then samples, each after its count, little-endian.

use crate::Complex32;
use std::io::{ErrorKind, Read, Write};

/// Fills `buffer` from `input`; the number of bytes that came before the end.
pub fn read_full(input: &mut impl Read, buffer: &mut [u8]) -> Result<usize, String> {
    let mut filled = 0;
    while filled < buffer.len() {
        match input.read(&mut buffer[filled..]) {
            Ok(0) => break,
            Ok(n) => filled += n,
            Err(e) if e.kind() == ErrorKind::Interrupted => {}
            Err(e) => return Err(e.to_string()),
        }
    }
    Ok(filled)
}

pub fn word32(bytes: &[u8]) -> u32 {
    u32::from_le_bytes([bytes[0], bytes[1], bytes[2], bytes[3]])
}

pub fn word64(bytes: &[u8]) -> u64 {
    word32(bytes) as u64 | (word32(&bytes[4..]) as u64) << 32
}

/// Pairs of f32, eight bytes each.
pub fn decoded(bytes: &[u8]) -> Vec<Complex32> {
    bytes
        .chunks_exact(8)
        .map(|pair| Complex32 {
            real: f32::from_bits(word32(pair)),
            imaginary: f32::from_bits(word32(&pair[4..])),
        })
        .collect()
}

/// A whole sample file.
pub struct SampleFile {
    pub rate: f64,
    pub offset: f64,
    pub samples: Vec<Complex32>,
}

impl SampleFile {
    pub fn read(input: &mut impl Read) -> Result<Self, String> {
        let mut head = [0; 24];
        if read_full(input, &mut head)? < 24 || word32(&head) != 2 {
            return Err("no settings at the head of the sample file".into());
        }
        let count = word32(&head[20..]) as usize;
        let mut bytes = Vec::new();
        input.read_to_end(&mut bytes).map_err(|e| e.to_string())?;
        if bytes.len() != 8 * count {
            return Err("the sample file's length is not that of its count".into());
        }
        Ok(Self {
            rate: f64::from_bits(word64(&head[4..])),
            offset: f64::from_bits(word64(&head[12..])),
            samples: decoded(&bytes),
        })
    }

    pub fn write(&self, output: &mut impl Write) -> std::io::Result<()> {
        output.write_all(&2_u32.to_le_bytes())?;
        output.write_all(&self.rate.to_le_bytes())?;
        output.write_all(&self.offset.to_le_bytes())?;
        output.write_all(&(self.samples.len() as u32).to_le_bytes())?;
        for sample in &self.samples {
            output.write_all(&sample.real.to_le_bytes())?;
            output.write_all(&sample.imaginary.to_le_bytes())?;
        }
        Ok(())
    }
}
