//! Numbers as 8-byte words, and the ports that a row of them goes through: out to bytes, in from
//! bytes, or into a listing.

use crate::helpers::{bits32, bits64};
use crate::samples::word64;
use std::fmt::Display;

/// A number that is kept as one word.
pub trait Number: Copy {
    fn word(self) -> u64;
    fn from_word(word: u64) -> Option<Self>;
}

impl Number for u64 {
    fn word(self) -> u64 {
        self
    }
    fn from_word(word: u64) -> Option<Self> {
        Some(word)
    }
}

impl Number for usize {
    fn word(self) -> u64 {
        self as u64
    }
    fn from_word(word: u64) -> Option<Self> {
        word.try_into().ok()
    }
}

impl Number for u8 {
    fn word(self) -> u64 {
        self as u64
    }
    fn from_word(word: u64) -> Option<Self> {
        word.try_into().ok()
    }
}

impl Number for i64 {
    fn word(self) -> u64 {
        self as u64
    }
    fn from_word(word: u64) -> Option<Self> {
        Some(word as i64)
    }
}

impl Number for i32 {
    fn word(self) -> u64 {
        self as i64 as u64
    }
    fn from_word(word: u64) -> Option<Self> {
        (word as i64).try_into().ok()
    }
}

impl Number for bool {
    fn word(self) -> u64 {
        self as u64
    }
    fn from_word(word: u64) -> Option<Self> {
        (word < 2).then_some(word == 1)
    }
}

impl Number for f32 {
    fn word(self) -> u64 {
        bits32(self)
    }
    fn from_word(word: u64) -> Option<Self> {
        word.try_into().ok().map(f32::from_bits)
    }
}

impl Number for f64 {
    fn word(self) -> u64 {
        bits64(self)
    }
    fn from_word(word: u64) -> Option<Self> {
        Some(f64::from_bits(word))
    }
}

/// Takes the words one by one in order and gives back the word that is to stand.
pub trait Port {
    fn pass(&mut self, name: &dyn Display, word: u64) -> Result<u64, String>;
}

pub struct Writer {
    pub bytes: Vec<u8>,
}

impl Port for Writer {
    fn pass(&mut self, _: &dyn Display, word: u64) -> Result<u64, String> {
        self.bytes.extend(word.to_le_bytes());
        Ok(word)
    }
}

pub struct Reader<'a> {
    pub bytes: &'a [u8],
}

impl Port for Reader<'_> {
    fn pass(&mut self, name: &dyn Display, _: u64) -> Result<u64, String> {
        if self.bytes.len() < 8 {
            return Err(format!("the state ends before {name}"));
        }
        let word = word64(self.bytes);
        self.bytes = &self.bytes[8..];
        Ok(word)
    }
}

pub struct Lister {
    pub text: String,
}

impl Port for Lister {
    fn pass(&mut self, name: &dyn Display, word: u64) -> Result<u64, String> {
        self.text.push_str(&format!("{name} {word:016x}\n"));
        Ok(word)
    }
}

pub fn one<T: Number>(port: &mut impl Port, name: impl Display, value: &mut T) -> Result<(), String> {
    let word = port.pass(&name, value.word())?;
    *value = T::from_word(word).ok_or_else(|| format!("{name}: {word:016x} does not fit"))?;
    Ok(())
}

pub fn row<'a, T: Number + 'a>(
    port: &mut impl Port,
    name: impl Display,
    values: impl IntoIterator<Item = &'a mut T>,
) -> Result<(), String> {
    for (i, value) in values.into_iter().enumerate() {
        one(port, format_args!("{name} {i}"), value)?;
    }
    Ok(())
}
