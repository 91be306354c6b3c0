//! A list: cases to the end of the input, every item a 64-bit little-endian word.

use crate::words::word;
use ellalgo_rs::cutting_plane::CutStatus;
use std::io::{self, ErrorKind, Read, Write};

/// Stands for a number that is not there.
pub const ABSENT: u64 = u64::MAX;
/// A case has at most this many words.
pub const MOST: usize = 65_536;

/// One case; its two vectors are used again for the next one.
#[derive(Default)]
pub struct Case {
    pub op: u64,
    pub input: Vec<u64>,
    pub output: Vec<u64>,
}

impl Case {
    pub fn start(&mut self, op: u64) {
        self.op = op;
        self.input.clear();
        self.output.clear();
    }

    pub fn take(&mut self, n: u64) {
        self.input.push(n);
    }

    pub fn take_floats(&mut self, xs: &[f64]) {
        self.input.extend(xs.iter().map(|&x| word(x)));
    }

    /// The bits as they are, also those of NaNs.
    pub fn take_bits(&mut self, xs: &[f64]) {
        self.input.extend(xs.iter().map(|x| x.to_bits()));
    }

    pub fn take_signed(&mut self, i: i32) {
        self.input.push(signed(i));
    }

    pub fn take_optional(&mut self, x: Option<f64>) {
        self.input.push(x.map_or(ABSENT, word));
    }

    pub fn give(&mut self, n: u64) {
        self.output.push(n);
    }

    pub fn give_floats(&mut self, xs: &[f64]) {
        self.output.extend(xs.iter().map(|&x| word(x)));
    }

    pub fn give_signed(&mut self, i: i32) {
        self.output.push(signed(i));
    }

    pub fn give_optional(&mut self, x: Option<f64>) {
        self.output.push(x.map_or(ABSENT, word));
    }

    /// Eight bytes to a word, the first one lowest; the last word is filled with zeros.
    pub fn take_bytes(&mut self, bytes: &[u8]) {
        self.input.extend(packed(bytes));
    }

    pub fn give_bytes(&mut self, bytes: &[u8]) {
        self.output.extend(packed(bytes));
    }

    pub fn write(&self, to: &mut impl Write) -> io::Result<()> {
        assert!(3 + self.input.len() + self.output.len() <= MOST);
        put(to, self.op)?;
        for part in [&self.input, &self.output] {
            put(to, part.len() as u64)?;
            for &w in part {
                put(to, w)?;
            }
        }
        Ok(())
    }

    /// Reads the next case; false at the end of the list.
    pub fn read(&mut self, from: &mut impl Read) -> io::Result<bool> {
        let Some(op) = get(from)? else {
            return Ok(false);
        };
        self.start(op);
        for part in [&mut self.input, &mut self.output] {
            let count = inner(from)?;
            if count > MOST as u64 {
                return Err(io::Error::new(ErrorKind::InvalidData, "a case is too long"));
            }
            for _ in 0..count {
                part.push(inner(from)?);
            }
        }
        Ok(true)
    }
}

fn packed(bytes: &[u8]) -> impl Iterator<Item = u64> + '_ {
    bytes.chunks(8).map(|part| {
        let mut word = [0; 8];
        word[..part.len()].copy_from_slice(part);
        u64::from_le_bytes(word)
    })
}

/// The bytes of packed words.
pub fn unpacked(words: &[u64], count: u64) -> Vec<u8> {
    let bytes = words.iter().flat_map(|w| w.to_le_bytes());
    bytes.take(count as usize).collect()
}

/// A signed number at 64 bits.
fn signed(i: i32) -> u64 {
    i as i64 as u64
}

pub fn status_word(status: &CutStatus) -> u64 {
    match status {
        CutStatus::Success => 0,
        CutStatus::NoSoln => 1,
        CutStatus::NoEffect => 2,
        CutStatus::Unknown => panic!("no calculator answers Unknown"),
    }
}

fn put(to: &mut impl Write, w: u64) -> io::Result<()> {
    to.write_all(&w.to_le_bytes())
}

/// A word inside a case, where the list may not end.
fn inner(from: &mut impl Read) -> io::Result<u64> {
    get(from)?.ok_or_else(cut_short)
}

fn cut_short() -> io::Error {
    io::Error::new(ErrorKind::UnexpectedEof, "the list ends inside a case")
}

/// The next word, or none at the end; an end inside a word is an error.
fn get(from: &mut impl Read) -> io::Result<Option<u64>> {
    let mut bytes = [0; 8];
    let mut have = 0;
    while have < 8 {
        match from.read(&mut bytes[have..])? {
            0 if have == 0 => return Ok(None),
            0 => return Err(cut_short()),
            more => have += more,
        }
    }
    Ok(Some(u64::from_le_bytes(bytes)))
}
