//! Requests and outcomes, and how they are written: words of eight bytes, little-endian.
//!
//! | word | of a request | of an outcome |
//! |---|---|---|
//! | 0 | the call's number | 0, accepted, or the refusal's number |
//! | 1 | how many values the first block has | 1: the expected length; 3: the norm's bits; else 0 |
//! | 2 | how many values the second block has | 1: the actual length; else 0 |
//! | 3 | a tolerance's bits, or an index; else 0 | how many values follow |
//! | then | the first block's values, then the second's, as bits | the values, as bits; matrices by row |
//!
//! A yes is the word 1, a no the word 0. A refused call has no values, but for an answer with a place of its own
//! (a matrix, coefficients): there all values follow, each +0.

use crate::Refusal;
use crate::calls::{Block, Call, call};
use std::io::{Error, ErrorKind, Read, Result};

/// The most values that the blocks of one request have together.
pub const MOST_VALUES: usize = 8188;

const HEAD: usize = 4;

/// A call with its blocks. Values are kept as bits: a NaN stays the one that it is.
#[derive(Clone, Debug, Default, PartialEq, Eq)]
pub struct Request {
    pub number: u64,
    pub extra: u64,
    pub first: Vec<u64>,
    pub second: Vec<u64>,
}

impl Request {
    /// The call that the number names.
    pub fn call(&self) -> &'static Call {
        call(self.number).expect("a request names a call of the list")
    }

    /// The theta of the tangent, which is the last block; none where there is no tangent, or one of a wrong length.
    pub fn theta(&self) -> Option<[f64; 3]> {
        let call = self.call();
        let (block, values) = match call.second {
            Block::Absent => (call.first, &self.first),
            second => (second, &self.second),
        };
        let theta: [u64; 3] = match block {
            Block::So3Tangent => values[..].try_into().ok()?,
            Block::Sgal3Tangent if values.len() == 10 => values[6..9].try_into().ok()?,
            _ => return None,
        };
        Some(theta.map(f64::from_bits))
    }

    /// Writes the request behind what is there.
    pub fn write(&self, to: &mut Vec<u8>) {
        let lengths = [self.first.len() as u64, self.second.len() as u64];
        write_words(&[self.number, lengths[0], lengths[1], self.extra], to);
        write_words(&self.first, to);
        write_words(&self.second, to);
    }

    /// Reads the next request into this one; no, if there is none.
    pub fn read(&mut self, from: &mut impl Read) -> Result<bool> {
        let Some(head) = read_head(from)? else {
            return Ok(false);
        };
        let most = MOST_VALUES as u64;
        if call(head[0]).is_none() || head[1] > most || head[2] > most || head[1] + head[2] > most {
            let words = format!("a request begins with {head:?}");
            return Err(Error::new(ErrorKind::InvalidData, words));
        }
        (self.number, self.extra) = (head[0], head[3]);
        read_words(from, head[1] as usize, &mut self.first)?;
        read_words(from, head[2] as usize, &mut self.second)?;
        Ok(true)
    }
}

/// What comes of a request.
#[derive(Clone, Debug, Default, PartialEq, Eq)]
pub struct Outcome {
    pub number: u64,
    pub figures: [u64; 2],
    pub values: Vec<u64>,
}

impl Outcome {
    /// Makes this the outcome of a call that is refused.
    pub fn refuse(&mut self, call: &Call, refusal: Refusal) {
        self.number = refusal.number();
        self.figures = refusal.figures();
        self.values.clear();
        self.values.resize(call.answer.length_refused(), 0);
    }

    /// Makes this an accepted outcome whose values are still to come.
    pub fn accept(&mut self) {
        self.number = 0;
        self.figures = [0, 0];
        self.values.clear();
    }

    /// Writes the outcome behind what is there.
    pub fn write(&self, to: &mut Vec<u8>) {
        let count = self.values.len() as u64;
        write_words(&[self.number, self.figures[0], self.figures[1], count], to);
        write_words(&self.values, to);
    }

    /// Reads the next outcome into this one; no, if there is none.
    pub fn read(&mut self, from: &mut impl Read) -> Result<bool> {
        let Some(head) = read_head(from)? else {
            return Ok(false);
        };
        (self.number, self.figures) = (head[0], [head[1], head[2]]);
        if head[3] > MOST_VALUES as u64 {
            let words = format!("an outcome begins with {head:?}");
            return Err(Error::new(ErrorKind::InvalidData, words));
        }
        read_words(from, head[3] as usize, &mut self.values)?;
        Ok(true)
    }
}

fn write_words(words: &[u64], to: &mut Vec<u8>) {
    to.reserve(8 * words.len());
    for word in words {
        to.extend_from_slice(&word.to_le_bytes());
    }
}

/// The four words at the front, or nothing where the input ends.
fn read_head(from: &mut impl Read) -> Result<Option<[u64; HEAD]>> {
    let mut bytes = [0; 8 * HEAD];
    let mut have = 0;
    while have < bytes.len() {
        match from.read(&mut bytes[have..]) {
            Ok(0) if have == 0 => return Ok(None),
            Ok(0) => return Err(ErrorKind::UnexpectedEof.into()),
            Ok(count) => have += count,
            Err(error) if error.kind() == ErrorKind::Interrupted => {}
            Err(error) => return Err(error),
        }
    }
    let mut head = [0; HEAD];
    for (word, bytes) in head.iter_mut().zip(bytes.as_chunks().0) {
        *word = u64::from_le_bytes(*bytes);
    }
    Ok(Some(head))
}

fn read_words(from: &mut impl Read, count: usize, words: &mut Vec<u64>) -> Result<()> {
    words.clear();
    let mut bytes = [0; 512];
    while words.len() < count {
        let part = &mut bytes[..8 * (count - words.len()).min(64)];
        from.read_exact(part)?;
        words.extend(part.as_chunks().0.iter().map(|b| u64::from_le_bytes(*b)));
    }
    Ok(())
}
