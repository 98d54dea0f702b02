//! Tokens of the Xerox encoding: the reading of one token, with its refusals.

use crate::number::Number;
use std::ops::Range;

pub const HEADER: &[u8; 21] = b"Interpress/Xerox/3.0 ";
pub const MAX_BYTES: usize = 16_777_215;
pub const MAX_IDENTIFIER: usize = 100;

/// Sequence types that are read.
pub mod kind {
    pub const STRING: u8 = 1;
    pub const INTEGER: u8 = 2;
    pub const RATIONAL: u8 = 4;
    pub const IDENTIFIER: u8 = 5;
    pub const COMMENT: u8 = 6;
    pub const CONTINUED: u8 = 7;
}

/// A refusal: its number in document 01 and its place.
#[derive(Clone, Copy, PartialEq, Eq, Debug)]
pub struct Refusal {
    pub no: u32,
    pub place: usize,
}

#[inline]
pub fn refuse<T>(no: u32, place: usize) -> Result<T, Refusal> {
    Err(Refusal { no, place })
}

/// A sequence together with its continuations.
#[derive(Clone, Copy)]
pub struct Sequence {
    /// First byte of the first piece.
    pub at: usize,
    /// Data bytes of all pieces.
    pub len: usize,
    /// Just after the last piece.
    pub end: usize,
}

/// The data of the piece at `at`, or nothing if the input ends inside it.
#[inline]
fn piece(bytes: &[u8], at: usize) -> Option<Range<usize>> {
    let (start, len) = match *bytes.get(at..)? {
        [lead, len, ..] if lead < 0xE0 => (at + 2, len as usize),
        [lead, a, b, c, ..] if lead >= 0xE0 => (at + 4, u32::from_be_bytes([0, a, b, c]) as usize),
        _ => return None,
    };
    (bytes.len() - start >= len).then_some(start..start + len)
}

#[inline]
fn continues(bytes: &[u8], at: usize) -> bool {
    // 0xC7 and 0xE7 differ in the bit that tells short from long.
    matches!(bytes.get(at), Some(lead) if lead & 0xDF == 0xC0 | kind::CONTINUED)
}

impl Sequence {
    /// The sequence at `at` with all its continuations; a piece that is cut off
    /// is refused there, before anything else is judged.
    #[inline]
    pub fn read(bytes: &[u8], at: usize) -> Result<Sequence, Refusal> {
        let mut sequence = Sequence { at, len: 0, end: at };
        loop {
            let Some(data) = piece(bytes, sequence.end) else {
                return refuse(2, sequence.end);
            };
            sequence.len += data.len();
            sequence.end = data.end;
            if !continues(bytes, sequence.end) {
                return Ok(sequence);
            }
        }
    }

    /// Its data, piece by piece.
    #[inline]
    pub fn pieces(self, bytes: &[u8]) -> impl Iterator<Item = &[u8]> {
        let mut at = self.at;
        std::iter::from_fn(move || {
            let data = (at < self.end).then(|| piece(bytes, at)).flatten()?;
            at = data.end;
            Some(&bytes[data])
        })
    }

    /// Its data as characters in lower case.
    pub fn lower(self, bytes: &[u8]) -> impl Iterator<Item = u8> + '_ {
        self.pieces(bytes).flatten().map(u8::to_ascii_lowercase)
    }

    /// At most 8 data bytes as one word, the first byte highest.
    fn word(self, bytes: &[u8]) -> u64 {
        self.pieces(bytes).flatten().fold(0, |word, &byte| word << 8 | u64::from(byte))
    }

    /// The integer it holds, if its data obey the rule.
    pub fn integer(self, bytes: &[u8]) -> Option<Number> {
        match self.len {
            1..=4 => Number::fit(signed(self.word(bytes), self.len)),
            _ => None,
        }
    }

    /// The rational it holds, if its data obey the rule.
    pub fn rational(self, bytes: &[u8]) -> Option<Number> {
        if !matches!(self.len, 2 | 4 | 6 | 8) {
            return None;
        }
        let (word, half) = (self.word(bytes), self.len / 2);
        let den = signed(word, half);
        if den == 0 {
            return None;
        }
        Number::reduced(signed(word >> (8 * half), half), den)
    }

    fn is_identifier(self, bytes: &[u8]) -> bool {
        if !(1..=MAX_IDENTIFIER).contains(&self.len) {
            return false;
        }
        let mut chars = self.pieces(bytes).flatten();
        chars.next().is_some_and(u8::is_ascii_alphabetic) && chars.all(|&c| is_tail(c))
    }

    fn is_string(self, bytes: &[u8]) -> bool {
        self.pieces(bytes).all(|data| !data.contains(&255))
    }
}

/// Whether an identifier may go on with this character.
pub fn is_tail(c: u8) -> bool {
    c.is_ascii_alphanumeric() || c == b'-'
}

/// The low `len` bytes of `word`, 1 to 4, in two's complement.
fn signed(word: u64, len: usize) -> i64 {
    let unused = 64 - 8 * len;
    (word as i64) << unused >> unused
}

/// The value of a short number.
#[inline]
pub fn short_number(high: u8, low: u8) -> i32 {
    (i32::from(high) << 8 | i32::from(low)) - BIAS
}

/// What a short number's two bytes stand above its value.
pub const BIAS: i32 = 4000;

pub enum Token {
    Number(Number),
    Identifier(Sequence),
    String(Sequence),
    Operator(u16),
}

/// A reading point: the bytes and the place reached.
#[derive(Clone, Copy)]
pub struct Reader<'a> {
    pub bytes: &'a [u8],
    pub at: usize,
}

impl<'a> Reader<'a> {
    /// A reader behind the header.
    pub fn new(bytes: &'a [u8]) -> Result<Reader<'a>, Refusal> {
        if !bytes.starts_with(HEADER) {
            return refuse(1, 0);
        }
        Ok(Reader { bytes, at: HEADER.len() })
    }

    /// The next token that is no comment, with the place of its first byte;
    /// nothing at the end of the input.
    // The loops over tokens are few and live on this: fixed forms cost a few
    // instructions there, and only sequences are a call.
    #[inline(always)]
    pub fn token(&mut self) -> Result<Option<(usize, Token)>, Refusal> {
        let bytes = self.bytes;
        loop {
            let at = self.at;
            let Some(&lead) = bytes.get(at) else { return Ok(None) };
            if lead >= 0xC0 {
                let (end, token) = sequence(bytes, at, lead & 0x1F)?;
                self.at = end;
                match token {
                    Some(token) => return Ok(Some((at, token))),
                    None => continue,
                }
            }
            if let 0x80..=0x9F = lead {
                self.at = at + 1;
                return Ok(Some((at, Token::Operator(u16::from(lead & 0x1F)))));
            }
            let Some(&low) = bytes.get(at + 1) else { return refuse(2, at) };
            self.at = at + 2;
            return Ok(Some((
                at,
                match lead {
                    0..=0x7F => Token::Number(Number::whole(short_number(lead, low))),
                    _ => Token::Operator(u16::from(lead & 0x1F) << 8 | u16::from(low)),
                },
            )));
        }
    }

    /// The next token where one is due.
    #[inline(always)]
    pub fn due(&mut self) -> Result<(usize, Token), Refusal> {
        self.token()?.ok_or(Refusal { no: 2, place: self.at })
    }
}

/// The end of the sequence at `at` and the token it is, judged; no token if it
/// is a comment.
#[inline(never)]
fn sequence(bytes: &[u8], at: usize, kind: u8) -> Result<(usize, Option<Token>), Refusal> {
    let sequence = Sequence::read(bytes, at)?;
    let token = match kind {
        kind::COMMENT => return Ok((sequence.end, None)),
        kind::STRING => sequence.is_string(bytes).then_some(Token::String(sequence)),
        kind::INTEGER => sequence.integer(bytes).map(Token::Number),
        kind::RATIONAL => sequence.rational(bytes).map(Token::Number),
        kind::IDENTIFIER => sequence.is_identifier(bytes).then_some(Token::Identifier(sequence)),
        kind::CONTINUED => return refuse(5, at),
        _ => return refuse(3, at),
    };
    match token {
        None => refuse(4, at),
        token => Ok((sequence.end, token)),
    }
}
