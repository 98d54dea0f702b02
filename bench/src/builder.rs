//! Puts masters together: token by token, or from program text.

use crate::ops;
use crate::tokens::{kind, BIAS, HEADER};

#[derive(Default)]
pub struct Builder {
    pub bytes: Vec<u8>,
}

impl Builder {
    /// A builder that has put the header.
    pub fn new() -> Builder {
        Builder { bytes: HEADER.to_vec() }
    }

    pub fn operator(&mut self, op: u16) {
        match op {
            0..=31 => self.bytes.push(0x80 | op as u8),
            _ => self.bytes.extend((0xA000 | op).to_be_bytes()),
        }
    }

    pub fn sequence(&mut self, kind: u8, data: &[u8]) {
        match u8::try_from(data.len()) {
            Ok(len) => self.bytes.extend([0xC0 | kind, len]),
            Err(_) => self.long_head(kind, data.len()),
        }
        self.bytes.extend(data);
    }

    /// The head of a long sequence.
    pub fn long_head(&mut self, kind: u8, len: usize) {
        let [.., a, b, c] = (len as u32).to_be_bytes();
        self.bytes.extend([0xE0 | kind, a, b, c]);
    }

    pub fn number(&mut self, n: i32) {
        match n {
            -4000..=28767 => self.bytes.extend(((n + BIAS) as u16).to_be_bytes()),
            _ => self.sequence(kind::INTEGER, &n.to_be_bytes()),
        }
    }

    pub fn rational(&mut self, num: i32, den: i32) {
        let halves = [num.to_be_bytes(), den.to_be_bytes()];
        self.sequence(kind::RATIONAL, halves.as_flattened());
    }

    /// Program text: words between blanks, a body operator before its body,
    /// strings in parentheses without blanks, identifiers in lower case.
    pub fn text(&mut self, text: &str) -> &mut Builder {
        text.split_whitespace().for_each(|word| self.word(word));
        self
    }

    fn word(&mut self, word: &str) {
        if let Some(string) = word.strip_prefix('(') {
            self.sequence(kind::STRING, string.trim_end_matches(')').as_bytes());
        } else if let Some((num, den)) = word.split_once('/') {
            self.rational(int(num), int(den));
        } else if word.starts_with(|c: char| c.is_ascii_lowercase()) {
            self.sequence(kind::IDENTIFIER, word.as_bytes());
        } else if word.starts_with(|c: char| c.is_ascii_uppercase() || "{}".contains(c)) {
            self.operator(named(word));
        } else {
            self.number(int(word));
        }
    }
}

fn int(word: &str) -> i32 {
    word.parse().unwrap_or_else(|_| panic!("no number: {word}"))
}

fn named(word: &str) -> u16 {
    let name = match word {
        "{" => "OPEN",
        "}" => "CLOSE",
        _ => word,
    };
    let found = ops::NAMES.iter().find(|entry| entry.0 == name);
    found.unwrap_or_else(|| panic!("no operator: {word}")).1
}

/// The bytes that hex digits stand for.
pub fn hex(text: &str) -> Option<Vec<u8>> {
    let pairs = text.as_bytes().chunks(2);
    pairs.map(|pair| u8::from_str_radix(std::str::from_utf8(pair).ok()?, 16).ok()).collect()
}

pub fn to_hex(bytes: &[u8]) -> String {
    bytes.iter().map(|byte| format!("{byte:02x}")).collect()
}
