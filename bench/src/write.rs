//! Token lists: writing one and reading one back. A token is four words.

use crate::engine::{fits, Answer};
use crate::number::Number;
use crate::tokens::{is_tail, kind, refuse, Reader, Refusal, Token};
use crate::tokens::{BIAS, HEADER, MAX_BYTES, MAX_IDENTIFIER};

const TOKEN: usize = 16;

/// A token of a list that may be written.
enum Item<'a> {
    Number(Number),
    Text(u8, &'a [u8]),
    Operator(u16),
}

/// Writes a token list and answers the written length.
pub fn write(list: &[u8], text: &[u8], out: &mut [u8]) -> Answer {
    write_list(list, text, out).into()
}

fn write_list(list: &[u8], text: &[u8], out: &mut [u8]) -> Result<usize, Refusal> {
    let mut len = HEADER.len();
    let tokens = list.chunks_exact(TOKEN);
    for (index, token) in tokens.clone().enumerate() {
        match item(token, text) {
            Some(item) => len += item.len(),
            None => return refuse(15, index),
        }
    }
    if !tokens.remainder().is_empty() {
        return refuse(15, tokens.len());
    }
    if len > out.len().min(MAX_BYTES) {
        return refuse(16, 0);
    }
    let mut rest = put(out, HEADER);
    for item in tokens.filter_map(|token| item(token, text)) {
        rest = item.put(rest);
    }
    Ok(len)
}

fn word(token: &[u8], index: usize) -> i32 {
    let bytes = &token[4 * index..][..4];
    i32::from_le_bytes([bytes[0], bytes[1], bytes[2], bytes[3]])
}

/// The token, if it is writable.
fn item<'a>(token: &[u8], text: &'a [u8]) -> Option<Item<'a>> {
    let (a, b) = (word(token, 1), word(token, 2));
    if word(token, 3) != 0 {
        return None;
    }
    match word(token, 0) {
        1 => Number::is_proper(a, b).then_some(Item::Number(Number { num: a, den: b })),
        2 => part(text, a, b)
            .filter(|part| is_identifier(part))
            .map(|p| Item::Text(kind::IDENTIFIER, p)),
        3 => part(text, a, b)
            .filter(|part| !part.contains(&255))
            .map(|p| Item::Text(kind::STRING, p)),
        4 => (b == 0 && (0..=8191).contains(&a)).then_some(Item::Operator(a as u16)),
        _ => None,
    }
}

fn part(text: &[u8], start: i32, len: i32) -> Option<&[u8]> {
    let (start, len) = (usize::try_from(start).ok()?, usize::try_from(len).ok()?);
    text.get(start..)?.get(..len)
}

/// An identifier as it must stand in a list: the rule, in lower case.
fn is_identifier(part: &[u8]) -> bool {
    part.len() <= MAX_IDENTIFIER
        && part.first().is_some_and(u8::is_ascii_lowercase)
        && part.iter().all(|&c| is_tail(c) && !c.is_ascii_uppercase())
}

/// The fewest bytes that hold `n` in two's complement.
fn width(n: i32) -> usize {
    let bits = 33 - (if n < 0 { !n } else { n }).leading_zeros();
    bits.div_ceil(8) as usize
}

fn is_short(n: i32) -> bool {
    (-BIAS..=28767).contains(&n)
}

fn sequence_len(data: usize) -> usize {
    data + if data <= 255 { 2 } else { 4 }
}

impl Item<'_> {
    fn len(&self) -> usize {
        match *self {
            Item::Number(Number { num, den: 1 }) if is_short(num) => 2,
            Item::Number(Number { num, den: 1 }) => 2 + width(num),
            Item::Number(Number { num, den }) => 2 + 2 * width(num).max(width(den)),
            Item::Text(_, data) => sequence_len(data.len()),
            Item::Operator(op) => 1 + (op > 31) as usize,
        }
    }

    /// Writes it at the start of `out`, where there is room, and answers the rest.
    fn put<'o>(&self, out: &'o mut [u8]) -> &'o mut [u8] {
        match *self {
            Item::Number(Number { num, den: 1 }) if is_short(num) => {
                put(out, &((num + BIAS) as u16).to_be_bytes())
            }
            Item::Number(Number { num, den: 1 }) => {
                let bytes = width(num);
                put_int(put_head(out, kind::INTEGER, bytes), num, bytes)
            }
            Item::Number(Number { num, den }) => {
                let half = width(num).max(width(den));
                let out = put_head(out, kind::RATIONAL, 2 * half);
                put_int(put_int(out, num, half), den, half)
            }
            Item::Text(kind, data) => put(put_head(out, kind, data.len()), data),
            Item::Operator(op) if op <= 31 => put(out, &[0x80 | op as u8]),
            Item::Operator(op) => put(out, &(0xA000 | op).to_be_bytes()),
        }
    }
}

fn put<'o>(out: &'o mut [u8], bytes: &[u8]) -> &'o mut [u8] {
    let (head, rest) = out.split_at_mut(bytes.len());
    head.copy_from_slice(bytes);
    rest
}

fn put_int(out: &mut [u8], n: i32, bytes: usize) -> &mut [u8] {
    put(out, &n.to_be_bytes()[4 - bytes..])
}

fn put_head(out: &mut [u8], kind: u8, len: usize) -> &mut [u8] {
    if len <= 255 {
        put(out, &[0xC0 | kind, len as u8])
    } else {
        let [_, a, b, c] = (len as u32).to_be_bytes();
        put(out, &[0xE0 | kind, a, b, c])
    }
}

/// Reads a token list back and answers the token count.
pub fn read_back(bytes: &[u8], list: &mut [u8], text: &mut [u8]) -> Answer {
    read_list(bytes, list, text).into()
}

/// Reads twice: a refusal anywhere must leave the tables as found.
fn read_list(bytes: &[u8], list: &mut [u8], text: &mut [u8]) -> Result<usize, Refusal> {
    fits(bytes)?;
    let mut reader = Reader::new(bytes)?;
    let (mut count, mut chars) = (0, 0);
    while let Some((_, token)) = reader.token()? {
        count += 1;
        if let Token::Identifier(sequence) | Token::String(sequence) = token {
            chars += sequence.len;
        }
    }
    if list.len() / TOKEN < count || text.len() < chars {
        return refuse(11, 0);
    }
    let mut reader = Reader::new(bytes)?;
    let mut used = 0;
    for place in list.chunks_exact_mut(TOKEN) {
        let Some((_, token)) = reader.token()? else { break };
        let words = list_token(&token, bytes, text, &mut used);
        for (to, word) in place.chunks_exact_mut(4).zip(words) {
            to.copy_from_slice(&word.to_le_bytes());
        }
    }
    Ok(count)
}

/// The words of a token; a text goes to the text table behind the `used` bytes.
fn list_token(token: &Token, bytes: &[u8], text: &mut [u8], used: &mut usize) -> [i32; 4] {
    let start = *used;
    match *token {
        Token::Number(Number { num, den }) => [1, num, den, 0],
        Token::Identifier(sequence) => {
            *used += sequence.len;
            text[start..*used].iter_mut().zip(sequence.lower(bytes)).for_each(|(to, c)| *to = c);
            [2, start as i32, sequence.len as i32, 0]
        }
        Token::String(sequence) => {
            for data in sequence.pieces(bytes) {
                text[*used..][..data.len()].copy_from_slice(data);
                *used += data.len();
            }
            [3, start as i32, sequence.len as i32, 0]
        }
        Token::Operator(op) => [4, op as i32, 0, 0],
    }
}
