//! Random calls for comparison: masters, token lists and tables of every kind.
//! An input depends on its seed and index alone.

use crate::engine::{self, Answer, ROWS, SCRATCH, SECTIONS};
use crate::program;
use crate::rng::Rng;
use crate::tokens::MAX_BYTES;

/// The five calls of an engine.
pub trait Calls {
    fn load(&self, master: &[u8]) -> Answer;
    fn run(&self, master: &[u8], allowance: i64, scratch: &mut [u8], rows: &mut [u8]) -> Answer;
    fn reprint(
        &self,
        master: &[u8],
        allowance: i64,
        page: i64,
        scratch: &mut [u8],
        rows: &mut [u8],
        sections: &mut [u8],
    ) -> Answer;
    fn write(&self, list: &[u8], text: &[u8], out: &mut [u8]) -> Answer;
    fn read_back(&self, bytes: &[u8], list: &mut [u8], text: &mut [u8]) -> Answer;
}

/// This crate's engine.
pub struct Oracle;

impl Calls for Oracle {
    fn load(&self, master: &[u8]) -> Answer {
        engine::load(master)
    }

    fn run(&self, master: &[u8], allowance: i64, scratch: &mut [u8], rows: &mut [u8]) -> Answer {
        engine::run(master, allowance, scratch, rows)
    }

    fn reprint(
        &self,
        master: &[u8],
        allowance: i64,
        page: i64,
        scratch: &mut [u8],
        rows: &mut [u8],
        sections: &mut [u8],
    ) -> Answer {
        engine::reprint(master, allowance, page, scratch, rows, sections)
    }

    fn write(&self, list: &[u8], text: &[u8], out: &mut [u8]) -> Answer {
        engine::write(list, text, out)
    }

    fn read_back(&self, bytes: &[u8], list: &mut [u8], text: &mut [u8]) -> Answer {
        engine::read_back(bytes, list, text)
    }
}

#[derive(Clone, Copy, PartialEq, Eq, Debug)]
pub enum Call {
    Load,
    Run,
    Reprint,
    Write,
    ReadBack,
}

/// A call, its numbers and its tables. `given` is only read: the master, or the
/// list and the text to be written.
#[derive(Clone, PartialEq)]
pub struct Input {
    pub call: Call,
    pub allowance: i64,
    pub page: i64,
    pub given: [Vec<u8>; 2],
    pub lent: [Vec<u8>; 3],
}

impl Input {
    /// Makes the call; afterwards the tables are as it left them.
    pub fn perform(&mut self, calls: &impl Calls) -> Answer {
        let [given, text] = &self.given;
        let [first, second, third] = &mut self.lent;
        match self.call {
            Call::Load => calls.load(given),
            Call::Run => calls.run(given, self.allowance, first, second),
            Call::Reprint => calls.reprint(given, self.allowance, self.page, first, second, third),
            Call::Write => calls.write(given, text, first),
            Call::ReadBack => calls.read_back(given, first, second),
        }
    }

    fn new(call: Call, given: Vec<u8>) -> Input {
        let (given, lent) = ([given, Vec::new()], [Vec::new(), Vec::new(), Vec::new()]);
        Input { call, allowance: 0, page: 0, given, lent }
    }
}

/// The input with that number.
pub fn input(seed: u64, index: u64) -> Input {
    let mut rng = Rng::new(seed ^ Rng::new(index).word());
    match rng.below(20) {
        0..=2 => load(&mut rng),
        3..=7 => run(&mut rng),
        8..=14 => reprint(&mut rng),
        15 | 16 => write(&mut rng),
        _ => read_back(&mut rng),
    }
}

fn master(rng: &mut Rng, damaged_in: usize) -> Vec<u8> {
    let mut master = program::master(rng);
    while rng.once_in(damaged_in) {
        program::damage(rng, &mut master);
    }
    stretch(rng, &mut master);
    master
}

/// Once in a while, makes bytes as long as a master may be, or longer.
fn stretch(rng: &mut Rng, bytes: &mut Vec<u8>) {
    if rng.once_in(2000) {
        let over = rng.below(2);
        bytes.resize(MAX_BYTES + over, 0);
    }
}

/// A table of about the length wanted, full of noise.
fn table(rng: &mut Rng, exact: usize) -> Vec<u8> {
    let len = match rng.below(100) {
        0 => 0,
        1 => exact.saturating_sub(1),
        2 => exact.saturating_sub(4),
        3 => rng.below(exact + 1),
        4..=15 => exact + rng.below(70),
        _ => exact,
    };
    rng.noise(len)
}

fn allowance(rng: &mut Rng) -> i64 {
    match rng.below(20) {
        0 => rng.pick(&[0, -1, 1_000_001, i64::MAX, i64::MIN, 1 << 32, (1 << 32) + 5]),
        1 => 1_000_000,
        2..=6 => rng.between(1, 60),
        _ => 100_000,
    }
}

fn load(rng: &mut Rng) -> Input {
    Input::new(Call::Load, master(rng, 2))
}

fn run(rng: &mut Rng) -> Input {
    let mut input = Input::new(Call::Run, master(rng, 8));
    input.allowance = allowance(rng);
    input.lent = [table(rng, SCRATCH), table(rng, ROWS), Vec::new()];
    input
}

fn reprint(rng: &mut Rng) -> Input {
    let mut input = Input::new(Call::Reprint, master(rng, 10));
    let count = engine::load(&input.given[0]);
    let count = if count.no == 0 { count.value as i64 } else { 3 };
    input.allowance = allowance(rng);
    input.page = match rng.below(20) {
        0 => rng.pick(&[-1, count + 1, 512, 513, i64::MIN, i64::MAX, 1 << 32]),
        1 | 2 => 0,
        _ => rng.between(count.min(1), count),
    };
    input.lent = [table(rng, SCRATCH), table(rng, ROWS), table(rng, SECTIONS)];
    input
}

/// Bytes to read back, and tables that just hold their list or do not.
fn read_back(rng: &mut Rng) -> Input {
    let mut bytes = program::tokens(rng);
    while rng.once_in(6) {
        program::damage(rng, &mut bytes);
    }
    let (mut list, mut text) = (vec![0; 16 * bytes.len()], vec![0; bytes.len()]);
    let answer = engine::read_back(&bytes, &mut list, &mut text);
    let count = if answer.no == 0 { answer.value as usize } else { 9 };
    let is_text = |token: &&[u8]| token[0] == 2 || token[0] == 3;
    let tokens = list.chunks(16).take(count).filter(is_text);
    let chars = tokens.map(|t| usize::from(t[8]) + 256 * usize::from(t[9])).sum();
    stretch(rng, &mut bytes);
    let mut input = Input::new(Call::ReadBack, bytes);
    input.lent = [table(rng, 16 * count), table(rng, chars), Vec::new()];
    input
}

/// A token list that may be written, perhaps spoiled, and a buffer for it.
fn write(rng: &mut Rng) -> Input {
    let (mut list, mut text) = (Vec::new(), Vec::new());
    for _ in 0..rng.below(9) {
        let words = token(rng, &mut text);
        list.extend(words.into_iter().flat_map(i32::to_le_bytes));
    }
    if rng.once_in(4) {
        spoil(rng, &mut list, &mut text);
    }
    let big = rng.once_in(300);
    if big {
        let more = rng.pick(&[0, 1, 2, 2]);
        list = [3, 0, (MAX_BYTES - 26 + more) as i32, 0].map(i32::to_le_bytes).concat();
        text = vec![1; MAX_BYTES];
    }
    let mut out = vec![0; 64 + text.len() + list.len()];
    let answer = engine::write(&list, &text, &mut out);
    let len = match answer.no {
        0 => answer.value as usize,
        _ if big => out.len(),
        _ => 60,
    };
    let mut input = Input::new(Call::Write, list);
    input.given[1] = text;
    input.lent[0] = table(rng, len);
    input
}

/// A writable token; its text goes to the end of the table.
fn token(rng: &mut Rng, text: &mut Vec<u8>) -> [i32; 4] {
    const ENDS: [i32; 12] = [
        -128, 127, 128, -4000, -4001, 28767, 28768, 32768, -32769, 8_388_607, 8_388_608, -8_388_609,
    ];
    let start = text.len() as i32;
    match rng.below(8) {
        0 => [1, rng.between(-4100, 29000) as i32, 1, 0],
        1 => [1, rng.pick(&ENDS), 1, 0],
        2 => [1, (rng.word() as i32).max(-i32::MAX), 1, 0],
        3 => [1, rng.pick(&[1, -1]), rng.pick(&ENDS).max(2), 0],
        4 => {
            let len = rng.pick(&[1, 2, 5, 99, 100]);
            text.extend((0..len).map(|i| if i == 0 { b'm' } else { rng.pick(b"az09-") }));
            [2, start, len, 0]
        }
        5 => {
            let len = rng.pick(&[0, 1, 5, 254, 255, 256, 300]);
            text.extend(rng.noise(len).into_iter().map(|byte| byte.min(254)));
            [3, start, len as i32, 0]
        }
        6 => [4, rng.below(40) as i32, 0, 0],
        _ => [4, rng.below(8192) as i32, 0, 0],
    }
}

/// Makes a list unwritable, or nearly.
fn spoil(rng: &mut Rng, list: &mut Vec<u8>, text: &mut Vec<u8>) {
    let words = list.len() / 4;
    match rng.below(8) {
        0 => list.truncate(rng.below(list.len() + 1)),
        1 => list.push(rng.byte()),
        2 if !text.is_empty() => {
            let at = rng.below(text.len());
            text[at] = rng.pick(&[255, b'A', b'_', b'0']);
        }
        3 => text.truncate(rng.below(text.len() + 1)),
        4 => {
            // An empty part at the end of the table, or beyond.
            let start = text.len() as i32 + rng.pick(&[0, 0, 1, 2, -1]);
            list.extend([3, start, 0, 0].map(i32::to_le_bytes).concat());
        }
        _ if words > 0 => {
            let at = 4 * rng.below(words);
            let len = text.len() as i32;
            let word = rng.pick(&[0, 1, -1, 2, 5, 8192, len, len + 1, i32::MIN, i32::MAX]);
            list[at..at + 4].copy_from_slice(&word.to_le_bytes());
        }
        _ => {}
    }
}
