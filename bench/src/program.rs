//! Random masters: programs that mostly work, in every form of every token,
//! and damage to them.

use crate::builder::Builder;
use crate::ops;
use crate::rng::Rng;
use crate::tokens::{kind, BIAS, HEADER};

const UNARY: [u16; 6] = [ops::NEG, ops::ABS, ops::FLOOR, ops::CEILING, ops::TRUNC, ops::ROUND];
const BINARY: [u16; 8] =
    [ops::ADD, ops::SUB, ops::MUL, ops::DIV, ops::MOD, ops::REM, ops::GT, ops::GE];
const BODY: [u16; 6] =
    [ops::IF, ops::IFELSE, ops::DOSAVESIMPLEBODY, ops::MAKESIMPLECO, ops::CORRECT, ops::IFCOPY];
const CALLS: [u16; 3] = [ops::DO, ops::DOSAVE, ops::DOSAVEALL];
const EDGES: [i32; 22] = [
    0,
    1,
    2,
    3,
    -1,
    -2,
    7,
    12,
    127,
    128,
    -129,
    255,
    4000,
    -4001,
    28767,
    28768,
    46341,
    65536,
    16_777_215,
    16_777_216,
    i32::MAX,
    -i32::MAX,
];
const WORDS: [&str; 6] = ["a", "times", "old-x", "z12", "a-b-c", "x-"];

/// A program under way.
pub struct Random<'r> {
    pub rng: &'r mut Rng,
    pub out: Builder,
    /// One comment in so many tokens.
    chatter: usize,
    /// Literals still wanted, so that nesting comes to an end.
    budget: usize,
}

/// A whole random master.
pub fn master(rng: &mut Rng) -> Vec<u8> {
    let chatter = rng.pick(&[4, 12, 40, 1000]);
    let mut random = Random { rng, out: Builder::new(), chatter, budget: 0 };
    match random.rng.below(60) {
        0 => random.nested(),
        1 => random.many_pages(),
        _ => random.book(),
    }
    random.out.bytes
}

/// Tokens without a skeleton, for reading back.
pub fn tokens(rng: &mut Rng) -> Vec<u8> {
    let chatter = rng.pick(&[3, 12, 1000]);
    let mut random = Random { rng, out: Builder::new(), chatter, budget: 40 };
    for _ in 0..random.rng.below(15) {
        match random.rng.below(3) {
            0 => random.idiom(14),
            1 => random.value(),
            _ => {
                let op = random.rng.below(8192) as u16;
                random.op(op);
            }
        }
    }
    random.comment();
    random.out.bytes
}

/// Skeletons.
impl Random<'_> {
    fn book(&mut self) {
        self.op(ops::BEGIN);
        self.top(true);
        for _ in 0..self.rng.pick(&[0, 1, 1, 1, 2, 2, 3, 5]) {
            self.top(false);
        }
        self.comment();
        self.op(ops::END);
    }

    /// The preamble, which leaves operators in the frame, or a page.
    fn top(&mut self, preamble: bool) {
        self.budget = self.rng.pick(&[0, 3, 10, 30, 80]);
        self.op(ops::OPEN);
        if preamble && !self.rng.once_in(4) {
            for place in 0..self.rng.below(5) {
                self.body(ops::MAKESIMPLECO, 2);
                self.number(place as i32, 1);
                self.op(ops::FSET);
            }
        }
        self.literals(1);
        self.op(ops::CLOSE);
    }

    /// Bodies nested to about the limit, here and there run.
    fn nested(&mut self) {
        let depth = self.rng.between(10, 18);
        self.out.text("BEGIN {");
        let preamble = self.rng.once_in(3);
        if !preamble {
            self.out.text("} {");
        }
        let op = self.rng.pick(&["1 IF {", "1 IFELSE {", "DOSAVESIMPLEBODY {", "MAKESIMPLECO {"]);
        for _ in 1..depth {
            self.comment();
            self.out.text(op);
        }
        self.budget = 4;
        self.literals(16);
        for _ in 0..depth {
            self.out.text("}");
        }
        if preamble {
            self.out.text("{ }");
        }
        self.out.text("END");
    }

    fn many_pages(&mut self) {
        self.out.text("BEGIN { 3 1 FSET }");
        for page in 0..self.rng.between(509, 514) {
            self.comment();
            self.out.text(if page % 7 == 3 { "{ 1 FGET (ab) }" } else { "{ }" });
        }
        self.op(ops::END);
    }
}

/// Tokens in every form.
impl Random<'_> {
    fn comment(&mut self) {
        while self.rng.once_in(self.chatter) {
            let len = self.rng.below(5);
            let data = self.rng.noise(len);
            self.sequence(kind::COMMENT, &data);
        }
    }

    fn op(&mut self, op: u16) {
        self.comment();
        if op < 32 && self.rng.once_in(3) {
            self.out.bytes.extend((0xA000 | op).to_be_bytes());
        } else {
            self.out.operator(op);
        }
    }

    /// A sequence, now and then in pieces.
    fn sequence(&mut self, kind: u8, data: &[u8]) {
        let (mut kind, mut rest) = (kind, data);
        while self.rng.once_in(5) {
            let (piece, tail) = rest.split_at(self.rng.below(rest.len() + 1));
            self.piece(kind, piece);
            (kind, rest) = (kind::CONTINUED, tail);
        }
        self.piece(kind, rest);
    }

    fn piece(&mut self, kind: u8, data: &[u8]) {
        if self.rng.once_in(6) {
            self.out.long_head(kind, data.len());
            self.out.bytes.extend(data);
        } else {
            self.out.sequence(kind, data);
        }
    }

    fn number(&mut self, num: i32, den: i32) {
        self.comment();
        let short = den == 1 && (-BIAS..=28767).contains(&num);
        match self.rng.below(8) {
            0 => self.rational(num, den),
            1 if den == 1 => self.integer(num),
            _ if short => self.out.number(num),
            _ if den == 1 => self.integer(num),
            _ => self.rational(num, den),
        }
    }

    fn integer(&mut self, n: i32) {
        let bytes = n.to_be_bytes();
        let len = self.rng.between(width(n) as i64, 4) as usize;
        self.sequence(kind::INTEGER, &bytes[4 - len..]);
    }

    /// A fraction, perhaps not reduced and with the sign below.
    fn rational(&mut self, num: i32, den: i32) {
        let by = self.rng.pick(&[1, 1, 2, -1, -3, 10, 1000]);
        let scaled = num.checked_mul(by).zip(den.checked_mul(by));
        let (num, den) = scaled.unwrap_or((num, den));
        let least = width(num).max(width(den));
        let len = self.rng.between(least as i64, 4) as usize;
        let halves = [num.to_be_bytes(), den.to_be_bytes()];
        let data: Vec<u8> = halves.iter().flat_map(|half| half[4 - len..].to_vec()).collect();
        self.sequence(kind::RATIONAL, &data);
    }

    fn identifier(&mut self) {
        self.comment();
        let mut text = self.rng.pick(&WORDS).as_bytes().to_vec();
        if self.rng.once_in(15) {
            text.resize(self.rng.between(97, 100) as usize, b'q');
        }
        if self.rng.once_in(400) {
            // Against the rule, mostly.
            match self.rng.below(4) {
                0 => text.clear(),
                1 => text.resize(self.rng.between(100, 102) as usize, b'7'),
                2 => text[0] = self.rng.pick(b"-7_@[`{/:"),
                _ => text.push(self.rng.pick(b"-7_@[`{/:")),
            }
        }
        for c in &mut text {
            if self.rng.once_in(3) {
                c.make_ascii_uppercase();
            }
        }
        self.sequence(kind::IDENTIFIER, &text);
    }

    fn string(&mut self, len: usize) {
        self.comment();
        let mut data = self.rng.noise(len);
        data.iter_mut().for_each(|byte| *byte = (*byte).min(254));
        self.sequence(kind::STRING, &data);
    }
}

/// Literals of a body.
impl Random<'_> {
    fn literals(&mut self, depth: usize) {
        while self.budget > 0 {
            if self.rng.once_in(2) {
                self.guarded(depth);
            } else {
                self.idiom(depth);
            }
            if depth > 1 && self.rng.once_in(4) {
                return;
            }
        }
    }

    /// Idioms over a mark, with whatever they leave gathered into a vector, so
    /// that a fault in them does not end the page.
    fn guarded(&mut self, depth: usize) {
        self.number(0, 1);
        self.op(ops::MARK);
        for _ in 0..=self.rng.below(3) {
            self.idiom(depth);
        }
        self.op(ops::COUNT);
        self.op(ops::MAKEVEC);
        if self.rng.once_in(3) {
            self.op(ops::POP);
            self.op(ops::UNMARK0);
        } else {
            self.number(1, 1);
            self.op(ops::UNMARK);
            self.number(0, 1);
            self.op(ops::MARK);
            self.op(ops::UNMARK0);
        }
    }

    fn body(&mut self, op: u16, depth: usize) {
        self.op(op);
        self.op(ops::OPEN);
        if depth < 16 {
            self.literals(depth + 1);
        }
        self.op(ops::CLOSE);
    }

    fn any_number(&mut self) {
        let (num, den) = match self.rng.below(8) {
            0..=3 => (self.rng.between(-5, 20) as i32, 1),
            4 => (self.rng.pick(&EDGES), 1),
            5 => (self.rng.between(-20, 20) as i32, self.rng.between(1, 12) as i32),
            6 => (self.rng.pick(&EDGES), self.rng.pick(&EDGES).max(1)),
            _ => ((self.rng.word() as i32).max(-i32::MAX), (self.rng.word() as i32).max(1)),
        };
        self.number(num, den);
    }

    fn small(&mut self, bound: usize) {
        let n = self.rng.below(bound) as i32;
        self.number(n, 1);
    }

    fn value(&mut self) {
        match self.rng.below(7) {
            0..=3 => self.any_number(),
            4 => self.identifier(),
            _ => {
                let len = self.rng.pick(&[0, 1, 2, 5, 17]);
                self.string(len);
            }
        }
    }

    /// A few literals that belong together.
    fn idiom(&mut self, depth: usize) {
        self.budget = self.budget.saturating_sub(1);
        match self.rng.below(36) {
            0..=2 | 34 | 35 => self.value(),
            3..=6 => self.arithmetic(),
            7 | 8 => self.test(),
            9 | 10 => self.vector(),
            11 | 12 => self.frame(),
            13..=15 => self.marked(depth),
            16..=19 => self.conditional(depth),
            20 | 21 => self.define(depth),
            22 | 23 => self.frame_call(),
            24..=27 => self.shuffle(),
            28 if self.rng.once_in(2) => self.dead_mark(depth),
            28 => self.error(),
            29 => self.wild(),
            30 => self.fill_stack(),
            31 => self.fill_room(),
            32 => self.recur(),
            _ => self.fault(),
        }
    }

    fn arithmetic(&mut self) {
        self.any_number();
        if self.rng.once_in(3) {
            let op = self.rng.pick(&UNARY);
            return self.op(op);
        }
        if !self.rng.once_in(6) {
            self.any_number();
        }
        let op = self.rng.pick(&BINARY);
        self.op(op);
    }

    fn test(&mut self) {
        self.value();
        match self.rng.below(6) {
            0 => self.op(ops::TYPE),
            1 => self.op(ops::NOT),
            2 | 3 => {
                for _ in 0..2 {
                    let n = self.rng.pick(&[0, 0, 1, 1, 2, 3, 16_777_215, 16_777_216]);
                    self.number(n, 1);
                }
                let op = self.rng.pick(&[ops::AND, ops::OR, ops::EQ]);
                self.op(op);
            }
            4 => {
                self.identifier();
                self.identifier();
                self.op(ops::EQ);
            }
            _ => {
                self.value();
                self.op(ops::EQ);
            }
        }
    }

    fn vector(&mut self) {
        let count = self.rng.below(6);
        for _ in 0..count {
            self.value();
        }
        let low = self.rng.pick(&[0, 1, 5, 16_777_210]);
        if self.rng.once_in(2) {
            self.number(count as i32, 1);
            self.op(ops::MAKEVEC);
        } else {
            let high = low + count as i32 - 1 + i32::from(self.rng.once_in(8));
            self.number(low, 1);
            self.number(high, 1);
            self.op(ops::MAKEVECLU);
        }
        match self.rng.below(4) {
            0 => self.op(ops::SHAPE),
            1 => {
                let index = self.rng.pick(&[0, low]) + self.rng.below(count + 1) as i32;
                self.number(index, 1);
                self.op(ops::GET);
            }
            _ => {}
        }
    }

    fn frame(&mut self) {
        let place = self.rng.pick(&[0, 1, 2, 3, 4, 5, 48, 49, 50]);
        if self.rng.once_in(2) {
            self.value();
            self.number(place, 1);
            return self.op(ops::FSET);
        }
        self.number(place, 1);
        self.op(ops::FGET);
    }

    /// A mark, something above it, and mostly a way to be rid of it.
    fn marked(&mut self, depth: usize) {
        if self.rng.once_in(4) {
            self.value();
        }
        let under = self.rng.pick(&[0, 0, 0, 0, 1, 2]);
        self.number(under, 1);
        self.op(ops::MARK);
        for _ in 0..self.rng.below(4) {
            self.idiom(depth);
        }
        match self.rng.below(8) {
            0 => self.op(ops::COUNT),
            1 => {
                self.op(ops::COUNT);
                self.op(ops::UNMARK);
            }
            2 => {
                self.small(3);
                self.op(ops::UNMARK);
            }
            3 => {}
            _ => self.op(ops::UNMARK0),
        }
    }

    fn conditional(&mut self, depth: usize) {
        let op = self.rng.pick(&BODY);
        if (op == ops::IF || op == ops::IFELSE) && !self.rng.once_in(10) {
            let condition = self.rng.pick(&[0, 0, 1, 1, 1, 1, 1, 2, 3, 16_777_215, 16_777_216, -1]);
            self.number(condition, 1);
        }
        self.body(op, depth);
        if op == ops::IFELSE && self.rng.once_in(2) {
            self.body(ops::IF, depth);
        }
    }

    /// A mark whose body has ended, then other bodies of the same depth and deeper.
    fn dead_mark(&mut self, depth: usize) {
        self.out.text("1 IF { 0 MARK").text(if self.rng.once_in(2) { "}" } else { "5 }" });
        for _ in 0..self.rng.below(2) {
            self.value();
        }
        self.out.text("1 IF {");
        match self.rng.below(4) {
            0 => self.out.text("UNMARK0 }"),
            1 => self.out.text("COUNT 3 }"),
            2 => self.out.text("DOSAVESIMPLEBODY { 1 0 DIV 4 } 3 UNMARK0 4 } 5 UNMARK0"),
            _ => {
                self.idiom(depth + 1);
                self.out.text("} UNMARK0")
            }
        };
    }

    fn define(&mut self, depth: usize) {
        self.body(ops::MAKESIMPLECO, depth);
        match self.rng.below(5) {
            0 => {}
            1 => {
                self.small(5);
                self.op(ops::FSET);
            }
            2 => {
                self.op(ops::DUP);
                self.call();
                self.call();
            }
            _ => self.call(),
        }
    }

    fn call(&mut self) {
        let op = self.rng.pick(&CALLS);
        self.op(op);
    }

    fn frame_call(&mut self) {
        self.small(5);
        self.op(ops::FGET);
        if self.rng.once_in(3) {
            // Only a call of an operator; a number is left alone.
            for op in [ops::DUP, ops::TYPE] {
                self.op(op);
            }
            self.number(4, 1);
            self.op(ops::EQ);
            self.op(ops::IF);
            self.op(ops::OPEN);
            self.call();
            return self.op(ops::CLOSE);
        }
        self.call();
    }

    fn shuffle(&mut self) {
        let few = usize::from(self.rng.once_in(5));
        for _ in 0..5 - 4 * few {
            self.value();
        }
        match self.rng.below(8) {
            0 => self.op(ops::POP),
            1 => self.op(ops::DUP),
            2 => self.op(ops::EXCH),
            3 => self.op(ops::NOP),
            4 => self.op(ops::COUNT),
            5 => {
                self.small(4);
                self.op(ops::COPY);
            }
            _ => {
                let depth = self.rng.below(5);
                self.number(depth as i32, 1);
                let beyond = usize::from(self.rng.once_in(6));
                self.small(depth + 1 + beyond);
                self.op(ops::ROLL);
            }
        }
    }

    fn error(&mut self) {
        if self.rng.once_in(4) {
            self.vector();
        } else {
            let len = self.rng.below(4);
            self.string(len);
        }
        let code = self.rng.pick(&[0, 10, 10, 50, 60, 100, 100, 5, -1]);
        self.number(code, 1);
        self.op(ops::ERROR);
    }

    /// Any operator that takes no body, with whatever is there.
    fn wild(&mut self) {
        let op = match self.rng.below(3) {
            0 => self.rng.below(8192) as u16,
            1 => self.rng.pick(&[0, 18, 22, 31, 32, 104, 108, 111, 119, 182, 189, 218, 219, 284]),
            _ => self.rng.pick(ops::NAMES).1,
        };
        let shape = (ops::BEGIN..=ops::CLOSE).contains(&op) && op != 104;
        if !shape && !ops::takes_body(op) {
            self.op(op);
        }
    }

    /// Doubles the stack up to its limit or thereabouts.
    fn fill_stack(&mut self) {
        let in_body = self.rng.once_in(2);
        if in_body {
            self.out.text("1 IFELSE {");
        }
        self.value();
        self.op(ops::DUP);
        for depth in [2, 4, 8, 16, 32] {
            self.number(depth, 1);
            self.op(ops::COPY);
        }
        let more = self.rng.between(55, 64) as i32;
        self.number(more, 1);
        self.op(ops::COPY);
        for _ in 0..self.rng.below(10) {
            match self.rng.below(5) {
                0 => self.identifier(),
                1 => self.any_number(),
                2 => self.op(ops::EXCH),
                3 => self.body(ops::MAKESIMPLECO, 16),
                _ => self.string(2),
            }
        }
        if in_body {
            self.out.text("}");
        }
    }

    fn fill_room(&mut self) {
        for _ in 0..self.rng.below(4) {
            let len = self.rng.pick(&[200, 255, 256, 300, 500, 1024, 1025]);
            self.string(len);
            if self.rng.once_in(2) {
                self.op(ops::POP);
            }
        }
    }

    /// An operator that calls itself until the contexts run out.
    fn recur(&mut self) {
        self.op(ops::MAKESIMPLECO);
        self.op(ops::OPEN);
        if self.rng.once_in(2) {
            self.small(3);
            self.op(ops::EXCH);
        }
        if self.rng.once_in(3) {
            self.number(1, 1);
            self.op(ops::MARK);
        }
        self.op(ops::DUP);
        self.call();
        if self.rng.once_in(2) {
            self.op(ops::UNMARK0);
        }
        self.op(ops::CLOSE);
        self.op(ops::DUP);
        self.call();
    }

    /// Something that fails for certain.
    fn fault(&mut self) {
        match self.rng.below(4) {
            0 => self.out.text("1 0 DIV"),
            1 => self.out.text("2147483647 1 ADD"),
            2 => self.out.text("a NEG"),
            _ => self.out.text("50 FGET"),
        };
    }
}

/// The fewest bytes that hold `n`.
fn width(n: i32) -> usize {
    (1..4).find(|&bytes| n >> (8 * bytes - 1) == n >> 31).unwrap_or(4)
}

/// Spoils bytes in one way or another.
pub fn damage(rng: &mut Rng, bytes: &mut Vec<u8>) {
    let at = match rng.once_in(12) {
        true => rng.below(bytes.len() + 1),
        false => rng.between(HEADER.len().min(bytes.len()) as i64, bytes.len() as i64) as usize,
    };
    match rng.below(9) {
        0 | 1 if at < bytes.len() => bytes[at] ^= 1 << rng.below(8),
        2 if at < bytes.len() => bytes[at] = rng.byte(),
        3 => bytes.truncate(at),
        4 => insert(bytes, at, &rng.noise(3)[..1]),
        5 => {
            let piece = rng.pick(&["C7", "E7", "C700", "C70141", "E7000000", "C7FF", "C7000FA1"]);
            let piece = crate::builder::hex(piece).unwrap_or_default();
            insert(bytes, at, &piece.repeat(1 + rng.below(2)));
        }
        6 => {
            let extra = 1 + rng.below(4);
            let noise = rng.noise(extra);
            bytes.extend(noise);
        }
        7 => {
            let end = at + rng.below(bytes.len() - at + 1).min(6);
            let copy = bytes[at..end].to_vec();
            insert(bytes, at, &copy);
        }
        _ => {
            let token = rng.pick(&[
                "A066",
                "A067",
                "A069",
                "A06A",
                "A06B",
                "A072",
                "C800",
                "C300",
                "C0",
                "FF",
                "C500",
                "C404000100000001",
            ]);
            insert(bytes, at, &crate::builder::hex(token).unwrap_or_default());
        }
    }
}

fn insert(bytes: &mut Vec<u8>, at: usize, more: &[u8]) {
    bytes.splice(at..at, more.iter().copied());
}
