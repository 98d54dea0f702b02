//! The machine of the base language: runs bodies straight from the bytes of a
//! master that passed the skeleton check.

mod operators;

use crate::number::Number;
use crate::ops;
use crate::skeleton::{Skeleton, Span, CLOSE_LEN};
use crate::tokens::{kind, short_number, Sequence};

pub const STACK: usize = 128;
pub const FRAME: usize = 50;
pub const ROOM: usize = 1024;
pub const CALLERS: usize = 11;
pub const MAX_CARDINAL: i32 = 16_777_215;

/// The store holds the cells, then the frame that pages start from, then a
/// frame for each context.
const START_FRAME: usize = ROOM;
const STORE: usize = START_FRAME + FRAME * (CALLERS + 2);

/// A value in 12 bytes.
#[derive(Clone, Copy)]
pub enum Value {
    Number(Number),
    /// `at` is the place of its token.
    Identifier {
        len: u8,
        at: u32,
    },
    Vector {
        first: u16,
        count: u16,
        low: i32,
    },
    Operator {
        frame: u16,
        body: u32,
    },
    /// Placed by the context `id` at `depth`; `below` is the base under it.
    Mark {
        depth: u8,
        below: u8,
        id: u32,
    },
}

use Value::{Identifier, Mark, Operator, Vector};

impl Value {
    const ZERO: Value = Value::Number(Number::ZERO);

    #[inline]
    fn whole(n: i32) -> Value {
        Value::Number(Number::whole(n))
    }

    #[inline]
    fn cardinal(self) -> Result<i32, Fault> {
        match self {
            Value::Number(Number { num: n @ 0..=MAX_CARDINAL, den: 1 }) => Ok(n),
            _ => Err(Fault),
        }
    }
}

/// A master error.
pub struct Fault;
type Done = Result<(), Fault>;

#[derive(Clone, Copy, PartialEq, Eq, Debug)]
pub enum Outcome {
    Finished = 1,
    Recovered = 2,
    Broken = 3,
}

/// A context in progress.
#[derive(Clone, Copy, Default)]
struct Context {
    /// Just after the literal in progress.
    at: usize,
    /// The number of the next body to be met in its own body.
    next: u32,
    /// Where its frame stands in the store. Frames are copied when first stored
    /// to: until then this is the operator's or the caller's frame.
    frame: usize,
    /// Never given twice while one body is run by the engine.
    id: u32,
    /// Whether the end of its body pushes the 0 of IFELSE.
    if_else: bool,
}

pub struct Machine<'a> {
    master: &'a [u8],
    bodies: &'a [Span],
    /// The numbers of the preamble's body and the pages'.
    heads: &'a [u32],
    store: [Value; STORE],
    stack: [Value; STACK],
    len: usize,
    /// Just above the topmost mark, so nothing from here up is a mark.
    base: usize,
    here: Context,
    callers: [Context; CALLERS],
    depth: usize,
    ids: u32,
    /// Cells charged, the preamble's included.
    cells: usize,
    /// Cells the preamble charged.
    kept: usize,
    allowance: u32,
    steps_left: u32,
    errors: u32,
}

impl<'a> Machine<'a> {
    pub fn new(master: &'a [u8], skeleton: &'a Skeleton, allowance: u32) -> Machine<'a> {
        Machine {
            master,
            bodies: &skeleton.bodies,
            heads: &skeleton.heads,
            store: [Value::ZERO; STORE],
            stack: [Value::ZERO; STACK],
            len: 0,
            base: 0,
            here: Context::default(),
            callers: [Context::default(); CALLERS],
            depth: 0,
            ids: 0,
            cells: 0,
            kept: 0,
            allowance,
            steps_left: 0,
            errors: 0,
        }
    }

    /// Runs the preamble (0) or a page and answers its row.
    pub fn run(&mut self, page: usize) -> [i32; 4] {
        (self.len, self.base, self.depth) = (0, 0, 0);
        (self.steps_left, self.errors, self.ids) = (self.allowance, 0, 0);
        self.here = self.context(self.heads[page], START_FRAME);
        self.cells = self.kept;
        let outcome = self.go();
        if outcome == Outcome::Recovered {
            self.len = 0;
        }
        let (steps, charged) = (self.allowance - self.steps_left, self.cells - self.kept);
        [outcome as i32, self.errors as i32, steps as i32, charged as i32]
    }

    /// Makes the preamble's frame and cells those that every page starts from.
    pub fn keep(&mut self) {
        let frame = self.own().frame;
        self.store.copy_within(frame..frame + FRAME, START_FRAME);
        self.kept = self.cells;
    }

    /// The context of the body the engine runs.
    fn own(&self) -> &Context {
        if self.depth == 0 {
            &self.here
        } else {
            &self.callers[0]
        }
    }

    /// The stack, the frame and the cells that the last run left.
    pub fn sections(&self) -> [&[Value]; 3] {
        let frame = self.own().frame;
        let cells = &self.store[self.kept..self.cells];
        [&self.stack[..self.len], &self.store[frame..frame + FRAME], cells]
    }

    /// The five words of a value seen from the body `page`.
    pub fn words(&self, value: Value, page: usize) -> [i32; 5] {
        match value {
            Value::Number(Number { num, den }) => [1, num, den, 0, 0],
            Identifier { len, at } => {
                let (origin, start) = self.origin(at, page);
                [2, origin, start, len as i32, 0]
            }
            Vector { first, count, low } => [3, first as i32, low, count as i32, 0],
            Operator { frame, body } => {
                let span = self.span(body);
                let (origin, start) = self.origin(span.start, page);
                [4, origin, start, (span.end - span.start) as i32, frame as i32]
            }
            Mark { .. } => [5, 0, 0, 0, 0],
        }
    }

    /// Whose body a place stands in, and how far after that body's `{`.
    fn origin(&self, at: u32, page: usize) -> (i32, i32) {
        let preamble = self.span(self.heads[0]);
        if at < preamble.end {
            (0, (at - preamble.start) as i32)
        } else {
            (1, (at - self.span(self.heads[page]).start) as i32)
        }
    }

    fn span(&self, body: u32) -> Span {
        self.bodies[body as usize]
    }
}

/// The course of a run: literals, ends of bodies and recovery.
impl Machine<'_> {
    fn go(&mut self) -> Outcome {
        // Both in registers: through `self` every push would have them reloaded.
        let (master, mut at) = (self.master, self.here.at);
        loop {
            let lead = master[at];
            let done = if lead < 0x80 {
                if !self.step() {
                    return Outcome::Broken;
                }
                self.here.at = at + 2;
                self.push(Value::whole(short_number(lead, master[at + 1])))
            } else if lead < 0xC0 {
                let op = self.operator_at(master, at, lead);
                if op == ops::CLOSE {
                    if self.depth == 0 {
                        return Outcome::Finished;
                    }
                    self.leave_at_end()
                } else if self.step() {
                    self.operator(op)
                } else {
                    return Outcome::Broken;
                }
            } else {
                match self.sequence(at, lead & 0x1F) {
                    Some(done) => done,
                    None => return Outcome::Broken,
                }
            };
            if done.is_err() {
                self.errors += 1;
                if let Err(outcome) = self.recover() {
                    return outcome;
                }
            }
            at = self.here.at;
        }
    }

    /// Takes a step if one is left.
    #[inline]
    fn step(&mut self) -> bool {
        let left = self.steps_left.checked_sub(1);
        self.steps_left = left.unwrap_or(0);
        left.is_some()
    }

    /// The number of the operator at `at`; the context goes on behind it.
    #[inline]
    fn operator_at(&mut self, master: &[u8], at: usize, lead: u8) -> u16 {
        let high = u16::from(lead & 0x1F);
        if lead < 0xA0 {
            self.here.at = at + 1;
            high
        } else {
            self.here.at = at + 2;
            high << 8 | u16::from(master[at + 1])
        }
    }

    /// Runs the sequence at `at`; nothing if it wants a step and none is left.
    fn sequence(&mut self, at: usize, kind: u8) -> Option<Done> {
        let master = self.master;
        let sequence = self.sequence_at(at);
        if kind == kind::COMMENT {
            return Some(Ok(()));
        }
        if !self.step() {
            return None;
        }
        Some(match kind {
            kind::STRING => self.string(sequence),
            kind::INTEGER => self.push_number(sequence.integer(master)),
            kind::RATIONAL => self.push_number(sequence.rational(master)),
            _ => self.push(Identifier { len: sequence.len as u8, at: at as u32 }),
        })
    }

    /// The sequence at `at`; the context goes on behind it.
    fn sequence_at(&mut self, at: usize) -> Sequence {
        let Ok(sequence) = Sequence::read(self.master, at) else {
            unreachable!("the skeleton check has read it")
        };
        self.here.at = sequence.end;
        sequence
    }

    /// Opens a context that runs `body` from the frame at `frame`.
    fn enter(&mut self, body: u32, frame: usize, if_else: bool) -> Done {
        *self.callers.get_mut(self.depth).ok_or(Fault)? = self.here;
        self.depth += 1;
        self.ids += 1;
        self.here = Context { if_else, ..self.context(body, frame) };
        Ok(())
    }

    fn context(&self, body: u32, frame: usize) -> Context {
        let at = self.span(body).start as usize;
        Context { at, next: body + 1, frame, id: self.ids, if_else: false }
    }

    /// Goes back to the caller.
    #[inline]
    fn leave(&mut self) {
        self.depth -= 1;
        self.here = self.callers[self.depth];
    }

    fn leave_at_end(&mut self) -> Done {
        let if_else = self.here.if_else;
        self.leave();
        if if_else {
            self.push(Value::ZERO)?;
        }
        Ok(())
    }

    /// Mark recovery: to go on behind the UNMARK0 found, or the page's outcome.
    fn recover(&mut self) -> Result<(), Outcome> {
        loop {
            let Some(depth) = self.drop_to_live_mark() else {
                return Err(Outcome::Recovered);
            };
            while self.depth > depth {
                self.leave();
            }
            if self.skip()? {
                self.drop_mark();
                return Ok(());
            }
            if self.depth == 0 {
                return Err(Outcome::Recovered);
            }
            self.leave();
        }
    }

    /// Drops the stack to a mark whose context is in progress and answers that
    /// context's depth; nothing when the engine's mark is reached.
    fn drop_to_live_mark(&mut self) -> Option<usize> {
        loop {
            self.len = self.base;
            let top = self.base.checked_sub(1)?;
            if let Mark { depth, id, .. } = self.stack[top] {
                if self.is_live(depth as usize, id) {
                    return Some(depth as usize);
                }
            }
            self.drop_mark();
        }
    }

    /// Contexts are known by number: another one may stand at the same depth.
    fn is_live(&self, depth: usize, id: u32) -> bool {
        match depth {
            _ if depth < self.depth => self.callers[depth].id == id,
            _ => depth == self.depth && self.here.id == id,
        }
    }

    /// Takes the topmost mark out from under the values above it.
    fn drop_mark(&mut self) {
        let place = self.base - 1;
        if let Mark { below, .. } = self.stack[place] {
            self.base = below as usize;
        }
        self.stack.copy_within(place + 1..self.len, place);
        self.len -= 1;
    }

    /// Skips literals; true behind an UNMARK0, false at the end of the body.
    fn skip(&mut self) -> Result<bool, Outcome> {
        loop {
            let at = self.here.at;
            let lead = self.master[at];
            let mut found = false;
            if lead < 0x80 {
                self.here.at = at + 2;
            } else if lead < 0xC0 {
                let op = self.operator_at(self.master, at, lead);
                if op == ops::CLOSE {
                    return Ok(false);
                }
                if ops::takes_body(op) {
                    self.pass_body();
                }
                found = op == ops::UNMARK0;
            } else {
                self.sequence_at(at);
                if lead & 0x1F == kind::COMMENT {
                    continue;
                }
            }
            if !self.step() {
                return Err(Outcome::Broken);
            }
            if found {
                return Ok(true);
            }
        }
    }

    /// Goes on behind the body due here and answers its number.
    fn pass_body(&mut self) -> u32 {
        let body = self.here.next;
        let span = self.span(body);
        self.here.at = span.end as usize + CLOSE_LEN;
        self.here.next = span.after;
        body
    }
}
