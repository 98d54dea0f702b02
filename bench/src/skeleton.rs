//! The skeleton check: every token is read once, and the spans of the bodies
//! that will be run are kept so that running never looks for an end.

use crate::ops as op;
use crate::tokens::{refuse, Reader, Refusal, Token};

pub const MAX_PAGES: usize = 512;
pub const MAX_OPEN: usize = 16;

/// Bytes of a `}`: 107 has only the long form.
pub const CLOSE_LEN: usize = 2;

/// A body in the order of the `{`s. The first body inside body `k` is `k + 1`,
/// and `after` is the first one behind it, so a run only counts along.
#[derive(Clone, Copy, Default)]
pub struct Span {
    /// Just after its `{`.
    pub start: u32,
    /// Its `}`.
    pub end: u32,
    pub after: u32,
}

pub struct Skeleton {
    pub bodies: Vec<Span>,
    /// The number of the preamble's body and of each page's; only a body whose
    /// spans were asked for has one that counts.
    pub heads: Vec<u32>,
}

impl Skeleton {
    pub fn pages(&self) -> usize {
        self.heads.len() - 1
    }

    /// Checks a master from its header to its END. Spans are kept of the bodies
    /// that `wanted` names, 0 being the preamble.
    pub fn check(master: &[u8], wanted: impl Fn(usize) -> bool) -> Result<Skeleton, Refusal> {
        let mut reader = Reader::new(master)?;
        let mut skeleton = Skeleton { bodies: Vec::new(), heads: Vec::new() };
        expect(&mut reader, op::BEGIN)?;
        expect(&mut reader, op::OPEN)?;
        reader = skeleton.body(reader, wanted(0))?;
        loop {
            match reader.due()? {
                (_, Token::Operator(op::END)) => break,
                (at, Token::Operator(op::OPEN)) => {
                    let page = skeleton.heads.len();
                    if page > MAX_PAGES {
                        return refuse(9, at);
                    }
                    reader = skeleton.body(reader, wanted(page))?;
                }
                (at, _) => return refuse(6, at),
            }
        }
        if reader.at < master.len() {
            return refuse(7, reader.at);
        }
        Ok(skeleton)
    }

    /// Reads the preamble's or a page's body, its `{` being read. The reader
    /// goes by value so that the place reached stays in a register.
    fn body<'a>(&mut self, mut reader: Reader<'a>, keep: bool) -> Result<Reader<'a>, Refusal> {
        self.heads.push(self.bodies.len() as u32);
        // The numbers of the open bodies, the outermost first.
        let mut open = [0; MAX_OPEN];
        let mut depth = 0;
        open[0] = self.open(reader.at, keep);
        loop {
            let (at, Token::Operator(number)) = reader.due()? else { continue };
            match number {
                op::CLOSE => {
                    self.close(open[depth], at, keep);
                    if depth == 0 {
                        return Ok(reader);
                    }
                    depth -= 1;
                }
                op::BEGIN | op::END | op::CONTENTINSTRUCTIONS | op::OPEN => {
                    return refuse(6, at);
                }
                _ if op::takes_body(number) => {
                    let at = expect(&mut reader, op::OPEN)?;
                    depth += 1;
                    if depth == MAX_OPEN {
                        return refuse(8, at);
                    }
                    open[depth] = self.open(reader.at, keep);
                }
                _ => {}
            }
        }
    }

    #[inline]
    fn open(&mut self, start: usize, keep: bool) -> usize {
        let number = self.bodies.len();
        if keep {
            self.bodies.push(Span { start: start as u32, ..Span::default() });
        }
        number
    }

    #[inline]
    fn close(&mut self, number: usize, at: usize, keep: bool) {
        if keep {
            let after = self.bodies.len() as u32;
            let span = &mut self.bodies[number];
            (span.end, span.after) = (at as u32, after);
        }
    }
}

/// The place of the next token, which has to be operator `number`.
#[inline(always)]
fn expect(reader: &mut Reader, number: u16) -> Result<usize, Refusal> {
    match reader.due()? {
        (at, Token::Operator(read)) if read == number => Ok(at),
        (at, _) => refuse(6, at),
    }
}
