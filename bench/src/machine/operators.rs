//! What each operator does. A literal that fails changes nothing that recovery
//! does not drop anyway, so operands are looked at first and popped last.

use super::Value::{self, Identifier, Mark, Operator, Vector};
use super::{Done, Fault, Machine, FRAME, ROOM, STACK, START_FRAME};
use crate::number::Number;
use crate::ops;
use crate::tokens::Sequence;

/// Operators.
impl Machine<'_> {
    #[inline]
    pub(super) fn operator(&mut self, op: u16) -> Done {
        match op {
            ops::NOP => Ok(()),
            ops::GET => self.get(),
            ops::FGET => self.frame_get(),
            ops::FSET => self.frame_set(),
            ops::CORRECT..=ops::DOSAVESIMPLEBODY => self.body_operator(op),
            ops::POP => self.under(0, 1).map(|start| self.len = start),
            ops::DUP => self.live::<1>().and_then(|[x]| self.push(x)),
            ops::COPY => self.copy(),
            ops::ROLL => self.roll(),
            ops::EXCH => self.live::<2>().map(|[x, y]| self.replace_two(y, x)),
            ops::MARK => self.mark(),
            ops::UNMARK => self.unmark(),
            ops::COUNT => self.count(),
            ops::UNMARK0 => self.unmark_above(0),
            ops::ABS..=ops::TYPE => self.number_operator(op),
            ops::DO | ops::DOSAVE | ops::DOSAVEALL => self.call(),
            ops::IF | ops::IFCOPY | ops::IFELSE => self.body_operator(op),
            ops::MAKEVECLU => self.make_vector_bounds(),
            ops::MAKEVEC => self.make_vector(),
            ops::SHAPE => self.shape(),
            ops::ERROR => self.error(),
            _ => Err(Fault),
        }
    }

    fn number_operator(&mut self, op: u16) -> Done {
        match op {
            ops::ABS => self.unary(Number::abs),
            ops::ADD => self.binary(Number::checked_add),
            ops::AND => self.logic(|a, b| a != 0 && b != 0),
            ops::CEILING => self.unary(Number::ceiling),
            ops::DIV => self.binary(Number::checked_div),
            ops::EQ => self.equal(),
            ops::FLOOR => self.unary(Number::floor),
            ops::GE => self.compare(|a, b| a >= b),
            ops::GT => self.compare(|a, b| a > b),
            ops::MOD => self.binary(Number::modulo),
            ops::MUL => self.binary(Number::checked_mul),
            ops::NEG => self.unary(Number::negated),
            ops::NOT => self.not(),
            ops::OR => self.logic(|a, b| a != 0 || b != 0),
            ops::SUB => self.binary(Number::checked_sub),
            ops::TRUNC => self.unary(Number::trunc),
            ops::REM => self.binary(Number::checked_rem),
            ops::ROUND => self.unary(Number::round),
            ops::TYPE => self.type_code(),
            _ => Err(Fault),
        }
    }

    fn body_operator(&mut self, op: u16) -> Done {
        if !ops::takes_body(op) {
            return Err(Fault);
        }
        let body = self.pass_body();
        match op {
            ops::MAKESIMPLECO => self.make_operator(body),
            ops::DOSAVESIMPLEBODY => self.enter(body, self.here.frame, false),
            ops::IF | ops::IFELSE => self.run_if(body, op == ops::IFELSE),
            // CORRECT and IFCOPY pass over their body.
            _ => Ok(()),
        }
    }

    /// IF and IFELSE.
    fn run_if(&mut self, body: u32, if_else: bool) -> Done {
        let [condition] = self.live()?;
        if condition.cardinal()? != 0 {
            self.len -= 1;
            self.enter(body, self.here.frame, if_else)
        } else if if_else {
            self.replace::<1>(Value::whole(1));
            Ok(())
        } else {
            self.len -= 1;
            Ok(())
        }
    }

    fn make_operator(&mut self, body: u32) -> Done {
        if self.len == STACK {
            return Err(Fault);
        }
        let cell = self.charge(FRAME)?;
        let frame = self.here.frame;
        self.store.copy_within(frame..frame + FRAME, cell);
        self.push(Operator { frame: cell as u16, body })
    }

    fn call(&mut self) -> Done {
        let [Operator { frame, body }] = self.live()? else {
            return Err(Fault);
        };
        self.len -= 1;
        self.enter(body, frame as usize, false)
    }
}

/// The stack.
impl Machine<'_> {
    #[inline]
    pub(super) fn push(&mut self, value: Value) -> Done {
        *self.stack.get_mut(self.len).ok_or(Fault)? = value;
        self.len += 1;
        Ok(())
    }

    pub(super) fn push_number(&mut self, number: Option<Number>) -> Done {
        self.push(Value::Number(number.ok_or(Fault)?))
    }

    /// The top `N` values, none of them a mark.
    #[inline]
    fn live<const N: usize>(&self) -> Result<[Value; N], Fault> {
        if self.len < self.base + N {
            return Err(Fault);
        }
        self.stack[..self.len].last_chunk::<N>().copied().ok_or(Fault)
    }

    /// Puts one value in place of the top `N`, which are there.
    #[inline]
    fn replace<const N: usize>(&mut self, value: Value) {
        self.len -= N - 1;
        self.stack[self.len - 1] = value;
    }

    #[inline]
    fn replace_two(&mut self, x: Value, y: Value) {
        self.stack[self.len - 2] = x;
        self.stack[self.len - 1] = y;
    }

    /// Where the `n` values under the top `above` start, none of all a mark.
    #[inline]
    fn under(&self, above: usize, n: i32) -> Result<usize, Fault> {
        let start = self.len as isize - above as isize - n as isize;
        if start < self.base as isize {
            Err(Fault)
        } else {
            Ok(start as usize)
        }
    }

    fn copy(&mut self) -> Done {
        let [depth] = self.live()?;
        let depth = depth.cardinal()?;
        let (start, end) = (self.under(1, depth)?, self.len - 1);
        let len = end + depth as usize;
        if len > STACK {
            return Err(Fault);
        }
        self.stack.copy_within(start..end, end);
        self.len = len;
        Ok(())
    }

    fn roll(&mut self) -> Done {
        let [depth, first] = self.live()?;
        let (depth, first) = (depth.cardinal()?, first.cardinal()?);
        let start = self.under(2, depth)?;
        if first > depth {
            return Err(Fault);
        }
        self.len -= 2;
        self.stack[start..self.len].rotate_left(first as usize);
        Ok(())
    }

    fn mark(&mut self) -> Done {
        let [n] = self.live()?;
        let start = self.under(1, n.cardinal()?)?;
        self.stack.copy_within(start..self.len - 1, start + 1);
        let (depth, below) = (self.depth as u8, self.base as u8);
        self.stack[start] = Mark { depth, below, id: self.here.id };
        self.base = start + 1;
        Ok(())
    }

    fn unmark(&mut self) -> Done {
        let [n] = self.live()?;
        let n = n.cardinal()? as usize;
        // Popped before the test: the count lies above the mark that recovery
        // would drop to.
        self.len -= 1;
        self.unmark_above(n)
    }

    /// Removes the topmost mark if it is the context's own with `n` values above.
    fn unmark_above(&mut self, n: usize) -> Done {
        if self.len - self.base != n || !self.mark_matches() {
            return Err(Fault);
        }
        self.drop_mark();
        Ok(())
    }

    /// Whether the topmost mark was placed by the context that runs.
    fn mark_matches(&self) -> bool {
        let top = self.base.checked_sub(1).map(|place| self.stack[place]);
        matches!(top, Some(Mark { id, .. }) if id == self.here.id)
    }

    fn count(&mut self) -> Done {
        if !self.mark_matches() {
            return Err(Fault);
        }
        self.push(Value::whole((self.len - self.base) as i32))
    }

    /// ERROR counts no error for the codes that are less than a master error.
    fn error(&mut self) -> Done {
        let [message, code] = self.live()?;
        let (Vector { first, count, .. }, 10 | 50 | 60 | 100) = (message, code.cardinal()?) else {
            return Err(Fault);
        };
        for cell in &self.store[first as usize..][..count as usize] {
            cell.cardinal()?;
        }
        self.len -= 2;
        Ok(())
    }
}

/// Vectors and frames.
impl Machine<'_> {
    /// Charges `count` cells and answers the first.
    fn charge(&mut self, count: usize) -> Result<usize, Fault> {
        let first = self.cells;
        if count > ROOM - first {
            return Err(Fault);
        }
        self.cells += count;
        Ok(first)
    }

    pub(super) fn string(&mut self, sequence: Sequence) -> Done {
        if self.len == STACK {
            return Err(Fault);
        }
        let first = self.charge(sequence.len)?;
        let mut cells = self.store[first..].iter_mut();
        for data in sequence.pieces(self.master) {
            for (&byte, cell) in data.iter().zip(&mut cells) {
                *cell = Value::whole(byte as i32);
            }
        }
        self.push(Vector { first: first as u16, count: sequence.len as u16, low: 0 })
    }

    fn make_vector(&mut self) -> Done {
        let [n] = self.live()?;
        self.vector(1, 0, n.cardinal()?)
    }

    fn make_vector_bounds(&mut self) -> Done {
        let [low, high] = self.live()?;
        let (low, high) = (low.cardinal()?, high.cardinal()?);
        self.vector(2, low, high - low + 1)
    }

    /// Makes a vector of the `n` values under the top `above`, its bounds.
    fn vector(&mut self, above: usize, low: i32, n: i32) -> Done {
        if n < 0 {
            return Err(Fault);
        }
        let (start, count) = (self.under(above, n)?, n as usize);
        let first = self.charge(count)?;
        self.store[first..first + count].copy_from_slice(&self.stack[start..start + count]);
        self.len = start;
        self.push(Vector { first: first as u16, count: count as u16, low })
    }

    fn get(&mut self) -> Done {
        let [Vector { first, count, low }, index] = self.live()? else {
            return Err(Fault);
        };
        let element = index.cardinal()? - low;
        if !(0..count as i32).contains(&element) {
            return Err(Fault);
        }
        self.replace::<2>(self.store[first as usize + element as usize]);
        Ok(())
    }

    fn shape(&mut self) -> Done {
        let [Vector { count, low, .. }] = self.live()? else {
            return Err(Fault);
        };
        self.push(Value::whole(count as i32))?;
        self.replace_two(Value::whole(low), Value::whole(count as i32));
        Ok(())
    }

    /// The place in the frame that a value names.
    #[inline]
    fn element(index: Value) -> Result<usize, Fault> {
        let index = index.cardinal()? as usize;
        if index < FRAME {
            Ok(index)
        } else {
            Err(Fault)
        }
    }

    fn frame_get(&mut self) -> Done {
        let [index] = self.live()?;
        self.replace::<1>(self.store[self.here.frame + Self::element(index)?]);
        Ok(())
    }

    fn frame_set(&mut self) -> Done {
        let [value, index] = self.live()?;
        let index = Self::element(index)?;
        let own = START_FRAME + FRAME * (self.depth + 1);
        let frame = self.here.frame;
        if frame != own {
            self.store.copy_within(frame..frame + FRAME, own);
            self.here.frame = own;
        }
        self.store[own + index] = value;
        self.len -= 2;
        Ok(())
    }
}

/// Tests and arithmetic.
impl Machine<'_> {
    #[inline]
    fn unary(&mut self, f: impl Fn(Number) -> Number) -> Done {
        let [Value::Number(a)] = self.live()? else {
            return Err(Fault);
        };
        self.replace::<1>(Value::Number(f(a)));
        Ok(())
    }

    #[inline]
    fn binary(&mut self, f: impl Fn(Number, Number) -> Option<Number>) -> Done {
        let [Value::Number(a), Value::Number(b)] = self.live()? else {
            return Err(Fault);
        };
        self.replace::<2>(Value::Number(f(a, b).ok_or(Fault)?));
        Ok(())
    }

    #[inline]
    fn compare(&mut self, f: impl Fn(Number, Number) -> bool) -> Done {
        self.binary(|a, b| Some(Number::whole(f(a, b) as i32)))
    }

    #[inline]
    fn logic(&mut self, f: impl Fn(i32, i32) -> bool) -> Done {
        let [a, b] = self.live()?;
        self.replace::<2>(Value::whole(f(a.cardinal()?, b.cardinal()?) as i32));
        Ok(())
    }

    fn not(&mut self) -> Done {
        let [a] = self.live()?;
        self.replace::<1>(Value::whole((a.cardinal()? == 0) as i32));
        Ok(())
    }

    fn type_code(&mut self) -> Done {
        let code = match self.live()? {
            [Value::Number(_)] => 1,
            [Identifier { .. }] => 2,
            [Vector { .. }] => 3,
            [Operator { .. }] => 4,
            [Mark { .. }] => return Err(Fault),
        };
        self.replace::<1>(Value::whole(code));
        Ok(())
    }

    fn equal(&mut self) -> Done {
        let same = match self.live()? {
            [Value::Number(a), Value::Number(b)] => a == b,
            [Identifier { len: m, at: a }, Identifier { len: n, at: b }] => {
                m == n && (a == b || self.same_text(a, b))
            }
            _ => false,
        };
        self.replace::<2>(Value::whole(same as i32));
        Ok(())
    }

    fn same_text(&self, a: u32, b: u32) -> bool {
        let read = |at: u32| Sequence::read(self.master, at as usize).ok();
        let (Some(a), Some(b)) = (read(a), read(b)) else {
            return false;
        };
        a.lower(self.master).eq(b.lower(self.master))
    }
}
