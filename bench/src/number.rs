//! Numbers: reduced fractions of two 32-bit halves, and their arithmetic.

use std::cmp::Ordering;

/// A reduced fraction: `num` from -2147483647, `den` from 1.
#[derive(Clone, Copy, PartialEq, Eq, Debug)]
pub struct Number {
    pub num: i32,
    pub den: i32,
}

const LIMIT: i64 = i32::MAX as i64;

/// Binary gcd of `a` and `b`, not both 0.
fn gcd(mut a: u64, mut b: u64) -> u64 {
    if a == 0 || b == 0 {
        return a | b;
    }
    let twos = (a | b).trailing_zeros();
    a >>= a.trailing_zeros();
    while b != 0 {
        b >>= b.trailing_zeros();
        (a, b) = (a.min(b), a.abs_diff(b));
    }
    a << twos
}

impl Number {
    pub const ZERO: Number = Number::whole(0);

    /// The number `n`, which must not be -2147483648.
    pub const fn whole(n: i32) -> Number {
        Number { num: n, den: 1 }
    }

    /// The whole number `n` if it is within the limits.
    #[inline]
    pub fn fit(n: i64) -> Option<Number> {
        (n.abs() <= LIMIT).then_some(Number::whole(n as i32))
    }

    /// `num/den` in lowest terms if it is then within the limits; `den` is not 0,
    /// neither is the least `i64`.
    pub fn reduced(num: i64, den: i64) -> Option<Number> {
        let common = gcd(num.unsigned_abs(), den.unsigned_abs()) as i64 * den.signum();
        let (num, den) = (num / common, den / common);
        (num.abs() <= LIMIT && den <= LIMIT).then_some(Number { num: num as i32, den: den as i32 })
    }

    /// Whether both halves already stand as a number must.
    pub fn is_proper(num: i32, den: i32) -> bool {
        den > 0 && num != i32::MIN && gcd(num.unsigned_abs() as u64, den as u64) == 1
    }

    #[inline]
    fn parts(self) -> (i64, i64) {
        (self.num as i64, self.den as i64)
    }

    /// Both numerators over the common denominator, and that denominator: below
    /// 2^62 each, so their sums fit.
    #[inline]
    fn common(self, other: Number) -> (i64, i64, i64) {
        let ((a, p), (b, q)) = (self.parts(), other.parts());
        (a * q, b * p, p * q)
    }

    #[inline]
    fn both_whole(self, other: Number) -> bool {
        self.den == 1 && other.den == 1
    }

    #[inline]
    pub fn checked_add(self, other: Number) -> Option<Number> {
        if self.both_whole(other) {
            return Number::fit(self.num as i64 + other.num as i64);
        }
        let (a, b, den) = self.common(other);
        Number::reduced(a + b, den)
    }

    #[inline]
    pub fn checked_sub(self, other: Number) -> Option<Number> {
        self.checked_add(other.negated())
    }

    #[inline]
    pub fn checked_mul(self, other: Number) -> Option<Number> {
        let ((a, p), (b, q)) = (self.parts(), other.parts());
        if self.both_whole(other) {
            return Number::fit(a * b);
        }
        Number::reduced(a * b, p * q)
    }

    pub fn checked_div(self, other: Number) -> Option<Number> {
        let (a, b, _) = self.common(other);
        if b == 0 {
            return None;
        }
        Number::reduced(a, b)
    }

    /// a - b * floor(a/b). Over the common denominator it is the remainder of
    /// whole numbers that takes the sign of the divisor.
    pub fn modulo(self, other: Number) -> Option<Number> {
        let (a, b, den) = self.common(other);
        let rest = a.checked_rem(b)?;
        let wrong_side = rest != 0 && (rest < 0) != (b < 0);
        Number::reduced(if wrong_side { rest + b } else { rest }, den)
    }

    /// a - b * trunc(a/b).
    pub fn checked_rem(self, other: Number) -> Option<Number> {
        let (a, b, den) = self.common(other);
        Number::reduced(a.checked_rem(b)?, den)
    }

    #[inline]
    pub fn negated(self) -> Number {
        Number { num: -self.num, den: self.den }
    }

    #[inline]
    pub fn abs(self) -> Number {
        Number { num: self.num.abs(), den: self.den }
    }

    #[inline]
    pub fn floor(self) -> Number {
        Number::whole(self.num.div_euclid(self.den))
    }

    #[inline]
    pub fn ceiling(self) -> Number {
        self.negated().floor().negated()
    }

    #[inline]
    pub fn trunc(self) -> Number {
        Number::whole(self.num / self.den)
    }

    /// floor(a + 1/2); the sum itself need not fit.
    #[inline]
    pub fn round(self) -> Number {
        let (num, den) = self.parts();
        Number::whole((2 * num + den).div_euclid(2 * den) as i32)
    }
}

impl PartialOrd for Number {
    #[inline]
    fn partial_cmp(&self, other: &Number) -> Option<Ordering> {
        let (a, b, _) = self.common(*other);
        a.partial_cmp(&b)
    }
}
