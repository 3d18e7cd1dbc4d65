//! Exact fractions with a denominator above 0. They are not reduced.

#[derive(Clone, Copy, Debug)]
pub struct Fraction {
    pub num: i64,
    pub den: i64,
}

impl Fraction {
    pub const ZERO: Fraction = Fraction { num: 0, den: 1 };

    pub fn new(num: i64, den: i64) -> Fraction {
        debug_assert!(den > 0);
        Fraction { num, den }
    }

    /// self < other, by cross multiplication.
    #[inline]
    pub fn below(self, other: Fraction) -> bool {
        self.num * other.den < other.num * self.den
    }

    /// The same value, however written (2/2 is 1/1).
    #[inline]
    pub fn same(self, other: Fraction) -> bool {
        self.num * other.den == other.num * self.den
    }
}

/// num/den down to a whole number; den > 0.
#[inline]
pub fn down(num: i64, den: i64) -> i64 {
    if den == 1 {
        return num;
    }
    let whole = num / den; // rounds towards zero
    if num % den < 0 {
        whole - 1
    } else {
        whole
    }
}

/// num/den up to a whole number; den > 0.
#[inline]
pub fn up(num: i64, den: i64) -> i64 {
    if den == 1 {
        return num;
    }
    let whole = num / den; // rounds towards zero
    if num % den > 0 {
        whole + 1
    } else {
        whole
    }
}
