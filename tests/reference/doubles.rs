//! Doubles by their bits: which are finite, and the product of two in whole numbers, rounded once.

/// A double (IEEE 754's binary64): a sign, 11 bits of exponent, 52 bits of fraction. Two are the same where all bits are.
#[derive(Clone, Copy, Debug, PartialEq, Eq)]
pub struct Double(pub u64);

const SIGN: u64 = 1 << 63;
const INFINITY: u64 = 0x7ff << 52;

/// The least double above zero is two to this power, and every finite one is a whole number of times it.
const LEAST: i32 = -1074;

/// "the same bits back"
impl From<f64> for Double {
    fn from(value: f64) -> Double {
        Double(value.to_bits())
    }
}

impl Double {
    /// Neither "NaN" nor "infinite": these have all ones for an exponent.
    pub fn is_finite(self) -> bool {
        self.0 & INFINITY != INFINITY
    }

    /// A finite double without its sign: a whole number of at most 53 bits, and the power of two that it is multiplied by.
    fn parts(self) -> (u64, i32) {
        let fraction = self.0 & ((1 << 52) - 1);
        match (self.0 & INFINITY) >> 52 {
            0 => (fraction, LEAST),
            exponent => (fraction + (1 << 52), LEAST + exponent as i32 - 1),
        }
    }
}

/// The product of two finite doubles, "rounded once": the nearest double, of two that are equally near the even one; infinite where the nearest
/// would need a greater exponent than there is.
pub fn product(a: Double, b: Double) -> Double {
    let ((m, i), (n, j)) = (a.parts(), b.parts());
    Double((a.0 ^ b.0) & SIGN | rounded(m as u128 * n as u128, i + j))
}

/// The bits of the double that is nearest to a whole number times a power of two.
fn rounded(whole: u128, power: i32) -> u64 {
    if whole == 0 {
        return 0;
    }
    let length = (u128::BITS - whole.leading_zeros()) as i32;
    // The power of two that the last of 53 bits stands for, or the last bit that a double can have.
    let last = (power + length - 53).max(LEAST);
    let kept = if last <= power { (whole << (power - last)) as u64 } else { nearest(whole, (last - power) as u32) };
    // The leading one of 53 bits, and what rounding up carries over, add to the exponent.
    (((last - LEAST) as u64) << 52).saturating_add(kept).min(INFINITY)
}

/// A number of at most 106 bits without so many of its last bits, to the nearest, and to the even one where half is left.
fn nearest(whole: u128, dropped: u32) -> u64 {
    if dropped > 107 {
        return 0;
    }
    let (kept, half) = (whole >> dropped, 1 << (dropped - 1));
    let left = whole - (kept << dropped);
    kept as u64 + (left > half || left == half && kept % 2 == 1) as u64
}
