//! Whole numbers of up to 384 bits, for the exact checker: slow and plain.

use std::cmp::Ordering;
use std::ops::{Add, Mul, Neg, Sub};

const LIMBS: usize = 6;

/// A sign and a size; zero is not negative. A result that does not fit panics.
#[derive(Clone, Copy, PartialEq, Eq, Debug)]
pub(crate) struct Wide {
    negative: bool,
    size: [u64; LIMBS],
}

impl Wide {
    pub(crate) const ZERO: Wide = Wide { negative: false, size: [0; LIMBS] };

    /// -1, 0 or 1.
    pub(crate) fn sign(self) -> i32 {
        if self == Wide::ZERO {
            0
        } else if self.negative {
            -1
        } else {
            1
        }
    }

    fn of(negative: bool, size: [u64; LIMBS]) -> Wide {
        Wide { negative: negative && size != [0; LIMBS], size }
    }
}

fn compare(a: &[u64; LIMBS], b: &[u64; LIMBS]) -> Ordering {
    a.iter().rev().cmp(b.iter().rev())
}

fn sum(a: &[u64; LIMBS], b: &[u64; LIMBS]) -> [u64; LIMBS] {
    let mut carry = 0;
    let out = std::array::from_fn(|i| {
        let part = u128::from(a[i]) + u128::from(b[i]) + carry;
        carry = part >> 64;
        part as u64
    });
    assert_eq!(carry, 0, "sum beyond 384 bits");
    out
}

/// `a - b` for `a` at least `b`.
fn difference(a: &[u64; LIMBS], b: &[u64; LIMBS]) -> [u64; LIMBS] {
    let mut borrow = false;
    std::array::from_fn(|i| {
        let (part, first) = a[i].overflowing_sub(b[i]);
        let (part, second) = part.overflowing_sub(u64::from(borrow));
        borrow = first || second;
        part
    })
}

impl From<i128> for Wide {
    fn from(value: i128) -> Wide {
        let size = value.unsigned_abs();
        let mut limbs = [0; LIMBS];
        limbs[0] = size as u64;
        limbs[1] = (size >> 64) as u64;
        Wide::of(value < 0, limbs)
    }
}

impl From<i64> for Wide {
    fn from(value: i64) -> Wide {
        Wide::from(i128::from(value))
    }
}

impl Neg for Wide {
    type Output = Wide;
    fn neg(self) -> Wide {
        Wide::of(!self.negative, self.size)
    }
}

impl Add for Wide {
    type Output = Wide;
    fn add(self, other: Wide) -> Wide {
        if self.negative == other.negative {
            return Wide::of(self.negative, sum(&self.size, &other.size));
        }
        match compare(&self.size, &other.size) {
            Ordering::Less => Wide::of(other.negative, difference(&other.size, &self.size)),
            _ => Wide::of(self.negative, difference(&self.size, &other.size)),
        }
    }
}

impl Sub for Wide {
    type Output = Wide;
    fn sub(self, other: Wide) -> Wide {
        self + -other
    }
}

impl Mul for Wide {
    type Output = Wide;
    fn mul(self, other: Wide) -> Wide {
        let mut out = [0u64; LIMBS];
        for (i, &a) in self.size.iter().enumerate().filter(|(_, &a)| a != 0) {
            let mut carry = 0u128;
            for (j, &b) in other.size.iter().enumerate() {
                if i + j >= LIMBS {
                    assert!(b == 0 && carry == 0, "product beyond 384 bits");
                    continue;
                }
                let part = u128::from(a) * u128::from(b) + u128::from(out[i + j]) + carry;
                out[i + j] = part as u64;
                carry = part >> 64;
            }
            assert_eq!(carry, 0, "product beyond 384 bits");
        }
        Wide::of(self.negative != other.negative, out)
    }
}

impl Ord for Wide {
    fn cmp(&self, other: &Wide) -> Ordering {
        match (self.negative, other.negative) {
            (false, true) => Ordering::Greater,
            (true, false) => Ordering::Less,
            (false, false) => compare(&self.size, &other.size),
            (true, true) => compare(&other.size, &self.size),
        }
    }
}

impl PartialOrd for Wide {
    fn partial_cmp(&self, other: &Wide) -> Option<Ordering> {
        Some(self.cmp(other))
    }
}

#[cfg(test)]
mod tests {
    use super::*;

    #[test]
    fn agrees_with_i128() {
        let values: [i128; 9] =
            [0, 1, -1, 7, -9, 1 << 40, -(1 << 50), (1 << 62) + 12345, -(1 << 62) - 99];
        for a in values {
            for b in values {
                let (wa, wb) = (Wide::from(a), Wide::from(b));
                assert_eq!(wa + wb, Wide::from(a + b));
                assert_eq!(wa - wb, Wide::from(a - b));
                assert_eq!(wa * wb, Wide::from(a * b));
                assert_eq!(wa.cmp(&wb), a.cmp(&b));
                assert_eq!(wa.sign(), a.signum() as i32);
            }
        }
    }

    #[test]
    fn long_products() {
        let a = Wide::from(i128::MAX);
        let b = Wide::from(-12_345_678_901_234_567_890i128);
        assert_eq!((a + b) * (a - b), a * a - b * b);
        assert!(a * a > a * a - Wide::from(1i64));
        assert!(b * a * a < b * a);
    }

    #[test]
    #[should_panic(expected = "beyond 384 bits")]
    fn too_long() {
        let a = Wide::from(i128::MAX);
        let _ = a * a * a * a;
    }
}
