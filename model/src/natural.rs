//! Whole numbers of any size, as few operations as the exact values need.
//!
//! The limbs are in base B, so a numerator over a power of B can be read
//! off: its lowest limbs are the fraction.

use crate::sheet::B;
use std::cmp::Ordering;
use std::fmt;

/// Limbs are kept low first, each below B, without zeros at the top.
#[derive(Clone, Debug, PartialEq, Eq)]
pub struct Natural {
    limbs: Vec<u128>,
}

impl Natural {
    pub fn zero() -> Natural {
        Natural { limbs: Vec::new() }
    }

    pub fn new(mut number: u128) -> Natural {
        let mut limbs = Vec::new();
        while number > 0 {
            limbs.push(number % B);
            number /= B;
        }
        Natural { limbs }
    }

    /// B to the given power.
    pub fn power_of_b(exponent: usize) -> Natural {
        let mut limbs = vec![0; exponent];
        limbs.push(1);
        Natural { limbs }
    }

    pub fn plus(&self, other: &Natural) -> Natural {
        let length = self.limbs.len().max(other.limbs.len());
        let mut limbs = Vec::new();
        let mut carry = 0;
        for place in 0..length {
            let total = self.limb(place) + other.limb(place) + carry;
            limbs.push(total % B);
            carry = total / B;
        }
        limbs.push(carry);
        Natural::trimmed(limbs)
    }

    /// The other number must not be the larger one.
    pub fn minus(&self, other: &Natural) -> Natural {
        assert!(other <= self, "difference below zero");
        let mut limbs = Vec::new();
        let mut borrow = 0;
        for place in 0..self.limbs.len() {
            let total = B + self.limb(place) - other.limb(place) - borrow;
            limbs.push(total % B);
            borrow = 1 - total / B;
        }
        Natural::trimmed(limbs)
    }

    pub fn times(&self, other: &Natural) -> Natural {
        let mut limbs = vec![0; self.limbs.len() + other.limbs.len()];
        for (low, &left) in self.limbs.iter().enumerate() {
            let mut carry = 0;
            for (high, &right) in other.limbs.iter().enumerate() {
                let total = limbs[low + high] + left * right + carry;
                limbs[low + high] = total % B;
                carry = total / B;
            }
            // Still untouched by earlier rounds, so the carry fits.
            limbs[low + other.limbs.len()] = carry;
        }
        Natural::trimmed(limbs)
    }

    /// The size of the difference, whichever number is larger.
    pub fn distance(&self, other: &Natural) -> Natural {
        if self >= other {
            self.minus(other)
        } else {
            other.minus(self)
        }
    }

    fn limb(&self, place: usize) -> u128 {
        self.limbs.get(place).copied().unwrap_or(0)
    }

    fn trimmed(mut limbs: Vec<u128>) -> Natural {
        while limbs.last() == Some(&0) {
            limbs.pop();
        }
        Natural { limbs }
    }
}

impl Ord for Natural {
    fn cmp(&self, other: &Natural) -> Ordering {
        // No zeros at the top, so more limbs mean a larger number.
        let by_length = self.limbs.len().cmp(&other.limbs.len());
        let by_limbs = || self.limbs.iter().rev().cmp(other.limbs.iter().rev());
        by_length.then_with(by_limbs)
    }
}

impl PartialOrd for Natural {
    fn partial_cmp(&self, other: &Natural) -> Option<Ordering> {
        Some(self.cmp(other))
    }
}

impl fmt::Display for Natural {
    fn fmt(&self, out: &mut fmt::Formatter<'_>) -> fmt::Result {
        let Some((top, rest)) = self.limbs.split_last() else {
            return write!(out, "0");
        };
        write!(out, "{top}")?;
        for limb in rest.iter().rev() {
            write!(out, "{limb:09}")?;
        }
        Ok(())
    }
}

#[cfg(test)]
mod tests {
    use super::*;

    /// Numbers around the ends of one and of two limbs.
    fn samples() -> Vec<u128> {
        let mut numbers = vec![0, 1, 2, 7, u64::MAX as u128 - 1, u64::MAX as u128];
        for edge in [B, 17 * B] {
            numbers.extend([edge - 1, edge, edge + 1]);
        }
        numbers
    }

    #[test]
    fn agrees_with_machine_numbers() {
        for a in samples() {
            for b in samples() {
                let (x, y) = (Natural::new(a), Natural::new(b));
                assert_eq!(x.plus(&y), Natural::new(a + b));
                assert_eq!(x.times(&y), Natural::new(a * b));
                assert_eq!(x.cmp(&y), a.cmp(&b));
                assert_eq!(x.distance(&y), Natural::new(a.abs_diff(b)));
                if a >= b {
                    assert_eq!(x.minus(&y), Natural::new(a - b));
                }
            }
        }
    }

    #[test]
    fn obeys_the_laws_beyond_machine_numbers() {
        let mut numbers = Vec::new();
        for small in samples() {
            let large = Natural::new(u128::MAX - small).times(&Natural::new(u128::MAX));
            assert!(large > Natural::new(u128::MAX));
            numbers.push(large);
        }
        for a in &numbers {
            for b in &numbers {
                assert_eq!(a.plus(b).minus(b), *a);
                assert_eq!(a.times(b), b.times(a));
                let (more, less) = (a.plus(b), a.distance(b));
                let (larger, smaller) = if a >= b { (a, b) } else { (b, a) };
                let squares = larger.times(larger).minus(&smaller.times(smaller));
                assert_eq!(more.times(&less), squares);
            }
        }
    }

    #[test]
    fn powers_of_b_are_products_of_b() {
        let mut product = Natural::new(1);
        for exponent in 0..15 {
            assert_eq!(Natural::power_of_b(exponent), product);
            product = product.times(&Natural::new(B));
        }
    }

    #[test]
    fn prints_in_decimal() {
        assert_eq!(Natural::zero().to_string(), "0");
        for number in samples() {
            assert_eq!(Natural::new(number).to_string(), number.to_string());
        }
        let number = Natural::power_of_b(3).plus(&Natural::new(45));
        assert_eq!(number.to_string(), "1000000000000000000000000045");
    }

    #[test]
    #[should_panic(expected = "below zero")]
    fn does_not_go_below_zero() {
        Natural::new(B).minus(&Natural::new(B + 1));
    }
}
