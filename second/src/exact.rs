//! Whole numbers of any size, and equations solved with them: no rounding.

use std::cmp::Ordering;
use std::ops::{Add, Mul, Neg, Sub};

/// A number: its sign, and its size in digits to the base 2^32, lowest first,
/// without zeros at the end.
#[derive(Clone, Debug, PartialEq, Eq)]
pub struct Whole {
    negative: bool,
    digits: Vec<u32>,
}

fn trimmed(mut digits: Vec<u32>) -> Vec<u32> {
    while digits.last() == Some(&0) {
        digits.pop();
    }
    digits
}

fn compared(a: &[u32], b: &[u32]) -> Ordering {
    let length = a.len().cmp(&b.len());
    length.then_with(|| a.iter().rev().cmp(b.iter().rev()))
}

fn sum(a: &[u32], b: &[u32]) -> Vec<u32> {
    let mut digits = Vec::new();
    let mut carry = 0;
    for i in 0..a.len().max(b.len()) {
        let digit = |x: &[u32]| u64::from(*x.get(i).unwrap_or(&0));
        carry += digit(a) + digit(b);
        digits.push(carry as u32);
        carry >>= 32;
    }
    digits.push(carry as u32);
    trimmed(digits)
}

/// a - b, where a is not below b.
fn difference(a: &[u32], b: &[u32]) -> Vec<u32> {
    let mut digits = Vec::new();
    let mut borrow = 0;
    for i in 0..a.len() {
        let rest = i64::from(a[i]) - i64::from(*b.get(i).unwrap_or(&0)) - borrow;
        digits.push(rest as u32);
        borrow = i64::from(rest < 0);
    }
    trimmed(digits)
}

fn product(a: &[u32], b: &[u32]) -> Vec<u32> {
    let mut digits = vec![0; a.len() + b.len()];
    for (i, &x) in a.iter().enumerate() {
        let mut carry = 0;
        for (j, &y) in b.iter().enumerate() {
            carry += u64::from(x) * u64::from(y) + u64::from(digits[i + j]);
            digits[i + j] = carry as u32;
            carry >>= 32;
        }
        digits[i + b.len()] = carry as u32;
    }
    trimmed(digits)
}

/// a / b, where b divides a: the quotient's digits from the lowest up, since
/// with b odd each is the lowest digit of what is left, divided modulo 2^32.
fn quotient(a: &[u32], b: &[u32]) -> Vec<u32> {
    let zeros = b.iter().take_while(|&&digit| digit == 0).count();
    let bits = b[zeros].trailing_zeros();
    let shifted = |x: &[u32]| -> Vec<u32> {
        let x = &x[zeros.min(x.len())..];
        let digit = |i: usize| u64::from(*x.get(i).unwrap_or(&0));
        let digits = (0..x.len()).map(|i| ((digit(i) | digit(i + 1) << 32) >> bits) as u32);
        trimmed(digits.collect())
    };
    let (mut left, b) = (shifted(a), shifted(b));
    let mut inverse = 1u32;
    for _ in 0..5 {
        inverse = inverse.wrapping_mul(2u32.wrapping_sub(b[0].wrapping_mul(inverse)));
    }
    let mut digits = Vec::new();
    while !left.is_empty() {
        let digit = left[0].wrapping_mul(inverse);
        left = difference(&left, &product(&b, &trimmed(vec![digit])));
        assert!(
            left.first().is_none_or(|&low| low == 0),
            "no whole quotient"
        );
        left = left.get(1..).unwrap_or(&[]).to_vec();
        digits.push(digit);
    }
    trimmed(digits)
}

impl Whole {
    fn new(negative: bool, digits: Vec<u32>) -> Self {
        Whole {
            negative: negative && !digits.is_empty(),
            digits,
        }
    }

    pub fn zero() -> Self {
        Whole::from(0)
    }

    pub fn is_zero(&self) -> bool {
        self.digits.is_empty()
    }

    pub fn is_negative(&self) -> bool {
        self.negative
    }

    pub fn size(&self) -> Self {
        Whole::new(false, self.digits.clone())
    }

    /// 10 to the power `n`.
    pub fn power_of_ten(n: u32) -> Self {
        (0..n).fold(Whole::from(1), |power, _| &power * &Whole::from(10))
    }

    /// The quotient by a number that divides this one.
    pub fn divided(&self, by: &Self) -> Self {
        let digits = quotient(&self.digits, &by.digits);
        Whole::new(self.negative != by.negative, digits)
    }
}

impl From<u64> for Whole {
    fn from(number: u64) -> Self {
        Whole::new(false, trimmed(vec![number as u32, (number >> 32) as u32]))
    }
}

impl Neg for &Whole {
    type Output = Whole;
    fn neg(self) -> Whole {
        Whole::new(!self.negative, self.digits.clone())
    }
}

impl Add for &Whole {
    type Output = Whole;
    fn add(self, other: &Whole) -> Whole {
        if self.negative == other.negative {
            return Whole::new(self.negative, sum(&self.digits, &other.digits));
        }
        match compared(&self.digits, &other.digits) {
            Ordering::Less => Whole::new(other.negative, difference(&other.digits, &self.digits)),
            _ => Whole::new(self.negative, difference(&self.digits, &other.digits)),
        }
    }
}

impl Sub for &Whole {
    type Output = Whole;
    fn sub(self, other: &Whole) -> Whole {
        self + &-other
    }
}

impl Mul for &Whole {
    type Output = Whole;
    fn mul(self, other: &Whole) -> Whole {
        let digits = product(&self.digits, &other.digits);
        Whole::new(self.negative != other.negative, digits)
    }
}

/// Solves equations with whole coefficients, the right side last in each row:
/// the numerators of the solution and their common denominator; None where
/// there is not one solution. (Bareiss: every division is whole.)
pub fn solve(mut rows: Vec<Vec<Whole>>) -> Option<(Vec<Whole>, Whole)> {
    let n = rows.len();
    let mut last = Whole::from(1);
    for c in 0..n {
        let pivot = (c..n).find(|&r| !rows[r][c].is_zero())?;
        rows.swap(c, pivot);
        let pivot_row = rows[c].clone();
        for (_, row) in rows.iter_mut().enumerate().filter(|&(r, _)| r != c) {
            let times = row[c].clone();
            for k in 0..=n {
                let new = &(&row[k] * &pivot_row[c]) - &(&times * &pivot_row[k]);
                row[k] = new.divided(&last);
            }
        }
        last = pivot_row[c].clone();
    }
    Some((rows.into_iter().map(|row| row[n].clone()).collect(), last))
}

#[cfg(test)]
mod tests {
    use super::*;
    use crate::sample::Random;

    fn whole(number: i128) -> Whole {
        let size = number.unsigned_abs();
        let (high, low) = ((size >> 64) as u64, size as u64);
        let two_64 = &Whole::from(1 << 32) * &Whole::from(1 << 32);
        let size = &(&Whole::from(high) * &two_64) + &Whole::from(low);
        if number < 0 {
            -&size
        } else {
            size
        }
    }

    #[test]
    fn as_machine_numbers() {
        let mut random = Random::new(1);
        for _ in 0..20_000 {
            let mut number = || (random.number() as i64 >> random.below(60)) as i128;
            let (a, b) = (number(), number());
            assert_eq!(&whole(a) + &whole(b), whole(a + b));
            assert_eq!(&whole(a) - &whole(b), whole(a - b));
            assert_eq!(&whole(a) * &whole(b), whole(a * b));
            if b != 0 {
                assert_eq!(whole(a * b).divided(&whole(b)), whole(a));
            }
        }
    }

    #[test]
    fn equations() {
        // x + y = 3, x - 2 y = 1
        let rows = [[1, 1, 3], [1, -2, 1]].map(|row| row.map(whole).to_vec());
        let (x, by) = solve(rows.to_vec()).unwrap();
        assert_eq!(
            (&x[0] * &whole(3), &x[1] * &whole(3)),
            (&by * &whole(7), &by * &whole(2))
        );
        let rows = [[1, 1, 3], [2, 2, 6]].map(|row| row.map(whole).to_vec());
        assert!(solve(rows.to_vec()).is_none());
    }
}
