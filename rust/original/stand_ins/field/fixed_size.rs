//! Stand-in: the finite fields were not supplied. The index reads no
//! coefficient, so the field with two elements will do for `SignPoly`.

use super::{CommutativeRing, Field};
use num_traits::{ops::inv::Inv, One, Zero};
use std::ops::{Add, AddAssign, Mul, MulAssign, SubAssign};

#[derive(Debug, Clone, PartialEq, Eq)]
pub struct F2(bool);

impl Add for F2 {
    type Output = Self;

    fn add(self, rhs: Self) -> Self {
        F2(self.0 != rhs.0)
    }
}

impl Mul for F2 {
    type Output = Self;

    fn mul(self, rhs: Self) -> Self {
        F2(self.0 && rhs.0)
    }
}

impl Mul<&F2> for F2 {
    type Output = Self;

    fn mul(self, rhs: &F2) -> Self {
        F2(self.0 && rhs.0)
    }
}

impl AddAssign for F2 {
    fn add_assign(&mut self, rhs: Self) {
        self.0 ^= rhs.0;
    }
}

impl SubAssign for F2 {
    fn sub_assign(&mut self, rhs: Self) {
        self.0 ^= rhs.0;
    }
}

impl MulAssign<&F2> for F2 {
    fn mul_assign(&mut self, rhs: &F2) {
        self.0 &= rhs.0;
    }
}

impl Zero for F2 {
    fn zero() -> Self {
        F2(false)
    }

    fn is_zero(&self) -> bool {
        !self.0
    }
}

impl One for F2 {
    fn one() -> Self {
        F2(true)
    }
}

impl Inv for F2 {
    type Output = Self;

    fn inv(self) -> Self {
        assert!(self.0, "zero has no inverse");
        self
    }
}

impl CommutativeRing for F2 {}
impl Field for F2 {}
