use std::{cmp::Ordering, ops};

use divisor_index::{
    compat::{Element, HasRatio, HasSignature},
    Product,
};

pub trait Id: Copy + Ord + TryFrom<u16> + Into<u16> {}
impl Id for u8 {}

pub trait SignedExponent: Copy + From<i32> + Into<i32> {}
impl SignedExponent for i32 {}

pub trait Field: Clone + ops::AddAssign + ops::Mul<Output = Self> {
    fn is_zero(&self) -> bool;
    fn inv(self) -> Self;
    fn elimination_factor(self, rhs_inv: &Self) -> Self;
}

/// The one of the field with two elements, or its zero.
#[derive(Debug, Clone, Copy, PartialEq)]
pub struct Bit(pub bool);

impl ops::AddAssign for Bit {
    fn add_assign(&mut self, other: Self) {
        self.0 = self.0 != other.0;
    }
}

impl ops::Mul for Bit {
    type Output = Self;

    fn mul(self, other: Self) -> Self {
        Bit(self.0 && other.0)
    }
}

impl Field for Bit {
    fn is_zero(&self) -> bool {
        !self.0
    }

    fn inv(self) -> Self {
        self
    }

    fn elimination_factor(self, rhs_inv: &Self) -> Self {
        self * *rhs_inv
    }
}

#[derive(Debug, Clone)]
pub struct VariablePower<I, E> {
    id: I,
    power: E,
}

/// In falling id.
#[derive(Debug, Clone)]
pub struct Monomial<I, E> {
    product: Vec<VariablePower<I, E>>,
}

pub fn monomial<I: Id, E: SignedExponent>(variables: &[(u16, i32)]) -> Monomial<I, E> {
    let variable = |&(id, power): &(u16, i32)| VariablePower {
        id: I::try_from(id).ok().unwrap(),
        power: power.into(),
    };
    let product = variables.iter().map(variable).collect();
    Monomial { product }
}

impl<I: Id, E: SignedExponent> Monomial<I, E> {
    fn power(&self, id: u16) -> i32 {
        let found = self.variables().find(|variable| variable.0 == id);
        found.map_or(0, |variable| variable.1)
    }

    /// With powers made from those of both.
    fn join(&self, other: &Self, power: impl Fn(i32, i32) -> i32) -> Self {
        let made = |id| (id, power(self.power(id), other.power(id)));
        let all = (0..64).rev().map(made).filter(|made| made.1 != 0);
        monomial(&all.collect::<Vec<_>>())
    }

    pub fn fraction_division(&self, other: &Self) -> Self {
        self.join(other, |a, b| a - b)
    }

    pub fn whole_division(self, divisor: &Self) -> Option<Self> {
        let quotient = self.fraction_division(divisor);
        let is_whole = quotient.variables().all(|variable| variable.1 > 0);
        is_whole.then_some(quotient)
    }

    pub fn is_one(&self) -> bool {
        self.product.is_empty()
    }

    /// By total, then the smaller power at the smallest id is larger.
    fn key(&self) -> (i32, Vec<i32>) {
        let powers: Vec<_> = (0..64).map(|id| self.power(id)).collect();
        (
            powers.iter().sum(),
            powers.iter().map(|power| -power).collect(),
        )
    }
}

impl<I: Id, E: SignedExponent> ops::Mul for Monomial<I, E> {
    type Output = Self;

    fn mul(self, other: Self) -> Self {
        self.join(&other, |a, b| a + b)
    }
}

impl<I: Id, E: SignedExponent> Ord for Monomial<I, E> {
    fn cmp(&self, other: &Self) -> Ordering {
        self.key().cmp(&other.key())
    }
}

impl<I: Id, E: SignedExponent> PartialOrd for Monomial<I, E> {
    fn partial_cmp(&self, other: &Self) -> Option<Ordering> {
        Some(self.cmp(other))
    }
}

impl<I: Id, E: SignedExponent> PartialEq for Monomial<I, E> {
    fn eq(&self, other: &Self) -> bool {
        self.cmp(other).is_eq()
    }
}

impl<I: Id, E: SignedExponent> Eq for Monomial<I, E> {}

impl<I: Id, E: SignedExponent> Product for Monomial<I, E> {
    fn variables(&self) -> impl Iterator<Item = (u16, i32)> {
        let product = self.product.iter();
        product.map(|variable| (variable.id.into(), variable.power.into()))
    }
}

#[derive(Debug, Clone)]
pub struct Term<I, C, P> {
    pub coefficient: C,
    pub monomial: Monomial<I, P>,
}

impl<I: Id, C: Field, P: SignedExponent> ops::Mul for Term<I, C, P> {
    type Output = Self;

    fn mul(self, other: Self) -> Self {
        Term {
            coefficient: self.coefficient * other.coefficient,
            monomial: self.monomial * other.monomial,
        }
    }
}

/// Terms in falling order.
#[derive(Debug, Clone)]
pub struct Polynomial<I, C, P> {
    pub terms: Vec<Term<I, C, P>>,
}

impl<I: Id, C, P: SignedExponent> Polynomial<I, C, P> {
    pub fn is_constant(&self) -> bool {
        self.terms.iter().all(|term| term.monomial.is_one())
    }
}

#[derive(Debug)]
pub struct DivMask;

pub struct DivMap;

impl DivMap {
    pub fn map<I, E>(&self, _: &Monomial<I, E>) -> DivMask {
        DivMask
    }
}

pub struct MaskedMonomial<I, E> {
    pub divmask: DivMask,
    pub monomial: Monomial<I, E>,
}

impl<I: Id, E: SignedExponent> Product for MaskedMonomial<I, E> {
    fn variables(&self) -> impl Iterator<Item = (u16, i32)> {
        self.monomial.variables()
    }
}

#[allow(dead_code)] // The mask is there for the original's code alone.
pub struct MaskedMonomialRef<'a, I, E>(pub &'a DivMask, pub &'a Monomial<I, E>);

impl<I: Id, E: SignedExponent> Product for MaskedMonomialRef<'_, I, E> {
    fn variables(&self) -> impl Iterator<Item = (u16, i32)> {
        self.1.variables()
    }
}

#[derive(Debug, Clone)]
pub struct Signature<I, E> {
    pub idx: u32,
    pub monomial: Monomial<I, E>,
}

/// The original's has a comparer beside its value.
#[derive(Debug)]
pub struct Ratio<I, E>(Signature<I, E>);

impl<I: Id, E: SignedExponent> Ratio<I, E> {
    pub fn new(idx: u32, monomial: Monomial<I, E>) -> Self {
        Ratio(Signature { idx, monomial })
    }
}

impl<I: Id, E: SignedExponent> PartialEq for Ratio<I, E> {
    fn eq(&self, other: &Self) -> bool {
        self.partial_cmp(other) == Some(Ordering::Equal)
    }
}

/// By index, then by monomial.
impl<I: Id, E: SignedExponent> PartialOrd for Ratio<I, E> {
    fn partial_cmp(&self, other: &Self) -> Option<Ordering> {
        let (a, b) = (&self.0, &other.0);
        Some(a.idx.cmp(&b.idx).then(a.monomial.cmp(&b.monomial)))
    }
}

impl<I: Id, E: SignedExponent> HasRatio for Ratio<I, E> {
    type Monomial = Monomial<I, E>;

    fn ratio(&self) -> divisor_index::Ratio<'_, Monomial<I, E>> {
        divisor_index::Ratio::new(self.0.idx, &self.0.monomial)
    }
}

pub fn sign_to_monomial_ratio<I: Id, P: SignedExponent>(
    signature: &Signature<I, P>,
    monomial: &Monomial<I, P>,
) -> Ratio<I, P> {
    let monomial = signature.monomial.fraction_division(monomial);
    Ratio::new(signature.idx, monomial)
}

#[derive(Debug)]
pub struct MaskedSignature<I, E> {
    pub divmask: DivMask,
    pub signature: Signature<I, E>,
}

impl<I, E> MaskedSignature<I, E> {
    pub fn new(idx: u32, monomial: Monomial<I, E>) -> Self {
        MaskedSignature {
            divmask: DivMask,
            signature: Signature { idx, monomial },
        }
    }

    pub fn monomial(&self) -> MaskedMonomialRef<'_, I, E> {
        MaskedMonomialRef(&self.divmask, &self.signature.monomial)
    }
}

impl<I: Id, E: SignedExponent> HasSignature for MaskedSignature<I, E> {
    type Monomial = Monomial<I, E>;

    fn signature(&self) -> divisor_index::Signature<'_, Monomial<I, E>> {
        divisor_index::Signature::new(self.signature.idx, &self.signature.monomial)
    }
}

#[derive(Debug)]
pub struct SignPoly<I, C, P> {
    pub masked_signature: MaskedSignature<I, P>,
    pub polynomial: Polynomial<I, C, P>,
    pub lm_divmask: DivMask,
    pub inv_leading_coeff: C,
    pub idx: u32,
    pub sign_to_lm_ratio: Ratio<I, P>,
}

impl<I: Id, C: Field, P: SignedExponent> SignPoly<I, C, P> {
    pub fn new(
        idx: u32,
        masked_signature: MaskedSignature<I, P>,
        polynomial: Polynomial<I, C, P>,
    ) -> Self {
        let leading = polynomial.terms[0].clone();
        let signature = &masked_signature.signature;
        let sign_to_lm_ratio = sign_to_monomial_ratio(signature, &leading.monomial);
        SignPoly {
            masked_signature,
            polynomial,
            lm_divmask: DivMask,
            inv_leading_coeff: leading.coefficient.inv(),
            idx,
            sign_to_lm_ratio,
        }
    }

    pub fn sign_to_lm_ratio_cmp(&self, other: &Self) -> Ordering {
        let ratio = &self.sign_to_lm_ratio;
        ratio.partial_cmp(&other.sign_to_lm_ratio).unwrap()
    }

    pub fn signature(&self) -> &Signature<I, P> {
        &self.masked_signature.signature
    }
}

impl<I: Id, C, P: SignedExponent> HasSignature for SignPoly<I, C, P> {
    type Monomial = Monomial<I, P>;

    fn signature(&self) -> divisor_index::Signature<'_, Monomial<I, P>> {
        HasSignature::signature(&self.masked_signature)
    }
}

impl<I: Id, C, P: SignedExponent> Element for SignPoly<I, C, P> {
    fn leading_monomial(&self) -> &Monomial<I, P> {
        &self.polynomial.terms[0].monomial
    }
}
