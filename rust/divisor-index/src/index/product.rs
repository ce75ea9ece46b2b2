use super::SignatureIndex;

/// A monomial or ratio of the caller's own, as it is lent to an index.
///
/// Implement it for the solver's monomials. Nothing is judged here: what is not
/// canonical is refused by the call, with
/// [`Refusal::NotCanonical`](crate::Refusal::NotCanonical).
///
/// ```
/// use divisor_index::{Config, MonomialIndex, Product, Refusal};
///
/// /// Powers by variable, dense.
/// struct Dense(Vec<i32>);
///
/// impl Product for Dense {
///     fn variables(&self) -> impl Iterator<Item = (u16, i32)> {
///         let all = self.0.iter().enumerate().rev();
///         all.map(|(id, &power)| (id as u16, power))
///             .filter(|(_, power)| *power != 0)
///     }
/// }
///
/// let mut index = MonomialIndex::open(&Config::new(3, 10)?);
/// index.insert(&Dense(vec![2, 0, 1]))?;
/// assert!(index.contains_divisor(&[(2, 1), (1, 5), (0, 2)])?);
/// # Ok::<(), Refusal>(())
/// ```
pub trait Product {
    /// Its variables as (id, power), ids falling, without powers of 0; nothing
    /// for one. A monomial's powers are 1 to 32,767, those of a ratio −32,767 to
    /// 32,767.
    fn variables(&self) -> impl Iterator<Item = (u16, i32)>;
}

impl Product for [(u16, i32)] {
    fn variables(&self) -> impl Iterator<Item = (u16, i32)> {
        self.iter().copied()
    }
}

impl<const N: usize> Product for [(u16, i32); N] {
    fn variables(&self) -> impl Iterator<Item = (u16, i32)> {
        self.iter().copied()
    }
}

impl Product for Vec<(u16, i32)> {
    fn variables(&self) -> impl Iterator<Item = (u16, i32)> {
        self.iter().copied()
    }
}

impl<P: Product + ?Sized> Product for &P {
    fn variables(&self) -> impl Iterator<Item = (u16, i32)> {
        (**self).variables()
    }
}

/// A signature: an index, and a monomial of the caller's.
#[derive(Debug)]
pub struct Signature<'a, M: ?Sized> {
    /// Which input polynomial it belongs to.
    pub index: SignatureIndex,
    /// Its monomial.
    pub monomial: &'a M,
}

impl<'a, M: Product + ?Sized> Signature<'a, M> {
    /// The signature of this index and monomial.
    pub fn new(index: impl Into<SignatureIndex>, monomial: &'a M) -> Self {
        let index = index.into();
        Signature { index, monomial }
    }
}

/// The ratio of a signature and a leading monomial: the signature's index, and
/// signature monomial / leading monomial, in which powers can be negative.
#[derive(Debug)]
pub struct Ratio<'a, M: ?Sized> {
    /// The signature's index.
    pub index: SignatureIndex,
    /// The quotient.
    pub monomial: &'a M,
}

impl<'a, M: Product + ?Sized> Ratio<'a, M> {
    /// The ratio of this index and quotient.
    pub fn new(index: impl Into<SignatureIndex>, monomial: &'a M) -> Self {
        let index = index.into();
        Ratio { index, monomial }
    }
}

// Derived, these would ask the same of the monomials, which are only lent.
impl<M: ?Sized> Clone for Signature<'_, M> {
    fn clone(&self) -> Self {
        *self
    }
}

impl<M: ?Sized> Copy for Signature<'_, M> {}

impl<M: ?Sized> Clone for Ratio<'_, M> {
    fn clone(&self) -> Self {
        *self
    }
}

impl<M: ?Sized> Copy for Ratio<'_, M> {}
