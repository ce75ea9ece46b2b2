use bytemuck::cast_slice;

use crate::{doors, Refusal};

/// The two kinds of index, with their numbers at the doors.
#[derive(Debug, Clone, Copy, PartialEq, Eq)]
pub enum Kind {
    Monomial = 0,
    Ratio = 1,
}

/// What an index is opened with: variables, capacity, and for each variable the
/// largest power that its masks are made for.
///
/// It is judged when it is made, by the length call (question 1), so an opening
/// with it can only be refused for want of room.
///
/// ```
/// use divisor_index::{Config, Refusal};
///
/// let config = Config::new(3, 1000)?.with_maxima(&[4, 9, 2])?;
/// assert_eq!(config.maxima(), [4, 9, 2]);
/// assert_eq!(Config::new(65, 1000), Err(Refusal::Parameters));
/// # Ok::<(), Refusal>(())
/// ```
#[derive(Debug, Clone, PartialEq, Eq)]
pub struct Config {
    variables: u32,
    capacity: u32,
    maxima: Vec<u32>,
}

impl Config {
    /// 1 to 64 variables, with maxima of 1, and a capacity of 1 to 4,096 entries;
    /// else [`Refusal::Parameters`].
    pub fn new(variables: u32, capacity: u32) -> Result<Self, Refusal> {
        // No number above 64 is served, whatever the maxima.
        let maxima = vec![1; variables.min(65) as usize];
        Self::checked(variables, capacity, maxima)
    }

    /// With these maxima, one a variable, each 1 to 32,767; else
    /// [`Refusal::Parameters`]. They decide how well masks tell monomials apart,
    /// so how fast searches are, and at most which of several right answers is
    /// given.
    pub fn with_maxima(self, maxima: &[u32]) -> Result<Self, Refusal> {
        Self::checked(self.variables, self.capacity, maxima.to_vec())
    }

    /// With this capacity, 1 to 4,096; else [`Refusal::Parameters`].
    pub fn with_capacity(self, capacity: u32) -> Result<Self, Refusal> {
        Self::checked(self.variables, capacity, self.maxima)
    }

    /// The number of variables.
    pub fn variables(&self) -> u32 {
        self.variables
    }

    /// The number of entries that an index can hold.
    pub fn capacity(&self) -> u32 {
        self.capacity
    }

    /// The maxima, that of variable 0 first.
    pub fn maxima(&self) -> &[u32] {
        &self.maxima
    }

    /// Question 1, asked of either kind: it is the same for both.
    pub(super) fn checked(
        variables: u32,
        capacity: u32,
        maxima: Vec<u32>,
    ) -> Result<Self, Refusal> {
        let config = Config {
            variables,
            capacity,
            maxima,
        };
        config.ask_length(Kind::Monomial)?;
        Ok(config)
    }

    /// The length in bytes of an image.
    pub(super) fn length(&self, kind: Kind) -> usize {
        self.ask_length(kind).expect("a judged config")
    }

    fn ask_length(&self, kind: Kind) -> Result<usize, Refusal> {
        let maxima = cast_slice(&self.maxima);
        Refusal::or_length(doors::divisor_index_length(
            kind as u32,
            self.variables,
            self.capacity,
            maxima,
        ))
    }

    /// Opens an index in these bytes.
    pub(super) fn open(&self, kind: Kind, image: &mut [u8]) -> Result<(), Refusal> {
        let maxima = cast_slice(&self.maxima);
        Refusal::check(doors::divisor_index_open(
            kind as u32,
            self.variables,
            self.capacity,
            maxima,
            image,
        ))
    }
}
