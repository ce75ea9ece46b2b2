//! The label map, with the original's names.

use bytemuck::cast_slice;

use crate::{doors, Refusal};

/// The length in bytes of a map's image.
pub fn length(variables: u32, capacity: u32) -> Result<usize, Refusal> {
    Refusal::or_length(doors::divisor_index_fast_compare_length(
        variables, capacity,
    ))
}

/// Maps values, which are a signature index and a ratio, to numbers in the same
/// order. The map is an image of bytes, owned or lent, that each call judges.
#[derive(Debug, Clone, PartialEq, Eq)]
pub struct ComparerMap<I> {
    image: I,
}

impl ComparerMap<Vec<u8>> {
    /// An empty map in bytes of its own.
    pub fn new(variables: u32, capacity: u32) -> Result<Self, Refusal> {
        Self::open(variables, capacity, vec![0; length(variables, capacity)?])
    }
}

impl<I: AsRef<[u8]> + AsMut<[u8]>> ComparerMap<I> {
    /// An empty map in these bytes. Those past its length are not touched.
    pub fn open(variables: u32, capacity: u32, mut image: I) -> Result<Self, Refusal> {
        let number = doors::divisor_index_fast_compare_open(variables, capacity, image.as_mut());
        Refusal::check(number)?;
        Ok(ComparerMap { image })
    }

    /// The map in these bytes. If there is none, every call is refused.
    pub fn from_image(image: I) -> Self {
        ComparerMap { image }
    }

    /// The bytes of the map.
    pub fn image(&self) -> &[u8] {
        self.image.as_ref()
    }

    /// The bytes that the map was opened in.
    pub fn into_image(self) -> I {
        self.image
    }

    /// The comparer of a value, which is stored if it is new. After
    /// [`Refusal::NoLabel`] a rebuild is needed.
    pub fn get_comparer(&mut self, index: u32, ratio: &[u32]) -> Result<u32, Refusal> {
        let image = self.image.as_mut();
        Refusal::or_answer(doors::divisor_index_fast_compare_get_comparer(
            image,
            index,
            cast_slice(ratio),
        ))
    }

    /// Spaces the comparers of all values evenly. Those given before no longer
    /// count.
    pub fn rebuild(&mut self) -> Result<(), Refusal> {
        Refusal::check(doors::divisor_index_fast_compare_rebuild(
            self.image.as_mut(),
        ))
    }
}
