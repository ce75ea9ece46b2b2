//! Images of indexes.

use crate::{doors, Refusal};

/// Whether the bytes begin with the image of a valid index, else
/// [`Refusal::Unsound`]. Bytes past its length are not judged. It needs up
/// to [`STACK`](crate::STACK) bytes of stack.
pub fn check(image: &[u8]) -> Result<(), Refusal> {
    Refusal::check(doors::divisor_index_check(image))
}
