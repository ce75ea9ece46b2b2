//! What both indexes are: an image in a buffer, and the calls on it.

use std::{error, fmt};

use bytemuck::{cast_slice, cast_slice_mut};

use super::{
    batch::{Answers, Batch},
    calls::CallList,
    config::Kind,
    layout::Layout,
    reply::{read, Reply},
    Config,
};
use crate::{doors, image, Refusal};

/// A refusal to make an index, with the buffer that was lent, unchanged.
pub struct Refused<B> {
    /// Why it was refused.
    pub refusal: Refusal,
    /// The buffer, as it was.
    pub buffer: B,
}

// Without the bytes of the buffer, which may be many.
impl<B> fmt::Debug for Refused<B> {
    fn fmt(&self, f: &mut fmt::Formatter<'_>) -> fmt::Result {
        let mut shown = f.debug_struct("Refused");
        shown
            .field("refusal", &self.refusal)
            .finish_non_exhaustive()
    }
}

impl<B> fmt::Display for Refused<B> {
    fn fmt(&self, f: &mut fmt::Formatter<'_>) -> fmt::Result {
        self.refusal.fmt(f)
    }
}

impl<B> error::Error for Refused<B> {}

impl<B> From<Refused<B>> for Refusal {
    fn from(refused: Refused<B>) -> Self {
        refused.refusal
    }
}

#[derive(Clone)]
pub struct Store<B> {
    buffer: B,
    /// How many of the buffer's bytes are the image.
    length: usize,
    /// For single calls, kept for its memory.
    calls: CallList,
}

impl<B: AsRef<[u8]> + AsMut<[u8]>> Store<B> {
    /// An index that holds nothing.
    pub fn open(kind: Kind, config: &Config, mut buffer: B) -> Result<Self, Refused<B>> {
        match config.open(kind, buffer.as_mut()) {
            Ok(()) => Ok(Self::new(buffer, config.length(kind))),
            Err(refusal) => Err(Refused { refusal, buffer }),
        }
    }

    /// The index whose image the buffer begins with.
    pub fn from_image(kind: Kind, buffer: B) -> Result<Self, Refused<B>> {
        match judge(kind, buffer.as_ref()) {
            Ok(length) => Ok(Self::new(buffer, length)),
            Err(refusal) => Err(Refused { refusal, buffer }),
        }
    }

    fn new(buffer: B, length: usize) -> Self {
        let calls = CallList::default();
        Store {
            buffer,
            length,
            calls,
        }
    }

    pub fn into_buffer(self) -> B {
        self.buffer
    }

    pub fn image(&self) -> &[u8] {
        &self.buffer.as_ref()[..self.length]
    }

    /// Shows an index of this name, without its bytes, which may be many.
    pub fn show(&self, name: &str, f: &mut fmt::Formatter<'_>) -> fmt::Result {
        let layout = self.layout();
        f.debug_struct(name)
            .field("config", &layout.config())
            .field("len", &layout.entries())
            .finish_non_exhaustive()
    }

    pub fn layout(&self) -> Layout<'_> {
        Layout::of(self.image())
    }

    /// Runs a single call.
    pub fn one<T: Reply>(&mut self, write: impl FnOnce(&mut CallList)) -> Result<T, Refusal> {
        self.calls.clear();
        write(&mut self.calls);
        let mut answer = [0];
        run(self.buffer.as_mut(), &self.calls, &mut answer)?;
        read(answer[0])
    }

    /// Runs a batch as one list.
    pub fn run(&mut self, batch: &Batch) -> Result<Answers, Refusal> {
        Ok(batch.answers(self.answer_words(batch.calls())?))
    }

    /// Runs a list, and gives one answer word a call.
    pub fn answer_words(&mut self, calls: &CallList) -> Result<Vec<u32>, Refusal> {
        let mut answers = vec![0; calls.len()];
        run(self.buffer.as_mut(), calls, &mut answers)?;
        Ok(answers)
    }
}

fn run(image: &mut [u8], calls: &CallList, answers: &mut [u32]) -> Result<(), Refusal> {
    let (list, answers) = (cast_slice(calls.words()), cast_slice_mut(answers));
    Refusal::check(doors::divisor_index_run(image, list, answers))
}

/// Question 3, and whether the image is of this kind, else 6: none of the kind's
/// calls is served on another. Answers the image's length.
fn judge(kind: Kind, buffer: &[u8]) -> Result<usize, Refusal> {
    image::check(buffer)?;
    let layout = Layout::of(buffer);
    if layout.kind() != kind {
        return Err(Refusal::NotServed);
    }
    Ok(layout.config().length(kind))
}
