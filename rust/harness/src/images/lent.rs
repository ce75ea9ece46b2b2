//! Images lent to run and list, sound or not.
//!
//! Where the model finds an image unsound, both doors must return 3 and change
//! nothing, whatever list and buffer are lent. Where it is sound, the model goes
//! on from its state and says number, image and buffer.

use divisor_index::doors;

use crate::{
    doors::memory::Memory,
    jobs::calls_near,
    model::{image::encode, mutation::Rules, soundness::Reading, state::State, Index},
    port::{bytes, words_of},
    rng::Rng,
    words::{calls, monomial_words, ratio_words, word, CALL, INDEX},
};

/// Most calls of a list.
const CALLS: usize = 6;

/// Lends an image, with so many zeros behind it that are not lent, and gives the
/// numbers that run and list return.
pub fn compare(image: &[u8], behind: usize, reading: &Reading) -> Result<[u32; 2], String> {
    let state = reading.state.as_ref().filter(|_| reading.is_sound());
    let mut rng = Rng::new(checksum(image));
    let list = draw_list(state, &mut rng);
    let lent = Lent {
        image,
        behind,
        room: draw_room(4 * calls(&words_of(&list)).count(), &mut rng),
        list,
    };
    let expected = run(state, &lent.list, lent.room);
    let run = lent
        .compare(expected, doors::divisor_index_run)
        .map_err(|difference| format!("run: {difference}, list {:x?}", words_of(&lent.list)))?;

    let listing = state.map(|state| Index::of_state(state, Rules::document_01()).list(usize::MAX));
    let words = listing.and_then(Result::ok).map_or(2, |words| words.len());
    let lent = Lent {
        list: vec![],
        room: draw_room(4 * words, &mut rng),
        ..lent
    };
    let expected = listed(state, lent.room);
    let list = |image: &mut [u8], _: &[u8], out: &mut [u8]| doors::divisor_index_list(image, out);
    let list = lent
        .compare(expected, list)
        .map_err(|difference| format!("list: {difference}"))?;
    Ok([run, list])
}

/// What a door that serves makes of image and buffer.
struct Effect {
    image: Vec<u8>,
    written: Vec<u8>,
}

/// What the model says of a list.
fn run(state: Option<&State>, list: &[u8], room: usize) -> Result<Effect, u32> {
    let mut index = Index::of_state(state.ok_or(3u32)?, Rules::document_01());
    if !list.len().is_multiple_of(4) {
        return Err(4);
    }
    let answers = index.run(&words_of(list), room / 4)?;
    Ok(Effect {
        image: bytes(&encode(&index.state())),
        written: bytes(&answers),
    })
}

/// What the model says of a listing.
fn listed(state: Option<&State>, room: usize) -> Result<Effect, u32> {
    let index = Index::of_state(state.ok_or(3u32)?, Rules::document_01());
    Ok(Effect {
        image: vec![],
        written: bytes(&index.list(room / 4)?),
    })
}

/// All that a door is lent.
struct Lent<'a> {
    image: &'a [u8],
    behind: usize,
    list: Vec<u8>,
    room: usize,
}

impl Lent<'_> {
    fn memory(&self) -> Memory {
        let image = [self.image, &vec![0; self.behind]].concat();
        Memory::new(&image, &self.list, self.room)
    }

    /// The door must return the number that is expected and leave all else as it
    /// was.
    fn compare(
        &self,
        expected: Result<Effect, u32>,
        door: impl FnOnce(&mut [u8], &[u8], &mut [u8]) -> u32,
    ) -> Result<u32, String> {
        let mut memory = self.memory();
        let (image, list, out) = memory.split();
        let number = door(&mut image[..self.image.len()], list, out);

        let mut after = self.memory();
        if let Ok(effect) = &expected {
            let (image, _, out) = after.split();
            image[..effect.image.len()].copy_from_slice(&effect.image);
            out[..effect.written.len()].copy_from_slice(&effect.written);
        }
        let expected = expected.err().unwrap_or(0);
        match number == expected {
            false => Err(format!("port {number}, model {expected}")),
            true if memory.bytes != after.bytes => Err("a byte differs".to_owned()),
            true => Ok(number),
        }
    }
}

/// Calls near the entries of a sound image, on any other all calls; now and then
/// none, or bytes that are no list.
fn draw_list(state: Option<&State>, rng: &mut Rng) -> Vec<u8> {
    let count = rng.below(CALLS + 1);
    let mut list = bytes(&match state {
        Some(state) => calls_near(state, count, Rng::new(rng.below(1 << 30) as u64)),
        None => all_calls(),
    });
    match rng.below(12) {
        0 => list.truncate(list.len().saturating_sub(1 + rng.below(3))),
        1 if !list.is_empty() => list[3] ^= 1 << rng.below(8),
        2 => list.clear(),
        _ => (),
    }
    list
}

/// Every call with ones.
fn all_calls() -> Vec<u32> {
    let (index, one) = (vec![word(INDEX, 0)], monomial_words([]));
    let ratio = ratio_words([]);
    let bodies = [
        one.clone(),
        one.clone(),
        [&index[..], &one, &one].concat(),
        [&index[..], &ratio, &one].concat(),
        [&index[..], &ratio, &one].concat(),
        [&index[..], &one].concat(),
        [&index[..], &one, &one].concat(),
    ];
    let call = |(number, body): (u32, Vec<u32>)| [vec![word(CALL, number)], body].concat();
    (0..).zip(bodies).flat_map(call).collect()
}

/// As many bytes as are needed, or now and then some more or fewer.
fn draw_room(bytes: usize, rng: &mut Rng) -> usize {
    match rng.below(8) {
        0 => bytes.saturating_sub(1 + rng.below(4)),
        1 => bytes + rng.below(9),
        _ => bytes,
    }
}

fn checksum(image: &[u8]) -> u64 {
    let add = |sum: u64, byte: &u8| sum.wrapping_mul(31).wrapping_add((*byte).into());
    image.iter().fold(image.len() as u64, add)
}
