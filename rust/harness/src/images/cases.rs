//! The small images, and what the program `crates/image_cases` has to write for
//! them. The model alone decides.

use super::states::small;
use crate::{
    doors::change::Change,
    model::{image::encode, soundness::is_sound},
    port::bytes,
};

/// A record for each image: the number of its words, and its words.
pub fn words() -> Vec<u8> {
    let images = small().map(|state| encode(&state));
    let records = images.flat_map(|image| [&[image.len() as u32], &image[..]].concat());
    bytes(&records.collect::<Vec<u32>>())
}

/// A line for each image.
pub fn answers() -> String {
    let images = small().map(|state| bytes(&encode(&state)));
    let lines: String = images.map(|image| line(&image)).collect();
    lines + "0 bytes unread\n"
}

fn line(image: &[u8]) -> String {
    let count = image.len() / 4;
    let changed =
        (0..count).flat_map(|at| changes(at).map(|change| change.applied(image, image.len())));
    let (mut sound, mut refused, mut checksum) = (0, 0, 0u32);
    for changed in changed {
        let answer = match is_sound(&changed) {
            _ if changed == image => 2,
            true => 1,
            false => 0,
        };
        sound += u32::from(answer == 1);
        refused += u32::from(answer == 0);
        checksum = checksum.wrapping_mul(31).wrapping_add(answer);
    }
    let shorter = (0..image.len()).filter(|length| !is_sound(&image[..*length]));
    format!(
        "{count} words, sound {}; changed: {sound} sound, {refused} refused, checksum {checksum}; shorter: {} refused\n",
        u32::from(is_sound(image)),
        shorter.count()
    )
}

/// The changes of a word: each bit flipped, one more, one less, 0, and the word
/// exchanged with the next one, the last with the first.
fn changes(at: usize) -> impl Iterator<Item = Change> {
    let flips = (0..32).map(move |bit| Change::Flip { at, bit });
    let others = [
        Change::Add { at, number: 1 },
        Change::Add {
            at,
            number: u32::MAX,
        },
        Change::Set { at, word: 0 },
        Change::Swap(at, at + 1),
    ];
    flips.chain(others)
}
