//! Changes of an image, in words that mean something or in none.

use crate::rng::Rng;

/// A change of an image. Places are words, taken round.
#[derive(Debug, Clone, Copy)]
pub enum Change {
    Nothing,
    Flip {
        at: usize,
        bit: u32,
    },
    Set {
        at: usize,
        word: u32,
    },
    Add {
        at: usize,
        number: u32,
    },
    Copy {
        from: usize,
        to: usize,
    },
    Swap(usize, usize),
    /// So many bytes are not lent.
    Cut(usize),
}

impl Change {
    pub fn draw(rng: &mut Rng) -> Self {
        let far = 1 << 20;
        // The header and the first rows as often as all the rest.
        let mut at = || match rng.chance(50) {
            true => rng.below(20),
            false => rng.below(far),
        };
        let (at, other) = (at(), at());
        match rng.below(7) {
            0 => Change::Nothing,
            1 => Change::Set {
                at,
                word: *rng.choose(&SET),
            },
            2 => Change::Add {
                at,
                number: *rng.choose(&ADD),
            },
            3 => Change::Copy {
                from: at,
                to: other,
            },
            4 => Change::Swap(at, other),
            5 => Change::Cut(rng.below(9)),
            _ => Change::Flip {
                at,
                bit: rng.below(32) as u32,
            },
        }
    }

    /// The image with this change; its length is that of the map or index,
    /// without the spare bytes.
    pub fn applied(self, image: &[u8], length: usize) -> Vec<u8> {
        let mut image = image.to_vec();
        let place = |at: usize| 4 * (at % (length / 4));
        let get = |image: &[u8], at| {
            let word = image[place(at)..].first_chunk().expect("a word");
            u32::from_le_bytes(*word)
        };
        let set = |image: &mut Vec<u8>, at, word: u32| {
            image[place(at)..][..4].copy_from_slice(&word.to_le_bytes());
        };
        match self {
            Change::Nothing => (),
            Change::Flip { at, bit } => {
                let word = get(&image, at) ^ 1 << bit;
                set(&mut image, at, word);
            }
            Change::Set { at, word } => set(&mut image, at, word),
            Change::Add { at, number } => {
                let word = get(&image, at).wrapping_add(number);
                set(&mut image, at, word);
            }
            Change::Copy { from, to } => {
                let word = get(&image, from);
                set(&mut image, to, word);
            }
            Change::Swap(a, b) => {
                let (of_a, of_b) = (get(&image, a), get(&image, b));
                set(&mut image, a, of_b);
                set(&mut image, b, of_a);
            }
            Change::Cut(bytes) => image.truncate(length.saturating_sub(bytes)),
        }
        image
    }
}

/// Words that mean something somewhere in an image.
const SET: [u32; 20] = [
    0,
    1,
    2,
    3,
    4,
    5,
    64,
    65,
    4096,
    4097,
    0x7FFF_FFFF,
    0x8000_0000,
    0xFFFF_FFFF,
    0x1000_0000,
    0x1000_0001,
    0x1000_7FFF,
    0x1000_8000,
    0x2000_8000,
    0x2000_8001,
    0x3000_0000,
];

const ADD: [u32; 4] = [1, u32::MAX, 0x1_0000, 0x1000_0000];

/// Every word of so many changed in turn: each bit, words that mean something,
/// and each other word; and every shorter length.
pub fn changes(words: usize) -> impl Iterator<Item = Change> {
    let cuts = (1..=4 * words).map(Change::Cut);
    let of_word = move |at| {
        let flips = (0..32).map(move |bit| Change::Flip { at, bit });
        let sets = SET.into_iter().map(move |word| Change::Set { at, word });
        let adds = ADD.into_iter();
        let adds = adds.map(move |number| Change::Add { at, number });
        let copies = (0..words).map(move |from| Change::Copy { from, to: at });
        let swaps = (0..at).map(move |other| Change::Swap(at, other));
        flips.chain(sets).chain(adds).chain(copies).chain(swaps)
    };
    [Change::Nothing]
        .into_iter()
        .chain(cuts)
        .chain((0..words).flat_map(of_word))
}
