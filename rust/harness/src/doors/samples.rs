//! Bytes around every boundary: small ones in full, random ones, and damaged
//! copies.

use super::Lent;
use crate::{
    leaves::{by_model, samples, Leaf},
    rng::Rng,
    words::{word, MAX_POWER},
};

/// Variable counts at and past their limits, and where masks change shape.
const VARIABLES: [u32; 6] = [0, 1, 2, 33, 64, 65];

/// Bytes that no answer exceeds.
const ROOMY: usize = 260;

/// Random bytes: [`samples::random`] as lent, some with a room near the length
/// of the answer, some with a length that is a few bytes off, some with a
/// damaged byte.
pub fn random(leaf: Leaf, rng: &mut Rng) -> Lent {
    let mut lent = Lent::new(&samples::random(leaf, rng));
    if leaf == Leaf::MaskDivides {
        return lent;
    }
    match rng.below(16) {
        0 => lent.room = near(answer_length(&lent), rng),
        1 => {
            let operand = some_operand(&mut lent, rng);
            let length = near(operand.len(), rng);
            operand.resize(length, 0);
        }
        2 => {
            let operand = some_operand(&mut lent, rng);
            if !operand.is_empty() {
                let at = rng.below(operand.len());
                operand[at] = rng.below(256) as u8;
            }
        }
        _ => (),
    }
    lent
}

/// A length up to four bytes below or above.
fn near(length: usize, rng: &mut Rng) -> usize {
    (length + rng.below(9)).saturating_sub(4)
}

fn some_operand<'a>(lent: &'a mut Lent, rng: &mut Rng) -> &'a mut Vec<u8> {
    match lent.leaf {
        Leaf::Growth => &mut lent.first,
        _ if rng.chance(50) => &mut lent.first,
        _ => &mut lent.second,
    }
}

/// Bytes of the answer if there is room, 4 for a refusal.
fn answer_length(lent: &Lent) -> usize {
    let roomy = Lent {
        room: ROOMY,
        ..lent.clone()
    };
    by_model::answer(&roomy.work()).map_or(4, |words| 4 * words.len())
}

/// All small work with every room, then all short operands.
pub fn exhaustive(leaf: Leaf) -> impl Iterator<Item = Lent> {
    let small = samples::exhaustive(leaf).into_iter();
    let rooms = small.flat_map(|work| rooms(Lent::new(&work)));
    rooms.chain(short_operands(leaf))
}

/// Ample room, and of a few bytes each room to past the answer's length.
fn rooms(lent: Lent) -> impl Iterator<Item = Lent> {
    let tight = match lent.leaf {
        Leaf::Update | Leaf::MaskDivides => 0..0,
        Leaf::Growth if !lent.percentage.is_multiple_of(50) => 0..0,
        _ => 0..answer_length(&lent) + 2,
    };
    tight.chain([lent.room]).map(move |room| Lent {
        room,
        ..lent.clone()
    })
}

/// Each operand in turn replaced by every list of up to two words of an
/// alphabet, or three of a smaller one, and by every number of bytes up to nine;
/// for each of the variable counts.
fn short_operands(leaf: Leaf) -> impl Iterator<Item = Lent> {
    let variables = match leaf {
        Leaf::MaskDivides => &[],
        _ => &VARIABLES[..],
    };
    variables
        .iter()
        .flat_map(move |v| operand_bytes(leaf, *v).flat_map(move |bytes| in_place(leaf, *v, bytes)))
}

/// The bytes as first operand and as second, beside a good other one.
fn in_place(leaf: Leaf, variables: u32, bytes: Vec<u8>) -> impl Iterator<Item = Lent> {
    let good_first = match leaf {
        Leaf::Mask | Leaf::Update | Leaf::Growth => [1, 0, 0, 0].repeat(variables as usize),
        _ => vec![0; 4],
    };
    let good_second = match leaf {
        Leaf::Growth => vec![],
        _ => vec![0; 4],
    };
    let lent = move |first, second| Lent {
        leaf,
        variables,
        first,
        second,
        percentage: 0,
        room: ROOMY,
    };
    let as_second = (leaf != Leaf::Growth).then(|| lent(good_first, bytes.clone()));
    [lent(bytes, good_second)].into_iter().chain(as_second)
}

fn operand_bytes(leaf: Leaf, variables: u32) -> impl Iterator<Item = Vec<u8>> {
    let two = lists(alphabet(leaf, variables), 2);
    let three = lists(small_alphabet(leaf, variables), 3);
    let words = two.chain(three).map(|list| super::bytes(&list));
    words.chain((0..10).map(|length| vec![0; length]))
}

/// All lists of up to `longest` of these words.
fn lists(alphabet: Vec<u32>, longest: u32) -> impl Iterator<Item = Vec<u32>> {
    (0..=longest).flat_map(move |length| {
        let alphabet = alphabet.clone();
        (0..alphabet.len().pow(length)).map(move |number| {
            let digit = |at| number / alphabet.len().pow(at) % alphabet.len();
            (0..length).map(|at| alphabet[digit(at)]).collect()
        })
    })
}

/// Words of every kind, with ids and powers at and past their limits.
fn alphabet(leaf: Leaf, variables: u32) -> Vec<u32> {
    let mut words = small_alphabet(leaf, variables);
    let ids = [0, variables.saturating_sub(1), variables, 0xFFF];
    let powers = [0, 1, 0x7FFE, 0x7FFF, 0x8000, 0x8001, 0xFFFF];
    for kind in [1, 2] {
        words.extend(
            ids.iter()
                .flat_map(|id| powers.map(|power| word(kind, id << 16 | power))),
        );
    }
    words.extend((0..16).map(|kind| word(kind, 1)));
    words.push(MAX_POWER as u32 + 1);
    words
}

/// End words and variables of the leaf's own kind, or maxima.
fn small_alphabet(leaf: Leaf, variables: u32) -> Vec<u32> {
    let kind = match leaf {
        Leaf::EqRatio | Leaf::OrdRatio => 2,
        _ => 1,
    };
    let last = variables.saturating_sub(1);
    let ids = [0, last / 2, last, variables];
    let mut words: Vec<u32> = ids.map(|id| word(kind, id << 16 | 0x7FFF)).to_vec();
    words.extend([0, 1, 2, 3, MAX_POWER as u32]);
    words
}
