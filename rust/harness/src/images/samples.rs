//! Images to be judged: small ones with every change, headers at their limits,
//! and random ones that are sound, nearly sound or not.

use super::{
    chains::{full, Form},
    edits::{draw_change, edit, lower_gcd, mix, respell},
    states::{draw_sizes, limits, of_job, random, small},
};
use crate::{
    doors::change::{changes, Change},
    jobs::Mode,
    model::{
        image::{encode, Shape, HEADER},
        state::State,
        Kind,
    },
    rng::Rng,
    words::{MAX_CAPACITY, MAX_VARIABLES},
};

pub use crate::port::bytes;

/// Looks at an image, and says what is wrong.
pub trait Visit: FnMut(&[u8]) -> Result<(), String> {}

impl<V: FnMut(&[u8]) -> Result<(), String>> Visit for V {}

/// Images that one random state is changed into.
const CHANGES: u64 = 24;

/// Most random bytes.
const BYTES: usize = 600;

/// Small images: as they are, with every change of a word, with every two rows
/// exchanged, of every shorter length, and with bytes behind them.
pub fn small_images(visit: &mut impl Visit) -> Result<(), String> {
    for (state, number) in small().zip(0..) {
        let words = encode(&state);
        let image = bytes(&words);
        let told = |difference| format!("small image {number}: {difference}");
        visit(&image).map_err(told)?;
        let changed = changes(words.len()).map(|change| change.applied(&image, image.len()));
        let exchanged = exchanges(Shape::of(&state), &words).map(|words| bytes(&words));
        for changed in changed.chain(exchanged).filter(|changed| *changed != image) {
            visit(&changed).map_err(told)?;
        }
        for behind in 1..=9 {
            visit(&[&image, &[0xEE; 9][..behind]].concat()).map_err(told)?;
        }
    }
    Ok(())
}

/// Every two rows of a table exchanged.
fn exchanges(shape: Shape, words: &[u32]) -> impl Iterator<Item = Vec<u32>> + '_ {
    let entries = (shape.entries_at(), shape.capacity, shape.entry_width());
    let rows = (shape.rows_at(), shape.capacity, shape.row_width());
    let nodes = (shape.nodes_at(), shape.nodes(), shape.node_width());
    let tables = match shape.kind {
        Kind::Monomial => vec![entries, nodes],
        Kind::Ratio => vec![entries, rows, nodes],
    };
    tables.into_iter().flat_map(move |(start, rows, width)| {
        let pairs = (0..rows).flat_map(|a| (0..a).map(move |b| (a, b)));
        pairs.map(move |(a, b)| {
            let mut exchanged = words.to_vec();
            for at in start..start + width {
                exchanged.swap(at + a * width, at + b * width);
            }
            exchanged
        })
    })
}

/// Images of sizes at and past their limits, and full ones, with each word of
/// the header at and past its own.
pub fn headers(visit: &mut impl Visit) -> Result<(), String> {
    let mut rng = Rng::new(0);
    for sizes in limits() {
        let image = encode(&random(sizes, &mut rng));
        header_changes(&image, visit).map_err(|difference| format!("{sizes:?}: {difference}"))?;
    }
    for kind in [Kind::Monomial, Kind::Ratio] {
        for form in Form::ALL {
            let told = |difference| format!("full {kind:?} {form:?}: {difference}");
            visit(&bytes(&encode(&full(kind, 2, MAX_CAPACITY, form)))).map_err(told)?;
            header_changes(&encode(&full(kind, 2, 9, form)), visit).map_err(told)?;
        }
    }
    for length in 0..4 * HEADER + 4 {
        visit(&vec![0; length])?;
    }
    Ok(())
}

fn header_changes(image: &[u32], visit: &mut impl Visit) -> Result<(), String> {
    let [capacity, entries, nodes] = [image[3], image[4], image[5]];
    let limits: [&[u32]; 6] = [
        &[0, 1, 2],
        &[0, 1, 2],
        &[0, 1, MAX_VARIABLES as u32, MAX_VARIABLES as u32 + 1],
        &[0, 1, MAX_CAPACITY as u32, MAX_CAPACITY as u32 + 1],
        &[0, 1, capacity, capacity + 1, entries + 1],
        &[
            0,
            1,
            nodes + 1,
            (2 * capacity).wrapping_sub(1),
            2 * capacity,
        ],
    ];
    visit(&bytes(image))?;
    for at in 0..HEADER {
        let limits = limits.get(at).copied().unwrap_or(&[1]);
        let beside = [image[at].wrapping_sub(1), image[at] + 1, u32::MAX];
        for word in limits.iter().chain(&beside) {
            let mut changed = image.to_vec();
            changed[at] = *word;
            visit(&bytes(&changed))?;
        }
    }
    Ok(())
}

/// So many random images.
pub fn random_images(count: u64, seed: u64, visit: &mut impl Visit) -> Result<(), String> {
    let mut rng = Rng::new(seed);
    let mut made = 0;
    while made < count {
        let from = made;
        let state = match rng.below(100) {
            0..=2 => {
                let mode = *rng.choose(&Mode::ALL);
                of_job(mode, made, rng.chance(50))
            }
            _ => random(draw_sizes(&mut rng), &mut rng),
        };
        let told = |difference| format!("seed {seed}, from {from} on: {difference}");
        visit(&bytes(&encode(&state))).map_err(told)?;
        while made < (from + CHANGES).min(count) {
            visit(&random_image(&state, &mut rng)).map_err(told)?;
            made += 1;
        }
    }
    Ok(())
}

fn random_image(state: &State, rng: &mut Rng) -> Vec<u8> {
    let image = match rng.below(20) {
        0 => return random_bytes(rng),
        1 => random_tables(rng),
        2 => lower_gcd(state, rng),
        3 | 4 => respell(state, rng),
        5..=7 => {
            let (first, edited) = (encode(state), edit(state, rng));
            let shape = Shape::of(state);
            let second = encode(&edited);
            match Shape::of(&edited) == shape && first.len() == second.len() {
                true => mix(shape, &first, &second, rng),
                false => second,
            }
        }
        8..=14 => {
            let mut edited = edit(state, rng);
            if rng.chance(20) {
                edited = edit(&edited, rng);
            }
            encode(&edited)
        }
        _ => {
            let image = bytes(&encode(state));
            return draw_change(state, rng).applied(&image, image.len());
        }
    };
    let image = bytes(&image);
    match rng.below(20) {
        0 => Change::draw(rng).applied(&image, image.len()),
        1 => [image, random_bytes(rng)].concat(),
        _ => image,
    }
}

fn random_bytes(rng: &mut Rng) -> Vec<u8> {
    let length = rng.below(BYTES);
    (0..length).map(|_| rng.below(256) as u8).collect()
}

/// A header with sizes that can be, and words of all kinds behind it.
fn random_tables(rng: &mut Rng) -> Vec<u32> {
    let shape = Shape {
        kind: *rng.choose(&[Kind::Monomial, Kind::Ratio]),
        variables: 1 + rng.below(3),
        capacity: 1 + rng.below(3),
    };
    let entries = rng.below(shape.capacity + 1);
    let nodes = 1 + rng.below(shape.nodes());
    let mut words = vec![0; shape.size()];
    words[0] = 1;
    words[1] = u32::from(shape.kind == Kind::Ratio);
    let sizes = [shape.variables, shape.capacity, entries, nodes];
    for (word, size) in words[2..].iter_mut().zip(sizes) {
        *word = size as u32;
    }
    words[HEADER..shape.entries_at()].fill(1);
    for word in &mut words[shape.entries_at()..] {
        let power = rng.below(3) as u32;
        *word = *rng.choose(&[0, 0, 0, power, 0x1000_0000 | power, 0x3000_0000, u32::MAX]);
    }
    words
}
