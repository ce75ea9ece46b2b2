//! Valid states: small ones with any valid tree, and those of jobs.

use std::collections::HashSet;

use super::chains::{full, Form};
use crate::{
    jobs::{Job, Mode},
    model::{
        mutation::Rules,
        powers::{Powers, Ratio},
        state::{Entry, State, Tree},
        Index, Kind,
    },
    rng::Rng,
    words::{calls, MAX_CAPACITY, MAX_POWER, MAX_VARIABLES},
};

/// The sizes of a state.
#[derive(Debug, Clone, Copy)]
pub struct Sizes {
    pub kind: Kind,
    pub variables: usize,
    pub capacity: usize,
    pub entries: usize,
}

/// States whose images are small enough for every change: of both kinds, full
/// and not, with leaves and branches of every form.
pub fn small() -> impl Iterator<Item = State> {
    let sizes = [
        (1, 1, 0),
        (1, 1, 1),
        (1, 3, 2),
        (1, 4, 4),
        (1, 8, 8),
        (2, 1, 1),
        (2, 3, 3),
        (2, 5, 4),
        (2, 6, 6),
        (3, 2, 2),
        (3, 4, 4),
        (3, 5, 3),
    ];
    let kinds = [Kind::Monomial, Kind::Ratio].into_iter();
    let sizes = kinds.flat_map(move |kind| {
        sizes.map(|(variables, capacity, entries)| Sizes {
            kind,
            variables,
            capacity,
            entries,
        })
    });
    let drawn = sizes.zip(0..).map(|(sizes, seed)| {
        let mut rng = Rng::new(seed);
        // The first state that branches, where it can.
        let mut states = (0..).map(|_| random(sizes, &mut rng));
        let enough = |state: &State| sizes.entries < 3 || state.tree.nodes() > 3;
        states.find(enough).expect("one with branches")
    });
    let kinds = [Kind::Monomial, Kind::Ratio].into_iter();
    let chains = kinds.flat_map(|kind| {
        let forms = [Form::LessLeaves, Form::OtherLeaves];
        forms.map(|form| full(kind, 2, 4, form))
    });
    drawn.chain(chains)
}

/// Sizes at and past their limits.
pub fn limits() -> impl Iterator<Item = Sizes> {
    let few = [0, 1, 2, MAX_VARIABLES - 1, MAX_VARIABLES, MAX_VARIABLES + 1];
    let few = few.map(|variables| (variables, 3));
    let many = [0, 1, 2, MAX_CAPACITY - 1, MAX_CAPACITY, MAX_CAPACITY + 1];
    let many = many.map(|capacity| (2, capacity));
    let both = [(MAX_VARIABLES, MAX_CAPACITY)];
    let pairs = few.into_iter().chain(many).chain(both);
    pairs.flat_map(|(variables, capacity)| {
        [Kind::Monomial, Kind::Ratio].map(|kind| Sizes {
            kind,
            variables,
            capacity,
            entries: capacity.min(3),
        })
    })
}

pub fn draw_sizes(rng: &mut Rng) -> Sizes {
    let capacity = *rng.choose(&[1, 2, 3, 5, 8, 20]);
    let (variables, capacity) = match rng.below(20) {
        0 => (64, 3),
        1 => (33, 4),
        // A leaf of more than 64 entries is split by the next search.
        2 => (1 + rng.below(3), 66 + rng.below(80)),
        _ => (1 + rng.below(4), capacity),
    };
    Sizes {
        kind: *rng.choose(&[Kind::Monomial, Kind::Ratio]),
        variables,
        capacity,
        entries: match rng.chance(40) {
            true => capacity,
            false if capacity > 64 => 64 + rng.below(capacity - 63),
            false => rng.below(capacity + 1),
        },
    }
}

/// A state of these sizes, valid where they are.
pub fn random(sizes: Sizes, rng: &mut Rng) -> State {
    let tallest = *rng.choose(&[1, 2, 4, 4, 40, MAX_POWER]);
    let maxima = |rng: &mut Rng| {
        let limit = *rng.choose(&[1, 5, 33, MAX_POWER]);
        let maxima = (0..sizes.variables).map(|_| rng.between(1, limit));
        maxima.collect()
    };
    let mut state = State {
        kind: sizes.kind,
        capacity: sizes.capacity,
        maxima: maxima(rng),
        map_maxima: maxima(rng),
        entries: vec![],
        tree: Tree::Leaf(vec![]),
        rows: vec![],
    };
    for _ in 0..sizes.entries {
        let entry = match state.entries.is_empty() || rng.chance(90) {
            true => draw_entry(&state, tallest, rng),
            false => rng.choose(&state.entries).clone(),
        };
        state.entries.push(entry);
    }
    relabel(&mut state, rng);
    regrow(&mut state, rng);
    state
}

pub fn draw_entry(state: &State, tallest: i32, rng: &mut Rng) -> Entry {
    let one = Powers::one(state.variables());
    match state.kind {
        Kind::Monomial => Entry {
            index: 0,
            lm: draw_powers(one.clone(), tallest, rng),
            sign: one,
        },
        Kind::Ratio => Entry {
            index: *rng.choose(&[0, 0, 0, 1, (1 << 28) - 1]),
            lm: draw_powers(one.clone(), tallest, rng),
            sign: draw_powers(one, tallest, rng),
        },
    }
}

fn draw_powers(mut powers: Powers, tallest: i32, rng: &mut Rng) -> Powers {
    for power in &mut powers.0 {
        *power = match rng.below(4) {
            0 => 0,
            1 if tallest == MAX_POWER => tallest,
            _ => rng.between(0, tallest),
        };
    }
    powers
}

/// Gives the ratios rows in any order, and any labels that rise.
pub fn relabel(state: &mut State, rng: &mut Rng) {
    state.rows.clear();
    if state.kind == Kind::Monomial || state.entries.is_empty() {
        return;
    }
    let ratios: HashSet<Ratio> = state.entries.iter().map(Entry::ratio).collect();
    let mut ratios: Vec<Ratio> = ratios.into_iter().collect();
    ratios.sort_by(|a, b| a.compare(b, Rules::document_01()));
    let count = ratios.len() as u64;
    let last = u64::from(u32::MAX);
    let (low, high) = match rng.below(4) {
        0 => (0, last),
        1 => (0, count - 1),
        2 => (last + 1 - count, last),
        _ => (1000, 1000 + 3 * count),
    };
    // As far apart as that leaves room for.
    let step = (high - low) / (count - 1).max(1);
    let labels = (0..count).map(|at| match at + 1 == count {
        true => high as u32,
        false => (low + at * step) as u32,
    });
    state.rows = ratios.into_iter().zip(labels).collect();
    rng.shuffle(&mut state.rows);
}

/// Where a tree that is grown cuts.
#[derive(Clone, Copy)]
enum Cut {
    /// As low as it can, so that the less sides are small.
    Low,
    High,
    Anywhere,
}

/// Puts the entries into any valid tree.
pub fn regrow(state: &mut State, rng: &mut Rng) {
    let cut = *rng.choose(&[Cut::Low, Cut::High, Cut::Anywhere, Cut::Anywhere]);
    let chance = *rng.choose(&[0, 60, 90, 100]);
    let mut places: Vec<usize> = (0..state.entries.len()).collect();
    rng.shuffle(&mut places);
    let ratios: Vec<Ratio> = state.entries.iter().map(Entry::ratio).collect();
    state.tree = grow(state, &ratios, places, cut, chance, rng);
}

fn grow(
    state: &State,
    ratios: &[Ratio],
    places: Vec<usize>,
    cut: Cut,
    chance: usize,
    rng: &mut Rng,
) -> Tree {
    let dimensions = state.dimensions();
    if dimensions == 0 || !rng.chance(chance) {
        return Tree::Leaf(places);
    }
    let first = rng.below(dimensions);
    let dims = (first..first + dimensions).map(|dim| dim % dimensions);
    for dim in dims {
        if let Some(key) = separating(state, ratios, &places, dim, cut, rng) {
            let (less, other) = sides(state, ratios, places, dim, key);
            let less = grow(state, ratios, less, cut, chance, rng);
            let other = grow(state, ratios, other, cut, chance, rng);
            return Tree::branch(dim, key, less, other);
        }
    }
    Tree::Leaf(places)
}

/// The places below a key, and the others.
fn sides(
    state: &State,
    ratios: &[Ratio],
    places: Vec<usize>,
    dim: usize,
    key: u32,
) -> (Vec<usize>, Vec<usize>) {
    let below = |place: &usize| match dim.checked_sub(state.ratio_dimensions()) {
        Some(id) => (state.entries[*place].lm.0[id] as u32) < key,
        None => is_below(&ratios[*place], &ratios[key as usize]),
    };
    places.into_iter().partition(below)
}

fn is_below(ratio: &Ratio, key: &Ratio) -> bool {
    ratio.compare(key, Rules::document_01()).is_lt()
}

/// A leaf of these places, or two of them under any branch of a dimension.
pub fn split(state: &State, places: Vec<usize>, dim: usize, rng: &mut Rng) -> Tree {
    let ratios: Vec<Ratio> = state.entries.iter().map(Entry::ratio).collect();
    match separating(state, &ratios, &places, dim, Cut::Anywhere, rng) {
        Some(key) => {
            let (less, other) = sides(state, &ratios, places, dim, key);
            Tree::branch(dim, key, Tree::Leaf(less), Tree::Leaf(other))
        }
        None => Tree::Leaf(places),
    }
}

/// A key that has some of the places below it, and some not.
fn separating(
    state: &State,
    ratios: &[Ratio],
    places: &[usize],
    dim: usize,
    cut: Cut,
    rng: &mut Rng,
) -> Option<u32> {
    if let Some(id) = dim.checked_sub(state.ratio_dimensions()) {
        let powers = places.iter().map(|place| state.entries[*place].lm.0[id]);
        let (least, greatest) = (powers.clone().min()?, powers.max()?);
        return (least < greatest).then(|| match cut {
            Cut::Low => least as u32 + 1,
            Cut::High => greatest as u32,
            Cut::Anywhere => rng.between(least + 1, greatest) as u32,
        });
    }
    // Any entry of the index may be the key.
    let separates = |key: &usize| {
        let below = |place: &&usize| is_below(&ratios[**place], &ratios[*key]);
        let count = places.iter().filter(below).count();
        (1..places.len()).contains(&count)
    };
    let mut keys: Vec<usize> = (0..ratios.len()).filter(separates).collect();
    keys.sort_by(|a, b| ratios[*a].compare(&ratios[*b], Rules::document_01()));
    let key = match cut {
        Cut::Low => *keys.first()?,
        Cut::High => *keys.last()?,
        Cut::Anywhere if keys.is_empty() => return None,
        Cut::Anywhere => *rng.choose(&keys),
    };
    Some(key as u32)
}

/// The state after a job, with every leaf split or as the job's searches left
/// it.
pub fn of_job(mode: Mode, seed: u64, split: bool) -> State {
    let job = Job::new(mode, seed);
    let mut index = Index::open(&job.opening, Rules::document_01());
    for call in calls(&job.list) {
        index.call(call);
    }
    if split {
        index.split();
    }
    index.state()
}
