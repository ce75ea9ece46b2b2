//! Changes that reach as far as they must for most rules to go on holding.

use super::states::{draw_entry, regrow, relabel, split};
use crate::{
    doors::change::Change,
    model::{
        image::{encode, map, Shape, HEADER, LABELS_HEADER},
        powers::Powers,
        state::{State, Tree},
        Kind,
    },
    rng::Rng,
    words::{monomial_words, word, MAX_POWER, RATIO_BIAS, RATIO_VARIABLE, VARIABLE},
};

/// A state near the given one, valid or not.
pub fn edit(state: &State, rng: &mut Rng) -> State {
    let mut edited = state.clone();
    match rng.below(8) {
        0 => edit_maxima(&mut edited, rng),
        1 | 2 => edit_entries(&mut edited, rng),
        3 | 4 => edit_rows(&mut edited, rng),
        5 => edit_leaves(&mut edited, rng),
        _ => edit_branches(&mut edited, rng),
    }
    edited
}

fn edit_maxima(state: &mut State, rng: &mut Rng) {
    let variables = state.variables();
    if variables == 0 {
        return;
    }
    let at = rng.below(variables);
    let maximum = *rng.choose(&[0, 1, 2, 7, MAX_POWER, MAX_POWER + 1]);
    match rng.below(4) {
        0 => state.maxima[at] = maximum,
        1 | 2 => state.map_maxima[at] = maximum,
        _ => {
            // One variable more; of entries as many as there are.
            state.maxima.push(maximum.clamp(1, MAX_POWER));
            state.map_maxima.push(rng.between(1, 9));
            for entry in &mut state.entries {
                entry.lm.0.push(0);
                entry.sign.0.push(0);
            }
            for (ratio, _) in &mut state.rows {
                ratio.monomial.0.push(0);
            }
            state.capacity += rng.below(3);
        }
    }
}

fn edit_entries(state: &mut State, rng: &mut Rng) {
    let count = state.entries.len();
    let variables = state.variables();
    if count == 0 || variables == 0 {
        return;
    }
    let (at, id) = (rng.below(count), rng.below(variables));
    let entry = &mut state.entries[at];
    match rng.below(8) {
        0..=2 => move_power(&mut entry.lm.0[id], rng),
        3 if state.kind == Kind::Ratio => move_power(&mut entry.sign.0[id], rng),
        4 if state.kind == Kind::Ratio => entry.index ^= 1 << rng.below(28),
        5 => {
            // Two entries change their numbers, in every place.
            let other = rng.below(count);
            state.entries.swap(at, other);
            let renamed = |place: usize| match place {
                _ if place == at => other,
                _ if place == other => at,
                _ => place,
            };
            rename(&mut state.tree, state.kind, &renamed);
        }
        6 => {
            let tallest = *rng.choose(&[2, 30, MAX_POWER]);
            let entry = draw_entry(state, tallest, rng);
            state.entries.push(entry);
            let node = some_leaf(&mut state.tree, rng);
            node.push(count);
        }
        _ => {
            state.entries.pop();
            remove(&mut state.tree, count - 1);
        }
    }
    if rng.chance(60) {
        relabel(state, rng);
    }
    if rng.chance(20) {
        regrow(state, rng);
    }
}

fn move_power(power: &mut i32, rng: &mut Rng) {
    *power = match rng.below(6) {
        0 => 0,
        1 => MAX_POWER,
        2 => MAX_POWER + 1,
        _ => (*power + rng.between(-1, 1)).clamp(0, MAX_POWER + 1),
    };
}

fn rename(tree: &mut Tree, kind: Kind, renamed: &impl Fn(usize) -> usize) {
    match tree {
        Tree::Leaf(places) => {
            for place in places {
                *place = renamed(*place);
            }
        }
        Tree::Branch(branch) => {
            if kind == Kind::Ratio && branch.dim == 0 {
                branch.key = renamed(branch.key as usize) as u32;
            }
            rename(&mut branch.less, kind, renamed);
            rename(&mut branch.other, kind, renamed);
        }
    }
}

fn remove(tree: &mut Tree, gone: usize) {
    match tree {
        Tree::Leaf(places) => places.retain(|place| *place != gone),
        Tree::Branch(branch) => {
            remove(&mut branch.less, gone);
            remove(&mut branch.other, gone);
        }
    }
}

fn edit_rows(state: &mut State, rng: &mut Rng) {
    if state.rows.is_empty() {
        return;
    }
    let count = state.rows.len();
    let (at, other) = (rng.below(count), rng.below(count));
    match rng.below(8) {
        0 => relabel(state, rng),
        1 => rng.shuffle(&mut state.rows),
        2 => {
            let label = state.rows[at].1;
            state.rows[at].1 = state.rows[other].1;
            state.rows[other].1 = label;
        }
        3 => {
            // At, below or above the label of another row.
            let label = state.rows[other].1;
            state.rows[at].1 = *rng.choose(&[label, label.wrapping_sub(1), label.wrapping_add(1)]);
        }
        4 => state.rows.push(state.rows[at].clone()),
        5 => {
            state.rows.remove(at);
        }
        6 => {
            // A ratio that is above all others.
            let mut ratio = state.rows[at].0.clone();
            ratio.index = (1 << 28) - 1;
            ratio.monomial = Powers(vec![MAX_POWER; state.variables()]);
            state.rows.push((ratio, u32::MAX));
        }
        _ => {
            let id = rng.below(state.variables());
            let power = &mut state.rows[at].0.monomial.0[id];
            *power = (*power + rng.between(-1, 1)).clamp(-MAX_POWER, MAX_POWER);
        }
    }
}

fn edit_leaves(state: &mut State, rng: &mut Rng) {
    let count = state.entries.len();
    let leaf = some_leaf(&mut state.tree, rng);
    if leaf.is_empty() {
        return;
    }
    let (at, other) = (rng.below(leaf.len()), rng.below(leaf.len()));
    match rng.below(5) {
        0 => leaf.swap(at, other),
        1 => rng.shuffle(leaf),
        2 => leaf[at] = rng.below(count + 1),
        3 => {
            let place = leaf.remove(at);
            some_leaf(&mut state.tree, rng).push(place);
        }
        _ => {
            // Two places change, in one leaf or in two.
            let place = leaf[at];
            let leaf = some_leaf(&mut state.tree, rng);
            if !leaf.is_empty() {
                let other = rng.below(leaf.len());
                let moved = leaf[other];
                rename(&mut state.tree, Kind::Monomial, &|at| match at {
                    _ if at == place => moved,
                    _ if at == moved => place,
                    _ => at,
                });
            }
        }
    }
}

fn edit_branches(state: &mut State, rng: &mut Rng) {
    let at = rng.below(state.tree.nodes());
    let dimensions = state.dimensions();
    let dim = rng.below(dimensions.max(1));
    let mut node = std::mem::replace(state.tree.node_mut(at), Tree::Leaf(vec![]));
    node = match node {
        Tree::Leaf(places) => split_leaf(state, places, dim, rng),
        Tree::Branch(mut branch) => {
            match rng.below(6) {
                0 => branch.dim = rng.below(dimensions + 2),
                1..=3 => move_key(state, &mut branch.key, branch.dim, &branch.less, rng),
                4 => std::mem::swap(&mut branch.less, &mut branch.other),
                _ => {
                    let places = Tree::Branch(branch).places();
                    *state.tree.node_mut(at) = Tree::Leaf(places);
                    return;
                }
            }
            Tree::Branch(branch)
        }
    };
    *state.tree.node_mut(at) = node;
}

/// A leaf split by a key that separates, or with an empty side.
fn split_leaf(state: &State, places: Vec<usize>, dim: usize, rng: &mut Rng) -> Tree {
    if rng.chance(30) {
        let all = Tree::Leaf(places);
        let none = Tree::Leaf(vec![]);
        let dim = state.dimensions().saturating_sub(1);
        return match rng.chance(50) {
            true => Tree::branch(dim, 0, none, all),
            false => Tree::branch(dim, u32::MAX, all, none),
        };
    }
    match places.iter().all(|place| *place < state.entries.len()) {
        true => split(state, places, dim, rng),
        false => Tree::Leaf(places),
    }
}

/// A key at the greatest power of the less side or just past it, or any; for a
/// ratio any entry and the first number past them.
fn move_key(state: &State, key: &mut u32, dim: usize, less: &Tree, rng: &mut Rng) {
    let Some(id) = dim.checked_sub(state.ratio_dimensions()) else {
        *key = rng.below(state.entries.len() + 1) as u32;
        return;
    };
    let entries = less.places().into_iter();
    let powers = entries.filter_map(|place| state.entries.get(place)?.lm.0.get(id).copied());
    let greatest = powers.max().unwrap_or(0) as u32;
    *key = match rng.below(6) {
        0 => greatest,
        1 => greatest + 1,
        2 => key.wrapping_add(1),
        3 => key.wrapping_sub(1),
        4 => u32::MAX,
        _ => key.wrapping_add(rng.below(5) as u32),
    };
}

fn some_leaf<'a>(tree: &'a mut Tree, rng: &mut Rng) -> &'a mut Vec<usize> {
    let nodes = tree.nodes();
    let at = loop {
        let at = rng.below(nodes);
        if let Tree::Leaf(_) = tree.node_mut(at) {
            break at;
        }
    };
    match tree.node_mut(at) {
        Tree::Leaf(places) => places,
        Tree::Branch(_) => unreachable!(),
    }
}

/// Some tables of the second image in the place of those of the first, which
/// has the same shape.
pub fn mix(shape: Shape, first: &[u32], second: &[u32], rng: &mut Rng) -> Vec<u32> {
    let starts = tables(shape);
    let ends = starts.iter().skip(1).copied().chain([shape.size()]);
    let mut mixed = first.to_vec();
    for (start, end) in starts.iter().copied().zip(ends) {
        if rng.chance(50) {
            mixed[start..end].copy_from_slice(&second[start..end]);
        }
    }
    mixed
}

/// Where the tables begin.
fn tables(shape: Shape) -> Vec<usize> {
    let labels = [shape.labels_at(), shape.rows_at(), shape.order_at()];
    let labels = match shape.kind {
        Kind::Monomial => &[][..],
        Kind::Ratio => &labels,
    };
    let before = [
        0,
        HEADER,
        shape.map_at(),
        shape.entries_at(),
        shape.permutation_at(),
    ];
    [&before, labels, &[shape.nodes_at()]].concat()
}

/// The same image with a smaller gcd in one node, and its mask.
pub fn lower_gcd(state: &State, rng: &mut Rng) -> Vec<u32> {
    let shape = Shape::of(state);
    let mut words = encode(state);
    let mut tree = state.tree.clone();
    let at = rng.below(tree.nodes());
    let places = tree.node_mut(at).places();
    let id = rng.below(state.variables());
    let lms = places.iter().map(|place| &state.entries[*place].lm);
    let Some(mut gcd) = lms.cloned().reduce(|gcd, lm| gcd.gcd(&lm)) else {
        return words;
    };
    gcd.0[id] = (gcd.0[id] - 1).max(0);
    let node = &mut words[shape.nodes_at() + at * shape.node_width()..][..shape.node_width()];
    node[4] = map(&state.map_maxima).mask(&gcd);
    node[5..].fill(0);
    let gcd = monomial_words(gcd.vars());
    node[5..][..gcd.len()].copy_from_slice(&gcd);
    words
}

/// The same image with the powers of one monomial or ratio in words that are
/// not canonical.
pub fn respell(state: &State, rng: &mut Rng) -> Vec<u32> {
    let shape = Shape::of(state);
    let mut words = encode(state);
    let (at, kind) = draw_slot(shape, state, rng);
    let slot = &mut words[at..][..shape.slot()];
    let count = slot.iter().take_while(|word| **word >> 28 == kind).count();
    let room = count < shape.variables;
    let id = rng.below(shape.variables) as u32;
    let bias = match kind {
        VARIABLE => 0,
        _ => RATIO_BIAS as u32,
    };
    let variable = |id, power| word(kind, id << 16 | (bias + power));
    let more = match rng.below(7) {
        0 if count > 0 => slot[rng.below(count)],
        1 => variable(id, 0),
        2 => variable(shape.variables as u32, 1),
        3 => variable(0xFFF, 1),
        4 if count > 1 => {
            slot[..count].reverse();
            return words;
        }
        5 if room => {
            *slot.last_mut().expect("an end word") ^= 1 << rng.below(32);
            return words;
        }
        _ => {
            slot[count] ^= 1 << rng.below(32);
            return words;
        }
    };
    if room {
        // One more variable, in its place, and counted.
        let place = slot[..count].partition_point(|word| *word > more);
        slot[place..].rotate_right(1);
        slot[place] = more;
        slot[count + 1] += 1;
    }
    words
}

/// Where a monomial or ratio stands, and the kind of its variables.
fn draw_slot(shape: Shape, state: &State, rng: &mut Rng) -> (usize, u32) {
    let (entries, rows) = (state.entries.len(), state.rows.len());
    let entry = |at| shape.entries_at() + at * shape.entry_width();
    let row = |at| shape.rows_at() + at * shape.row_width();
    let node = |at| shape.nodes_at() + at * shape.node_width();
    match rng.below(4) {
        0 if entries > 0 => (entry(rng.below(entries)), VARIABLE),
        1 if rows > 0 => (entry(rng.below(entries)) + shape.sign(), VARIABLE),
        2 if rows > 0 => (row(rng.below(rows)) + 1, RATIO_VARIABLE),
        _ => (node(rng.below(state.tree.nodes())) + 5, VARIABLE),
    }
}

/// A change of words that are used as often as of others.
pub fn draw_change(state: &State, rng: &mut Rng) -> Change {
    let shape = Shape::of(state);
    let places = [(); 2].map(|()| draw_place(shape, state, rng));
    match Change::draw(rng) {
        Change::Flip { bit, .. } => Change::Flip { at: places[0], bit },
        Change::Set { word, .. } => Change::Set {
            at: places[0],
            word,
        },
        Change::Add { number, .. } => Change::Add {
            at: places[0],
            number,
        },
        Change::Copy { .. } => Change::Copy {
            from: places[0],
            to: places[1],
        },
        Change::Swap(..) => Change::Swap(places[0], places[1]),
        change => change,
    }
}

fn draw_place(shape: Shape, state: &State, rng: &mut Rng) -> usize {
    let table = |start, rows: usize, width: usize, rng: &mut Rng| {
        // Up to the first row behind those used.
        start + rng.below((rows + 1) * width)
    };
    let (entries, rows) = (state.entries.len(), state.rows.len());
    match rng.below(8) {
        0 => rng.below(HEADER),
        1 => rng.below(shape.entries_at()),
        2 => table(shape.entries_at(), entries, shape.entry_width(), rng),
        3 => table(shape.permutation_at(), entries, 1, rng),
        4 if shape.kind == Kind::Ratio => shape.labels_at() + rng.below(LABELS_HEADER),
        5 if shape.kind == Kind::Ratio => table(shape.rows_at(), rows, shape.row_width(), rng),
        6 if shape.kind == Kind::Ratio => table(shape.order_at(), rows, 1, rng),
        7 if rng.chance(20) => rng.below(shape.size()),
        _ => table(
            shape.nodes_at(),
            state.tree.nodes(),
            shape.node_width(),
            rng,
        ),
    }
}
