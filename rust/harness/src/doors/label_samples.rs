//! Runs, openings and changes of the label map around every boundary.

use super::{
    bytes,
    change::Change,
    labels::{Run, Step, Value},
};
use crate::{
    model::{label_map::size, powers::Powers},
    rng::Rng,
    words::{monomial_words, ratio_words, MAX_POWER},
};

const HIGHEST_INDEX: i32 = (1 << 28) - 1;

/// How far from the middle a run goes.
const REACH: i32 = 1000;

/// What makes a run's values differ.
#[derive(Clone, Copy)]
enum Form {
    /// The power of one variable, from this one on.
    Power(i32),
    /// The index, from this one on.
    Index(i32),
    /// Powers of equal total, in two variables or more.
    Tie,
}

/// A run that rises, falls, crowds or jumps about, with rebuilds, known values,
/// bad ones and damaged images, and a capacity near the number of values.
pub fn random_run(rng: &mut Rng) -> Run {
    let variables = *rng.choose(&[1, 2, 3, 8, 64]);
    let length = *rng.choose(&[4, 12, 40, 90]);
    let mode = rng.below(4);
    let form = draw_form(variables, rng);
    let mut steps: Vec<Step> = vec![];
    for at in 0..length {
        let place = match mode {
            0 => at,
            1 => -at,
            2 if at % 2 == 0 => at - REACH,
            2 => REACH - at,
            _ => rng.between(-20, 20),
        };
        let value = form.value(variables, place);
        match rng.below(20) {
            0 => steps.push(Step::Ask(damage_value(value.clone(), rng))),
            1 => steps.push(Step::Damaged(Change::draw(rng), value.clone())),
            2 if !steps.is_empty() => steps.push(rng.choose(&steps).clone()),
            3 if rng.chance(30) => steps.push(Step::Rebuild),
            _ => (),
        }
        steps.push(Step::Ask(value));
    }
    let near = (length + rng.between(-2, 2)).max(1) as u32;
    let capacity = match rng.below(400) {
        0 => 4096,
        _ => *rng.choose(&[1, 2, 3, 33, 34, near, near]),
    };
    Run {
        variables: variables as u32,
        capacity,
        spare: rng.below(9),
        steps,
    }
}

fn draw_form(variables: usize, rng: &mut Rng) -> Form {
    match rng.below(3) {
        0 => Form::Index(*rng.choose(&[REACH, HIGHEST_INDEX - REACH])),
        1 if variables > 1 => Form::Tie,
        _ => Form::Power(*rng.choose(&[0, MAX_POWER - REACH, REACH - MAX_POWER])),
    }
}

impl Form {
    /// Rises with the place.
    fn value(self, variables: usize, place: i32) -> Value {
        let mut ratio = Powers::one(variables);
        let mut index = 5;
        match self {
            Form::Power(base) => ratio.0[variables / 2] = base + place,
            Form::Index(base) => {
                index = base + place;
                ratio.0[variables / 2] = 3 - place.rem_euclid(7);
            }
            Form::Tie => {
                ratio.0[0] = -place;
                ratio.0[variables - 1] = place;
            }
        }
        lend(index as u32, &ratio)
    }
}

fn lend(index: u32, ratio: &Powers) -> Value {
    Value {
        index,
        ratio: bytes(&ratio_words(ratio.vars())),
    }
}

/// An index at its limit, or a ratio with another bit, length, kind or power.
fn damage_value(mut value: Value, rng: &mut Rng) -> Value {
    let ratio = &mut value.ratio;
    match rng.below(6) {
        0 => value.index = *rng.choose(&[HIGHEST_INDEX as u32, 1 << 28, 1 << 31, u32::MAX]),
        1 => ratio.truncate(rng.below(ratio.len())),
        2 => ratio.resize(ratio.len() + 1 + rng.below(4), 0),
        3 => *ratio = bytes(&monomial_words([(0, 1)])),
        4 => {
            let power: u16 = *rng.choose(&[0, 1, 0x8000, 0xFFFF]);
            ratio[..2].copy_from_slice(&power.to_le_bytes());
        }
        _ => {
            let at = rng.below(ratio.len());
            ratio[at] ^= 1 << rng.below(8);
        }
    }
    value
}

/// Variables, capacity and buffer length, at and past their limits.
pub fn openings() -> impl Iterator<Item = (u32, u32, usize)> {
    let variables = [0, 1, 2, 63, 64, 65, u32::MAX];
    let capacities = [0, 1, 2, 4095, 4096, 4097, u32::MAX];
    let pairs = variables.into_iter();
    let pairs = pairs.flat_map(move |v| capacities.map(|c| (v, c)));
    pairs.flat_map(|(v, c)| {
        let length = size(v, c).map_or(64, |size| 4 * size);
        let lengths = [
            0,
            15,
            length - 4,
            length - 1,
            length,
            length + 1,
            length + 6,
        ];
        lengths.map(|length| (v, c, length))
    })
}

/// Small maps, each filled in every number of rows, with and without a rebuild,
/// and the values to ask them for: a known one or another, a new one, a bad one.
pub fn small_runs() -> impl Iterator<Item = (Run, [Value; 3])> {
    let sizes = (1..=3).flat_map(|v| (1..=4).map(move |c| (v, c)));
    let counts = sizes.flat_map(|(v, c)| (0..=c).map(move |count| (v, c, count)));
    counts.flat_map(|(variables, capacity, count)| {
        [false, true].map(|rebuilt| {
            let places = [0, -2, 4, 1];
            let form = Form::Power(0);
            let value = |place| form.value(variables, place);
            let asked = places[..count].iter().map(|place| Step::Ask(value(*place)));
            let run = Run {
                variables: variables as u32,
                capacity: capacity as u32,
                spare: 3,
                steps: asked.chain(rebuilt.then_some(Step::Rebuild)).collect(),
            };
            let bad = lend(1 << 28, &Powers::one(variables));
            (run, [value(0), value(-1), bad])
        })
    })
}
