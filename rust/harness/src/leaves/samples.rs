//! Random work around every boundary, and small work in full.

use super::{
    labels::{LabelWork, Step},
    Leaf, Operands, Work,
};
use crate::{
    model::powers::Powers,
    rng::Rng,
    words::{monomial_words, ratio_words, word, INDEX, MAX_POWER},
};

/// Room that no answer exceeds.
const ROOMY: usize = 65;

/// Work drawn at random: mostly good, some of it damaged or short of room.
pub fn random(leaf: Leaf, rng: &mut Rng) -> Work {
    if leaf == Leaf::MaskDivides {
        return of_masks(draw_masks(rng));
    }
    let variables = draw_variables(rng);
    let tallest = *rng.choose(&[1, 3, 40, MAX_POWER]);
    let mut operands = draw_operands(leaf, variables, tallest, rng);
    if rng.chance(8) {
        damage(&mut operands, variables as u32, rng);
    }
    Work {
        leaf,
        variables: match rng.below(200) {
            0 => 0,
            1 => 65,
            2 => variables as u32 - 1,
            _ => variables as u32,
        },
        room: match rng.below(20) {
            0 => rng.below(4),
            1 => rng.below(ROOMY),
            _ => ROOMY,
        },
        operands,
    }
}

fn of_masks((a, b): (u32, u32)) -> Work {
    Work {
        leaf: Leaf::MaskDivides,
        variables: 1,
        room: ROOMY,
        operands: Operands::Masks(a, b),
    }
}

/// Two masks, often the second with the bits of the first but for one.
fn draw_masks(rng: &mut Rng) -> (u32, u32) {
    let mut draw = || (rng.below(1 << 16) << 16 | rng.below(1 << 16)) as u32;
    let (a, b, other) = (draw(), draw(), draw());
    match rng.below(4) {
        0 => (a, b),
        1 => (a, a | b),
        2 => (a, (a | b) & !(1 << rng.below(32))),
        _ => (a & b & other, a & !(1 << rng.below(32))),
    }
}

fn draw_variables(rng: &mut Rng) -> usize {
    match rng.below(3) {
        0 => 1 + rng.below(6),
        1 => *rng.choose(&[1, 2, 8, 31, 32, 33, 63, 64]),
        _ => 1 + rng.below(64),
    }
}

fn draw_operands(leaf: Leaf, variables: usize, tallest: i32, rng: &mut Rng) -> Operands {
    let a = draw_powers(variables, tallest, rng);
    match leaf {
        Leaf::Growth => Operands::Grown {
            maxima: draw_maxima(variables, tallest, rng),
            percentage: match rng.below(3) {
                0 => rng.below(256) as u8,
                _ => rng.below(101) as u8,
            },
        },
        Leaf::Mask | Leaf::Update => Operands::Masked {
            maxima: draw_maxima(variables, tallest, rng),
            monomial: monomial_words(a.vars()),
        },
        Leaf::EqRatio | Leaf::OrdRatio => {
            let lm = draw_powers(variables, tallest, rng);
            let ratio = a.over(&lm);
            let other = move_some(&ratio, -MAX_POWER, rng);
            Operands::Two(ratio_words(ratio.vars()), ratio_words(other.vars()))
        }
        _ => {
            let b = match rng.below(4) {
                0 => draw_powers(variables, tallest, rng),
                1 if leaf == Leaf::Mul => complement(&a, rng),
                _ => move_some(&a, 0, rng),
            };
            Operands::Two(monomial_words(a.vars()), monomial_words(b.vars()))
        }
    }
}

fn draw_powers(variables: usize, tallest: i32, rng: &mut Rng) -> Powers {
    let present = *rng.choose(&[10, 50, 90, 100]);
    let edges = tallest == MAX_POWER && rng.chance(30);
    let power = |_| match rng.chance(present) {
        true if edges => *rng.choose(&[1, MAX_POWER - 1, MAX_POWER]),
        true => rng.between(0, tallest),
        false => 0,
    };
    Powers((0..variables).map(power).collect())
}

fn draw_maxima(variables: usize, tallest: i32, rng: &mut Rng) -> Vec<u32> {
    let tallest = *rng.choose(&[1, 33, tallest]);
    (0..variables)
        .map(|_| rng.between(1, tallest) as u32)
        .collect()
}

/// A monomial or ratio like the given one but for a few powers, so that one
/// often divides the other and totals are often equal.
fn move_some(powers: &Powers, least: i32, rng: &mut Rng) -> Powers {
    let mut moved = powers.clone();
    for _ in 0..rng.below(4) {
        let (from, to) = (rng.below(moved.0.len()), rng.below(moved.0.len()));
        let by = rng.between(-2, 2);
        moved.0[from] = (moved.0[from] - by).clamp(least, MAX_POWER);
        if rng.chance(50) {
            moved.0[to] = (moved.0[to] + by).clamp(least, MAX_POWER);
        }
    }
    moved
}

/// Powers whose product with the given ones is 32,767, or now and then in one
/// variable 32,768.
fn complement(powers: &Powers, rng: &mut Rng) -> Powers {
    let rest = powers.0.iter().map(|power| MAX_POWER - power);
    let mut rest = Powers(rest.collect());
    let at = rng.below(rest.0.len());
    if rng.chance(50) && rest.0[at] < MAX_POWER {
        rest.0[at] += 1;
    }
    rest
}

/// Spoils the words: a length, a bit, a power, a kind or an id at its limits,
/// or their order.
fn damage(operands: &mut Operands, variables: u32, rng: &mut Rng) {
    let words = match operands {
        Operands::Two(a, b) => match rng.chance(50) {
            true => a,
            false => b,
        },
        Operands::Masked { maxima, monomial } => match rng.chance(30) {
            true => maxima,
            false => monomial,
        },
        Operands::Grown { maxima, .. } => maxima,
        Operands::Masks(..) => return,
    };
    let at = rng.below(words.len());
    match rng.below(8) {
        0 => words.truncate(at),
        1 => words.push(*rng.choose(&[0, 1, 0x1000_0001])),
        2 => words[at] ^= 1 << rng.below(32),
        3 => words[at] = words[at] & 0xFFFF_0000 | *rng.choose(&[0, 0x7FFF, 0x8000, 0xFFFF]),
        4 => words[at] = words[at] & 0x0FFF_FFFF | (rng.below(16) as u32) << 28,
        5 => {
            let id = *rng.choose(&[variables - 1, variables, variables + 1, 0xFFF]);
            words[at] = words[at] & 0xF000_FFFF | id << 16;
        }
        6 => words.insert(at, words[at]),
        _ => words.swap(at, 0),
    }
}

/// All work of a leaf on up to three variables and powers up to 2, on ratios
/// from -2 to 2 in two variables, or on masks in their upper or lower 5 bits.
pub fn exhaustive(leaf: Leaf) -> Vec<Work> {
    if leaf == Leaf::MaskDivides {
        let pairs = (0..32).flat_map(|a| (0..32).map(move |b| (a, b)));
        let upper = pairs.clone().map(|(a, b)| (a << 27, b << 27));
        return pairs.chain(upper).map(of_masks).collect();
    }
    let mut works = match leaf {
        Leaf::Mask | Leaf::Update => limits(leaf),
        Leaf::Growth => growth_limits(),
        _ => vec![],
    };
    for variables in 1..=3 {
        let monomials = grid(variables, 0, 2);
        let operands: Vec<Operands> = match leaf {
            Leaf::Growth => grid(variables, 1, 3)
                .into_iter()
                .flat_map(|maxima| (0..=u8::MAX).map(move |p| grown(&maxima, p)))
                .collect(),
            Leaf::Mask | Leaf::Update => grid(variables, 1, 3)
                .iter()
                .flat_map(|maxima| monomials.iter().map(|m| masked(maxima, m)))
                .collect(),
            Leaf::EqRatio | Leaf::OrdRatio => {
                pairs(&grid(variables.min(2), -2, 2), |p| ratio_words(p.vars()))
            }
            _ => pairs(&monomials, |p| monomial_words(p.vars())),
        };
        works.extend(operands.into_iter().map(|operands| Work {
            leaf,
            variables: variables as u32,
            room: ROOMY,
            operands,
        }));
    }
    works
}

/// Each variable alone, at powers and maxima around those where its bits
/// change, for variable counts where the number of its bits does.
fn limits(leaf: Leaf) -> Vec<Work> {
    let mut works = vec![];
    for variables in [1, 2, 3, 5, 16, 17, 31, 32, 33, 63, 64] {
        for id in 0..variables {
            for maximum in [1, 2, 17, 33, MAX_POWER - 1, MAX_POWER] {
                for power in [
                    1,
                    2,
                    3,
                    16,
                    17,
                    32,
                    33,
                    34,
                    16_384,
                    MAX_POWER - 1,
                    MAX_POWER,
                ] {
                    let mut monomial = Powers::one(variables);
                    monomial.0[id] = power;
                    works.push(Work {
                        leaf,
                        variables: variables as u32,
                        room: ROOMY,
                        operands: masked(&Powers(vec![maximum; variables]), &monomial),
                    });
                }
            }
        }
    }
    works
}

/// Maxima of many variables whose growth turns 99 %, and the greatest.
fn growth_limits() -> Vec<Work> {
    let mut works = vec![];
    for variables in [33, 63, 64] {
        let turn = 100 * variables;
        for total in [turn - 1, turn, turn + 1, MAX_POWER * variables] {
            let mut maxima = vec![total / variables; variables as usize];
            maxima[0] += total % variables;
            works.extend([0, 97, 98, 99, 100, u8::MAX].map(|percentage| Work {
                leaf: Leaf::Growth,
                variables: variables as u32,
                room: ROOMY,
                operands: grown(&Powers(maxima.clone()), percentage),
            }));
        }
    }
    works
}

/// All powers from `low` to `high` in so many variables.
pub fn grid(variables: usize, low: i32, high: i32) -> Vec<Powers> {
    (0..variables).fold(vec![Powers(vec![])], |grid, _| {
        grid.into_iter()
            .flat_map(|Powers(powers)| {
                (low..=high).map(move |power| Powers([&powers[..], &[power]].concat()))
            })
            .collect()
    })
}

fn pairs(grid: &[Powers], words: impl Fn(&Powers) -> Vec<u32>) -> Vec<Operands> {
    grid.iter()
        .flat_map(|a| grid.iter().map(|b| Operands::Two(words(a), words(b))))
        .collect()
}

fn grown(maxima: &Powers, percentage: u8) -> Operands {
    Operands::Grown {
        maxima: bare(maxima),
        percentage,
    }
}

fn masked(maxima: &Powers, monomial: &Powers) -> Operands {
    Operands::Masked {
        maxima: bare(maxima),
        monomial: monomial_words(monomial.vars()),
    }
}

fn bare(powers: &Powers) -> Vec<u32> {
    powers.0.iter().map(|power| *power as u32).collect()
}

/// A run of the label map that rises, falls, crowds or jumps about, with
/// rebuilds, known values, a few bad ones, and often a small capacity.
pub fn random_labels(rng: &mut Rng) -> LabelWork {
    let variables = *rng.choose(&[1, 2, 64]);
    let length = *rng.choose(&[4, 40, 90]);
    let mode = rng.below(4);
    let (mut low, mut high) = (-1000, 1000);
    let mut steps = vec![];
    for at in 0..length {
        let place = match mode {
            0 => at,
            1 => -at,
            2 if at % 2 == 0 => {
                low += 1;
                low
            }
            2 => {
                high -= 1;
                high
            }
            _ => rng.between(-20, 20),
        };
        steps.push(Step::Value(draw_value(variables, place, rng)));
        match rng.below(40) {
            0 => steps.push(Step::Rebuild),
            1 | 2 => steps.push(rng.choose(&steps).clone()),
            _ => (),
        }
    }
    LabelWork {
        variables,
        capacity: *rng.choose(&[1, 3, 34, 4096]),
        steps,
    }
}

/// A short run on a map that soon is full, with more damaged values.
pub fn short_labels(rng: &mut Rng) -> LabelWork {
    let variables = *rng.choose(&[1, 2]);
    let capacity = *rng.choose(&[2, 4, 5]);
    let mut steps = vec![];
    for _ in 0..capacity + 2 {
        let mut value = draw_value(variables, rng.between(-3, 3), rng);
        if rng.chance(15) {
            flip(&mut value, rng);
        }
        steps.push(Step::Value(value));
        if rng.chance(20) {
            steps.push(Step::Rebuild);
        }
    }
    LabelWork {
        variables,
        capacity,
        steps,
    }
}

/// Values that fall or rise until no label is left, and a rebuild.
pub fn crowded_labels(rises: bool) -> LabelWork {
    let values = (1..=if rises { 34 } else { 33 }).map(|place| {
        let power = if rises { place } else { -place };
        let ratio = ratio_words(Powers(vec![power]).vars());
        Step::Value([vec![word(INDEX, 0)], ratio].concat())
    });
    LabelWork {
        variables: 1,
        capacity: 34,
        steps: values.chain([Step::Rebuild]).collect(),
    }
}

/// A value at this place, as an index or as a power, sometimes damaged.
fn draw_value(variables: usize, place: i32, rng: &mut Rng) -> Vec<u32> {
    let mut ratio = Powers::one(variables);
    ratio.0[variables / 2] = place;
    let mut value = vec![word(INDEX, 5)];
    value.extend(ratio_words(ratio.vars()));
    if rng.chance(3) {
        flip(&mut value, rng);
    }
    value
}

fn flip(words: &mut [u32], rng: &mut Rng) {
    let at = rng.below(words.len());
    words[at] ^= 1 << rng.below(32);
}
