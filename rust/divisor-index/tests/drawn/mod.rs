//! Drawn monomials in three variables, and their work in plain loops.

use divisor_index::Product;

/// As (id, power), ids falling.
pub type Monomial = Vec<(u16, i32)>;

/// Monomials with powers up to 5, the same each time.
pub fn drawn(count: usize, mut seed: u32) -> Vec<Monomial> {
    let mut power = || {
        seed = seed.wrapping_mul(1_664_525).wrapping_add(1_013_904_223);
        (seed >> 24) as i32 % 6
    };
    let monomial = |_| {
        let all = [2, 1, 0].map(|id| (id, power()));
        all.into_iter().filter(|(_, power)| *power > 0).collect()
    };
    (0..count).map(monomial).collect()
}

fn power_of(monomial: &impl Product, id: u16) -> i32 {
    let found = monomial.variables().find(|variable| variable.0 == id);
    found.map_or(0, |variable| variable.1)
}

/// Powers by variable.
pub fn dense(monomial: &impl Product) -> [i32; 3] {
    [0, 1, 2].map(|id| power_of(monomial, id))
}

pub fn divides(a: &impl Product, b: &impl Product) -> bool {
    (0..3).all(|id| power_of(a, id) <= power_of(b, id))
}

/// The ratio of a signature and a leading monomial, as a key that sorts as ratios
/// do: index, total, then the smaller power at the smallest id is larger.
pub fn ratio_key(index: u32, signature: &impl Product, lm: &impl Product) -> (u32, i32, [i32; 3]) {
    let (over, under) = (dense(signature), dense(lm));
    let powers = [0, 1, 2].map(|id| over[id] - under[id]);
    (index, powers.iter().sum(), powers.map(|power| -power))
}

pub fn quotient(signature: &impl Product, lm: &impl Product) -> Monomial {
    let (over, under) = (dense(signature), dense(lm));
    let all = [2u16, 1, 0].map(|id| (id, over[id as usize] - under[id as usize]));
    all.into_iter().filter(|(_, power)| *power != 0).collect()
}
