//! Seeded call lists, in modes that each look for trouble in one place.

mod entries;
mod maker;
mod plan;
pub mod record;
pub mod shrink;
mod trend;

use self::{
    entries::Entries,
    maker::Maker,
    plan::{Indexes, Plan},
};
use crate::{
    model::{state::State, Opening},
    rng::Rng,
    words::{calls, payload},
};

/// What a job is after.
#[derive(Debug, Clone, Copy, PartialEq, Eq)]
pub enum Mode {
    /// Few variables and small powers.
    Small,
    /// 65 and more entries and several splits.
    Splits,
    /// Most ratios rise: labels are dealt afresh, with splits and queries on
    /// both sides of a rebuild and other ratios in between.
    Rising,
    /// Most ratios fall, likewise.
    Falling,
    /// Most ratios crowd between two others, likewise.
    Crowding,
    /// Few ratios that many entries share.
    EqualRatios,
    /// One entry repeated up to 65 times and past that.
    Repeats,
    /// Queries whose highest variable lies below a split's variable.
    LowQueries,
    /// Clusters whose gcds have masks that prune.
    Masks,
    /// Powers whose averages have odd sums.
    OddAverages,
    /// Up to 64 variables, of which some have no bit.
    ManyVariables,
    /// Powers up to the limit.
    TallPowers,
    /// Bad bodies, unknown numbers, calls of the other index kind.
    Malformed,
    /// Capacity one below the inserts, at them and past them.
    Capacity,
    /// Inserts that lower the gcds of branches, and searches for them.
    Lowering,
    /// Signature indexes around 2^16, 2^20, 2^27 and 2^28 - 1.
    WideIndexes,
    /// Clusters whose gcds have tall powers, or many variables, in their masks.
    TallMasks,
    /// Ratios rise and fall by turns, up to both ends of the labels.
    BothEnds,
    /// Hundreds of ratios, and now and then more inserts than any capacity.
    Full,
    /// Ratios whose totals lie millions apart.
    FarTotals,
    /// Splits in dimensions far from the first, of 33 and more variables.
    Dimensions,
}

impl Mode {
    pub const ALL: [Mode; 21] = [
        Mode::Small,
        Mode::Splits,
        Mode::Rising,
        Mode::Falling,
        Mode::Crowding,
        Mode::EqualRatios,
        Mode::Repeats,
        Mode::LowQueries,
        Mode::Masks,
        Mode::OddAverages,
        Mode::ManyVariables,
        Mode::TallPowers,
        Mode::Malformed,
        Mode::Capacity,
        Mode::Lowering,
        Mode::WideIndexes,
        Mode::TallMasks,
        Mode::BothEnds,
        Mode::Full,
        Mode::FarTotals,
        Mode::Dimensions,
    ];

    /// Those that the program crates/call_replay knows.
    pub const REPLAYED: &'static [Mode] = Self::ALL.split_at(14).0;

    pub fn from_name(name: &str) -> Option<Self> {
        let mut modes = Self::ALL.into_iter();
        modes.find(|mode| format!("{mode:?}").eq_ignore_ascii_case(name))
    }
}

/// An opening and calls for it.
#[derive(Debug, Clone)]
pub struct Job {
    pub opening: Opening,
    pub list: Vec<u32>,
    pub cut: Cut,
}

/// From so many inserts on an index is large.
const LARGE: usize = 1000;

/// How the calls are cut into lists.
#[derive(Debug, Clone, Copy)]
pub enum Cut {
    /// After so many calls.
    Calls(usize),
    /// After each search.
    Searches,
}

impl Cut {
    /// One seed in eight ends a list with every search. A large index has few
    /// lists, since each costs a look at the whole image.
    fn of(seed: u64, inserts: usize) -> Self {
        match seed % 8 {
            _ if inserts >= LARGE => Cut::Calls(inserts / (1 + seed as usize % 4)),
            0 => Cut::Searches,
            _ => Cut::Calls(1 + (seed / 8) as usize % 97),
        }
    }
}

impl Job {
    /// The job of a mode with this seed, always the same.
    pub fn new(mode: Mode, seed: u64) -> Self {
        let mut rng = Rng::new(seed.wrapping_mul(0x1_0000_0001) ^ (mode as u64) << 56);
        let plan = Plan::draw(mode, &mut rng);
        let opening = plan.opening(mode, &mut rng);
        let entries = Entries::draw(mode, &plan, &mut rng);
        let list = Maker::new(rng, &opening, plan.indexes).make(mode, &plan, entries);
        Job {
            opening,
            list,
            cut: Cut::of(seed, plan.inserts),
        }
    }

    /// The lists, each with its calls.
    pub fn lists(&self) -> Vec<Vec<&[u32]>> {
        let all: Vec<&[u32]> = calls(&self.list).collect();
        match self.cut {
            Cut::Calls(count) => all.chunks(count).map(<[_]>::to_vec).collect(),
            Cut::Searches => {
                let lists = all.split_inclusive(|call| is_search(call));
                lists.map(<[_]>::to_vec).collect()
            }
        }
    }
}

/// So many calls near the entries of a state, some of them damaged.
pub fn calls_near(state: &State, count: usize, rng: Rng) -> Vec<u32> {
    let opening = Opening {
        kind: state.kind,
        capacity: state.capacity,
        maxima: state.maxima.clone(),
    };
    let indexes = Indexes {
        from: &[0],
        count: 3,
    };
    Maker::new(rng, &opening, indexes).make_near(state.entries.clone(), count)
}

/// Whether a call's number is that of a search.
pub fn is_search(call: &[u32]) -> bool {
    matches!(payload(call[0]), 1 | 3..=6)
}
