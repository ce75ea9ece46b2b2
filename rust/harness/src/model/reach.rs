//! What the jobs are after, counted where it comes about.

use std::cell::Cell;

use super::{
    divmask::{has_grown_beyond_percentage, Map},
    labels::Labels,
    powers::{Powers, Ratio},
    Kind,
};
use crate::words::{MAX_CAPACITY, MAX_VARIABLES};

named! {
    /// Something that jobs must reach.
    Reach

    LoweredGcd: "an insert lowers the gcd of a branch",
    LoweredMask: "an insert lowers the mask of a branch",
    IndexNear2To16: "a ratio whose index is within 2 of 2^16 gets a label",
    IndexNear2To20: "the same for 2^20",
    IndexNear2To27: "the same for 2^27",
    IndexNear2To28: "the same for 2^28 - 1",
    TallMaskedOut: "a mask leaves out a branch whose gcd has a power above 16,384",
    ManyMaskedOut: "a mask leaves out a branch of 33 and more variables",
    LabelEnds: "an insert after which 0 and 2^32 - 1 are labels",
    Labels300: "an insert into a label map of 300 values and more",
    Labels4096: "an insert that gives the label map its 4,096th value",
    FullRefused: "an insert refused by an index of 4,096 entries",
    SplitRefused: "a call refused by an index with a branch",
    FurtherList: "a list after the first on one image",
    FurtherListing: "a listing after the first of one image",
    FarTotals: "ratios compared whose totals differ by a million and more",
    Growth99: "maxima of 64 variables that have grown by 99 %",
    SplitOf33: "a split of 33 and more variables",
}

/// How often each of them came about, and the splits in each dimension.
#[derive(Debug, Clone)]
pub struct Reached {
    counts: Vec<Cell<u64>>,
    /// With 33 and more variables, of a monomial index and of a ratio index.
    splits: [Vec<Cell<u64>>; 2],
}

impl Default for Reached {
    fn default() -> Self {
        Reached {
            counts: vec![Cell::new(0); Reach::ALL.len()],
            splits: [0, 1].map(|ratio| vec![Cell::new(0); MAX_VARIABLES + ratio]),
        }
    }
}

/// From so many variables on, some have no bit in a mask.
const MANY: usize = 33;

impl Reached {
    pub fn of(&self, reach: Reach) -> u64 {
        self.counts[reach as usize].get()
    }

    /// The splits in each dimension of an index of 33 and more variables.
    pub fn splits(&self, kind: Kind) -> impl Iterator<Item = u64> + '_ {
        self.splits[kind as usize].iter().map(Cell::get)
    }

    pub fn add(&self, other: &Reached) {
        let counts = self.counts.iter().zip(&other.counts);
        let splits = self.splits.iter().zip(&other.splits);
        let splits = splits.flat_map(|(mine, others)| mine.iter().zip(others));
        for (mine, others) in counts.chain(splits) {
            mine.set(mine.get() + others.get());
        }
    }

    pub fn count_if(&self, reach: Reach, came_about: bool) {
        let count = &self.counts[reach as usize];
        count.set(count.get() + u64::from(came_about));
    }

    /// An insert changes the gcd of a branch.
    pub fn lowered(&self, map: &Map, before: &Powers, after: &Powers) {
        if before != after {
            self.count_if(Reach::LoweredGcd, true);
            self.count_if(Reach::LoweredMask, map.mask(before) != map.mask(after));
        }
    }

    /// A branch with this gcd is left out by its mask.
    pub fn masked_out(&self, gcd: &Powers) {
        let tall = gcd.0.iter().any(|power| *power > 1 << 14);
        self.count_if(Reach::TallMaskedOut, tall);
        self.count_if(Reach::ManyMaskedOut, gcd.0.len() >= MANY);
    }

    /// An entry with this ratio gets its label.
    pub fn labelled(&self, labels: &Labels, ratio: &Ratio) {
        let near = |middle: u32| ratio.index.abs_diff(middle) <= 2;
        self.count_if(Reach::IndexNear2To16, near(1 << 16));
        self.count_if(Reach::IndexNear2To20, near(1 << 20));
        self.count_if(Reach::IndexNear2To27, near(1 << 27));
        self.count_if(Reach::IndexNear2To28, near((1 << 28) - 1));

        let rows = labels.rows();
        let ends = [rows.first(), rows.last()].map(|row| row.map(|(_, label)| *label));
        self.count_if(Reach::LabelEnds, ends == [Some(0), Some(u32::MAX)]);
        self.count_if(Reach::Labels300, rows.len() >= 300);
        self.count_if(Reach::Labels4096, rows.len() == MAX_CAPACITY);
    }

    /// A call is refused by an index of so many entries, which has a branch or
    /// not.
    pub fn refused(&self, number: u32, entries: usize, branches: bool) {
        self.count_if(Reach::FullRefused, number == 8 && entries == MAX_CAPACITY);
        self.count_if(Reach::SplitRefused, branches);
    }

    /// A search for a reducer compares the ratio of an entry.
    pub fn compared(&self, a: &Ratio, b: &Ratio) {
        if a.monomial.0.len() >= MANY && a.index == b.index {
            let apart = a.monomial.total().abs_diff(b.monomial.total());
            self.count_if(Reach::FarTotals, apart >= 1_000_000);
        }
    }

    pub fn grown(&self, maxima: &[i32]) {
        let grown = maxima.len() == MAX_VARIABLES && has_grown_beyond_percentage(maxima, 98);
        self.count_if(Reach::Growth99, grown);
    }

    /// A leaf is split in this dimension.
    pub fn split(&self, kind: Kind, variables: usize, dim: usize) {
        if variables >= MANY {
            self.count_if(Reach::SplitOf33, true);
            let count = &self.splits[kind as usize][dim];
            count.set(count.get() + 1);
        }
    }
}
