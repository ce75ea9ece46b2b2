//! Wrong rules that can be put into the model, one at a time, to see whether
//! the jobs notice.

named! {
    /// A wrong rule. Each is consulted at the one place where the model follows
    /// the right one.
    Mutation

    // Document 01's three wrong turns.
    LabelCopiedIntoKey: "a ratio key keeps the label that its entry had at the split",
    LessSidePrunedBelowKey: "the less side is pruned when a variable's power is below the key",
    StopAtFirstSingular: "the search stops at the first singular reducer",
    // Splitting.
    LeafOf64Split: "a leaf of 64 is split",
    LeafOf65Unsplit: "a leaf of 65 is not split",
    AverageRoundedDown: "the average is (a + b) / 2",
    AverageOnLessSide: "entries at the average go to the less side",
    DimensionOfParentFirst: "the parent's dimension is tried first",
    DimensionsFromZero: "dimension 0 is tried first in every leaf",
    DimensionsNotRound: "dimensions are not tried round to 0 after the last",
    OtherSideReversed: "a split turns the order of the other side round",
    RatioKeyIsFirst: "the ratio key is the first entry of the other side",
    RatioKeyIsLastOfSmallest: "the ratio key is the last of the smallest ratios",
    RatioAveragedByRank: "ratios are averaged by rank",
    LoweringLeftOut: "an insert leaves the gcds and masks of branches as they are",
    // The walk.
    OtherSideFirst: "the other side is searched before the less side",
    OtherSideAfterStop: "after a stop in the less side the other side is still visited",
    MaskAskedAtLeaf: "a leaf is left out by its mask before it is split",
    MaskNeverAsked: "no branch is left out by its mask",
    AboveHighestPrunes: "a variable above the query's highest prunes as power 0",
    OnePrunesNothing: "variable 0 prunes nothing when the query is one",
    EqualPowerPrunes: "the other side is pruned when the power equals the key",
    ReducerEqualRatioPrunes: "the other side is pruned when the reducer's ratio equals the key",
    SingularBothAtEqualKey: "the singular search goes both ways at an equal key",
    // What is found.
    FirstSingularReducer: "of singular reducers the first is answered",
    EqualRatioIsRegular: "a reducer of equal ratio is regular",
    HighLastOfEquals: "of equal high base divisors the last is answered",
    HighFirstFound: "the first high base divisor is answered",
    HighCountsNotAbove: "a high base divisor not above the query counts",
    LowLastOfEquals: "of equal low base divisors the last is answered",
    LowAnyIndex: "a low base divisor may have another index",
    SingularNotStrict: "the singular criterion takes an equal ratio",
    // The order.
    TotalIgnored: "the order takes no notice of totals",
    TieAtLargestId: "the largest id where powers differ decides",
    TieLargerPowerIsLarger: "the larger power is the larger monomial",
    IndexesIn27Bits: "indexes are compared in 27 bits",
    // Masks.
    CutoffRoundedUp: "cutoffs are rounded up",
    BitAtCutoff: "a bit is set when the power is at its cutoff",
    ExtraBitsLast: "the last 32 mod V variables have one bit more",
    // Maxima.
    UpdateGoesOn: "update goes on after a variable not above its maximum",
    UpdateLmFirst: "update takes the lm before the signature monomial",
    // Labels.
    HalfSumRoundedUp: "the half sum is rounded up",
    LowEndZero: "0 stands below the smallest label",
    HighEndLower: "2^32 - 1 stands above the largest label",
    RebuildByTwoTo32: "the k-th of n values is given k * 2^32 / (n + 1)",
    RebuildEveryInsert: "every insert deals all labels afresh",
    MapRemadeAtRebuild: "a rebuild makes the map of masks anew, from the present maxima",
    RowsSortedAtRebuild: "a rebuild puts the rows of the label map in rising order",
    // Questions.
    CapacityBeforeBody: "8 is asked before 7",
    BodyBeforeNumber: "7 is asked before 6",
    RestOfBodyIgnored: "a body may have more words than it needs",
    CountIgnored: "the end word's payload is not looked at",
    EqualIdsTaken: "an id may come twice",
}

/// The rules that the model follows: document 01's, or all but one of them.
#[derive(Debug, Clone, Copy, Default)]
pub struct Rules {
    mutation: Option<Mutation>,
}

impl Rules {
    pub fn document_01() -> Self {
        Self::default()
    }

    pub fn but(mutation: Mutation) -> Self {
        Self {
            mutation: Some(mutation),
        }
    }

    pub fn has(self, mutation: Mutation) -> bool {
        self.mutation == Some(mutation)
    }
}
