use std::{
    marker::PhantomData,
    sync::atomic::{AtomicU64, Ordering},
};

use super::{
    calls::CallList,
    reply::{read, Reply},
    EntryNumber, Product, Ratio, Reducer, Signature,
};
use crate::Refusal;

/// The place of one call's answer, and its type. A call of a batch gives it;
/// [`Answers::get`] takes it.
#[derive(Debug, Clone, Copy)]
#[must_use = "without its ticket an answer cannot be had"]
pub struct Ticket<T> {
    batch: u64,
    place: usize,
    answer: PhantomData<fn() -> T>,
}

/// The answers of a batch that was run.
#[derive(Debug, Clone)]
pub struct Answers {
    batch: u64,
    words: Vec<u32>,
}

impl Answers {
    /// What the call was answered, or why it was refused. A refused call changed
    /// nothing, and the calls behind it were served.
    ///
    /// # Panics
    ///
    /// On the ticket of another batch, or of a call written after the run.
    pub fn get<T: Reply>(&self, ticket: Ticket<T>) -> Result<T, Refusal> {
        assert_eq!(ticket.batch, self.batch, "a ticket of another batch");
        let word = self.words.get(ticket.place);
        read(*word.expect("the ticket of a call that was run"))
    }

    /// The number of answers.
    pub fn len(&self) -> usize {
        self.words.len()
    }

    /// Whether no call was run.
    pub fn is_empty(&self) -> bool {
        self.words.is_empty()
    }
}

/// Calls written for one run.
#[derive(Debug)]
pub struct Batch {
    calls: CallList,
    number: u64,
}

impl Batch {
    pub fn new() -> Self {
        Batch {
            calls: CallList::default(),
            number: next_number(),
        }
    }

    pub fn clear(&mut self) {
        self.calls.clear();
        self.number = next_number();
    }

    pub fn calls(&self) -> &CallList {
        &self.calls
    }

    /// The answers of this batch, from their words.
    pub fn answers(&self, words: Vec<u32>) -> Answers {
        Answers {
            batch: self.number,
            words,
        }
    }

    fn ticket<T: Reply>(&mut self, write: impl FnOnce(&mut CallList)) -> Ticket<T> {
        let place = self.calls.len();
        write(&mut self.calls);
        Ticket {
            batch: self.number,
            place,
            answer: PhantomData,
        }
    }
}

/// Each batch has a number of its own, by which its tickets are known.
fn next_number() -> u64 {
    static NEXT: AtomicU64 = AtomicU64::new(0);
    NEXT.fetch_add(1, Ordering::Relaxed)
}

/// Calls for a [`MonomialIndex`](super::MonomialIndex), to be run as one list.
///
/// A list pays once for the check of the whole image, which costs far more than
/// most calls: see [Cost](crate#cost).
///
/// ```
/// use divisor_index::{Config, MonomialBatch, MonomialIndex, Refusal};
///
/// let mut index = MonomialIndex::open(&Config::new(2, 10)?);
/// let mut batch = MonomialBatch::new();
/// let square = batch.insert(&[(0, 2)]);
/// let power_0 = batch.insert(&[(1, 0)]);
/// let cube = batch.contains_divisor(&[(0, 3)]);
/// let answers = index.run(&batch)?;
/// assert_eq!(answers.get(square)?.get(), 0);
/// assert_eq!(answers.get(power_0), Err(Refusal::NotCanonical));
/// assert!(answers.get(cube)?);
/// # Ok::<(), Refusal>(())
/// ```
#[derive(Debug)]
pub struct MonomialBatch(pub(super) Batch);

impl MonomialBatch {
    /// A batch without calls.
    pub fn new() -> Self {
        MonomialBatch(Batch::new())
    }

    /// The number of calls.
    pub fn len(&self) -> usize {
        self.0.calls.len()
    }

    /// Whether it has no calls.
    pub fn is_empty(&self) -> bool {
        self.len() == 0
    }

    /// Takes all calls away and keeps the memory. Tickets given before are those
    /// of another batch.
    pub fn clear(&mut self) {
        self.0.clear();
    }

    /// As [`MonomialIndex::insert`](super::MonomialIndex::insert).
    pub fn insert<M: Product + ?Sized>(&mut self, monomial: &M) -> Ticket<EntryNumber> {
        self.0.ticket(|calls| calls.insert_monomial(monomial))
    }

    /// As [`MonomialIndex::contains_divisor`](super::MonomialIndex::contains_divisor).
    pub fn contains_divisor<M: Product + ?Sized>(&mut self, monomial: &M) -> Ticket<bool> {
        self.0.ticket(|calls| calls.contains_divisor(monomial))
    }
}

impl Default for MonomialBatch {
    fn default() -> Self {
        Self::new()
    }
}

/// Calls for a [`RatioMonomialIndex`](super::RatioMonomialIndex), to be run as one
/// list.
///
/// A list pays once for the check of the whole image, which costs far more than
/// most calls: see [Cost](crate#cost).
///
/// ```
/// use divisor_index::{Config, Ratio, RatioBatch, RatioMonomialIndex, Refusal, Signature};
///
/// let mut index = RatioMonomialIndex::open(&Config::new(2, 10)?);
/// let mut batch = RatioBatch::new();
/// // Signature x1 · e0 with leading monomial x0^2, so ratio x1 · x0^-2.
/// let first = batch.insert(Signature::new(0, &[(1, 1)]), &[(0, 2)]);
/// let reducer = batch.find_a_reducer(Ratio::new(0, &[(1, 2), (0, -1)]), &[(0, 3)]);
/// let low = batch.find_low_base_divisor(Signature::new(1, &[(1, 1)]));
/// let answers = index.run(&batch)?;
/// assert_eq!(answers.get(reducer)?.unwrap().entry, answers.get(first)?);
/// assert_eq!(answers.get(low)?, None);
/// # Ok::<(), Refusal>(())
/// ```
#[derive(Debug)]
pub struct RatioBatch(pub(super) Batch);

impl RatioBatch {
    /// A batch without calls.
    pub fn new() -> Self {
        RatioBatch(Batch::new())
    }

    /// The number of calls.
    pub fn len(&self) -> usize {
        self.0.calls.len()
    }

    /// Whether it has no calls.
    pub fn is_empty(&self) -> bool {
        self.len() == 0
    }

    /// Takes all calls away and keeps the memory. Tickets given before are those
    /// of another batch.
    pub fn clear(&mut self) {
        self.0.clear();
    }

    /// As [`RatioMonomialIndex::insert`](super::RatioMonomialIndex::insert).
    pub fn insert<S, L>(&mut self, signature: Signature<'_, S>, lm: &L) -> Ticket<EntryNumber>
    where
        S: Product + ?Sized,
        L: Product + ?Sized,
    {
        self.0.ticket(|calls| calls.insert(signature, lm))
    }

    /// As [`RatioMonomialIndex::find_a_reducer`](super::RatioMonomialIndex::find_a_reducer).
    pub fn find_a_reducer<R, L>(&mut self, ratio: Ratio<'_, R>, lm: &L) -> Ticket<Option<Reducer>>
    where
        R: Product + ?Sized,
        L: Product + ?Sized,
    {
        self.0.ticket(|calls| calls.find_a_reducer(ratio, lm))
    }

    /// As [`RatioMonomialIndex::find_high_base_divisor`](super::RatioMonomialIndex::find_high_base_divisor).
    pub fn find_high_base_divisor<R, L>(
        &mut self,
        ratio: Ratio<'_, R>,
        lm: &L,
    ) -> Ticket<Option<EntryNumber>>
    where
        R: Product + ?Sized,
        L: Product + ?Sized,
    {
        self.0
            .ticket(|calls| calls.find_high_base_divisor(ratio, lm))
    }

    /// As [`RatioMonomialIndex::find_low_base_divisor`](super::RatioMonomialIndex::find_low_base_divisor).
    pub fn find_low_base_divisor<S>(
        &mut self,
        signature: Signature<'_, S>,
    ) -> Ticket<Option<EntryNumber>>
    where
        S: Product + ?Sized,
    {
        self.0
            .ticket(|calls| calls.find_low_base_divisor(signature))
    }

    /// As [`RatioMonomialIndex::test_singular_criterion`](super::RatioMonomialIndex::test_singular_criterion).
    pub fn test_singular_criterion<S, L>(
        &mut self,
        signature: Signature<'_, S>,
        lm: &L,
    ) -> Ticket<bool>
    where
        S: Product + ?Sized,
        L: Product + ?Sized,
    {
        self.0
            .ticket(|calls| calls.test_singular_criterion(signature, lm))
    }
}

impl Default for RatioBatch {
    fn default() -> Self {
        Self::new()
    }
}
