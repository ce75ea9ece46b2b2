use std::fmt;

use super::{
    batch::{Answers, MonomialBatch},
    config::Kind,
    layout::StoredMonomial,
    store::{Refused, Store},
    Config, EntryNumber, Product,
};
use crate::{doors, Refusal};

/// A set of monomials with a search for a divisor, in an image of bytes, owned
/// or lent. The solver keeps the signatures of its syzygies in one.
///
/// Each call judges the whole image first, so many calls are best made as a
/// [batch](MonomialBatch): see [Cost](crate#cost). Each, and each of `from_image`,
/// `to_vec` and `reopened`, needs up to [`STACK`](crate::STACK) bytes of stack.
///
/// A lent buffer is the index's own while it is lent. If its bytes change all the
/// same, calls are refused with [`Refusal::Unsound`], and methods that only read
/// the image may panic.
///
/// ```
/// use divisor_index::{Config, MonomialIndex, Refusal};
///
/// // Four variables, room for 100 monomials.
/// let mut index = MonomialIndex::open(&Config::new(4, 100)?);
/// let number = index.insert(&[(0, 2)])?; // x0^2
/// assert_eq!(number.get(), 0);
/// assert!(index.contains_divisor(&[(0, 3)])?); // x0^3
/// assert!(!index.contains_divisor(&[(1, 1)])?); // x1
/// assert_eq!(index.insert(&[(0, 32_768)]), Err(Refusal::NotCanonical));
/// assert_eq!(index.to_vec()?, [[(0, 2)]]);
/// # Ok::<(), Refusal>(())
/// ```
#[derive(Clone)]
pub struct MonomialIndex<B = Vec<u8>>(Store<B>);

impl MonomialIndex {
    /// An index that holds nothing, in bytes of its own.
    pub fn open(config: &Config) -> Self {
        let buffer = vec![0; Self::length(config)];
        Self::open_in(config, buffer).expect("a judged config, and its length")
    }

    /// The length in bytes of an image, which a buffer to open in must have.
    pub fn length(config: &Config) -> usize {
        config.length(Kind::Monomial)
    }
}

impl<B: AsRef<[u8]> + AsMut<[u8]>> MonomialIndex<B> {
    /// An index that holds nothing, in this buffer; one that is too short is
    /// given back with [`Refusal::Buffer`]. Bytes past the image are not touched.
    pub fn open_in(config: &Config, buffer: B) -> Result<Self, Refused<B>> {
        Store::open(Kind::Monomial, config, buffer).map(Self)
    }

    /// The index whose image the buffer begins with. A buffer that does not is
    /// given back with [`Refusal::Unsound`], one with an index of the other kind
    /// with [`Refusal::NotServed`].
    pub fn from_image(buffer: B) -> Result<Self, Refused<B>> {
        Store::from_image(Kind::Monomial, buffer).map(Self)
    }

    /// The image, which can be stored and lent again.
    pub fn image(&self) -> &[u8] {
        self.0.image()
    }

    /// The buffer with the image, and what stood behind it.
    pub fn into_image(self) -> B {
        self.0.into_buffer()
    }

    /// Variables, capacity and the present maxima, which inserts raise.
    pub fn config(&self) -> Config {
        self.0.layout().config()
    }

    /// Whether the maxima have grown, since the index was opened or
    /// [reopened](Self::reopened), by more than this percentage of their present total,
    /// rounded down as in the original.
    pub fn has_grown_beyond_percentage(&self, percentage: u8) -> bool {
        self.0.layout().has_grown_beyond_percentage(percentage)
    }

    /// The number of monomials.
    pub fn len(&self) -> usize {
        self.0.layout().entries()
    }

    /// Whether it holds nothing.
    pub fn is_empty(&self) -> bool {
        self.len() == 0
    }

    /// Stores a monomial, whether or not it is known.
    ///
    /// Refusals: [`NotCanonical`](Refusal::NotCanonical), [`Full`](Refusal::Full).
    pub fn insert<M: Product + ?Sized>(&mut self, monomial: &M) -> Result<EntryNumber, Refusal> {
        self.0.one(|calls| calls.insert_monomial(monomial))
    }

    /// Whether some stored monomial divides this one. The search may split leaves
    /// of the tree, which changes the image and what is stored not.
    ///
    /// Refusal: [`NotCanonical`](Refusal::NotCanonical).
    pub fn contains_divisor<M: Product + ?Sized>(&mut self, monomial: &M) -> Result<bool, Refusal> {
        self.0.one(|calls| calls.contains_divisor(monomial))
    }

    /// The same for many monomials, as one list. A monomial that is refused leaves
    /// the others as they are.
    pub fn contains_divisors<M: Product>(
        &mut self,
        monomials: impl IntoIterator<Item = M>,
    ) -> Result<Vec<Result<bool, Refusal>>, Refusal> {
        let mut batch = MonomialBatch::new();
        let monomials = monomials.into_iter();
        let tickets: Vec<_> = monomials.map(|m| batch.contains_divisor(&m)).collect();
        let answers = self.run(&batch)?;
        Ok(tickets.into_iter().map(|t| answers.get(t)).collect())
    }

    /// Runs a batch as one list.
    pub fn run(&mut self, batch: &MonomialBatch) -> Result<Answers, Refusal> {
        self.0.run(&batch.0)
    }

    /// The monomials in the order of the tree, as (id, power), ids falling: of
    /// each branch the less side before the other side.
    pub fn to_vec(&self) -> Result<Vec<Vec<(u16, i32)>>, Refusal> {
        let longest = 4 * (self.0.layout().variables() + 1);
        let mut words = vec![0; longest * self.len()];
        Refusal::check(doors::divisor_index_list(self.image(), &mut words))?;
        Ok(split(&words, self.len()))
    }

    /// The monomials in the order of their numbers.
    pub fn entries(&self) -> impl Iterator<Item = StoredMonomial<'_>> {
        let layout = self.0.layout();
        (0..layout.entries()).map(move |number| layout.lm(number))
    }

    /// The numbers of the monomials in the order of the tree.
    pub(crate) fn leaf_order(&self) -> impl Iterator<Item = usize> + '_ {
        self.0.layout().leaf_order()
    }

    /// A new index of another capacity, or with masks by other maxima, which holds
    /// the same monomials under the same numbers. They are read from the image.
    /// Its tree is built anew, so it may list them in another order.
    ///
    /// [`RatioMonomialIndex::reopened`](super::RatioMonomialIndex::reopened) says when
    /// the original makes its indexes anew.
    ///
    /// Refusals: [`Full`](Refusal::Full) where they are more than the capacity,
    /// [`NotCanonical`](Refusal::NotCanonical) where one has a variable that the
    /// configuration lacks.
    pub fn reopened(&self, config: &Config) -> Result<MonomialIndex, Refusal> {
        let mut batch = MonomialBatch::new();
        let tickets: Vec<_> = self.entries().map(|m| batch.insert(&m)).collect();
        let mut reopened = MonomialIndex::open(config);
        let answers = reopened.run(&batch)?;
        for ticket in tickets {
            answers.get(ticket)?;
        }
        Ok(reopened)
    }
}

impl<B: AsRef<[u8]> + AsMut<[u8]>> fmt::Debug for MonomialIndex<B> {
    fn fmt(&self, f: &mut fmt::Formatter<'_>) -> fmt::Result {
        self.0.show("MonomialIndex", f)
    }
}

/// The first so many monomials of these words.
fn split(mut words: &[u8], count: usize) -> Vec<Vec<(u16, i32)>> {
    let mut monomials = Vec::with_capacity(count);
    for _ in 0..count {
        let monomial = StoredMonomial::at_front(words).to_vec();
        words = &words[4 * (monomial.len() + 1)..];
        monomials.push(monomial);
    }
    monomials
}
