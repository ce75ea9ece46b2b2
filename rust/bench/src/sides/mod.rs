//! The same index on both sides.

mod call;
pub mod drawing;
mod original;
mod port;

pub use self::{
    call::Call,
    original::{monomial, Monomial, Original},
    port::Port,
};

use harness::{
    model::{state::Entry, Kind},
    rng::Rng,
};

use self::drawing::{draw_entry, draw_query};

pub const VARIABLES: [usize; 3] = [8, 20, 64];

pub const ENTRIES: [usize; 2] = [500, 4000];

pub const KINDS: [Kind; 2] = [Kind::Monomial, Kind::Ratio];

/// Searches by which the leaves of a new tree are split.
const SPLITS: usize = 200;

/// What an index is like.
#[derive(Clone, Copy)]
pub struct Shape {
    pub kind: Kind,
    pub variables: usize,
    pub entries: usize,
}

impl Shape {
    /// Every shape, the number of variables changing first.
    pub fn all() -> impl Iterator<Item = Shape> {
        KINDS.into_iter().flat_map(Shape::of_kind)
    }

    pub fn of_kind(kind: Kind) -> impl Iterator<Item = Shape> {
        ENTRIES
            .into_iter()
            .flat_map(move |entries| Shape::row(kind, entries))
    }

    /// The shapes that differ in their variables alone.
    pub fn row(kind: Kind, entries: usize) -> impl Iterator<Item = Shape> {
        VARIABLES.into_iter().map(move |variables| Shape {
            kind,
            variables,
            entries,
        })
    }

    /// 512 or 4,096.
    pub fn capacity(self) -> u32 {
        self.entries.next_power_of_two() as u32
    }

    pub fn kind_name(self) -> &'static str {
        match self.kind {
            Kind::Monomial => "monomial",
            Kind::Ratio => "ratio",
        }
    }
}

/// The entries of an index, the same in each run.
pub struct Sample {
    pub shape: Shape,
    pub entries: Vec<Entry>,
    splits: Vec<Entry>,
    rng: Rng,
}

impl Sample {
    pub fn draw(shape: Shape) -> Self {
        let mut rng = Rng::new(shape.variables as u64);
        let entries: Vec<_> = (0..shape.entries)
            .map(|_| draw_entry(shape, &mut rng))
            .collect();
        let splits = (0..SPLITS)
            .map(|_| draw_query(&entries, &mut rng))
            .collect();
        Sample {
            shape,
            entries,
            splits,
            rng,
        }
    }

    /// The port's index of the first entries, its leaves split.
    pub fn port(&self, held: usize) -> Port {
        let mut port = Port::open(self.shape);
        port.run(&Call::insert(self.shape.kind).list(&self.entries[..held]));
        port.run(&Call::split(self.shape.kind).list(&self.splits));
        port
    }

    /// The same of the original.
    pub fn original(&self, held: usize) -> Original {
        let mut original = Original::open(self.shape);
        original.insert(&self.entries[..held]);
        self.visit(&original);
        original
    }

    /// Searches that bring the tree near to the processor, as question 3 does the
    /// image.
    pub fn visit(&self, original: &Original) {
        original.ask(Call::split(self.shape.kind), &self.splits);
    }

    /// Queries of a search. Those for high base divisors have no reducer: the
    /// original takes this for granted, and panics where one is visited.
    pub fn queries(&mut self, call: Call, count: usize) -> Vec<Entry> {
        let mut port = self.port(self.shape.entries);
        let mut queries = vec![];
        while queries.len() < count {
            let drawn = (0..count).map(|_| draw_query(&self.entries, &mut self.rng));
            let drawn = drawn.collect();
            queries.extend(match call {
                Call::High => port.without_reducer(drawn),
                _ => drawn,
            });
        }
        queries.truncate(count);
        queries
    }
}
