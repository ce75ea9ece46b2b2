//! Whole regular reductions: the original term by term, the port through its cache
//! of reducers and by single calls.

use std::{cell::RefCell, rc::Rc, slice};

use divisor_index::{
    compat::{self, HasRatio, HasSignature},
    Ratio, RatioMonomialIndex, ReducerKind, Reducers,
};
use harness::{model::Kind, rng::Rng};
use original::{oracle, polynomial::monomial_ordering::Grevlex};

use super::{
    polynomials::{draw_basis, draw_polynomial, reduce, Element, Lent, Polynomial, Search, Terms},
    Report,
};
use crate::{
    plot::{
        lines::{Panel, Plot},
        Series, COLOURS,
    },
    sides::{Monomial, Original, Sample, Shape, ENTRIES, VARIABLES},
    table::{figure, grouped, Table},
    timing::{medians, timed, Rounds},
};

/// S-polynomials that are added up to one polynomial, and how many of these are
/// drawn.
const SIZES: [(usize, usize); 2] = [(1, 8), (16, 2)];

/// Polynomials of one size over one basis; all figures are means of one.
struct Measured {
    shape: Shape,
    parts: usize,
    terms: f64,
    searches: f64,
    reducers: f64,
    lists: f64,
    /// Microseconds of each way.
    times: [f64; 4],
}

impl Measured {
    /// By single calls, through the cache and by the original.
    fn milliseconds(&self) -> Vec<f64> {
        let [_, original, cache, single] = self.times;
        [single, cache, original].map(|time| time / 1e3).to_vec()
    }
}

pub fn run(rounds: Rounds) -> Report {
    let sizes = |shape| SIZES.map(|size| (shape, size));
    let all = Shape::of_kind(Kind::Ratio).flat_map(sizes);
    let all: Vec<_> = all
        .map(|(shape, size)| measure(shape, size, rounds))
        .collect();
    let head = [
        "entries",
        "variables",
        "terms",
        "searches",
        "reducers",
        "lists of the cache",
        "arithmetic alone, µs",
        "original, µs",
        "cache, µs",
        "cache / original",
        "single calls, µs",
        "single calls / original",
    ];
    let mut table = Table::new(head);
    for measured in &all {
        table.line(line(measured));
    }
    Report {
        text: table.to_string(),
        plots: vec![("reduction.svg", plot(&all))],
    }
}

fn line(measured: &Measured) -> Vec<String> {
    let [arithmetic, original, cache, single] = measured.times;
    let figures = [
        measured.terms,
        measured.searches,
        measured.reducers,
        measured.lists,
        arithmetic,
        original,
        cache,
        cache / original,
        single,
        single / original,
    ];
    let shape = measured.shape;
    let mut line = vec![grouped(shape.entries as i64), shape.variables.to_string()];
    line.extend(figures.map(figure));
    line
}

/// A panel for each number of entries and size, a line for each number of variables.
fn plot(all: &[Measured]) -> String {
    let panel = |(entries, parts)| {
        let here = all
            .iter()
            .filter(|one| one.shape.entries == entries && one.parts == parts);
        let of = match parts {
            1 => "an S-polynomial".into(),
            _ => format!("a sum of {parts}"),
        };
        Panel {
            title: format!("{} entries, {of}", grouped(entries as i64)),
            lines: here.map(Measured::milliseconds).collect(),
        }
    };
    let sizes = SIZES
        .into_iter()
        .flat_map(|(parts, _)| ENTRIES.map(|n| (n, parts)));
    let panels: Vec<_> = sizes.map(panel).collect();
    let series = VARIABLES.into_iter().zip(COLOURS);
    let series = series.map(|(v, colour)| Series::new(format!("{v} variables"), colour));
    let plot = Plot {
        title: "A whole regular reduction",
        axis: "ms a polynomial, logarithmic",
        places: &["single calls", "cache", "original"],
        under: "port",
        series: &series.collect::<Vec<_>>(),
    };
    plot.draw(ENTRIES.len(), &panels)
}

fn measure(shape: Shape, (parts, count): (usize, usize), rounds: Rounds) -> Measured {
    let mut rng = Rng::new(shape.variables as u64);
    let mut sides = Sides::new(&Sample::draw(shape), &mut rng);
    let jobs: Vec<_> = (0..count)
        .map(|_| sides.draw_job(parts, &mut rng))
        .collect();
    let mean = |of: fn(&Job) -> usize| {
        let sum: usize = jobs.iter().map(of).sum();
        sum as f64 / count as f64
    };
    let times = medians(rounds, |_| {
        Way::ALL.map(|way| {
            let time = |job| {
                if way.is_fit_for(parts) {
                    sides.time(way, job)
                } else {
                    f64::NAN
                }
            };
            jobs.iter().map(time).sum()
        })
    });
    Measured {
        shape,
        parts,
        terms: mean(|job| job.polynomial.terms.len()),
        searches: mean(|job| job.found.len()),
        reducers: mean(|job| job.found.iter().flatten().count()),
        lists: mean(|job| job.lists),
        times: times.map(|time: f64| time / 1e3 / count as f64),
    }
}

/// How reducers are found.
#[derive(Debug, Clone, Copy)]
enum Way {
    /// They are known before.
    Arithmetic,
    Original,
    Cache,
    SingleCalls,
}

impl Way {
    const ALL: [Way; 4] = [Way::Arithmetic, Way::Original, Way::Cache, Way::SingleCalls];

    /// Single calls would take minutes for large polynomials.
    fn is_fit_for(self, parts: usize) -> bool {
        !matches!(self, Way::SingleCalls) || parts == 1
    }
}

/// A polynomial, and what is known of its reduction by the original.
struct Job {
    polynomial: Polynomial,
    found: Vec<Option<usize>>,
    reduced: Terms,
    /// That the port's cache lends.
    lists: usize,
}

/// The same basis everywhere.
struct Sides {
    basis: Vec<Rc<RefCell<Element>>>,
    original: oracle::Basis<Grevlex>,
    port: RatioMonomialIndex,
    compat: compat::RatioMonomialIndex<Element>,
}

impl Sides {
    fn new(sample: &Sample, rng: &mut Rng) -> Self {
        let shape = sample.shape;
        let Original::Ratio(original) = sample.original(shape.entries) else {
            panic!("a ratio index");
        };
        let basis = draw_basis(sample, rng);
        let port = RatioMonomialIndex::from_image(sample.port(shape.entries).image);
        Sides {
            compat: compat::RatioMonomialIndex::new(shape.variables, (), &basis),
            port: port.expect("an image of a ratio index"),
            original,
            basis,
        }
    }

    /// A drawn polynomial, reduced by the original and through the cache.
    fn draw_job(&mut self, parts: usize, rng: &mut Rng) -> Job {
        let polynomial = draw_polynomial(&self.basis, parts, rng);
        let mut search = Recording(self.by_original(&polynomial), vec![]);
        let reduced = reduce(&self.basis, polynomial.terms.clone(), &mut search);
        let found = search.1;
        let mut search = ByCache(self.port.reducers(polynomial.signature()));
        reduce(&self.basis, polynomial.terms.clone(), &mut search);
        let lists = search.0.lists();
        Job {
            polynomial,
            found,
            reduced,
            lists,
        }
    }

    /// In each way the polynomial has to be reduced to the same.
    fn time(&mut self, way: Way, job: &Job) -> f64 {
        let terms = job.polynomial.terms.clone();
        let mut reduced = Terms::new();
        let time = timed(|| reduced = self.reduce(way, job, terms));
        assert!(reduced == job.reduced, "{way:?} reduces as the original");
        time
    }

    fn reduce(&mut self, way: Way, job: &Job, terms: Terms) -> Terms {
        let (basis, polynomial) = (&self.basis, &job.polynomial);
        match way {
            Way::Arithmetic => reduce(basis, terms, &mut Recorded(job.found.iter())),
            Way::Original => reduce(basis, terms, &mut self.by_original(polynomial)),
            Way::Cache => {
                let reducers = self.port.reducers(polynomial.signature());
                reduce(basis, terms, &mut ByCache(reducers))
            }
            Way::SingleCalls => {
                let index = &self.compat;
                reduce(basis, terms, &mut BySingleCalls { index, polynomial })
            }
        }
    }

    fn by_original<'a>(&'a self, polynomial: &'a Polynomial) -> ByOriginal<'a> {
        let basis = &self.original;
        ByOriginal { basis, polynomial }
    }
}

/// Answers given before.
struct Recorded<'a>(slice::Iter<'a, Option<usize>>);

impl Search for Recorded<'_> {
    fn find(&mut self, _: &Monomial, _: &Terms) -> Option<usize> {
        *self.0.next().expect("the same searches again")
    }
}

/// A search whose answers are noted.
struct Recording<S>(S, Vec<Option<usize>>);

impl<S: Search> Search for Recording<S> {
    fn find(&mut self, term: &Monomial, others: &Terms) -> Option<usize> {
        let found = self.0.find(term, others);
        self.1.push(found);
        found
    }
}

struct ByOriginal<'a> {
    basis: &'a oracle::Basis<Grevlex>,
    polynomial: &'a Polynomial,
}

impl Search for ByOriginal<'_> {
    fn find(&mut self, term: &Monomial, _: &Terms) -> Option<usize> {
        let ratio = self.polynomial.ratio(term);
        let found = self
            .basis
            .find_a_reducer(self.polynomial.index, ratio, term);
        found
            .filter(|(_, is_singular)| !is_singular)
            .map(|(number, _)| number as usize)
    }
}

struct ByCache<'a>(Reducers<'a>);

impl Search for ByCache<'_> {
    fn find(&mut self, term: &Monomial, others: &Terms) -> Option<usize> {
        let others = others.keys().rev().map(Lent);
        let found = self.0.find_a_reducer_with(&Lent(term), others);
        let found = found.expect("a monomial");
        found
            .filter(|reducer| reducer.kind == ReducerKind::Regular)
            .map(|reducer| reducer.entry.index())
    }
}

/// As code written for the original searches.
struct BySingleCalls<'a> {
    index: &'a compat::RatioMonomialIndex<Element>,
    polynomial: &'a Polynomial,
}

impl Search for BySingleCalls<'_> {
    fn find(&mut self, term: &Monomial, _: &Terms) -> Option<usize> {
        let ratio = Query {
            index: self.polynomial.index,
            ratio: Lent(self.polynomial.ratio(term)),
        };
        let found = self.index.find_a_reducer(&ratio, Lent(term))?;
        let found = found.borrow();
        let is_singular = (found.index, &found.ratio) == (ratio.index, &ratio.ratio.0);
        (!is_singular).then_some(found.number)
    }
}

struct Query {
    index: u32,
    ratio: Lent<Monomial>,
}

impl HasRatio for Query {
    type Monomial = Lent<Monomial>;

    fn ratio(&self) -> Ratio<'_, Lent<Monomial>> {
        Ratio::new(self.index, &self.ratio)
    }
}
