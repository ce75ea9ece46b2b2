//! Holds the opinions on a job against each other.

use std::ops::Range;

use divisor_index::doors;

use crate::{
    jobs::{is_search, Job, Mode},
    meaning::Held,
    model::{
        divmask::has_grown_beyond_percentage,
        image::encode,
        mutation::{Mutation, Rules},
        query::Panic,
        reach::Reach,
        Index, Kind, Opening, Served,
    },
    original_run::Original,
    port::{bytes, Fault, Port},
    tally::Tally,
    words::{payload, word, ANSWER},
};

/// Where two opinions part.
#[derive(Debug, Clone, PartialEq, Eq)]
pub enum Difference {
    /// Model and original answer a call differently, or one of them panics.
    Answer {
        call: Vec<u32>,
        model: Result<u32, Panic>,
        original: Result<u32, Panic>,
    },
    /// Their trees after a search, as the words of `original::oracle::shown`.
    Tree {
        call: Vec<u32>,
        model: Vec<u32>,
        original: Vec<u32>,
    },
    /// The meanings don't allow the model's answer.
    Meaning { call: Vec<u32>, model: u32 },
    /// Looking at every entry in the tree's order finds something else.
    Pruning { call: Vec<u32>, model: u32 },
    /// Labels, maxima, growth, rebuilds or the listing of model and original.
    Original(Fault),
    /// What port and model make of a list, or of the image after it.
    Port(Fault),
}

/// Runs a job on port, original and model, with these rules for the model, and
/// compares every answer, the trees of original and model after every search,
/// and at the end of every list the port's image and answers, labels, maxima
/// and rebuilds, and after some lists the listing.
///
/// A call in which the original panics must be one in which the model expects
/// that. Then the call is left out beside the original, which can't say what
/// the tree looks like after it, and goes to the port alone.
pub fn compare(job: &Job, rules: Rules) -> Result<Tally, Difference> {
    let mut run = Run::open(&job.opening, rules)?;
    for calls in job.lists() {
        let mut answers = vec![];
        for call in &calls {
            answers.push(run.call(call)?);
        }
        run.end_list(&calls.concat(), &answers)?;
    }
    run.end()
}

struct Run<'a> {
    kind: Kind,
    rules: Rules,
    /// Serves every call, as the port does.
    model: Index,
    held: Held,
    port: Port,
    beside: Beside<'a>,
    tally: Tally,
    lists: usize,
    listings: usize,
}

impl<'a> Run<'a> {
    fn open(opening: &'a Opening, rules: Rules) -> Result<Self, Difference> {
        Ok(Run {
            kind: opening.kind,
            rules,
            model: Index::open(opening, rules),
            held: Held::new(opening.kind, opening.maxima.len()),
            port: Port::open(opening).map_err(Difference::Port)?,
            beside: Beside::open(opening),
            tally: Tally::default(),
            lists: 0,
            listings: 0,
        })
    }

    /// The answer to a call, after original, model and meanings agree.
    fn call(&mut self, call: &'a [u32]) -> Result<u32, Difference> {
        let search = self.model.as_search(call);
        let served = self.model.call(call);
        let panic = self.beside.call(call, served, &self.model, self.rules)?;
        let model = served.word;
        self.tally.count(model, panic);
        let missed = search.is_some_and(|s| self.model.search_unpruned(s) != payload(model));
        if missed {
            let call = call.to_vec();
            return Err(Difference::Pruning { call, model });
        }
        if !self.held.allows(call, model) {
            let call = call.to_vec();
            return Err(Difference::Meaning { call, model });
        }
        Ok(model)
    }

    /// Lends the list to the port, and compares what all three show after it.
    fn end_list(&mut self, list: &[u32], answers: &[u32]) -> Result<(), Difference> {
        self.lists += 1;
        let further = self.lists > 1;
        self.model.reached().count_if(Reach::FurtherList, further);
        self.beside.compare_rest(&self.model)?;
        self.compare_port(list, answers).map_err(Difference::Port)
    }

    fn compare_port(&mut self, list: &[u32], answers: &[u32]) -> Result<(), Fault> {
        if self.port.run(list, answers.len())? != answers {
            return Err("answers");
        }
        if !self.port.has_image(&encode(&self.model.state()))? {
            return Err("image");
        }
        match self.lists % 3 {
            1 => self.compare_listing(),
            _ => Ok(()),
        }
    }

    fn compare_listing(&mut self) -> Result<(), Fault> {
        if self.kind == Kind::Ratio {
            return match self.port.refused_listing(self.lists)? {
                6 => Ok(()),
                _ => Err("a listing of a ratio index"),
            };
        }
        self.listings += 1;
        let further = self.listings > 1;
        self.model
            .reached()
            .count_if(Reach::FurtherListing, further);
        let listing = self.model.list(usize::MAX).expect("a monomial index");
        if self.port.list(listing.len())? != listing {
            return Err("listing");
        }
        let short = (4 * listing.len()).checked_sub(1);
        match short.map(|bytes| self.port.refused_listing(bytes)) {
            None => Ok(()),
            Some(Ok(5)) => Ok(()),
            Some(Ok(_)) => Err("a listing with too little room"),
            Some(Err(fault)) => Err(fault),
        }
    }

    fn end(mut self) -> Result<Tally, Difference> {
        self.compare_listing().map_err(Difference::Port)?;
        self.compare_growth()?;
        self.model.reached().grown(self.model.maxima());
        self.tally.end_job(&self.model, self.lists);
        let Beside {
            original, model, ..
        } = self.beside;
        let model = model.unwrap_or(self.model);
        match original.into_listing() == model.list(usize::MAX).ok() {
            true => Ok(self.tally),
            false => Err(Difference::Original("listing")),
        }
    }

    /// Whether the maxima have grown beyond each percentage around their growth.
    fn compare_growth(&self) -> Result<(), Difference> {
        let model = self.beside.model.as_ref().unwrap_or(&self.model);
        let maxima = model.maxima();
        let original = self.beside.original.maxima();
        let words: Vec<u32> = maxima.iter().map(|maximum| *maximum as u32).collect();
        let variables = maxima.len() as u32;
        for percentage in [0, 50, 97, 98, 99, 100] {
            let grown = has_grown_beyond_percentage(maxima, percentage);
            if original.has_grown_beyond_percentage(percentage) != grown {
                return Err(Difference::Original("growth"));
            }
            let mut out = [0; 4];
            let maxima = bytes(&words);
            let number =
                doors::divisor_index_divmask_growth(variables, &maxima, percentage, &mut out);
            let answer = word(ANSWER, grown.into()).to_le_bytes();
            if (number, out) != (0, answer) {
                return Err(Difference::Port("growth"));
            }
        }
        Ok(())
    }
}

/// The original, and beside it the model without the calls in which the
/// original panics, once there is one.
struct Beside<'a> {
    opening: &'a Opening,
    original: Original<'a>,
    model: Option<Index>,
    /// The trees, kept for their memory.
    trees: [Vec<u32>; 2],
}

impl<'a> Beside<'a> {
    fn open(opening: &'a Opening) -> Self {
        Beside {
            opening,
            original: Original::open(opening),
            model: None,
            trees: [vec![], vec![]],
        }
    }

    /// Serves a call that the whole model answers like this, and gives the
    /// original's panic in it.
    fn call(
        &mut self,
        call: &'a [u32],
        whole: Served,
        model: &Index,
        rules: Rules,
    ) -> Result<Option<Panic>, Difference> {
        let served = match &mut self.model {
            None => whole,
            Some(model) => model.call(call),
        };
        let expected = served.panic.map_or(Ok(served.word), Err);
        let answered = self.original.call(call);
        if expected != answered {
            return Err(Difference::Answer {
                call: call.to_vec(),
                model: expected,
                original: answered,
            });
        }
        if served.panic.is_some() {
            self.replay(rules);
        }
        if is_search(call) {
            self.compare_trees(call, model)?;
        }
        Ok(served.panic)
    }

    /// Makes the model that has served what the original has served.
    fn replay(&mut self, rules: Rules) {
        let mut model = Index::open(self.opening, rules);
        for call in self.original.served() {
            model.call(call);
        }
        self.model = Some(model);
    }

    fn compare_trees(&mut self, call: &[u32], whole: &Index) -> Result<(), Difference> {
        let [model, original] = &mut self.trees;
        model.clear();
        original.clear();
        self.model.as_ref().unwrap_or(whole).show(model);
        self.original.show(original);
        match model == original {
            true => Ok(()),
            false => Err(Difference::Tree {
                call: call.to_vec(),
                model: model.clone(),
                original: original.clone(),
            }),
        }
    }

    /// What the original shows beside its tree and its answers.
    fn compare_rest(&self, whole: &Index) -> Result<(), Difference> {
        let model = self.model.as_ref().unwrap_or(whole);
        let labels = match self.opening.kind {
            Kind::Monomial => vec![],
            Kind::Ratio => model.labels(),
        };
        if labels != self.original.labels() {
            return Err(Difference::Original("labels"));
        }
        if model.maxima() != self.original.maxima().get() {
            return Err(Difference::Original("maxima"));
        }
        match model.rebuilds() == self.original.rebuilds() {
            true => Ok(()),
            false => Err(Difference::Original("rebuilds")),
        }
    }
}

/// The first job that noticed a wrong rule.
#[derive(Debug)]
pub struct Noticed {
    pub mode: Mode,
    pub seed: u64,
    pub jobs: usize,
    pub difference: Difference,
}

/// Runs jobs on a model with a wrong rule, each seed in every mode, until one
/// notices.
pub fn notice(mutation: Mutation, seeds: Range<u64>) -> Option<Noticed> {
    let jobs = seeds.flat_map(|seed| Mode::ALL.map(|mode| (mode, seed)));
    (1..).zip(jobs).find_map(|(jobs, (mode, seed))| {
        let difference = compare(&Job::new(mode, seed), Rules::but(mutation)).err()?;
        Some(Noticed {
            mode,
            seed,
            jobs,
            difference,
        })
    })
}
