//! The indexes of the crate for the solver, by their typed calls, held against
//! the model. Calls that no typed call can be, since their words are malformed,
//! are left out on both sides.

use divisor_index::{
    Answers, Config, EntryNumber, MonomialBatch, MonomialIndex, Ratio, RatioBatch,
    RatioMonomialIndex, Reducer, ReducerKind, Refusal, Signature,
};

use crate::{
    jobs::{Cut, Job},
    model::{
        calls::{Call, Search},
        image::encode,
        mutation::Rules,
        powers::Powers,
        Index, Kind, Opening,
    },
    port::bytes,
    words::{found, monomial_words, word, ANSWER, REFUSAL, SINGULAR},
};

/// Runs a job's lists as batches, or call by call where lists end with searches.
/// Gives the number of calls.
pub fn compare(job: &Job) -> Result<usize, String> {
    let opening = &job.opening;
    let mut model = Index::open(opening, Rules::document_01());
    let mut typed = Typed::open(opening).map_err(|refusal| refusal.to_string())?;
    let mut count = 0;
    for list in job.lists() {
        let read = |call: &&[u32]| {
            let variables = opening.maxima.len();
            Call::read(call, opening.kind, variables, Rules::document_01()).ok()
        };
        let (words, calls): (Vec<&[u32]>, Vec<Call>) = list
            .iter()
            .filter_map(|call| Some((*call, read(call)?)))
            .unzip();
        let expected: Vec<u32> = words.iter().map(|call| model.call(call).word).collect();
        let answered = match job.cut {
            Cut::Searches => calls.iter().map(|call| typed.one(call)).collect(),
            Cut::Calls(_) => typed.batch(&calls),
        };
        if answered != expected {
            return Err(format!("answers {answered:x?}, model {expected:x?}"));
        }
        count += calls.len();
    }
    if typed.image() != bytes(&encode(&model.state())) {
        return Err("image".to_owned());
    }
    match typed.listing() == model.list(usize::MAX).ok() {
        true => Ok(count),
        false => Err("listing".to_owned()),
    }
}

enum Typed {
    Monomial(MonomialIndex),
    Ratio(RatioMonomialIndex),
}

/// An answer still to be taken from those of its batch.
type Asked = Box<dyn FnOnce(&Answers) -> u32>;

impl Typed {
    fn open(opening: &Opening) -> Result<Self, Refusal> {
        let maxima: Vec<u32> = opening.maxima.iter().map(|m| *m as u32).collect();
        let config = Config::new(maxima.len() as u32, opening.capacity as u32)?;
        let config = config.with_maxima(&maxima)?;
        Ok(match opening.kind {
            Kind::Monomial => Typed::Monomial(MonomialIndex::open(&config)),
            Kind::Ratio => Typed::Ratio(RatioMonomialIndex::open(&config)),
        })
    }

    fn image(&self) -> &[u8] {
        match self {
            Typed::Monomial(index) => index.image(),
            Typed::Ratio(index) => index.image(),
        }
    }

    /// The words of the listing of a monomial index.
    fn listing(&self) -> Option<Vec<u32>> {
        match self {
            Typed::Monomial(index) => {
                let monomials = index.to_vec().ok()?.into_iter();
                Some(monomials.flat_map(monomial_words).collect())
            }
            Typed::Ratio(_) => None,
        }
    }

    /// The answer word of a single call.
    fn one(&mut self, call: &Call) -> u32 {
        match (self, call) {
            (Typed::Monomial(index), call) => match call {
                Call::InsertMonomial(lm) => answer(index.insert(&vars(lm))),
                Call::Search(Search::Contained(lm)) => answer(index.contains_divisor(&vars(lm))),
                _ => unreachable!("question 6"),
            },
            (Typed::Ratio(index), Call::Insert { index: i, sign, lm }) => {
                answer(index.insert(Signature::new(*i, &vars(sign)), &vars(lm)))
            }
            (Typed::Ratio(index), Call::Search(search)) => one_search(index, search),
            _ => unreachable!("question 6"),
        }
    }

    /// The answer words of a batch.
    fn batch(&mut self, calls: &[Call]) -> Vec<u32> {
        let (asked, answers) = match self {
            Typed::Monomial(index) => {
                let mut batch = MonomialBatch::new();
                let asked: Vec<Asked> = calls.iter().map(|c| ask_monomial(&mut batch, c)).collect();
                (asked, index.run(&batch))
            }
            Typed::Ratio(index) => {
                let mut batch = RatioBatch::new();
                let asked: Vec<Asked> = calls.iter().map(|c| ask_ratio(&mut batch, c)).collect();
                (asked, index.run(&batch))
            }
        };
        let answers = answers.expect("a list that is served");
        asked.into_iter().map(|asked| asked(&answers)).collect()
    }
}

fn one_search(index: &mut RatioMonomialIndex, search: &Search) -> u32 {
    match search {
        Search::Reducer { ratio, lm } => {
            let monomial = vars(&ratio.monomial);
            answer(index.find_a_reducer(Ratio::new(ratio.index, &monomial), &vars(lm)))
        }
        Search::High { ratio, lm } => {
            let monomial = vars(&ratio.monomial);
            answer(index.find_high_base_divisor(Ratio::new(ratio.index, &monomial), &vars(lm)))
        }
        Search::Low { index: i, sign } => {
            answer(index.find_low_base_divisor(Signature::new(*i, &vars(sign))))
        }
        Search::Singular { index: i, sign, lm } => {
            answer(index.test_singular_criterion(Signature::new(*i, &vars(sign)), &vars(lm)))
        }
        Search::Contained(_) => unreachable!("question 6"),
    }
}

fn ask_monomial(batch: &mut MonomialBatch, call: &Call) -> Asked {
    match call {
        Call::InsertMonomial(lm) => {
            let ticket = batch.insert(&vars(lm));
            Box::new(move |answers| answer(answers.get(ticket)))
        }
        Call::Search(Search::Contained(lm)) => {
            let ticket = batch.contains_divisor(&vars(lm));
            Box::new(move |answers| answer(answers.get(ticket)))
        }
        _ => unreachable!("question 6"),
    }
}

fn ask_ratio(batch: &mut RatioBatch, call: &Call) -> Asked {
    match call {
        Call::Insert { index, sign, lm } => {
            let ticket = batch.insert(Signature::new(*index, &vars(sign)), &vars(lm));
            Box::new(move |answers| answer(answers.get(ticket)))
        }
        Call::Search(Search::Reducer { ratio, lm }) => {
            let monomial = vars(&ratio.monomial);
            let ticket = batch.find_a_reducer(Ratio::new(ratio.index, &monomial), &vars(lm));
            Box::new(move |answers| answer(answers.get(ticket)))
        }
        Call::Search(Search::High { ratio, lm }) => {
            let monomial = vars(&ratio.monomial);
            let ratio = Ratio::new(ratio.index, &monomial);
            let ticket = batch.find_high_base_divisor(ratio, &vars(lm));
            Box::new(move |answers| answer(answers.get(ticket)))
        }
        Call::Search(Search::Low { index, sign }) => {
            let ticket = batch.find_low_base_divisor(Signature::new(*index, &vars(sign)));
            Box::new(move |answers| answer(answers.get(ticket)))
        }
        Call::Search(Search::Singular { index, sign, lm }) => {
            let sign = vars(sign);
            let signature = Signature::new(*index, &sign);
            let ticket = batch.test_singular_criterion(signature, &vars(lm));
            Box::new(move |answers| answer(answers.get(ticket)))
        }
        _ => unreachable!("question 6"),
    }
}

fn vars(powers: &Powers) -> Vec<(u16, i32)> {
    powers.vars().collect()
}

/// What an answer has as its payload.
trait Payload {
    fn payload(self) -> u32;
}

impl Payload for EntryNumber {
    fn payload(self) -> u32 {
        self.get()
    }
}

impl Payload for bool {
    fn payload(self) -> u32 {
        self.into()
    }
}

impl Payload for Option<EntryNumber> {
    fn payload(self) -> u32 {
        found(self.map(EntryNumber::get))
    }
}

impl Payload for Option<Reducer> {
    fn payload(self) -> u32 {
        let singular = match self.map(|reducer| reducer.kind) {
            Some(ReducerKind::Singular) => SINGULAR,
            _ => 0,
        };
        self.map(|reducer| reducer.entry).payload() + singular
    }
}

/// The word of an answer or refusal.
fn answer<T: Payload>(answer: Result<T, Refusal>) -> u32 {
    match answer {
        Ok(answer) => word(ANSWER, answer.payload()),
        Err(refusal) => word(REFUSAL, refusal.number()),
    }
}
