//! Jobs as words, with the original's answers and a checksum of the model's
//! image, for the program crates/call_replay.

use super::{Job, Mode};
use crate::{
    compare::compare,
    model::{image::encode, mutation::Rules, Index, Kind},
    original_run::Original,
    tally::Tally,
    words::calls,
};

/// Words of an image that the program has room for.
const IMAGE: usize = 65_536;

/// The sample of every mode: the first jobs that are short and in which what
/// the mode is after comes about.
pub fn sample() -> Vec<u32> {
    let of_mode = |mode| {
        let (count, length) = size(mode);
        let records = (0..).filter_map(move |seed| record(mode, seed, length));
        records.take(count).flatten()
    };
    Mode::REPLAYED.iter().copied().flat_map(of_mode).collect()
}

/// How many jobs of a mode, and the most words of one.
fn size(mode: Mode) -> (usize, usize) {
    match mode {
        Mode::Small | Mode::Malformed | Mode::Capacity => (8, 500),
        _ => (2, 1_500),
    }
}

/// A record: its own length, mode, kind, variables, capacity, the image's
/// checksum at the end, the maxima, and the lists, which are lent one after the
/// other. A list has its length and that of its answers in front of both. All
/// lengths are in words.
fn record(mode: Mode, seed: u64, length: usize) -> Option<Vec<u32>> {
    let (job, answers) = served(Job::new(mode, seed));
    let tally = compare(&job, Rules::document_01()).expect("original and model agree");
    let mut model = Index::open(&job.opening, Rules::document_01());
    model.run(&job.list, answers.len()).expect("a list");
    let image = encode(&model.state());

    let opening = &job.opening;
    let head = [
        mode as u32,
        u32::from(opening.kind == Kind::Ratio),
        opening.maxima.len() as u32,
        opening.capacity as u32,
        checksum(&image),
    ];
    let maxima: Vec<u32> = opening.maxima.iter().map(|&x| x as u32).collect();
    let lists = lists(&job.list, &answers, 1 + seed as usize % 4);
    let rest = [&head[..], &maxima, &lists].concat();
    let fits = rest.len() < length && image.len() <= IMAGE;
    (fits && shows(mode, &tally)).then(|| [vec![1 + rest.len() as u32], rest].concat())
}

/// The job without the calls in which the original panics, and the original's
/// answers to the others.
fn served(job: Job) -> (Job, Vec<u32>) {
    let mut original = Original::open(&job.opening);
    let asked = calls(&job.list).filter_map(|call| Some((call, original.call(call).ok()?)));
    let (kept, answers): (Vec<&[u32]>, Vec<u32>) = asked.unzip();
    let list = kept.concat();
    (Job { list, ..job }, answers)
}

/// The calls and answers in so many lists.
fn lists(list: &[u32], answers: &[u32], count: usize) -> Vec<u32> {
    let calls: Vec<&[u32]> = calls(list).collect();
    let step = calls.len().div_ceil(count).max(1);
    let parts = calls.chunks(step).zip(answers.chunks(step));
    let words = parts.map(|(calls, answers)| {
        let list = calls.concat();
        let lengths = [list.len() as u32, answers.len() as u32];
        [&lengths[..], &list, answers].concat()
    });
    words.flatten().collect()
}

/// Whether what the mode is after came about.
fn shows(mode: Mode, tally: &Tally) -> bool {
    match mode {
        Mode::Small => true,
        Mode::Malformed | Mode::Capacity => tally.refusals > 0,
        Mode::Rising | Mode::Falling | Mode::Crowding => tally.rebuilds > 0 && tally.splits > 0,
        Mode::Repeats => tally.calls > 64,
        _ => tally.splits > 0,
    }
}

fn checksum(image: &[u32]) -> u32 {
    let add = |sum: u32, &word: &u32| sum.wrapping_mul(31).wrapping_add(word);
    image.iter().fold(0, add)
}
