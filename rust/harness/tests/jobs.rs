//! A moderate number of jobs of every mode on port, original and model, what
//! they reach, the mutation check, and the jobs that the gate replays.

use harness::{
    compare::{compare, notice, Difference},
    jobs::{record::sample, shrink::shrunk, Cut, Job, Mode},
    model::{
        mutation::{Mutation, Rules},
        Kind, Opening,
    },
    tally::Tally,
    typed,
    words::{calls, monomial_words, word, CALL},
};

/// Seeds from here on have lists of all lengths.
const FIRST: u64 = 1000;
const JOBS: u64 = 250;
const TYPED: u64 = 40;
const ROUNDS: u64 = 60;

/// Port, original and model agree, and every place that the jobs are after is
/// reached.
#[test]
fn all_agree() {
    let mut all = Tally::default();
    for mode in Mode::ALL {
        for seed in FIRST..FIRST + JOBS {
            match compare(&Job::new(mode, seed), Rules::document_01()) {
                Ok(tally) => all += tally,
                Err(difference) => panic!("{mode:?} seed {seed}: {difference:x?}"),
            }
        }
    }
    assert!(
        all.unreached().is_empty(),
        "not reached: {:?}",
        all.unreached()
    );
}

/// The typed indexes of the crate for the solver, as batches and call by call.
#[test]
fn typed_calls_agree_with_the_model() {
    for mode in Mode::ALL {
        for seed in FIRST..FIRST + TYPED {
            let compared = typed::compare(&Job::new(mode, seed));
            assert!(compared.is_ok(), "{mode:?} seed {seed}: {compared:?}");
        }
    }
}

#[test]
fn every_wrong_rule_is_noticed() {
    for mutation in Mutation::ALL.iter().copied() {
        assert!(notice(mutation, 0..ROUNDS).is_some(), "{mutation:?}");
    }
}

/// Maxima 10, 10; x0^9 to x0^74 inserted, x0 asked for, x1 inserted, x1^2 asked
/// for: the last search finds x1 only if its insert lowered the root's gcd.
#[test]
fn an_insert_lowers_the_branches_above_it() {
    let call = |number, id, power| [vec![word(CALL, number)], monomial_words([(id, power)])];
    let inserts = (9..=74).map(|power| call(0, 0, power));
    let rest = [call(1, 0, 1), call(0, 1, 1), call(1, 1, 2)];
    let job = Job {
        opening: Opening {
            kind: Kind::Monomial,
            capacity: 100,
            maxima: vec![10, 10],
        },
        list: inserts.chain(rest).flatten().flatten().collect(),
        cut: Cut::Searches,
    };
    compare(&job, Rules::document_01()).unwrap();
    let noticed = compare(&job, Rules::but(Mutation::LoweringLeftOut));
    assert!(matches!(noticed, Err(Difference::Answer { .. })));
}

/// A job in which an insert lowers a branch shrinks to about as many calls as
/// are needed: 65 inserts and a search for the split, an insert that lowers, and
/// a search after which trees are compared.
#[test]
fn a_job_shrinks_to_what_shows_a_wrong_rule() {
    let mutation = Mutation::LoweringLeftOut;
    let noticed = notice(mutation, 0..ROUNDS).expect("a job that notices");
    let job = Job::new(noticed.mode, noticed.seed);
    let notices = |job: &Job| compare(job, Rules::but(mutation)).is_err();
    let short = shrunk(&job, notices);
    assert!(notices(&short));
    let count = calls(&short.list).count();
    assert!((67..=68).contains(&count), "{count} calls");
}

#[test]
fn replayed_jobs_are_as_the_original_answers() {
    let stored = include_bytes!("../../../crates/call_replay/stdin");
    let bytes: Vec<u8> = sample().into_iter().flat_map(u32::to_le_bytes).collect();
    assert!(bytes == stored, "rust/make-replay writes them again");
}
