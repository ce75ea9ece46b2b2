//! Shrinks a job that shows something to a short one that still does, by
//! proptest's search.

use proptest::{
    strategy::ValueTree,
    test_runner::{Config, TestCaseError, TestError, TestRunner},
};

use super::Job;
use crate::words::{calls, kind, VARIABLE};

/// Powers up to this are lowered one by one too.
const SMALL: u32 = 64;

/// Steps that are tried at most.
const STEPS: u32 = 100_000;

/// The job without calls, and with low powers, as far as it still shows.
pub fn shrunk(job: &Job, shows: impl Fn(&Job) -> bool) -> Job {
    let config = Config {
        max_shrink_iters: STEPS,
        failure_persistence: None,
        ..Config::default()
    };
    let shown = |list: Vec<u32>| match shows(&Job {
        list,
        ..job.clone()
    }) {
        true => Err(TestCaseError::fail("shows")),
        false => Ok(()),
    };
    match TestRunner::new(config).run_one(Calls::new(&job.list), shown) {
        Err(TestError::Fail(_, list)) => Job {
            list,
            ..job.clone()
        },
        _ => job.clone(),
    }
}

/// The calls of a job, and the next step to make them fewer or lower.
struct Calls {
    calls: Vec<Vec<u32>>,
    /// The calls before the last step.
    before: Vec<Vec<u32>>,
    /// How many calls there were when single ones were last tried from the first
    /// on.
    tried: usize,
    step: Step,
}

#[derive(Clone, Copy)]
enum Step {
    /// Take so many calls away, from this one on.
    Remove { count: usize, at: usize },
    /// Lower the power in a word, once it can't be fewer calls.
    Lower { call: usize, word: usize, by: By },
}

#[derive(Clone, Copy)]
enum By {
    ToOne,
    Half,
    One,
}

impl Calls {
    fn new(list: &[u32]) -> Self {
        let calls: Vec<Vec<u32>> = calls(list).map(<[_]>::to_vec).collect();
        Calls {
            before: calls.clone(),
            tried: usize::MAX,
            step: Step::Remove {
                count: calls.len().div_ceil(2).max(1),
                at: 0,
            },
            calls,
        }
    }

    /// Makes the next step that changes something; the place of it stays, since
    /// after a step that is kept the same place has other calls.
    fn go_on(&mut self) -> bool {
        self.before.clone_from(&self.calls);
        loop {
            match self.step {
                Step::Remove { count, at } if at < self.calls.len() => {
                    let end = self.calls.len().min(at + count);
                    self.calls.drain(at..end);
                    return true;
                }
                Step::Remove { count: 1, .. } if self.calls.len() < self.tried => {
                    self.tried = self.calls.len();
                    self.step = Step::Remove { count: 1, at: 0 };
                }
                Step::Remove { count: 1, .. } => {
                    self.step = Step::Lower {
                        call: 0,
                        word: 1,
                        by: By::ToOne,
                    };
                }
                Step::Remove { count, .. } => {
                    let count = count.div_ceil(2);
                    self.step = Step::Remove { count, at: 0 };
                }
                Step::Lower { call, .. } if call >= self.calls.len() => return false,
                Step::Lower { call, word, by } => {
                    if lower(&mut self.calls[call], word, by) {
                        return true;
                    }
                    self.pass();
                }
            }
        }
    }

    /// Goes past the step that was made, or that changes nothing.
    fn pass(&mut self) {
        self.step = match self.step {
            Step::Remove { count, at } => Step::Remove {
                count,
                at: at + count,
            },
            Step::Lower { call, word, by } => {
                let next = |by| Step::Lower { call, word, by };
                match by {
                    By::ToOne => next(By::Half),
                    By::Half => next(By::One),
                    By::One => self.next_word(call, word),
                }
            }
        };
    }

    fn next_word(&self, call: usize, word: usize) -> Step {
        let by = By::ToOne;
        match self.calls.get(call) {
            Some(words) if word + 1 < words.len() => Step::Lower {
                call,
                word: word + 1,
                by,
            },
            _ => Step::Lower {
                call: call + 1,
                word: 1,
                by,
            },
        }
    }
}

/// Lowers the power of a variable of a monomial, and tells whether it could.
fn lower(call: &mut [u32], at: usize, by: By) -> bool {
    let Some(word) = call.get_mut(at).filter(|word| kind(**word) == VARIABLE) else {
        return false;
    };
    let power = *word & 0xFFFF;
    let lower = match by {
        By::ToOne => 1,
        By::Half => power / 2,
        By::One if power > SMALL => return false,
        By::One => power.saturating_sub(1),
    };
    if lower == 0 || lower >= power {
        return false;
    }
    *word = *word & 0xFFFF_0000 | lower;
    true
}

impl ValueTree for Calls {
    type Value = Vec<u32>;

    fn current(&self) -> Vec<u32> {
        self.calls.concat()
    }

    /// The calls still show it: make another step.
    fn simplify(&mut self) -> bool {
        self.go_on()
    }

    /// They no longer do: take the last step back and make the next.
    fn complicate(&mut self) -> bool {
        self.calls.clone_from(&self.before);
        self.pass();
        self.go_on()
    }
}
