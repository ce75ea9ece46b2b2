//! Every method on the deepest tree, in a thread with the stack that is promised
//! to suffice.

use std::thread;

use divisor_index::{MonomialBatch, MonomialIndex, Refusal, STACK};

/// A full index of one variable, whose tree is as deep as its 4,096 entries. They
/// are x0 to the powers 0 to 4,095.
const CHAIN: &[u8] = include_bytes!("../../../crates/stack_case/stdin");

#[test]
fn deepest_tree() {
    let thread = thread::Builder::new().stack_size(STACK);
    thread.spawn(every_method).unwrap().join().unwrap();
}

fn every_method() {
    let mut index = MonomialIndex::from_image(CHAIN.to_vec()).unwrap();
    assert_eq!(index.len(), 4096);
    assert_eq!(index.insert(&[]), Err(Refusal::Full));
    assert_eq!(index.contains_divisor(&[(0, 4096)]), Ok(true));
    let mut batch = MonomialBatch::new();
    let found = batch.contains_divisor(&[(0, 1)]);
    let answers = index.run(&batch).unwrap();
    assert_eq!(answers.get(found), Ok(true));
    assert_eq!(index.to_vec().unwrap().len(), 4096);
    assert_eq!(index.reopened(&index.config()).unwrap().len(), 4096);
}
