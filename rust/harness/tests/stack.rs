//! Every call, and the check, on the deepest trees.

use std::path::Path;

use harness::{
    images::{chains::Form, stack::suffices},
    model::Kind,
};

/// A branch over one leaf, 4,095 times, on either side.
#[test]
fn deepest_trees_on_one_mebibyte_of_stack() {
    let images = Path::new(env!("CARGO_BIN_EXE_images"));
    for kind in [Kind::Monomial, Kind::Ratio] {
        for form in [Form::LessLeaves, Form::OtherLeaves] {
            let suffices = suffices(images, kind, form, 1 << 20).unwrap();
            assert!(suffices, "{kind:?} {form:?}");
        }
    }
}
