//! How much stack the port needs for the deepest trees.

use std::{
    io,
    path::Path,
    process::{Command, Stdio},
    thread,
};

use divisor_index::doors;

use super::chains::{full, Form};
use crate::{
    model::{image::encode, Kind},
    port::bytes,
    words::{monomial_words, ratio_words, word, CALL, INDEX, MAX_CAPACITY, MAX_POWER},
};

/// Stacks are tried in steps of a page.
const PAGE: usize = 4096;

/// No thread of Linux has less.
const LEAST: usize = 4 * PAGE;

/// More than the port may need.
const MOST: usize = 8 << 20;

/// The image of a full index of one variable.
pub fn deepest(kind: Kind, form: Form) -> Vec<u8> {
    bytes(&encode(&full(kind, 1, MAX_CAPACITY, form)))
}

/// Every call that the index serves, with a monomial that all entries divide,
/// so that a search for the largest ratio visits all of them.
fn calls(kind: Kind) -> Vec<u8> {
    let large = monomial_words([(0, MAX_POWER)]);
    let ratio = ratio_words([(0, MAX_POWER)]);
    let (index, one) = (vec![word(INDEX, 0)], monomial_words([]));
    let bodies = match kind {
        Kind::Monomial => vec![(0, large.clone()), (1, large), (1, one)],
        Kind::Ratio => vec![
            (2, [&index[..], &large, &large].concat()),
            (3, [&index[..], &ratio, &large].concat()),
            (4, [&index[..], &ratio, &large].concat()),
            (5, [&index[..], &large].concat()),
            (6, [&index[..], &large, &one].concat()),
        ],
    };
    let call = |(number, body): (u32, Vec<u32>)| [vec![word(CALL, number)], body].concat();
    bytes(&bodies.into_iter().flat_map(call).collect::<Vec<u32>>())
}

/// What the port returns for an image, a list of all calls on it and its listing,
/// in a thread with so many bytes of stack. If they are too few, the process ends.
fn serve_in_thread(kind: Kind, mut image: Vec<u8>, stack: usize) -> u32 {
    let thread = thread::Builder::new().stack_size(stack);
    let mut answers = [0; 64];
    let list = calls(kind);
    let thread = thread.spawn(move || {
        let run = doors::divisor_index_run(&mut image, &list, &mut answers);
        let listed = match kind {
            Kind::Monomial => doors::divisor_index_list(&image, &mut vec![0; 8 * MAX_CAPACITY]),
            Kind::Ratio => 0,
        };
        doors::divisor_index_check(&image) + run + listed
    });
    thread.expect("a thread").join().expect("a number")
}

/// The least stack that suffices for a form, found by halving.
pub fn least(images: &Path, kind: Kind, form: Form) -> io::Result<usize> {
    let (mut low, mut high) = (LEAST - PAGE, MOST);
    while high - low > PAGE {
        let middle = low.midpoint(high) / PAGE * PAGE;
        match suffices(images, kind, form, middle)? {
            true => high = middle,
            false => low = middle,
        }
    }
    Ok(high)
}

/// Whether a stack suffices, tried in a process of its own: the program `images`
/// with `stack`, the names of kind and form, and the bytes.
pub fn suffices(images: &Path, kind: Kind, form: Form, stack: usize) -> io::Result<bool> {
    let mut program = Command::new(images);
    program.args(["stack", &format!("{kind:?}"), &format!("{form:?}")]);
    program.arg(stack.to_string());
    program.stdout(Stdio::null()).stderr(Stdio::null());
    Ok(program.status()?.success())
}

/// One such try, from the words after `stack`.
pub fn try_out(words: &[String]) -> Option<bool> {
    let [kind_name, form_name, stack] = words else {
        return None;
    };
    let mut kinds = [Kind::Monomial, Kind::Ratio].into_iter();
    let kind = kinds.find(|kind| format!("{kind:?}") == *kind_name)?;
    let mut forms = Form::ALL.into_iter();
    let form = forms.find(|form| format!("{form:?}") == *form_name)?;
    Some(serve_in_thread(kind, deepest(kind, form), stack.parse().ok()?) == 0)
}
