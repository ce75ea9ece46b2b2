//! The port's check of an index image.

use std::thread;

use harness::images::{
    compare,
    samples::{headers, random_images, small_images},
    Tally,
};

const RANDOM: u64 = 40_000;

#[test]
fn small_images_with_every_change() {
    let mut tally = Tally::default();
    small_images(&mut |image: &[u8]| compare(image, &mut tally)).unwrap();
}

/// The deepest trees are among them, so there is stack enough for any.
#[test]
fn headers_at_their_limits() {
    let thread = thread::Builder::new().stack_size(64 << 20);
    let compared = thread.spawn(|| {
        let mut tally = Tally::default();
        headers(&mut |image: &[u8]| compare(image, &mut tally))
    });
    compared.unwrap().join().unwrap().unwrap();
}

#[test]
fn random_ones() {
    let mut tally = Tally::default();
    random_images(RANDOM, 1, &mut |image: &[u8]| compare(image, &mut tally)).unwrap();
}
