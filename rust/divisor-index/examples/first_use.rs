// The first use from Rust in the repository's README.

fn main() -> Result<(), divisor_index::Refusal> {
    use divisor_index::{Config, MonomialBatch, MonomialIndex};
    let mut index = MonomialIndex::open(&Config::new(4, 100)?); // 4 variables, capacity 100
    index.insert(&[(0, 2)])?; // x0^2
    assert!(index.contains_divisor(&[(0, 3)])?); // x0^3
    let mut batch = MonomialBatch::new(); // many calls, one check of the image
    let inserted = batch.insert(&[(3, 2), (0, 1)]); // x3^2 · x0
    let refused = batch.insert(&[(4, 1)]); // there is no x4
    let found = batch.contains_divisor(&[(1, 1)]); // x1
    let answers = index.run(&batch)?;
    assert_eq!(answers.get(inserted)?.get(), 1); // its number
    assert!(answers.get(refused).is_err() && !answers.get(found)?);
    Ok(())
}
