//! The wrappers on document 01's worked cases, a refusal of each number that
//! they can meet, and all archives in one program.

use std::cmp::Ordering;

use divisor_index::{
    divmask::{DivMap, DivMaskTestResult, MaximumExponentsTracker},
    fast_compare::{self, ComparerMap},
    image, monomial, ratio, Refusal, UnknownNumber,
};

/// x3^2 · x0.
const A: [u32; 3] = [0x1003_0002, 0x1000_0001, 2];
/// x3 · x1.
const B: [u32; 3] = [0x1003_0001, 0x1001_0001, 2];
const ONE: [u32; 1] = [0];

#[test]
fn monomials() {
    assert_eq!(monomial::gcd(4, &A, &B), Ok(vec![0x1003_0001, 1]));
    let product = vec![0x1003_0003, 0x1001_0001, 0x1000_0001, 3];
    assert_eq!(monomial::mul(4, &A, &B), Ok(product.clone()));
    assert_eq!(
        monomial::whole_division(4, &product, &B),
        Ok(Some(A.to_vec()))
    );
    assert_eq!(monomial::whole_division(4, &A, &B), Ok(None));
    assert_eq!(monomial::divides(4, &A, &B), Ok(false));
    assert_eq!(monomial::divides(4, &A, &product), Ok(true));
    assert_eq!(monomial::eq(4, &A, &A), Ok(true));
    assert_eq!(monomial::eq(4, &A, &B), Ok(false));
}

#[test]
fn order() {
    let (square, mixed) = ([0x1001_0002, 1], [0x1001_0001, 0x1000_0001, 2]);
    assert_eq!(monomial::ord(2, &square, &mixed), Ok(Ordering::Greater));
    assert_eq!(monomial::ord(2, &mixed, &square), Ok(Ordering::Less));
    assert_eq!(monomial::ord(2, &square, &square), Ok(Ordering::Equal));
}

/// x1^2 / (x1^2 · x0) is x0^-1, which is below one.
#[test]
fn ratios() {
    let lm = [0x1001_0002, 0x1000_0001, 2];
    let below = [0x2000_7FFF, 1];
    assert_eq!(
        monomial::fraction_division(2, &[0x1001_0002, 1], &lm),
        Ok(below.to_vec())
    );
    assert_eq!(ratio::ord(2, &below, &ONE), Ok(Ordering::Less));
    assert_eq!(ratio::eq(2, &below, &below), Ok(true));
    assert_eq!(ratio::eq(2, &below, &ONE), Ok(false));
}

#[test]
fn refusals() {
    assert_eq!(monomial::gcd(0, &ONE, &ONE), Err(Refusal::Parameters));
    assert_eq!(monomial::gcd(3, &A, &ONE), Err(Refusal::NotCanonical));
    assert_eq!(ratio::eq(4, &A, &ONE), Err(Refusal::NotCanonical));
    let highest = [0x1000_7FFF, 1];
    assert_eq!(
        monomial::mul(1, &highest, &highest),
        Err(Refusal::PowerTooLarge)
    );
    for refusal in Refusal::ALL {
        assert_eq!(Refusal::check(refusal.number()), Err(refusal));
        assert_eq!(Refusal::try_from(refusal.number()), Ok(refusal));
    }
    for number in [0, 11, u32::MAX] {
        assert_eq!(Refusal::try_from(number), Err(UnknownNumber(number)));
    }
}

#[test]
fn masks() {
    let mut tracker = MaximumExponentsTracker::new(1);
    tracker.update(&[0x1000_0021, 1]).unwrap();
    assert_eq!(tracker.max_exponents(), [33]);
    let map = DivMap::new(&tracker);
    let mask = |power: u32| map.map(&[0x1000_0000 + power, 1]).unwrap();
    assert_eq!(
        [1, 2, 32, 33].map(|power| mask(power).0),
        [0, 1, 0x7FFF_FFFF, 0xFFFF_FFFF]
    );
    assert_eq!(mask(33).divides(&mask(32)), DivMaskTestResult::NotDivisible);
    assert_eq!(mask(32).divides(&mask(33)), DivMaskTestResult::Unsure);
    assert_eq!(map.map(&[0x1001_0001, 1]), Err(Refusal::NotCanonical));
}

#[test]
fn maxima() {
    let mut tracker = MaximumExponentsTracker::new(2);
    tracker.update(&[0x1001_0001, 0x1000_0005, 2]).unwrap();
    assert_eq!(tracker.max_exponents(), [1, 1]);
    tracker.update(&[0x1001_0002, 0x1000_0002, 2]).unwrap();
    assert_eq!(tracker.max_exponents(), [2, 2]);
    assert_eq!(tracker.has_grown_beyond_percentage(49), Ok(true));
    assert_eq!(tracker.has_grown_beyond_percentage(50), Ok(false));
    let none = MaximumExponentsTracker::new(0);
    assert_eq!(
        none.has_grown_beyond_percentage(0),
        Err(Refusal::Parameters)
    );
}

/// x0^power.
fn ratio_of(power: i32) -> [u32; 2] {
    [0x2000_8000_u32.wrapping_add_signed(power), 1]
}

#[test]
fn labels() {
    let mut map = ComparerMap::new(1, 3).unwrap();
    assert_eq!(map.get_comparer(0, &ONE), Ok(2_147_483_647));
    assert_eq!(map.get_comparer(0, &ratio_of(-1)), Ok(1_073_741_823));
    assert_eq!(map.get_comparer(1, &ratio_of(-2)), Ok(3_221_225_471));
    assert_eq!(map.get_comparer(0, &ratio_of(1)), Err(Refusal::Full));
    assert_eq!(map.get_comparer(0, &[1]), Err(Refusal::NotCanonical));
    assert_eq!(map.get_comparer(1 << 28, &ONE), Err(Refusal::NotCanonical));
    assert_eq!(map.rebuild(), Ok(()));
    assert_eq!(map.get_comparer(0, &ONE), Ok(2_147_483_647));

    let mut lent = map.into_image();
    lent[0] ^= 1;
    let mut map = ComparerMap::from_image(&mut lent[..]);
    assert_eq!(map.get_comparer(0, &ONE), Err(Refusal::Unsound));
    assert_eq!(map.rebuild(), Err(Refusal::Unsound));
}

#[test]
fn falling_labels_run_out() {
    let mut map = ComparerMap::new(1, 40).unwrap();
    for power in 1..=32 {
        let label = (1_u64 << (32 - power)) - 1;
        assert_eq!(map.get_comparer(0, &ratio_of(-power)), Ok(label as u32));
    }
    assert_eq!(map.get_comparer(0, &ratio_of(-33)), Err(Refusal::NoLabel));
    assert_eq!(map.rebuild(), Ok(()));
    assert_eq!(map.get_comparer(0, &ratio_of(-33)), Ok(0x3E0_F83D));
}

#[test]
fn map_openings() {
    assert_eq!(fast_compare::length(1, 3), Ok(76));
    assert_eq!(fast_compare::length(65, 3), Err(Refusal::Parameters));
    assert_eq!(ComparerMap::new(1, 4097), Err(Refusal::Parameters));
    let mut short = [0xEE; 75];
    let opened = ComparerMap::open(1, 3, &mut short[..]);
    assert_eq!(opened.err(), Some(Refusal::Buffer));
    assert_eq!(short, [0xEE; 75]);
}

/// A monomial index of one variable and capacity 1 that holds x0.
#[test]
fn images() {
    let mut words = [0; 24 + 2 + 4 + 1 + 7];
    words[..6].copy_from_slice(&[1, 0, 1, 1, 1, 1]);
    words[24..31].copy_from_slice(&[1, 1, 0x1000_0001, 1, u32::MAX, 1, 0]);
    words[31..].copy_from_slice(&[0, 0, 1, 0, u32::MAX, 0x1000_0001, 1]);
    let mut lent: Vec<u8> = words.iter().flat_map(|word| word.to_le_bytes()).collect();
    assert_eq!(image::check(&lent[..151]), Err(Refusal::Unsound));
    assert_eq!(image::check(&lent), Ok(()));
    lent.push(0xEE);
    assert_eq!(image::check(&lent), Ok(()));
    lent[4 * 33] = 2;
    assert_eq!(image::check(&lent), Err(Refusal::Unsound));
}
