use super::{
    words::{push_monomial, push_quotient, word, CALL, INDEX},
    Product, Ratio, Signature, SignatureIndex,
};

/// A list of calls, as the words that are lent.
#[derive(Debug, Clone, Default)]
pub struct CallList {
    words: Vec<u32>,
    calls: usize,
}

impl CallList {
    pub fn clear(&mut self) {
        self.words.clear();
        self.calls = 0;
    }

    pub fn words(&self) -> &[u32] {
        &self.words
    }

    /// The number of calls.
    pub fn len(&self) -> usize {
        self.calls
    }

    pub fn insert_monomial(&mut self, lm: &(impl Product + ?Sized)) {
        self.call(0).monomial(lm);
    }

    pub fn contains_divisor(&mut self, monomial: &(impl Product + ?Sized)) {
        self.call(1).monomial(monomial);
    }

    pub fn insert<S, L>(&mut self, signature: Signature<'_, S>, lm: &L)
    where
        S: Product + ?Sized,
        L: Product + ?Sized,
    {
        self.call(2).signature(signature).monomial(lm);
    }

    pub fn find_a_reducer<R, L>(&mut self, ratio: Ratio<'_, R>, lm: &L)
    where
        R: Product + ?Sized,
        L: Product + ?Sized,
    {
        self.call(3).ratio(ratio).monomial(lm);
    }

    /// The same, from words as they stand.
    pub fn find_a_reducer_of_words(&mut self, index: SignatureIndex, quotient: &[u32], lm: &[u32]) {
        self.call(3).index(index).push(quotient).push(lm);
    }

    pub fn find_high_base_divisor<R, L>(&mut self, ratio: Ratio<'_, R>, lm: &L)
    where
        R: Product + ?Sized,
        L: Product + ?Sized,
    {
        self.call(4).ratio(ratio).monomial(lm);
    }

    pub fn find_low_base_divisor<S>(&mut self, signature: Signature<'_, S>)
    where
        S: Product + ?Sized,
    {
        self.call(5).signature(signature);
    }

    pub fn test_singular_criterion<S, L>(&mut self, signature: Signature<'_, S>, lm: &L)
    where
        S: Product + ?Sized,
        L: Product + ?Sized,
    {
        self.call(6).signature(signature).monomial(lm);
    }

    fn call(&mut self, number: u32) -> &mut Self {
        self.calls += 1;
        self.push(&[word(CALL, number)])
    }

    fn signature<S: Product + ?Sized>(&mut self, signature: Signature<'_, S>) -> &mut Self {
        self.index(signature.index).monomial(signature.monomial)
    }

    fn ratio<R: Product + ?Sized>(&mut self, ratio: Ratio<'_, R>) -> &mut Self {
        self.index(ratio.index);
        push_quotient(&mut self.words, ratio.monomial);
        self
    }

    fn monomial<M: Product + ?Sized>(&mut self, monomial: &M) -> &mut Self {
        push_monomial(&mut self.words, monomial);
        self
    }

    fn index(&mut self, index: SignatureIndex) -> &mut Self {
        self.push(&[word(INDEX, index.get())])
    }

    fn push(&mut self, words: &[u32]) -> &mut Self {
        self.words.extend_from_slice(words);
        self
    }
}

#[cfg(test)]
mod tests {
    use super::*;

    /// The words of a list.
    fn words(write: impl FnOnce(&mut CallList)) -> Vec<u32> {
        let mut calls = CallList::default();
        write(&mut calls);
        calls.words
    }

    /// Document 01's list: insert x0^2; contained x0^3; contained x1.
    #[test]
    fn monomial_calls() {
        let list = words(|calls| {
            calls.insert_monomial(&[(0, 2)]);
            calls.contains_divisor(&[(0, 3)]);
            calls.contains_divisor(&[(1, 1)]);
        });
        let insert = [0x6000_0000, 0x1000_0002, 1];
        let contained = [0x6000_0001, 0x1000_0003, 1, 0x6000_0001, 0x1001_0001, 1];
        assert_eq!(list, [&insert[..], &contained].concat());
    }

    /// Index 5, signature x1^2, lm x3^2 · x0, ratio x0^-1.
    #[test]
    fn ratio_calls() {
        let (signature, ratio) = (Signature::new(5, &[(1, 2)]), Ratio::new(5, &[(0, -1)]));
        let lm = &[(3, 2), (0, 1)];
        let (index, lm_words) = ([0x3000_0005], [0x1003_0002, 0x1000_0001, 2]);
        let signed = [&index[..], &[0x1001_0002, 1]].concat();
        let below = [&index[..], &[0x2000_7FFF, 1]].concat();

        let list = words(|calls| calls.insert(signature, lm));
        assert_eq!(list, [&[0x6000_0002], &signed[..], &lm_words].concat());
        let list = words(|calls| calls.find_a_reducer(ratio, lm));
        assert_eq!(list, [&[0x6000_0003], &below[..], &lm_words].concat());
        let list = words(|calls| calls.find_a_reducer_of_words(5.into(), &below[1..], &lm_words));
        assert_eq!(list, [&[0x6000_0003], &below[..], &lm_words].concat());
        let list = words(|calls| calls.find_high_base_divisor(ratio, lm));
        assert_eq!(list, [&[0x6000_0004], &below[..], &lm_words].concat());
        let list = words(|calls| calls.find_low_base_divisor(signature));
        assert_eq!(list, [&[0x6000_0005], &signed[..]].concat());
        let list = words(|calls| calls.test_singular_criterion(signature, lm));
        assert_eq!(list, [&[0x6000_0006], &signed[..], &lm_words].concat());
    }
}
