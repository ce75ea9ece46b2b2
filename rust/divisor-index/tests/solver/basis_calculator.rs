//! The lines that touch the indexes are the original's (NOTICE has its licence).

use std::{cell::RefCell, rc::Rc};

use replace_with::replace_with_or_abort;

use super::{
    DivMap, Field, Id, MaskedMonomial, MaskedMonomialRef, MaskedSignature, MonomialIndex, Ratio,
    RatioMonomialIndex, SignPoly, SignedExponent,
};

pub struct KnownBasis<I: Id, C: Field, P: SignedExponent> {
    pub num_vars: usize,
    pub div_map: Rc<DivMap>,
    pub polys: Vec<Rc<RefCell<SignPoly<I, C, P>>>>,
    pub by_sign_lm_ratio_and_lm: RatioMonomialIndex<I, C, P>,
}

impl<I: Id, C: Field, P: SignedExponent> KnownBasis<I, C, P> {
    pub fn find_a_reducer(
        &self,
        ratio: &Ratio<I, P>,
        monomial: MaskedMonomialRef<I, P>,
    ) -> Option<Rc<RefCell<SignPoly<I, C, P>>>> {
        self.by_sign_lm_ratio_and_lm.find_a_reducer(ratio, monomial)
    }
}

pub type SyzygySet<I, E> = MonomialIndex<I, E>;

pub struct BasisCalculator<I: Id, C: Field, P: SignedExponent> {
    basis: KnownBasis<I, C, P>,
    syzygies: SyzygySet<I, P>,
}

impl<I: Id, C: Field, P: SignedExponent> BasisCalculator<I, C, P> {
    pub fn new(num_vars: usize) -> Self {
        let div_map = Rc::new(DivMap);
        let by_sign_lm_ratio_and_lm = RatioMonomialIndex::new(num_vars, div_map.clone(), &[]);
        let syzygies = MonomialIndex::new(num_vars, div_map.clone(), vec![]);
        BasisCalculator {
            basis: KnownBasis {
                num_vars,
                div_map,
                polys: Vec::new(),
                by_sign_lm_ratio_and_lm,
            },
            syzygies,
        }
    }

    pub fn get_basis(&self) -> &KnownBasis<I, C, P> {
        &self.basis
    }

    pub fn get_num_syzygies(&self) -> usize {
        self.syzygies.len()
    }

    pub fn insert_poly(&mut self, sign_poly: SignPoly<I, C, P>) {
        let sign_poly = Rc::new(RefCell::new(sign_poly));

        self.basis
            .by_sign_lm_ratio_and_lm
            .insert(Rc::clone(&sign_poly));

        self.basis.polys.push(sign_poly);
    }

    pub fn add_koszul_syzygies(&mut self, indices: &[(u32, u32)]) {
        for (p, q) in indices {
            let mut signature;
            let divmask;
            {
                let p = self.basis.polys[*p as usize].borrow();
                let q = self.basis.polys[*q as usize].borrow();

                // Choose q to be the basis of the signature:
                let (sign_basis, lm_basis) = match p.sign_to_lm_ratio_cmp(&q) {
                    std::cmp::Ordering::Less => (q, p),
                    std::cmp::Ordering::Equal => {
                        // Non-regular Koszul syzygy, skip,
                        continue;
                    }
                    std::cmp::Ordering::Greater => (p, q),
                };

                signature = sign_basis.signature().clone();
                signature.monomial =
                    signature.monomial * lm_basis.polynomial.terms[0].monomial.clone();
                divmask = self.basis.div_map.map(&signature.monomial);
            }

            let masked_signature = MaskedSignature { divmask, signature };
            // Do not add redundant koszul syzygies:
            if !self.syzygies.contains_divisor(masked_signature.monomial()) {
                self.add_syzygy(masked_signature);
            }
        }
    }

    pub fn rebuild_structures(&mut self) {
        // Recreate the div map.
        self.basis.div_map = Rc::new(DivMap);
        let div_map = self.basis.div_map.clone();

        // Recalculate both masks of each polynomial.
        for mut poly in self.basis.polys.iter().map(|p| p.borrow_mut()) {
            let lm_divmask = div_map.map(&poly.polynomial.terms[0].monomial);
            poly.lm_divmask = lm_divmask;

            let sign_divmask = div_map.map(&poly.signature().monomial);
            poly.masked_signature.divmask = sign_divmask;
        }

        // Recalculates the mask and recreates the index for syzygy basis.
        replace_with_or_abort(&mut self.syzygies, |syzygies| {
            let mut syzygies = syzygies.to_vec();
            for syzygy in syzygies.iter_mut() {
                syzygy.divmask = div_map.map(&syzygy.monomial);
            }
            SyzygySet::new(self.basis.num_vars, div_map.clone(), syzygies)
        });

        // Recreate the index for reductions.
        self.basis.by_sign_lm_ratio_and_lm =
            RatioMonomialIndex::new(self.basis.num_vars, div_map, &self.basis.polys);
    }

    pub fn clear_syzygies(&mut self) {
        self.syzygies = SyzygySet::new(self.basis.num_vars, self.basis.div_map.clone(), vec![]);
    }

    fn add_syzygy(&mut self, signature: MaskedSignature<I, P>) {
        self.syzygies.insert(MaskedMonomial {
            divmask: signature.divmask,
            monomial: signature.signature.monomial,
        });
    }

    pub fn into_polys(self) -> Vec<SignPoly<I, C, P>> {
        // Drop the index here otherwise the unwrap of the Rc will fail.
        drop(self.basis.by_sign_lm_ratio_and_lm);

        let polys = self.basis.polys.into_iter();
        polys
            .map(|sign_poly| Rc::try_unwrap(sign_poly).ok().unwrap().into_inner())
            .collect()
    }
}
