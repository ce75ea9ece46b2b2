//! Stand-in for the crate bitvec, of which the original uses nothing but
//! `bitvec::macros::internal::funty::Unsigned`.

pub mod macros {
    pub mod internal {
        pub mod funty {
            use std::{
                fmt::Debug,
                ops::{BitAnd, BitOrAssign, Not, Shl},
            };

            /// The part of funty's `Unsigned` that the original calls.
            pub trait Unsigned:
                Copy
                + Debug
                + Ord
                + Not<Output = Self>
                + BitAnd<Output = Self>
                + BitOrAssign
                + Shl<u8, Output = Self>
            {
                const BITS: u32;
                const ZERO: Self;
                const ONE: Self;
            }

            macro_rules! unsigned {
                ($($t:ty)*) => {$(
                    impl Unsigned for $t {
                        const BITS: u32 = <$t>::BITS;
                        const ZERO: Self = 0;
                        const ONE: Self = 1;
                    }
                )*};
            }

            unsigned!(u8 u16 u32 u64 usize);
        }
    }
}
