//! What a table has that is looked up by its input: a length, an index, and a loop over it.
use crate::{Sbox, TruthTable};
use std::iter::Copied;
use std::ops::Index;
use std::slice::Iter;

macro_rules! looked_up {
    ($table:ty, $element:ty, $slice:ident) => {
        impl $table {
            /// The number of entries, 2^n.
            #[allow(clippy::len_without_is_empty)] // n is 1 or more: none is empty
            pub fn len(&self) -> usize {
                self.$slice().len()
            }

            /// The entries, from input 0 on.
            pub fn iter(&self) -> Copied<Iter<'_, $element>> {
                self.$slice().iter().copied()
            }
        }

        /// The entry for an input. It panics where the input is not below 2^n.
        impl Index<usize> for $table {
            type Output = $element;

            fn index(&self, x: usize) -> &$element {
                &self.$slice()[x]
            }
        }

        impl<'a> IntoIterator for &'a $table {
            type Item = $element;
            type IntoIter = Copied<Iter<'a, $element>>;

            fn into_iter(self) -> Self::IntoIter {
                self.iter()
            }
        }

        impl AsRef<[$element]> for $table {
            fn as_ref(&self) -> &[$element] {
                self.$slice()
            }
        }
    };
}

looked_up!(Sbox, u32, rows);
looked_up!(TruthTable, u8, values);
