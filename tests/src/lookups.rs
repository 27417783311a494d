//! The two look-ups alone, for the tests and for `bench/`: the library that is
//! made for them. A slice passes as a pointer and its length in elements. Of the
//! record only the count of mappings matters.

use crate::memory::Memory;

/// Each call written once, with the lent slices that it takes: bare, and behind
/// a safe function.
macro_rules! look_ups {
    ($($(#[$doc:meta])* $name:ident = $call:ident($($lent:ident),*; $wanted:ty);)*) => {
        extern "C" {
            $(fn $call(
                rows: u32, mappings: u32, min: u32, max: u32, sub_bits: u32, sub_len: u32, sub1: u32,
                $($lent: *const u32, _: usize,)*
                wanted: *const $wanted, wanted_len: usize,
                found: *mut u64, found_len: usize,
            );)*
        }

        $($(#[$doc])*
        pub fn $name(record: &[u32; 7], m: &Memory, wanted: &[$wanted], found: &mut [u64]) {
            let [rows, mappings, min, max, sub_bits, sub_len, sub1] = *record;
            // SAFETY: every pointer comes with the length of its own slice, and
            // only the last is written to.
            unsafe {
                $call(
                    rows, mappings, min, max, sub_bits, sub_len, sub1,
                    $(m.$lent.as_ptr(), m.$lent.len(),)*
                    wanted.as_ptr(), wanted.len(),
                    found.as_mut_ptr(), found.len(),
                )
            }
        })*
    };
}

look_ups! {
    /// The lines that read codes. Wanted is bits + 2^32 * length; found is 0 for
    /// nothing, else code point + 2^32 * (1 + the indicator's digit).
    codes = lookups_codes(codes, infos; u64);

    /// The lines that say what becomes of code points. Found is 0 for nothing,
    /// else the code's bits + 2^32 * its length.
    points = lookups_points(codes, infos, order; u32);
}
