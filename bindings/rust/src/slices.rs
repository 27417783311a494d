//! The eleven functions, safe, over slices of any length and any content. They
//! are proved for every content, so nothing has to be checked before a call.
//!
//! Answers are the numbers of `include/oboepond.h`, which says of each function
//! what it writes; [`Answer::from_number`](crate::Answer::from_number) names them.
//! A slice that is too short is refused with a number, 1 or 70.
//!
//! ```
//! use oboepond::slices;
//! let none = slices::Lent { record: &[0; 7], states: &[], codes: &[], infos: &[], order: &[] };
//! assert_eq!(slices::check(none), 60);
//! ```

use crate::sys;

/// A table's slices, lent to be read.
#[derive(Clone, Copy, Debug)]
pub struct Lent<'a> {
    /// [`RECORD`](crate::RECORD) numbers are needed.
    pub record: &'a [u32],
    /// [`STATES`](crate::STATES) numbers are needed.
    pub states: &'a [u16],
    /// [`MAPPINGS`](crate::MAPPINGS) numbers are needed.
    pub codes: &'a [u32],
    /// [`MAPPINGS`](crate::MAPPINGS) numbers are needed.
    pub infos: &'a [u32],
    /// [`MAPPINGS`](crate::MAPPINGS) numbers are needed.
    pub order: &'a [u32],
}

/// A table's slices, lent to be written; lengths as for [`Lent`].
#[derive(Debug)]
pub struct LentMut<'a> {
    /// The record.
    pub record: &'a mut [u32],
    /// The states.
    pub states: &'a mut [u16],
    /// The codes.
    pub codes: &'a mut [u32],
    /// The infos.
    pub infos: &'a mut [u32],
    /// The order.
    pub order: &'a mut [u32],
}

/// A call with the table's slices in front of the rest.
macro_rules! over_table {
    ($function:ident, $table:ident $(, $rest:expr)* $(,)?) => {
        // SAFETY: every pointer comes with the length of its own slice; those
        // that are written are borrowed for this call alone.
        unsafe {
            sys::$function(
                $table.record.as_ptr(),
                $table.record.len(),
                $table.states.as_ptr(),
                $table.states.len(),
                $table.codes.as_ptr(),
                $table.codes.len(),
                $table.infos.as_ptr(),
                $table.infos.len(),
                $table.order.as_ptr(),
                $table.order.len(),
                $($rest),*
            )
        }
    };
}

/// Loads a table's text. The result is the line.
pub fn load(text: &[u8], table: LentMut, result: &mut [u64]) -> u32 {
    // SAFETY: as above.
    unsafe {
        sys::oboepond_load(
            text.as_ptr(),
            text.len(),
            table.record.as_mut_ptr(),
            table.record.len(),
            table.states.as_mut_ptr(),
            table.states.len(),
            table.codes.as_mut_ptr(),
            table.codes.len(),
            table.infos.as_mut_ptr(),
            table.infos.len(),
            table.order.as_mut_ptr(),
            table.order.len(),
            result.as_mut_ptr(),
            result.len(),
        )
    }
}

/// Tests whether record and memory are as an accepted text leaves them.
pub fn check(table: Lent) -> u32 {
    over_table!(oboepond_check, table)
}

/// Each conversion: what is kept and the input, where it has them, and its
/// settings.
macro_rules! conversions {
    ($(
        $(#[$doc:meta])*
        $name:ident = $function:ident($($kept:ident)?; $($input:ident)?; $($setting:ident),*);
    )*) => { $(
        $(#[$doc])*
        #[allow(clippy::too_many_arguments)]
        pub fn $name(
            table: Lent,
            $($kept: &mut [u32],)?
            $($input: &[u8],)?
            output: &mut [u8],
            $($setting: u32,)*
            result: &mut [u64],
        ) -> u32 {
            over_table!(
                $function,
                table,
                $($kept.as_mut_ptr(), $kept.len(),)?
                $($input.as_ptr(), $input.len(),)?
                output.as_mut_ptr(),
                output.len(),
                $($setting,)*
                result.as_mut_ptr(),
                result.len(),
            )
        }
    )* };
}

conversions! {
    /// From the table's bytes to UTF-8. The result is bytes read, bytes written and
    /// the length of an illegal sequence, for all conversions.
    to_utf8 = oboepond_to_utf8(; input; substitute, skip);

    /// From UTF-8 to the table's bytes.
    from_utf8 = oboepond_from_utf8(; input; fallback, substitute, skip);

    /// From the table's bytes to Unicode text in a scheme.
    to_unicode = oboepond_to_unicode(; input; scheme, substitute, skip);

    /// From Unicode text in a scheme to the table's bytes.
    from_unicode = oboepond_from_unicode(; input; scheme, fallback, substitute, skip);

    /// One piece, from the table's bytes to Unicode text.
    to_unicode_piece = oboepond_to_unicode_piece(kept; input; scheme, substitute, skip);

    /// One piece, from Unicode text to the table's bytes.
    from_unicode_piece = oboepond_from_unicode_piece(kept; input; scheme, fallback, substitute, skip);

    /// The close behind the last piece, from the table's bytes to Unicode text.
    to_unicode_close = oboepond_to_unicode_close(kept; ; scheme, substitute, skip);

    /// The close behind the last piece, from Unicode text to the table's bytes.
    from_unicode_close = oboepond_from_unicode_close(kept; ; scheme, fallback, substitute, skip);
}

/// One call of the audit from a position on. The result is entries written, bits
/// and length of the last code looked at, 1 where no code follows, and codes
/// looked at.
#[allow(clippy::too_many_arguments)]
pub fn audit(
    table: Lent,
    fallback: u32,
    bits: u32,
    len: u32,
    allowance: u64,
    entries: &mut [u64],
    result: &mut [u64],
) -> u32 {
    over_table!(
        oboepond_audit,
        table,
        fallback,
        bits,
        len,
        allowance,
        entries.as_mut_ptr(),
        entries.len(),
        result.as_mut_ptr(),
        result.len(),
    )
}
