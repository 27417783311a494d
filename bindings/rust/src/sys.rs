//! The eleven functions as C has them. `include/oboepond.h` says what each does
//! and what its caller sees to: no pointer is null, each is aligned and has the
//! stated number of elements behind it, and what is written overlaps nothing.
//! [`slices`](crate::slices) has them as safe functions.

/// Each function written once: the linked one, and the type of a pointer to it.
macro_rules! functions {
    ($($(#[$doc:meta])* $pointer:ident = fn $name:ident($($parameter:ident: $type:ty),* $(,)?) -> u32;)*) => {
        extern "C" {
            $($(#[$doc])* pub fn $name($($parameter: $type),*) -> u32;)*
        }

        $(
            #[doc = concat!("A pointer to [`", stringify!($name), "`].")]
            pub type $pointer = unsafe extern "C" fn($($parameter: $type),*) -> u32;
        )*
    };
}

functions! {
    /// Loads a table's text.
    Load = fn oboepond_load(
        text: *const u8, text_len: usize,
        record: *mut u32, record_len: usize,
        states: *mut u16, states_len: usize,
        codes: *mut u32, codes_len: usize,
        infos: *mut u32, infos_len: usize,
        order: *mut u32, order_len: usize,
        result: *mut u64, result_len: usize,
    ) -> u32;

    /// Tests a table's record and memory.
    Check = fn oboepond_check(
        record: *const u32, record_len: usize,
        states: *const u16, states_len: usize,
        codes: *const u32, codes_len: usize,
        infos: *const u32, infos_len: usize,
        order: *const u32, order_len: usize,
    ) -> u32;

    /// From the table's bytes to UTF-8.
    ToUtf8 = fn oboepond_to_utf8(
        record: *const u32, record_len: usize,
        states: *const u16, states_len: usize,
        codes: *const u32, codes_len: usize,
        infos: *const u32, infos_len: usize,
        order: *const u32, order_len: usize,
        input: *const u8, input_len: usize,
        output: *mut u8, output_len: usize,
        substitute: u32, skip: u32,
        result: *mut u64, result_len: usize,
    ) -> u32;

    /// From UTF-8 to the table's bytes.
    FromUtf8 = fn oboepond_from_utf8(
        record: *const u32, record_len: usize,
        states: *const u16, states_len: usize,
        codes: *const u32, codes_len: usize,
        infos: *const u32, infos_len: usize,
        order: *const u32, order_len: usize,
        input: *const u8, input_len: usize,
        output: *mut u8, output_len: usize,
        fallback: u32, substitute: u32, skip: u32,
        result: *mut u64, result_len: usize,
    ) -> u32;

    /// From the table's bytes to Unicode text in a scheme.
    ToUnicode = fn oboepond_to_unicode(
        record: *const u32, record_len: usize,
        states: *const u16, states_len: usize,
        codes: *const u32, codes_len: usize,
        infos: *const u32, infos_len: usize,
        order: *const u32, order_len: usize,
        input: *const u8, input_len: usize,
        output: *mut u8, output_len: usize,
        scheme: u32, substitute: u32, skip: u32,
        result: *mut u64, result_len: usize,
    ) -> u32;

    /// From Unicode text in a scheme to the table's bytes.
    FromUnicode = fn oboepond_from_unicode(
        record: *const u32, record_len: usize,
        states: *const u16, states_len: usize,
        codes: *const u32, codes_len: usize,
        infos: *const u32, infos_len: usize,
        order: *const u32, order_len: usize,
        input: *const u8, input_len: usize,
        output: *mut u8, output_len: usize,
        scheme: u32, fallback: u32, substitute: u32, skip: u32,
        result: *mut u64, result_len: usize,
    ) -> u32;

    /// One piece, from the table's bytes to Unicode text.
    ToUnicodePiece = fn oboepond_to_unicode_piece(
        record: *const u32, record_len: usize,
        states: *const u16, states_len: usize,
        codes: *const u32, codes_len: usize,
        infos: *const u32, infos_len: usize,
        order: *const u32, order_len: usize,
        kept: *mut u32, kept_len: usize,
        input: *const u8, input_len: usize,
        output: *mut u8, output_len: usize,
        scheme: u32, substitute: u32, skip: u32,
        result: *mut u64, result_len: usize,
    ) -> u32;

    /// One piece, from Unicode text to the table's bytes.
    FromUnicodePiece = fn oboepond_from_unicode_piece(
        record: *const u32, record_len: usize,
        states: *const u16, states_len: usize,
        codes: *const u32, codes_len: usize,
        infos: *const u32, infos_len: usize,
        order: *const u32, order_len: usize,
        kept: *mut u32, kept_len: usize,
        input: *const u8, input_len: usize,
        output: *mut u8, output_len: usize,
        scheme: u32, fallback: u32, substitute: u32, skip: u32,
        result: *mut u64, result_len: usize,
    ) -> u32;

    /// The close behind the last piece, from the table's bytes to Unicode text.
    ToUnicodeClose = fn oboepond_to_unicode_close(
        record: *const u32, record_len: usize,
        states: *const u16, states_len: usize,
        codes: *const u32, codes_len: usize,
        infos: *const u32, infos_len: usize,
        order: *const u32, order_len: usize,
        kept: *mut u32, kept_len: usize,
        output: *mut u8, output_len: usize,
        scheme: u32, substitute: u32, skip: u32,
        result: *mut u64, result_len: usize,
    ) -> u32;

    /// The close behind the last piece, from Unicode text to the table's bytes.
    FromUnicodeClose = fn oboepond_from_unicode_close(
        record: *const u32, record_len: usize,
        states: *const u16, states_len: usize,
        codes: *const u32, codes_len: usize,
        infos: *const u32, infos_len: usize,
        order: *const u32, order_len: usize,
        kept: *mut u32, kept_len: usize,
        output: *mut u8, output_len: usize,
        scheme: u32, fallback: u32, substitute: u32, skip: u32,
        result: *mut u64, result_len: usize,
    ) -> u32;

    /// One call of the audit.
    Audit = fn oboepond_audit(
        record: *const u32, record_len: usize,
        states: *const u16, states_len: usize,
        codes: *const u32, codes_len: usize,
        infos: *const u32, infos_len: usize,
        order: *const u32, order_len: usize,
        fallback: u32, bits: u32, len: u32, allowance: u64,
        entries: *mut u64, entries_len: usize,
        result: *mut u64, result_len: usize,
    ) -> u32;
}
