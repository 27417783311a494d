//! Builds with another interface than today's: in their result a load has the
//! record too; older ones have conversions without skipping, and with a result of
//! two numbers. Each is put behind a call of today's form.

use crate::calls::Pointers;
use crate::dynamic::Opened;
use oboepond::sys;
use std::sync::OnceLock;

/// The answer to a slice that is too short.
const SHORT: u32 = oboepond::Answer::Short.number();

/// The calls as they are, or those of an older build behind others.
pub fn of_today(library: &Opened, mut calls: Pointers) -> Result<Pointers, String> {
    // SAFETY: what is opened has the types of the header, of today or of then.
    unsafe {
        if !takes_record(calls.load) {
            println!("before: the record is in the result of its load");
            load::open(library)?;
            calls.load = load::call;
        }
        if !takes_skip(library.call("oboepond_to_utf8")?) {
            println!("before: no skipping in it");
            to_utf8::open(library)?;
            from_utf8::open(library)?;
            let schemes = to_unicode::open(library).and(from_unicode::open(library)).is_ok();
            calls.to_utf8 = Some(to_utf8::call);
            calls.from_utf8 = Some(from_utf8::call);
            calls.to_unicode = if schemes { Some(to_unicode::call) } else { None };
            calls.from_unicode = if schemes { Some(from_unicode::call) } else { None };
        }
    }
    Ok(calls)
}

/// Whether a load takes the record as a slice of its own: if so, none is too short.
///
/// SAFETY: the call must be `oboepond_load`. An older one takes each slice for the
/// one before it: with no states it refuses the memory, and writes eight numbers of
/// a result to where `order` is.
unsafe fn takes_record(load: sys::Load) -> bool {
    let (text, mut small, mut wide, mut result) = ([0; 0], [0; 0], [0u64; 8], [0; 0]);
    let (mut record, none) = ([0; 0], small.as_mut_ptr());
    #[rustfmt::skip]
    let number = load(
        text.as_ptr(), 0, record.as_mut_ptr(), 0, [0; 0].as_mut_ptr(), 0, none, 0, none, 0,
        wide.as_mut_ptr().cast(), 8, result.as_mut_ptr(), 0,
    );
    number == SHORT
}

/// To UTF-8 with a pointer in the place of `skip`.
#[rustfmt::skip]
type Probe = unsafe extern "C" fn(
    *const u32, usize, *const u16, usize, *const u32, usize, *const u32, usize, *const u32, usize,
    *const u8, usize, *mut u8, usize, u32, *mut u64, *mut u64, usize,
) -> u32;

/// Whether conversions take `skip`: if so, two numbers are too few for a result.
///
/// SAFETY: the call must be `oboepond_to_utf8`. An older one takes the pointer in
/// the place of `skip` for that of its result and the next for the length; it
/// refuses the table and writes its two numbers.
unsafe fn takes_skip(to_utf8: Probe) -> bool {
    let (record, none, mut older, mut result) = ([0; 7], [0; 0], [0; 2], [0; 2]);
    let (states, input, mut output) = ([0; 0], [0; 0], [0; 0]);
    let none = none.as_ptr();
    #[rustfmt::skip]
    let number = to_utf8(
        record.as_ptr(), 7, states.as_ptr(), 0, none, 0, none, 0, none, 0,
        input.as_ptr(), 0, output.as_mut_ptr(), 0, 1, older.as_mut_ptr(), result.as_mut_ptr(), 2,
    );
    number == SHORT
}

/// The older function, once it is opened.
macro_rules! older {
    ($symbol:literal) => {
        static OLDER: OnceLock<Older> = OnceLock::new();

        /// SAFETY: the library must be one of then.
        pub unsafe fn open(library: &Opened) -> Result<(), String> {
            let older = library.call($symbol)?;
            OLDER.get_or_init(|| older);
            Ok(())
        }
    };
}

#[rustfmt::skip]
mod load {
    use super::*;

    type Older = unsafe extern "C" fn(
        *const u8, usize, *mut u16, usize, *mut u32, usize, *mut u32, usize, *mut u32, usize, *mut u64, usize,
    ) -> u32;

    older!("oboepond_load");

    pub unsafe extern "C" fn call(
        text: *const u8, text_len: usize, record: *mut u32, record_len: usize, states: *mut u16, states_len: usize,
        codes: *mut u32, codes_len: usize, infos: *mut u32, infos_len: usize, order: *mut u32, order_len: usize,
        result: *mut u64, result_len: usize,
    ) -> u32 {
        let mut numbers = [0; 8];
        let number = (OLDER.get().expect("it was opened"))(
            text, text_len, states, states_len, codes, codes_len, infos, infos_len, order, order_len,
            numbers.as_mut_ptr(), numbers.len(),
        );
        let [line, told @ ..] = numbers;
        std::slice::from_raw_parts_mut(record, record_len)[..7].copy_from_slice(&told.map(|n| n as u32));
        std::slice::from_raw_parts_mut(result, result_len)[0] = line;
        number
    }
}

/// Each conversion with its settings before `skip`.
macro_rules! conversions {
    ($($name:ident = $symbol:literal($($setting:ident: $type:ty),*);)*) => { $(
        mod $name {
            use super::*;

            type Older = unsafe extern "C" fn(
                *const u32, usize, *const u16, usize, *const u32, usize, *const u32, usize, *const u32, usize,
                *const u8, usize, *mut u8, usize, $($type,)* *mut u64, usize,
            ) -> u32;

            older!($symbol);

            pub unsafe extern "C" fn call(
                record: *const u32, record_len: usize, states: *const u16, states_len: usize,
                codes: *const u32, codes_len: usize, infos: *const u32, infos_len: usize,
                order: *const u32, order_len: usize, input: *const u8, input_len: usize,
                output: *mut u8, output_len: usize, $($setting: $type,)* _skip: u32,
                result: *mut u64, result_len: usize,
            ) -> u32 {
                (OLDER.get().expect("it was opened"))(
                    record, record_len, states, states_len, codes, codes_len, infos, infos_len, order, order_len,
                    input, input_len, output, output_len, $($setting,)* result, result_len,
                )
            }
        }
    )* };
}

conversions! {
    to_utf8 = "oboepond_to_utf8"(substitute: u32);
    from_utf8 = "oboepond_from_utf8"(fallback: u32, substitute: u32);
    to_unicode = "oboepond_to_unicode"(scheme: u32, substitute: u32);
    from_unicode = "oboepond_from_unicode"(scheme: u32, fallback: u32, substitute: u32);
}
