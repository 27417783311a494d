//! The calls that are timed for two builds of the library: of the linked one by
//! its crate, of another one by pointers to its functions.

use oboepond::slices::{self, Lent, LentMut};
use oboepond::sys;

#[derive(Clone, Copy)]
pub enum Calls {
    Linked,
    Opened(Pointers),
}

/// The functions of a build that is opened. One from before UTF-32 lacks two.
#[derive(Clone, Copy)]
pub struct Pointers {
    pub load: sys::Load,
    pub check: sys::Check,
    pub to_utf8: Option<sys::ToUtf8>,
    pub from_utf8: Option<sys::FromUtf8>,
    pub to_unicode: Option<sys::ToUnicode>,
    pub from_unicode: Option<sys::FromUnicode>,
}

/// A pointer's call: each slice passes as a pointer and its length.
macro_rules! call {
    ($function:expr, [$($read:expr),*], [$($written:expr),*], [$($number:expr),*], [$($result:expr)?]) => {
        // SAFETY: every pointer comes with the length of its own slice; those
        // that are written are borrowed for this call alone.
        unsafe {
            ($function)(
                $($read.as_ptr(), $read.len(),)*
                $($written.as_mut_ptr(), $written.len(),)*
                $($number,)*
                $($result.as_mut_ptr(), $result.len(),)?
            )
        }
    };
}

impl Calls {
    pub fn load(&self, text: &[u8], table: LentMut, result: &mut [u64]) -> u32 {
        let Calls::Opened(pointers) = self else { return slices::load(text, table, result) };
        let LentMut { record, states, codes, infos, order } = table;
        call!(pointers.load, [text], [record, states, codes, infos, order], [], [result])
    }

    pub fn check(&self, table: Lent) -> u32 {
        let Calls::Opened(pointers) = self else { return slices::check(table) };
        let Lent { record, states, codes, infos, order } = table;
        call!(pointers.check, [record, states, codes, infos, order], [], [], [])
    }
}

/// Each conversion with its settings.
macro_rules! conversions {
    ($($name:ident($($setting:ident),*);)*) => { impl Calls { $(
        #[allow(clippy::too_many_arguments)]
        pub fn $name(
            &self, table: Lent, input: &[u8], output: &mut [u8], $($setting: u32,)* result: &mut [u64],
        ) -> u32 {
            let Calls::Opened(pointers) = self else {
                return slices::$name(table, input, output, $($setting,)* result);
            };
            let function = pointers.$name.expect("this build has the call");
            let Lent { record, states, codes, infos, order } = table;
            call!(function, [record, states, codes, infos, order, input], [output], [$($setting),*], [result])
        }
    )* } };
}

conversions! {
    to_utf8(substitute, skip);
    from_utf8(fallback, substitute, skip);
    to_unicode(scheme, substitute, skip);
    from_unicode(scheme, fallback, substitute, skip);
}
