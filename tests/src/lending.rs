//! Record and lent memory as the library's calls take them, for the tests and for
//! `bench/`.

use crate::memory::Memory;
use oboepond::slices::{Lent, LentMut};

pub fn lent<'a>(record: &'a [u32], memory: &'a Memory) -> Lent<'a> {
    let Memory { states, codes, infos, order } = memory;
    Lent { record, states, codes, infos, order }
}

pub fn lent_mut<'a>(record: &'a mut [u32], memory: &'a mut Memory) -> LentMut<'a> {
    let Memory { states, codes, infos, order } = memory;
    LentMut { record, states, codes, infos, order }
}
