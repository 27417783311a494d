//! The lent memory, for the tests and for `bench/`.

/// The lent memory, of any lengths.
#[derive(Clone, PartialEq, Eq, Debug, Default)]
pub struct Memory {
    pub states: Vec<u16>,
    pub codes: Vec<u32>,
    pub infos: Vec<u32>,
    pub order: Vec<u32>,
}
