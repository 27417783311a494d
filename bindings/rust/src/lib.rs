//! Conversion between a code page, such as the two-byte Japanese text that a
//! machine's panel writes, and Unicode text in UTF-8 or UTF-32, by a `.ucm`
//! table. The converter is the static library of Oboepond, whose functions are
//! proved: any table text, any table memory and any bytes get an answer.
//!
//! A [`Table`] is loaded from its text. It converts whole texts, either way, and
//! lists the codes that do not round-trip; [`Pieces`] converts a text as it comes.
//!
//! ```
//! use oboepond::{Settings, Table};
//!
//! let table = Table::load(
//!     br#"<code_set_name> "panel"
//! <mb_cur_min> 1
//! <mb_cur_max> 2
//! <uconv_class> "MBCS"
//! <subchar> \x3F
//! <icu:state> 30-3f, 81:1
//! <icu:state> 7c-7d
//! CHARMAP
//! <U0033> \x33 |0
//! <U2212> \x81\x7C |0
//! END CHARMAP
//! "#,
//! )?;
//! let text = table.to_text(b"\x81\x7c3", Settings::default())?;
//! assert_eq!(text, "\u{2212}3");
//! assert_eq!(table.from_text(&text, Settings::default())?, b"\x81\x7c3");
//! # Ok::<(), Box<dyn std::error::Error>>(())
//! ```
//!
//! Below the easy layer, [`slices`] has the library's functions over slices that
//! you lend, and [`sys`] has them as C has them.

#![warn(missing_docs)]

mod answer;
mod audit;
mod conversion;
mod pieces;
pub mod slices;
pub mod sys;
mod table;

pub use answer::Answer;
pub use audit::{Audited, Cause, Code, Finding, Findings, Position};
pub use conversion::{piece_room, room, Done, Scheme, Settings, Stopped};
pub use pieces::Pieces;
pub use table::{Refused, Table};

/// The version of the interface.
pub const VERSION: &str = env!("CARGO_PKG_VERSION");

/// The longest table text that is read, in bytes.
pub const TEXT: usize = 1_048_576;

/// How many numbers a slice for `record` needs.
pub const RECORD: usize = 7;

/// How many numbers a slice for `states` needs.
pub const STATES: usize = 4096;

/// How many numbers each of the slices for `codes`, `infos` and `order` needs.
pub const MAPPINGS: usize = 2048;

/// How many numbers a slice for `kept` needs.
pub const KEPT: usize = 5;

/// How many numbers the result of [`slices::load`] needs.
pub const LOADED: usize = 1;

/// How many numbers the result of a conversion needs.
pub const DONE: usize = 3;

/// How many numbers the result of [`slices::audit`] needs.
pub const AUDITED: usize = 5;
