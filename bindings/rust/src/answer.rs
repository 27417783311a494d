//! What a call answers.

use std::fmt;

/// Each answer written once: its name, number and message.
macro_rules! answers {
    ($($(#[$doc:meta])* $name:ident = $number:literal, $message:literal;)*) => {
        /// What a call answers: done, or why not. The names are those of
        /// `include/oboepond.h`.
        ///
        /// ```
        /// use oboepond::Answer;
        /// assert_eq!(Answer::CutShort.number(), 51);
        /// assert_eq!(Answer::from_number(51), Some(Answer::CutShort));
        /// assert_eq!(Answer::from_number(3), None);
        /// ```
        #[derive(Clone, Copy, PartialEq, Eq, Hash, Debug)]
        #[repr(u32)]
        pub enum Answer {
            $($(#[$doc])* $name = $number,)*
        }

        impl Answer {
            /// All answers, by rising number.
            pub const ALL: &'static [Answer] = &[$(Answer::$name),*];

            /// The answer of a number, if some call gives it.
            pub const fn from_number(number: u32) -> Option<Answer> {
                match number {
                    $($number => Some(Answer::$name),)*
                    _ => None,
                }
            }

            /// What happened, and what you do next.
            pub const fn message(self) -> &'static str {
                match self {
                    $(Answer::$name => $message,)*
                }
            }
        }
    };
}

answers! {
    /// Done: the text is accepted, all is read, codes were looked at.
    Ok = 0, "Done. Nothing is left to do.";
    /// States, codes, infos or order is shorter than needed.
    MemoryTooSmall = 1,
        "The memory for the table is too small. Lend 4,096 numbers for states, and 2,048 each for codes, infos and \
         order.";
    /// The table's text has over 1,048,576 bytes.
    TextTooLong = 2,
        "The table's text has over 1,048,576 bytes. Give the text of one table, without what does not belong to it.";
    /// A line of no known form.
    NoForm = 10,
        "This line has no form that a table may have here. Correct it, or see whether the file is a .ucm table at all.";
    /// A key that may stand once stands again.
    KeyAgain = 11, "This line has a key that an earlier line has. Remove one of the two.";
    /// A known key with a value of the wrong form.
    UnfitValue = 12, "The value of this key has the wrong form. Correct it.";
    /// At CHARMAP a required key or state row is absent.
    KeyAbsent = 13, "Above this CHARMAP line a required key or the state rows are absent. Add them.";
    /// A form that is not built.
    NotBuilt = 14,
        "This line asks for something that is not built, such as shift states, a delta table or several code points \
         in a mapping. Take another table.";
    /// A falling range, a next row over 7f, or a 17th row.
    OutOfRange = 15, "This state row has a range that falls or a next row over 7f, or is the 17th row. Correct it.";
    /// At CHARMAP the state rows and keys do not fit together.
    StatesBroken = 16,
        "Above this CHARMAP line the state rows, mb_cur_min, mb_cur_max, subchar and subchar1 do not fit together. \
         Correct them.";
    /// A mapping's code point is a surrogate or over U+10FFFF.
    NoScalar = 20, "The code point of this mapping is a surrogate or over U+10FFFF. Correct it.";
    /// A mapping's bytes are no code that it may have.
    NoSuchCode = 21,
        "The bytes of this mapping are no code that the state rows allow, or not for a code point over U+FFFF. \
         Correct the bytes or the rows.";
    /// A `|0` or `|1` line with a code of several bytes that begins 00.
    LeadingZero = 22, "The code of this |0 or |1 line has several bytes and begins 00. Correct it.";
    /// A `|2` line whose bytes are not the subchar1 byte.
    NoSubchar1 = 23, "The bytes of this |2 line are not subchar1. Correct them, or the key subchar1.";
    /// An earlier `|0` or `|3` line reads these bytes.
    BytesTaken = 24,
        "An earlier |0 or |3 line reads these bytes. Remove one of the two lines, or let one of them only write (|1).";
    /// An earlier `|0`, `|1` or `|2` line has this code point.
    PointTaken = 25,
        "An earlier |0, |1 or |2 line has this code point. Remove one of the two lines, or let one of them only read \
         (|3).";
    /// The 2,049th mapping.
    TooMany = 26, "This is the 2,049th mapping. Take a table of at most 2,048.";
    /// END CHARMAP never came.
    NoEnd = 27, "The text ends without END CHARMAP. Get the whole file.";
    /// At END CHARMAP: a `|1` line writes a code that no line reads back.
    NotReadBack = 28,
        "Some |1 line above this END CHARMAP line has bytes that no |0 or |3 line has, so nobody could read them \
         back. Add a line that reads them, or remove the |1 line.";
    /// An audit's position is neither the beginning nor a complete code.
    BadPosition = 40,
        "The position is neither the beginning nor a complete code of this table. Go on from a position that a call \
         handed back, or begin again.";
    /// What was kept is what no call hands back under this table and settings.
    BadKept = 42,
        "What was kept is not what a call with this table, scheme and settings handed back. Start the text afresh, \
         with zeros.";
    /// What is written next does not fit into the output.
    Full = 50,
        "The output is full. Take what is written, and call again with the rest of the input and fresh space.";
    /// The input ends inside a sequence.
    CutShort = 51,
        "The input ends inside a character. Get the rest, and call again from the bytes read on. In pieces, start the \
         text afresh.";
    /// The sequence is illegal, and skipping is off.
    Illegal = 52,
        "An illegal sequence stands behind the bytes read. Go on behind it, by its length (in pieces, with a fresh \
         start), or set skip.";
    /// The sequence is unassigned, and substituting is off.
    Unassigned = 53,
        "A character that the table does not have stands behind the bytes read. Set substitute, or take another table.";
    /// The table's memory is not what an accepted text leaves.
    BadTable = 60, "The table's memory is not what loading left. Load the table's text again.";
    /// A slice for record, kept or result is too short.
    Short = 70,
        "The slice for record, kept or result is too short. Lend as many numbers as the header says.";
    /// The number given for the scheme is none.
    NoScheme = 71,
        "This number is no scheme. Give 0 (UTF-8), 1 (UTF-32BE), 2 (UTF-32LE) or 3 (UTF-32).";
}

impl Answer {
    /// The number of the answer.
    pub const fn number(self) -> u32 {
        self as u32
    }

    /// The answer of a number that the library gave.
    pub(crate) fn given(number: u32) -> Answer {
        Answer::from_number(number).expect("the library gives the numbers of its header")
    }
}

impl fmt::Display for Answer {
    fn fmt(&self, f: &mut fmt::Formatter) -> fmt::Result {
        f.write_str(self.message())
    }
}

impl std::error::Error for Answer {}
