//! The paper's figures, each in one place: the limits of books, lines and batches with the sizes that follow from them, and the numbers
//! of the refusals.

/// The limits of books, lines and batches, and the sizes of lists that follow from them.
pub mod limits {
    /// How many bytes a book has at most, and how many basic types, entries and targets.
    pub const MAX_BOOK: usize = 65535;
    pub const MAX_TYPES: usize = 64;
    pub const MAX_ENTRIES: usize = 1024;
    pub const MAX_TARGETS: usize = 8;

    /// How many bytes a name and a word have at most, and how many simple types an entry.
    pub const MAX_NAME: usize = 15;
    pub const MAX_WORD: usize = 31;
    pub const MAX_ENTRY_SIMPLES: usize = 12;

    /// How many brackets may be open at once in the text of a type.
    pub const MAX_OPEN: isize = 6;

    /// The greatest exponent of a book; its negative is the least.
    pub const MAX_EXPONENT: u8 = 8;

    /// How many words a line has at most, and how many simple types all entries of its words have together.
    pub const MAX_WORDS: usize = 24;
    pub const MAX_LINE_SIMPLES: usize = 512;

    /// How many simple types a choice has at most, and how many with a target behind it.
    pub const MAX_STRING: usize = MAX_WORDS * MAX_ENTRY_SIMPLES;
    pub const MAX_PLACES: usize = MAX_STRING + 1;

    /// How many nodes a line's graph has at most: a boundary for each word and one behind the last, the simple types, and for each
    /// target a node and an end.
    pub const MAX_NODES: usize = MAX_WORDS + MAX_LINE_SIMPLES + 1 + 2 * MAX_TARGETS;

    /// How many words of 64 bits a set of nodes takes, and how many members it has room for.
    pub const ROW_WORDS: usize = MAX_NODES.div_ceil(64);
    pub const ROW_BITS: usize = 64 * ROW_WORDS;

    /// How many words the rows of all nodes take, and those of all places of a string and of the one behind the last.
    pub const CHART_WORDS: usize = MAX_NODES * ROW_WORDS;
    pub const TABLE_WORDS: usize = (MAX_PLACES + 1) * ROW_WORDS;

    /// How many lines a batch has at most, and how many bytes.
    pub const MAX_LINES: usize = 32;
    pub const MAX_BATCH: usize = 65535;

    /// How many values an answer has beside entries and partners: the target's number, the number of words and that of simple types.
    pub const ANSWER_HEAD: usize = 3;

    /// How many values hold any answer, and the answers of any batch: before each stand a count and a number.
    pub const MAX_VALUES: usize = ANSWER_HEAD + MAX_WORDS + MAX_STRING;
    pub const MAX_BATCH_VALUES: usize = MAX_LINES * (2 + MAX_VALUES);
}

/// The numbers of the refusals, each with its cause.
pub mod refusals {
    /// Book over 65,535 bytes.
    pub const BOOK_TOO_LONG: u32 = 1;

    /// Head or body cut short.
    pub const CUT_SHORT: u32 = 2;

    /// Kind not listed.
    pub const KIND_NOT_LISTED: u32 = 3;

    /// Body not of its kind's layout.
    pub const BAD_LAYOUT: u32 = 4;

    /// Type number or name not declared by an earlier record.
    pub const UNDECLARED_TYPE: u32 = 5;

    /// Exponent outside -8 to 8.
    pub const EXPONENT_OUTSIDE: u32 = 6;

    /// Type name used before.
    pub const NAME_USED: u32 = 7;

    /// Ninth target.
    pub const TOO_MANY_TARGETS: u32 = 8;

    /// 65th basic type or 1,025th entry.
    pub const TOO_MANY_RECORDS: u32 = 9;

    /// Book ends without a target.
    pub const NO_TARGET: u32 = 10;

    /// Line byte outside 32 to 126.
    pub const BAD_LINE_BYTE: u32 = 11;

    /// Word over 31 bytes, or a 25th word.
    pub const BAD_WORD: u32 = 12;

    /// Word without an entry.
    pub const UNKNOWN_WORD: u32 = 13;

    /// Over 512 simple types.
    pub const TOO_MANY_SIMPLES: u32 = 14;

    /// No reading.
    pub const NO_READING: u32 = 15;

    /// Answer buffer too short.
    pub const BUFFER_TOO_SHORT: u32 = 16;

    /// Over 32 lines, over 65,535 bytes, or a last line not closed.
    pub const BAD_BATCH: u32 = 17;

    /// The answers of a batch do not fit.
    pub const ANSWERS_TOO_LONG: u32 = 18;

    /// Over six brackets open in the text of a type.
    pub const BRACKETS_TOO_DEEP: u32 = 19;

    /// Text that is no type.
    pub const NOT_A_TYPE: u32 = 20;

    /// Text of a type of over 12 simple types.
    pub const TYPE_TOO_LONG: u32 = 21;
}
