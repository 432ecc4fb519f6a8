//! The numbers of the refusals, each with its cause and the value returned with it.

/// Makes a constant of each row, and the list of all.
macro_rules! refusals {
    ($($name:ident = $number:literal, $cause:literal, $value:literal;)*) => {
        $(
            #[doc = concat!("Cause: ", $cause, ". Value: ", $value, ".")]
            pub const $name: u32 = $number;
        )*

        /// Each refusal by number, name and cause.
        pub(crate) const LIST: [(u32, &str, &str); 21] = [$(($number, stringify!($name), $cause)),*];
    };
}

refusals! {
    BOOK_TOO_LONG = 1, "book over 65,535 bytes", "0";
    CUT_SHORT = 2, "head or body of a record cut short", "the record's offset";
    KIND_NOT_LISTED = 3, "kind not listed", "the record's offset";
    BAD_LAYOUT = 4, "body not of its kind's layout", "the record's offset";
    UNDECLARED_TYPE = 5, "type number or name not declared by an earlier record", "the record's offset";
    EXPONENT_OUTSIDE = 6, "exponent outside -8 to 8", "the record's offset";
    NAME_USED = 7, "type name used before", "the record's offset";
    TOO_MANY_TARGETS = 8, "ninth target", "the record's offset";
    TOO_MANY_RECORDS = 9, "65th basic type or 1,025th entry", "the record's offset";
    NO_TARGET = 10, "book ends without a target", "the book's length";
    BAD_LINE_BYTE = 11, "line byte outside 32 to 126", "the byte's offset";
    BAD_WORD = 12, "word over 31 bytes, or a 25th word", "the word's offset";
    UNKNOWN_WORD = 13, "word without an entry", "the word's offset";
    TOO_MANY_SIMPLES = 14, "over 512 simple types in all entries of all words", "0";
    NO_READING = 15, "no reading for any target", "0";
    BUFFER_TOO_SHORT = 16, "answer buffer too short", "the number of values needed";
    BAD_BATCH = 17, "over 32 lines, over 65,535 bytes, or a last line not closed", "0";
    ANSWERS_TOO_LONG = 18, "the answers of a batch do not fit", "the number of values needed";
    BRACKETS_TOO_DEEP = 19, "over six brackets open at once in the text of a type", "the record's offset";
    NOT_A_TYPE = 20, "text that is no type", "the record's offset";
    TYPE_TOO_LONG = 21, "text of a type of over 12 simple types", "the record's offset";
}

/// The cause of a refusal in words.
pub fn cause(number: u32) -> &'static str {
    LIST.iter()
        .find(|row| row.0 == number)
        .map_or("not a refusal", |row| row.2)
}
