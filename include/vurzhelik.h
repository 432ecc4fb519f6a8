/* Vurzhelik, the proved reader of order lines, for C and C++. Link libvurzhelik.a, which `rt lib` in crates/vurzhelik writes to
 * crates/vurzhelik/out; it is for x86-64 Linux.
 *
 * Lists. A list is passed as a pointer to its values and their number. Any bytes may stand in a book, a line and a batch, of any length.
 * Pointers. None is null, not even that of an empty list: pass the address of any object there. What is written to (value, types, entries,
 * pairs, answer, words, answers) overlaps nothing else that is passed. Nothing tests this.
 * Threads. Nothing is kept between calls and nothing is allocated: several threads may call at once.
 * Stack. Reading a line takes up to 132 KiB of the caller's stack where it was measured, also with the words in its way, reading a batch
 * 152 KiB, checking a book 7 KiB. This was measured on code that an older kit built; on code of rattle-kit-13f it was 116, 135 and 6 KiB.
 * WARNING: a thread with a small stack overflows. Give one that reads lines 256 KiB or more (pthread_attr_setstacksize). With glibc 132 KiB
 * are too few; its default, the limit on the stack, commonly 8 MiB, is ample. musl's default of 128 KiB is too small for either. */
#ifndef VURZHELIK_H
#define VURZHELIK_H

#include <stddef.h>
#include <stdint.h>

#ifdef __cplusplus
extern "C" {
#endif

/* The version of this header. */
#define VURZHELIK_VERSION_MAJOR 2
#define VURZHELIK_VERSION_MINOR 2
#define VURZHELIK_VERSION_PATCH 0
#define VURZHELIK_VERSION (10000 * VURZHELIK_VERSION_MAJOR + 100 * VURZHELIK_VERSION_MINOR + VURZHELIK_VERSION_PATCH)

/* How many targets a book has at most. */
#define VURZHELIK_MAX_TARGETS 8

/* How many values hold any answer: the target's number, n and m, an entry for each of 24 words, a partner for each of 12 simple types a
 * word. */
#define VURZHELIK_MAX_VALUES 315

/* How many lines a batch has at most, and how many bytes, those that close its lines included. */
#define VURZHELIK_MAX_LINES 32
#define VURZHELIK_MAX_BATCH 65535

/* How many values hold the answers of any batch: 32 answers, each with a count and a number before it. */
#define VURZHELIK_MAX_BATCH_VALUES 10144

/* What the functions return, and what *value holds then. */
enum vurzhelik_result {
    VURZHELIK_OK = 0,                 /* success                                                      see the function */
    VURZHELIK_BOOK_TOO_LONG = 1,      /* book over 65,535 bytes                                       0 */
    VURZHELIK_CUT_SHORT = 2,          /* head or body of a record cut short                           the record's offset */
    VURZHELIK_KIND_NOT_LISTED = 3,    /* kind not listed                                              the record's offset */
    VURZHELIK_BAD_LAYOUT = 4,         /* body not of its kind's layout                                the record's offset */
    VURZHELIK_UNDECLARED_TYPE = 5,    /* type number or name not declared by an earlier record        the record's offset */
    VURZHELIK_EXPONENT_OUTSIDE = 6,   /* exponent outside -8 to 8                                     the record's offset */
    VURZHELIK_NAME_USED = 7,          /* type name used before                                        the record's offset */
    VURZHELIK_TOO_MANY_TARGETS = 8,   /* ninth target                                                 the record's offset */
    VURZHELIK_TOO_MANY_RECORDS = 9,   /* 65th basic type or 1,025th entry                             the record's offset */
    VURZHELIK_NO_TARGET = 10,         /* book ends without a target                                   the book's length */
    VURZHELIK_BAD_LINE_BYTE = 11,     /* line byte outside 32 to 126                                  the byte's offset */
    VURZHELIK_BAD_WORD = 12,          /* word over 31 bytes, or a 25th word                           the word's offset */
    VURZHELIK_UNKNOWN_WORD = 13,      /* word without an entry                                        the word's offset */
    VURZHELIK_TOO_MANY_SIMPLES = 14,  /* over 512 simple types in all entries of all words            0 */
    VURZHELIK_NO_READING = 15,        /* no reading for any target                                    0 */
    VURZHELIK_BUFFER_TOO_SHORT = 16,  /* answer buffer too short                                      the number of values needed */
    VURZHELIK_BAD_BATCH = 17,         /* over 32 lines, over 65,535 bytes, or a last line not closed  0 */
    VURZHELIK_ANSWERS_TOO_LONG = 18,  /* the answers of a batch do not fit                            the number of values needed */
    VURZHELIK_BRACKETS_TOO_DEEP = 19, /* over six brackets open at once in the text of a type         the record's offset */
    VURZHELIK_NOT_A_TYPE = 20,        /* text that is no type                                         the record's offset */
    VURZHELIK_TYPE_TOO_LONG = 21      /* text of a type of over 12 simple types                       the record's offset */
};

/* The version of the library. It belongs to this header where it is VURZHELIK_VERSION. */
uint32_t vurzhelik_version(void);

/* Checks a book alone.
 * VURZHELIK_OK: the book is accepted; *types and *entries hold how many basic types and entries it has, *pairs how many pairs p <= q its
 * order holds, each type with itself included, and *value holds 0.
 * 1 to 10, 19 to 21: the book is refused; *value is as listed above, and the other three are as they were. */
uint32_t vurzhelik_check_book(const uint8_t *book, size_t book_length, uint64_t *value, uint64_t *types, uint64_t *entries,
                              uint64_t *pairs);

/* Reads a line against a book.
 * VURZHELIK_OK: answer holds the first reading: the number of the target that it is for, counted from 0 as the book's targets stand, the
 * number of words, the entry number of each, the number of simple types, the partner of each. The first target that has a reading is taken.
 * *value holds how many values that is; those behind them are as they were. The letters A to Z of a word count as a to z, in the line and in
 * the book.
 * 1 to 16, 19 to 21: book or line is refused; *value is as listed above, and answer is as it was. */
uint32_t vurzhelik_read_line(const uint8_t *book, size_t book_length, const uint8_t *line, size_t line_length, uint16_t *answer,
                             size_t answer_length, uint64_t *value);

/* Reads a line against a book, as vurzhelik_read_line does, and tells which words are in the way of a line without a reading.
 * VURZHELIK_NO_READING: bit k of *words, the lowest being bit 0, is set exactly where the line without word k + 1 has a reading. It may be
 * that none is set. *value holds 0, and answer is as it was.
 * Otherwise: all is as with vurzhelik_read_line, and *words is as it was. */
uint32_t vurzhelik_words_in_the_way(const uint8_t *book, size_t book_length, const uint8_t *line, size_t line_length, uint16_t *answer,
                                    size_t answer_length, uint64_t *value, uint32_t *words);

/* Reads up to 32 lines against a book. They stand one behind another in lines, each closed by byte 10, which is no part of it.
 * VURZHELIK_OK: *value holds how many lines there are, and answers has a part for each, one behind another: how many values follow, the
 * number of the line's refusal or 0, and the refusal's value or the answer, each as vurzhelik_read_line gives it for the line alone where
 * VURZHELIK_MAX_VALUES are lent. Values behind the last part are as they were.
 * 1 to 10, 17 to 21: book or batch is refused; *value is as listed above, and answers is as it was. */
uint32_t vurzhelik_read_batch(const uint8_t *book, size_t book_length, const uint8_t *lines, size_t lines_length, uint16_t *answers,
                              size_t answers_length, uint64_t *value);

#ifdef __cplusplus
}
#endif

#endif
