/* Longhorbi for C: the calls of crates/boundary/out/libboundary.a, which `rt lib` in crates/boundary makes (x86-64 Linux).
 *
 * What each call does is proved (crates/boundary/src/lib.rt has the contracts), for every value of every argument, as long as the caller
 * keeps what follows. Nothing checks it, on either side:
 *   - a column or buffer is a pointer and a length; the pointer is not NULL, is aligned for its type, and is valid for that many
 *     elements, which are initialized, also where the length is 0;
 *   - lengths are in elements, never in bytes;
 *   - what a call may write (a parameter without const) overlaps no other argument of that call;
 *   - no other thread writes to what a call was lent, or reads what it may write, before the call returns;
 *   - the stack has room: one mebibyte is plenty. No call allocates, keeps a pointer, or touches anything else.
 *
 * Answers. A call with an `answer` writes its answer as words into the start of that array and gives how many words it wrote. Where the
 * array is shorter than that, the call gives 0 and does nothing at all: nothing that was lent is changed. Words behind the answer keep
 * their values. Word 0 is always the code: 0, or the number of a refusal; word 1 is always the place of the refusal, else 0.
 *
 * Codes                                                                        place of the refusal
 *   1   the want is 0                                                          0
 *   2   the want has more than 8 kinds                                         0
 *   11  x, y and kit differ in length, or exceed 4,096                         0
 *   12  a coordinate is below -1,000,000 or above 1,000,000                    the lowest such place
 *   21  the tree's counts do not go with the table, or a column is too short   0
 *   22  a level, a count or a run's start is wrong                             the lowest such node, or the node count
 *   23  an entry names what its node may not                                   the lowest such index into entries
 *   24  something is named twice                                               the lowest index of a repeated entry
 *   25  a box is not the tightest around its entries                           the lowest such node
 *   26  a kit word is not the bitwise or of its entries'                       the lowest such node
 *   31  no group exists                                                        0
 *   32  the allowance is spent                                                 0
 *   33  the best group is too wide (is never met)                              0
 *   41  a lent node column or entry list is too short for the builder          0
 *   51  a line is missing, too long, without line feed, or has another key     the line, from 1
 *   52  a value is not in form or range                                        the line
 *   53  bytes after the last line                                              the line after the last
 *   54  lent columns or sheet buffer are too short                             0
 *   55  the input of longhorbi_reply is over 65,536 bytes (only in its text)   0
 */
#ifndef LONGHORBI_H
#define LONGHORBI_H

#include <stddef.h>
#include <stdint.h>

#ifdef __cplusplus
extern "C" {
#endif

/* How many words each answer has. */
enum {
    LONGHORBI_SQUARED_WORDS = 3, /* code, at, squared distance; at is 0 or 1, the first point out of range */
    LONGHORBI_CHECK_WORDS = 2,   /* code, at */
    LONGHORBI_BUILD_WORDS = 4,   /* code, at, nodes, listed: the counts of the tree; 0 in a refusal */
    LONGHORBI_SEARCH_WORDS = 13, /* code, at, eight places, squared diameter, steps, known (0 or 1) */
    LONGHORBI_WRITE_WORDS = 3,   /* code, at, bytes of the sheet; 0 in a refusal */
    LONGHORBI_READ_WORDS = 5     /* code, at, places, want, budget; 0 in a refusal */
};

/* What longhorbi_family gives. */
enum {
    LONGHORBI_NONE = 0, /* the number reports no refusal */
    LONGHORBI_QUERY = 1,
    LONGHORBI_TABLE = 2,
    LONGHORBI_TREE = 3,
    LONGHORBI_SEARCH = 4,
    LONGHORBI_ROOM = 5,
    LONGHORBI_SHEET = 6
};

/* Room that is always enough. */
enum {
    LONGHORBI_MOST_PLACES = 4096,
    LONGHORBI_MOST_NODES = 273,       /* node columns, for longhorbi_build */
    LONGHORBI_MOST_LISTED = 4368,     /* entries, for longhorbi_build */
    LONGHORBI_MOST_LINES = 534,       /* bytes, for longhorbi_lines and longhorbi_reply */
    LONGHORBI_MOST_SHEET = 221254     /* bytes, for longhorbi_write */
};

/* The greatest whole number whose square is not above n. */
uint64_t longhorbi_root(uint64_t n);

/* The family of a code. */
uint8_t longhorbi_family(uint8_t code);

/* The squared distance of two points: 12. */
size_t longhorbi_squared(int32_t ax, int32_t ay, int32_t bx, int32_t by, uint64_t *answer, size_t answer_len);

/* Builds the tree of a table in the lent columns: 11, 12, 41. Only the used part of a column is written; nothing in a refusal. */
size_t longhorbi_build(const int32_t *x, size_t x_len, const int32_t *y, size_t y_len, const uint64_t *kit, size_t kit_len,
                       uint8_t *level, size_t level_len, uint16_t *start, size_t start_len, uint8_t *count, size_t count_len,
                       int32_t *x_lo, size_t x_lo_len, int32_t *x_hi, size_t x_hi_len,
                       int32_t *y_lo, size_t y_lo_len, int32_t *y_hi, size_t y_hi_len,
                       uint64_t *kits, size_t kits_len, uint16_t *entries, size_t entries_len,
                       uint64_t *answer, size_t answer_len);

/* Checks a tree of `nodes` nodes and `listed` entries against its table: 11, 12, 21 to 26. */
size_t longhorbi_check(const int32_t *x, size_t x_len, const int32_t *y, size_t y_len, const uint64_t *kit, size_t kit_len,
                       const uint8_t *level, size_t level_len, const uint16_t *start, size_t start_len,
                       const uint8_t *count, size_t count_len,
                       const int32_t *x_lo, size_t x_lo_len, const int32_t *x_hi, size_t x_hi_len,
                       const int32_t *y_lo, size_t y_lo_len, const int32_t *y_hi, size_t y_hi_len,
                       const uint64_t *kits, size_t kits_len, const uint16_t *entries, size_t entries_len,
                       size_t nodes, size_t listed, uint64_t *answer, size_t answer_len);

/* The places that together hold a wanted kit and lie closest: 1, 2, 11, 12, 21 to 26, 31, 32. It checks want, table and tree itself.
 * Word 2 and on: a place for each wanted kind, kinds ascending; the rest 0. With 32 and known 1 the best group so far stands there. */
size_t longhorbi_search(const int32_t *x, size_t x_len, const int32_t *y, size_t y_len, const uint64_t *kit, size_t kit_len,
                        const uint8_t *level, size_t level_len, const uint16_t *start, size_t start_len,
                        const uint8_t *count, size_t count_len,
                        const int32_t *x_lo, size_t x_lo_len, const int32_t *x_hi, size_t x_hi_len,
                        const int32_t *y_lo, size_t y_lo_len, const int32_t *y_hi, size_t y_hi_len,
                        const uint64_t *kits, size_t kits_len, const uint16_t *entries, size_t entries_len,
                        size_t nodes, size_t listed, uint64_t want, uint32_t allowance,
                        uint64_t *answer, size_t answer_len);

/* Writes the place sheet of a table, a want and a budget at the start of a buffer: 11, 12, 54. Nothing is written in a refusal. */
size_t longhorbi_write(const int32_t *x, size_t x_len, const int32_t *y, size_t y_len, const uint64_t *kit, size_t kit_len,
                       uint64_t want, uint32_t budget, uint8_t *out, size_t out_len, uint64_t *answer, size_t answer_len);

/* Reads a place sheet into columns: 51 to 54. Only the first `places` elements are written; nothing in a refusal. */
size_t longhorbi_read(const uint8_t *src, size_t src_len, int32_t *x, size_t x_len, int32_t *y, size_t y_len,
                      uint64_t *kit, size_t kit_len, uint64_t *answer, size_t answer_len);

/* The printed lines for the answer words of a search of `want`, at the start of a buffer; gives how many bytes they are. It takes the
 * first 13 words of `found`. It gives 0 and changes nothing where the buffer is too short, where `found` has fewer than 13 words, or
 * where a word is above what it can be: code 255, a place 65,535, steps 4,294,967,295, known 1. */
size_t longhorbi_lines(const uint64_t *found, size_t found_len, uint64_t want, uint8_t *out, size_t out_len);

/* What the program prints for the bytes of a place sheet, at the start of a buffer; gives how many bytes that is, or, where the buffer
 * is too short, 0, and changes nothing. */
size_t longhorbi_reply(const uint8_t *input, size_t input_len, uint8_t *out, size_t out_len);

#ifdef __cplusplus
}
#endif

#endif
