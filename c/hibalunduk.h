/* Hibalunduk for programs in C: the three services of document 01 and the listing, and of document 02 the why service
 * and the csv service, which takes a table as a spreadsheet exports it. The documents decide where this page is short.
 *
 * A table has rows, numbered from 1, each with an execution time C, a deadline D and a period T in whole ticks,
 * 1 <= C <= D <= T <= 1,000,000. The services say on which core a row goes, its response time, and its
 * allowance: how far it may run over before a row on its core is late; and which row that is.
 *
 * What a caller has to keep:
 * - A pointer has at least as many bytes behind it as the length after it says. It is not null, not even where
 *   the length is 0.
 * - No two of a call's byte strings share a byte, and nothing else writes to them during the call.
 * Beyond that every call is allowed: any bytes, any lengths. What a service answers and writes, and that it ends, is
 * proved of its code for every such call.
 *
 * What a caller can rely on:
 * - The answer and the bytes written depend on nothing but the arguments. There is nothing to initialise, nothing
 *   is kept between calls, nothing is allocated. The library has no data of its own and needs of C's nothing but
 *   memcpy and memset. Any number of threads may call at once.
 * - Nothing is written but the report, the two answer lists, the listing or what the csv service is lent, and of those
 *   only the bytes named below. The others keep their content.
 * - A refused call writes nothing. (The listing of a table that is refused is a line that says so.)
 * - It takes less than 16 KiB of stack (measured).
 * - A call takes as long as is said below (measured, on a processor of 2 GHz; c/benchmark measures it anew).
 *
 * Numbers in bytes are unsigned and big-endian. Link with target/staticlib/libentries.a (c/build does).
 */
#ifndef HIBALUNDUK_H
#define HIBALUNDUK_H

#include <stddef.h>
#include <stdint.h>

#ifdef __cplusplus
extern "C" {
#endif

/* The limits, and the lengths that follow from them. */
enum {
    HIBALUNDUK_CORES_MAX = 8,
    HIBALUNDUK_ROWS_MAX = 24,
    HIBALUNDUK_TICKS_MAX = 1000000,
    HIBALUNDUK_TABLE_MAX = 2 + 13 * HIBALUNDUK_ROWS_MAX + 2, /* bytes of a table of 24 rows */
    HIBALUNDUK_REPORT_MAX = 4 + 23 * HIBALUNDUK_ROWS_MAX,    /* bytes of its report */
    HIBALUNDUK_LIST_MAX = 4 * HIBALUNDUK_ROWS_MAX,           /* bytes of a list of 24 numbers */
    HIBALUNDUK_LISTING_MAX = 1102,                           /* bytes that hold every listing */
    HIBALUNDUK_CSV_MAX = 46 + 67 * HIBALUNDUK_ROWS_MAX       /* bytes that hold every text of the csv service */
};

/* An answer: number 0 and row 0 when accepted, else the refusal's number, and its row or 0.
 *
 *   No.  Row                 Given when
 *   1    0                   a record is cut short or missing, a kind is not allowed at its place, bytes follow kind 4
 *   2    0                   the number of cores is 0 or above 8
 *   3    0                   no rows or a 25th row; lists of unequal length, or of a length not a multiple of four
 *   4    the first           a row breaks 1 <= C <= D <= T <= 1,000,000
 *   5    0                   kind 4 states another count of rows than was read
 *   6    that row            no core takes a row in the placement; another placement may exist
 *   7    0                   what is lent for the answer is shorter than it
 *   8    the highest-ranked  a row misses its deadline
 *   9    the first line      a line of the text is not of the form; the header is line 1
 *   10   0                   the row number asked for is that of no row
 */
struct hibalunduk_answer {
    uint32_t number;
    uint32_t row;
};

/* The table service: reads a table, places its rows on cores, and writes the report.
 *
 * A record is one byte of kind and a body: kind 1 the number of cores (1 byte); kind 2 a row, C, D and T (4 bytes
 * each); kind 3 a row's core from 1 (1 byte), response time (4) and allowance (4); kind 4 the number of rows
 * (1 byte). A table is one kind 1, a kind 2 for each row, one kind 4. The report of n rows is the table's kind 1 and
 * kind 2 unchanged, then a kind 3 for each row in table order, then kind 4: 4 + 23 n bytes at the front of `report`.
 *
 * Refusals: 1 to 5 as the records are read from the front, the first fault decides. A kind byte is looked at before
 * its body, a 25th kind 2 is refused (3) before its body, a row's limits (4) as soon as its body is there; at kind 4
 * the order is cut short (1), no rows (3), count (5), bytes after (1). Then 7, then 6. Never 8, 9 or 10.
 *
 * A table of more than HIBALUNDUK_TABLE_MAX bytes is always refused, and its first HIBALUNDUK_TABLE_MAX + 1 bytes get
 * the same answer, so no longer buffer is needed to read one.
 *
 * Time: microseconds for a few rows, below a millisecond for 24. The slowest table found, with long climbs and very many
 * scheduling points on one core, takes 0.1 seconds.
 */
struct hibalunduk_answer hibalunduk_table(const uint8_t *table, size_t table_len,
                                          uint8_t *report, size_t report_len);

/* The set service: one core's rows as lists of C, D and T, four bytes a number, in table order. Fills `responses`
 * with the rows' response times and `allowances` with their allowances, found by trial of the definition.
 *
 * For n rows it writes 4 n bytes at the front of each answer list; these may be longer, and of any length.
 *
 * Refusals, in this order: 3 when c_len, d_len and t_len are not one and the same multiple of four from 4 to
 * HIBALUNDUK_LIST_MAX; 4; 7 when an answer list is shorter than c_len; 8. Never 1, 2, 5, 6, 9 or 10.
 *
 * Time: microseconds for a few rows, below a millisecond for 24. The slowest lists found, short rows that leave next to
 * nothing of the core and slow rows below them, take 0.8 seconds.
 */
struct hibalunduk_answer hibalunduk_set(const uint8_t *c, size_t c_len,
                                        const uint8_t *d, size_t d_len,
                                        const uint8_t *t, size_t t_len,
                                        uint8_t *responses, size_t responses_len,
                                        uint8_t *allowances, size_t allowances_len);

/* The point service: takes, fills and refuses as the set service does, and answers the same on every call; its
 * allowances are found by the point formula.
 *
 * Time: below a microsecond for a few rows, about a millisecond for 24. The slowest lists found take 0.1 seconds.
 */
struct hibalunduk_answer hibalunduk_point(const uint8_t *c, size_t c_len,
                                          const uint8_t *d, size_t d_len,
                                          const uint8_t *t, size_t t_len,
                                          uint8_t *responses, size_t responses_len,
                                          uint8_t *allowances, size_t allowances_len);

/* An answer of the why service: number and row as above; where accepted the limiting row and the point, else 0 and 0. */
struct hibalunduk_why {
    uint32_t number;
    uint32_t row;
    uint32_t limited_by;
    uint32_t point;
};

/* The why service: which row stops a row, that is, why its allowance is not one tick more. Takes one core's rows as the
 * set service does, and the number of one of them in the lists, from 1. Writes nothing.
 *
 * `limited_by` is the number in the lists of the limiting row: the first in rank that misses its deadline with the C of
 * `row` raised by its allowance and one tick. That is `row` itself, or a row ranked below it. `point` is the first
 * scheduling point in the limiting row's walk at which its quotient for `row`, rounded towards minus infinity, is its
 * greatest: with the whole allowance the limiting row still ends by that time.
 *
 * Refusals, in this order: 3 and 4 as in the set service; 10 when `row` is 0 or above the number of rows; 8. Never 1, 2,
 * 5, 6, 7 or 9.
 *
 * Time: below a microsecond for a few rows, below a millisecond for 24; on each list of c/benchmark what a call of the
 * point service takes, or less.
 */
struct hibalunduk_why hibalunduk_why(const uint8_t *c, size_t c_len,
                                     const uint8_t *d, size_t d_len,
                                     const uint8_t *t, size_t t_len,
                                     uint32_t row);

/* The listing of a table, in text: the line `row core response allowance`, a line with these four decimal numbers for
 * each row in table order, and the line `system` with the system's allowance, the smallest of all. Of a table that is
 * refused it is the line `refused N row R`, with the number and the row that the table service gives where the report
 * is long enough. Each line ends in a newline; no byte 0 follows.
 *
 * Gives how many bytes it wrote at the front of `listing`; 0, and nothing is written, where they do not fit.
 * HIBALUNDUK_LISTING_MAX bytes are always enough.
 *
 * Time: that of the table service.
 */
size_t hibalunduk_listing(const uint8_t *table, size_t table_len, uint8_t *listing, size_t listing_len);

/* An answer of the csv service: number and row as above, and how many bytes were written; 0 on a refusal. */
struct hibalunduk_written {
    uint32_t number;
    uint32_t row;
    uint32_t length;
};

/* The csv service: reads a table as comma-separated text, certifies it on so many cores, and writes the text with each
 * row's core, response time and allowance.
 *
 * The text is bytes, of any length. Its first line is the header `wcet,deadline,period`, in lower case; then there is a
 * line for each row with its C, D and T, three fields of decimal digits with commas between. A name or a field is plain
 * or in quotes ("12"); a field has one digit or more, leading zeros are allowed, and its number has no bound. A line ends
 * in CRLF or in LF, each line as it likes; the last end may be missing. A CR that no LF follows is no line end. Nothing
 * else is of the form: no space, no sign, no byte order mark, no empty line (not even at the end), no empty field, no
 * line end and no quote within quotes.
 *
 * Written at the front of `out`: the line `wcet,deadline,period,core,response,allowance`, then a line for each row with
 * its six numbers, plain and without leading zeros; each line ends in CRLF, no byte 0 follows. HIBALUNDUK_CSV_MAX bytes
 * are always enough. The first three columns of what is written are a text of the form, and the same table.
 *
 * Refusals, in this order: 9, judged over the whole text, with the first line that is not of the form as the row (the
 * header is line 1, and the first line of no text at all is not of the form; a line beyond 4294967295 is given as that);
 * 2; then by rows from the front, 3 at a 25th, before its limits, and 4, with the row's number (the header not counted),
 * however many digits a number has; 3 when there are no rows; 6; 7 when `out` is shorter than what is to be written.
 * Never 1, 5, 8 or 10.
 *
 * Time: that of the table service, and of reading the text once from the front, more than 50 MiB in a second.
 */
struct hibalunduk_written hibalunduk_csv(uint32_t cores, const uint8_t *text, size_t text_len,
                                         uint8_t *out, size_t out_len);

/* The table that a text is, as bytes for the table service: reads a text as the csv service does, and writes kind 1, a
 * kind 2 for each row and kind 4 at the front of `out`, 4 + 13 n bytes for n rows. HIBALUNDUK_TABLE_MAX bytes are always
 * enough.
 *
 * Refusals, in this order: 9, 2, 3 and 4 as in the csv service; 7 when `out` is shorter than those bytes. Never 6: no row
 * is placed.
 *
 * Time: that of reading the text once from the front.
 */
struct hibalunduk_written hibalunduk_csv_table(uint32_t cores, const uint8_t *text, size_t text_len,
                                               uint8_t *out, size_t out_len);

#ifdef __cplusplus
}
#endif

#endif
