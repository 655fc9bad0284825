/* Rows drawn at random, one kind after another, and rows as bytes: what the runners and the benchmark share. */
#ifndef CASES_H
#define CASES_H

#include <stdbool.h>
#include <stddef.h>
#include <stdint.h>

enum { CORES_MAX = 8, ROWS_MAX = 24, TICKS_MAX = 1000000 };
enum { TABLE_ROOM = 2 + 13 * (ROWS_MAX + 1) + 2 + 16, LIST_ROOM = 4 * (ROWS_MAX + 3) };

struct row {
    uint32_t c, d, t;
};

/* A table's or a list case's rows; one row more than allowed fits. */
struct rows {
    unsigned cores, count;
    struct row row[ROWS_MAX + 1];
};

/* Three lists in bytes, the lengths of all five, and the row number that the why service is asked for. */
struct lists {
    uint8_t c[LIST_ROOM], d[LIST_ROOM], t[LIST_ROOM];
    size_t c_len, d_len, t_len, responses_len, allowances_len;
    uint32_t row;
};

/* Random numbers. */
void start_random(uint64_t seed);
uint32_t below(uint32_t limit);
bool once_in(uint32_t times);

/* Bytes. */
void put_number(uint8_t *bytes, uint32_t number);
uint32_t get_number(const uint8_t *bytes);
size_t table_bytes(const struct rows *rows, uint8_t *bytes);
void list_bytes(const struct rows *rows, struct lists *lists);

/* Rows of one kind each. */
void small_rows(struct rows *rows);
void ordinary_rows(struct rows *rows);
void limit_rows(struct rows *rows);
void broken_rows(struct rows *rows);
void equal_deadlines(struct rows *rows);
void equal_utilisations(struct rows *rows);
void equal_cores(struct rows *rows);
void full_cores(struct rows *rows);
void urgent_rows(struct rows *rows);
void any_rows(struct rows *rows);
void long_climbs(struct rows *rows);
void many_long_climbs(struct rows *rows);
void long_walks(struct rows *rows);

/* One row more that breaks the limits. */
void break_row(struct row *row);

#endif
