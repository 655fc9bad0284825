/* Rows drawn at random, one kind after another, and rows as bytes. */
#include "cases.h"

#include <string.h>

static uint64_t state = 1;

/* Starts the random numbers; the same seed draws the same. */
void start_random(uint64_t seed)
{
    state = (seed + 1) * UINT64_C(0x9E3779B97F4A7C15);
    if (state == 0)
        state = 1;
}

/* The next random number below a limit above 0. */
uint32_t below(uint32_t limit)
{
    state ^= state << 13;
    state ^= state >> 7;
    state ^= state << 17;
    return (uint32_t)((state >> 20) % limit);
}

/* Whether to do what is done once in so many times. */
bool once_in(uint32_t times)
{
    return below(times) == 0;
}

/* ---- Bytes ---- */

/* Writes a number as four bytes, big-endian. */
void put_number(uint8_t *bytes, uint32_t number)
{
    for (int n = 0; n < 4; n++)
        bytes[n] = (uint8_t)(number >> (24 - 8 * n));
}

/* Reads a number of four bytes, big-endian. */
uint32_t get_number(const uint8_t *bytes)
{
    return (uint32_t)bytes[0] << 24 | (uint32_t)bytes[1] << 16 | (uint32_t)bytes[2] << 8 | bytes[3];
}

/* The bytes of a table with these rows; gives their number. */
size_t table_bytes(const struct rows *rows, uint8_t *bytes)
{
    size_t at = 2;

    bytes[0] = 1;
    bytes[1] = (uint8_t)rows->cores;
    for (unsigned n = 0; n < rows->count; n++, at += 13) {
        bytes[at] = 2;
        put_number(bytes + at + 1, rows->row[n].c);
        put_number(bytes + at + 5, rows->row[n].d);
        put_number(bytes + at + 9, rows->row[n].t);
    }
    bytes[at] = 4;
    bytes[at + 1] = (uint8_t)rows->count;
    return at + 2;
}

/* The lists of these rows, with answer lists of the right length, asked for row 0. */
void list_bytes(const struct rows *rows, struct lists *lists)
{
    memset(lists, 0, sizeof *lists);
    for (unsigned n = 0; n < rows->count; n++) {
        put_number(lists->c + 4 * n, rows->row[n].c);
        put_number(lists->d + 4 * n, rows->row[n].d);
        put_number(lists->t + 4 * n, rows->row[n].t);
    }
    lists->c_len = lists->d_len = lists->t_len = 4 * (size_t)rows->count;
    lists->responses_len = lists->allowances_len = lists->c_len;
}

/* ---- Rows ---- */

/* A number from a least to a greatest. */
static uint32_t between(uint32_t least, uint32_t greatest)
{
    return least + below(greatest - least + 1);
}

/* A period: below a power of ten that is drawn first. */
static uint32_t any_period(void)
{
    static const uint32_t limits[] = { 10, 100, 1000, 10000, 100000, TICKS_MAX, TICKS_MAX };

    return between(1, limits[below(7)]);
}

/* A row with this period, and C up to twice so many millionths of it. */
static struct row row_of(uint32_t t, uint64_t millionths)
{
    uint64_t most = 2 * millionths * t / 1000000;
    struct row row = { between(1, most < 1 ? 1 : most > t ? t : (uint32_t)most), t, t };

    if (once_in(2))
        row.d = between(once_in(2) ? row.c : (row.c + t + 1) / 2, t);
    return row;
}

/* The millionths of a core for each of the rows, of so many per cent of all cores. */
static uint64_t share(const struct rows *rows, uint32_t per_cent)
{
    return (uint64_t)per_cent * 10000 * rows->cores / rows->count;
}

/* Numbers up to 40, few rows. */
void small_rows(struct rows *rows)
{
    uint32_t limit = once_in(3) ? 8 : 40, part;

    rows->count = between(1, 8);
    rows->cores = between(1, once_in(3) ? CORES_MAX : 3);
    part = between(1, 2 * rows->count + 1);
    for (unsigned n = 0; n < rows->count; n++) {
        uint32_t t = between(1, limit), d = once_in(2) ? t : between(1, t);

        rows->row[n] = (struct row){ between(1, d / part == 0 ? 1 : d / part), d, t };
    }
}

/* Any number of rows and cores, periods of every magnitude; most fit. */
void ordinary_rows(struct rows *rows)
{
    uint64_t millionths;

    rows->count = between(1, ROWS_MAX);
    rows->cores = between(1, once_in(2) ? CORES_MAX : 2);
    millionths = share(rows, between(10, 90));
    for (unsigned n = 0; n < rows->count; n++)
        rows->row[n] = row_of(any_period(), millionths);
}

/* A row at the limits or next to them. */
static struct row limit_row(void)
{
    struct row row = { 0, 0, once_in(4) ? between(1, 3) : TICKS_MAX - below(3) };

    row.d = once_in(3) ? row.t : once_in(2) && row.t > 2 ? row.t - below(3) : between(1, row.t);
    row.c = once_in(8) ? row.d : once_in(8) && row.d > 2 ? row.d - below(3) : between(1, row.d < 3 ? row.d : 3);
    return row;
}

/* The numbers of rows and cores, C, D and T at their limits and next to them. */
void limit_rows(struct rows *rows)
{
    static const unsigned counts[] = { 0, 1, 1, 2, 2, 3, 3, ROWS_MAX - 1, ROWS_MAX, ROWS_MAX + 1 };
    static const unsigned cores[] = { 0, 1, 1, 1, 2, 2, 7, 8, 8, 8, 9, 255 };

    rows->count = counts[below(10)];
    rows->cores = cores[below(12)];
    for (unsigned n = 0; n < rows->count; n++)
        rows->row[n] = limit_row();
}

/* Breaks a row's order in one of several ways. */
void break_row(struct row *row)
{
    switch (below(7)) {
    case 0: row->c = 0; break;
    case 1: row->c = row->d + 1; break;
    case 2: row->d = row->t + 1; break;
    case 3: row->t = TICKS_MAX + 1; break;
    case 4: row->c = row->d = row->t = UINT32_MAX; break;
    case 5: row->c = row->d = row->t = TICKS_MAX + 1; break;
    default: row->d = 0; break;
    }
}

/* Any rows, one or more of which break 1 <= C <= D <= T <= 1,000,000. */
void broken_rows(struct rows *rows)
{
    do
        any_rows(rows);
    while (rows->count == 0);
    do
        break_row(&rows->row[below(rows->count)]);
    while (once_in(3));
}

/* Few deadlines, many rows. */
void equal_deadlines(struct rows *rows)
{
    uint32_t deadlines[2] = { between(5, once_in(2) ? 60 : TICKS_MAX / 2) };

    deadlines[1] = once_in(2) ? deadlines[0] : between(deadlines[0], 2 * deadlines[0]);
    rows->count = between(2, once_in(2) ? 8 : ROWS_MAX);
    rows->cores = between(1, 3);
    for (unsigned n = 0; n < rows->count; n++) {
        uint32_t d = deadlines[below(2)], most = 2 * d * rows->cores / rows->count;

        rows->row[n].t = once_in(3) ? d : between(d, 2 * d > TICKS_MAX ? TICKS_MAX : 2 * d);
        rows->row[n].d = d;
        rows->row[n].c = between(1, most < 1 ? 1 : most > d ? d : most);
    }
}

/* Equal utilisations of different rows, and utilisations that are equal once rounded. */
void equal_utilisations(struct rows *rows)
{
    uint32_t whole = between(2, once_in(2) ? 12 : 1000), part;

    rows->count = between(2, once_in(2) ? 8 : ROWS_MAX);
    rows->cores = between(1, CORES_MAX);
    part = between(1, whole * rows->cores / rows->count < 1 ? 1 : (whole * rows->cores / rows->count - 1) % whole + 1);
    for (unsigned n = 0; n < rows->count; n++) {
        uint32_t times = between(1, once_in(2) ? 4 : 900);
        struct row row = { part * times, whole * times, whole * times };

        if (once_in(6)) /* next to equal: the same per cent, another fraction */
            row.d = ++row.t;
        if (once_in(3))
            row.d = between((row.c + row.t + 1) / 2, row.t);
        rows->row[n] = row;
    }
}

/* Few different rows, each several times, so that cores tie. */
void equal_cores(struct rows *rows)
{
    struct row different[3];
    unsigned many = between(1, 3);

    rows->cores = between(2, CORES_MAX);
    rows->count = between(2, once_in(2) ? 8 : ROWS_MAX);
    for (unsigned n = 0; n < many; n++)
        different[n] = row_of(once_in(2) ? between(2, 40) : any_period(), share(rows, between(20, 90)));
    for (unsigned n = 0; n < rows->count; n++)
        rows->row[n] = different[below(many)];
}

/* Just as much as the cores take, or a little less or more. */
void full_cores(struct rows *rows)
{
    uint64_t millionths;

    rows->count = between(3, ROWS_MAX);
    rows->cores = between(1, rows->count / 3);
    millionths = share(rows, between(85, 115));
    for (unsigned n = 0; n < rows->count; n++)
        rows->row[n] = row_of(once_in(2) ? between(20, 60) : between(100, 10000), millionths);
}

/* Rows of short deadline and long period above rows of short period, which then have the smallest allowances. */
void urgent_rows(struct rows *rows)
{
    rows->cores = between(1, 3);
    rows->count = between(4, ROWS_MAX);
    for (unsigned n = 0; n < rows->count; n++) {
        uint32_t t = once_in(2) ? between(40, 100) : between(200, 2000);
        uint32_t most = 3 * t * rows->cores / rows->count;

        rows->row[n] = (struct row){ between(1, most > t ? t : most), t, t };
        if (once_in(2))
            rows->row[n] = (struct row){ between(1, 2), between(20, 40), between(500, 5000) };
    }
}

/* One of the kinds above but for broken_rows. */
void any_rows(struct rows *rows)
{
    static void (*const draws[])(struct rows *) = { small_rows, small_rows, ordinary_rows, limit_rows,
                                                    equal_deadlines, equal_utilisations, equal_cores,
                                                    full_cores, urgent_rows };

    draws[below(9)](rows);
}

/* Short rows that leave next to nothing of the core, and slow ones below them. */
static void slow_rows_below(struct rows *rows, unsigned slow)
{
    uint64_t left = 1, of = 1; /* what is left of the core */

    rows->cores = between(1, 2);
    rows->count = 0;
    for (uint64_t t = between(2, 3); t <= TICKS_MAX / 10; t = of / left + (rows->count < 3 ? between(1, 3) : 1)) {
        rows->row[rows->count++] = (struct row){ 1, (uint32_t)t, (uint32_t)t };
        left = left * t - of;
        of *= t;
    }
    for (unsigned n = 0; n < slow; n++)
        rows->row[rows->count++] = (struct row){ 1, TICKS_MAX - below(1000), TICKS_MAX };
}

/* Long climbs: a few slow rows below short ones. */
void long_climbs(struct rows *rows)
{
    slow_rows_below(rows, between(1, 3));
}

/* Long climbs of many rows: as long_climbs, with more slow rows. */
void many_long_climbs(struct rows *rows)
{
    slow_rows_below(rows, between(4, 8));
}

/* Long walks: many rows of distinct periods, each with D = T. */
void long_walks(struct rows *rows)
{
    uint32_t t = 100;

    rows->cores = 1;
    rows->count = between(17, 20);
    for (unsigned n = 0; n < rows->count; n++) {
        t += between(t / 5, t / 3);
        rows->row[n] = (struct row){ between(1, t / 40), t, t };
    }
}
