/* What compare compares on texts: both programs' csv services and tables of a text; the product's csv service with its
 * table service; and what it writes, read again. */
#include "compare_texts.h"

#include "programs.h"
#include "text_sheets.h"
#include "texts.h"

#include <stdio.h>
#include <string.h>

enum { MEBIBYTE = 1 << 20, MANY_ROWS = 1000, PRINTED = 4000 };

struct service csv_numbers = { "csv service", { 0, 2, 3, 4, 6, 7, 9 }, 7, { 0 } };
struct service csv_table_numbers = { "table of a text", { 0, 2, 3, 4, 7, 9 }, 6, { 0 } };

static struct text text; /* the text at hand */

/* ---- What differs ---- */

/* Prints the beginning of a text, as a line of samples/calls has it. */
static void print_text(const struct text *differs)
{
    printf("  %u cores, text of %lu bytes: ", (unsigned)differs->cores, (unsigned long)differs->len);
    for (size_t n = 0; n < differs->len && n < PRINTED; n++) {
        uint8_t byte = differs->bytes[n];

        if (byte == '\r' || byte == '\n')
            printf(byte == '\r' ? "\\r" : "\\n");
        else
            printf(byte > ' ' && byte < 127 && byte != '\\' ? "%c" : "\\x%02x", byte);
    }
    printf("\n");
}

/* Says in which case two calls on a text differ, and ends the run. */
static void differ(const char *what, const struct text *differs, const struct called *ours,
                   const struct called *theirs, size_t out_len)
{
    print_case(what);
    print_text(differs);
    printf("  lent %lu bytes\n", (unsigned long)out_len);
    print_called("the product", ours, out_len, 0);
    print_called("the other", theirs, out_len, 0);
    stop();
}

/* ---- Comparisons ---- */

/* Compares a service of both programs on the text at hand, into lent bytes of a length; gives what the product left. */
static void compare_service(const char *what, text_service *product, text_service *second, size_t out_len,
                            struct called *ours)
{
    struct called theirs;

    call_text(product, text.cores, text.bytes, text.len, out_len, ours);
    call_text(second, text.cores, text.bytes, text.len, out_len, &theirs);
    if (!same_called(ours, &theirs) || !well_behaved(ours))
        differ(what, &text, ours, &theirs, out_len);
}

/* Compares both csv services. */
static void compare_csv(size_t out_len, struct called *ours)
{
    compare_service("csv, the second program", product_program.csv, second_program.csv, out_len, ours);
    csv_numbers.given[ours->answer.number]++;
}

/* Compares both tables of the text. */
static void compare_csv_table(size_t out_len, struct called *ours)
{
    compare_service("table of a text, the second program", product_program.csv_table, second_program.csv_table,
                    out_len, ours);
    csv_table_numbers.given[ours->answer.number]++;
}

/* Compares what the product's csv service left with what its table service says of the product's table of the text: the
 * same number and row, and the same figures. */
static void compare_readings(const struct called *csv, const struct called *table)
{
    struct called report;
    char written[LENT_ROOM];
    bool same;

    if (table->answer.number != 0) {
        if (!same_answer(csv->answer, table->answer))
            differ("csv, the product's table of the text", &text, csv, table, LENT_ROOM);
        return;
    }
    call_table(product_program.table, table->first + MARGIN, table->first_written, LENT_ROOM, &report);
    same = same_answer(csv->answer, report.answer);
    if (same && csv->answer.number == 0)
        same = csv->first_written == text_of_report(&report, table->first_written / 13, written) &&
               memcmp(csv->first + MARGIN, written, csv->first_written) == 0;
    if (!same)
        differ("csv, the product's table service", &text, csv, &report, LENT_ROOM);
}

/* The first three columns of a text that the csv service wrote. */
static void first_columns(const struct called *csv, struct text *columns)
{
    unsigned commas = 0;

    columns->len = 0;
    for (size_t at = MARGIN; at < MARGIN + csv->first_written; at++) {
        uint8_t byte = csv->first[at];

        commas = byte == '\n' ? 0 : commas + (byte == ',');
        if (commas < 3 || byte == '\r')
            add_bytes(columns, &byte, 1);
    }
}

/* Compares what the product's csv service left with what it leaves of the first three columns that it wrote. */
static void compare_round_trip(const struct called *csv)
{
    static struct text columns;
    struct called again;

    first_columns(csv, &columns);
    columns.cores = text.cores;
    call_text(product_program.csv, columns.cores, columns.bytes, columns.len, LENT_ROOM, &again);
    if (!same_called(&again, csv))
        differ("csv, its first three columns read again", &columns, &again, csv, LENT_ROOM);
}

/* Compares all on the text at hand, into more bytes than any answer has; gives what the product left. */
static void compare_whole(struct called *csv, struct called *table)
{
    compare_csv(LENT_ROOM, csv);
    compare_csv_table(LENT_ROOM, table);
    compare_readings(csv, table);
    if (csv->answer.number == 0)
        compare_round_trip(csv);
}

/* A length for what is lent, by turns: as needed, longer, one byte too short, none; any where nothing is written. */
static size_t out_length(size_t needed)
{
    if (needed == 0)
        return below(LENT_ROOM + 1);
    switch (current->compared % 8) {
    case 0: return needed - 1;
    case 1: return below((uint32_t)needed);
    case 2: return 0;
    case 3: return needed + 1 + below(29);
    default: return needed;
    }
}

/* Compares all on the text at hand, and both services into lent bytes of a length by turns. */
static void compare_text(void)
{
    struct called csv, table;

    compare_whole(&csv, &table);
    compare_csv(out_length(csv.first_written), &csv);
    compare_csv_table(out_length(table.first_written), &table);
    count(csv.answer.number);
}

/* ---- Kinds of texts ---- */

/* A text in any way that the form allows. */
void text_as_drawn(const struct rows *rows)
{
    draw_text(rows, rows->count, NULL, &text);
    compare_text();
}

/* A text with one byte replaced, inserted or removed, or two, or with a damaged field; now and then for a number of cores
 * that is refused. */
void text_damaged(const struct rows *rows)
{
    draw_text(rows, rows->count, NULL, &text);
    if (once_in(3))
        damage_field(&text);
    else
        do
            damage_text(&text);
        while (once_in(3));
    if (once_in(4))
        text.cores = draw_cores();
    compare_text();
}

/* A text cut at each of its last bytes, and somewhere else. */
void text_cut(const struct rows *rows)
{
    size_t least;

    draw_text(rows, rows->count, NULL, &text);
    least = text.len < 12 ? 0 : text.len - 12;
    while (text.len > least) {
        compare_text();
        text.len--;
    }
    cut_text(&text);
    compare_text();
}

/* A text with a part of it twice. */
void text_doubled(const struct rows *rows)
{
    draw_text(rows, rows->count, NULL, &text);
    double_part(&text);
    compare_text();
}

/* A text with a number of many digits. */
void text_with_long_number(const struct rows *rows)
{
    struct long_number number;

    if (rows->count > 0)
        draw_long_number(rows, rows->count, &number);
    draw_text(rows, rows->count, rows->count > 0 ? &number : NULL, &text);
    compare_text();
}

/* A text with as many rows as are allowed, around that, or far more; some with a number of many digits in one of the last
 * rows that are looked at, some damaged. */
void text_of_many_rows(const struct rows *rows)
{
    static const size_t counts[] = { ROWS_MAX - 1, ROWS_MAX, ROWS_MAX + 1, ROWS_MAX + 2, MANY_ROWS };
    size_t many = rows->count == 0 ? 0 : counts[current->drawn % 5];
    bool longer = many > 0 && once_in(2);
    struct long_number number;

    if (longer) {
        draw_long_number(rows, many, &number);
        number.row = ROWS_MAX - 2 + below(3);
    }
    draw_text(rows, many, longer ? &number : NULL, &text);
    if (once_in(4))
        damage_text(&text);
    compare_text();
}

/* A text for any number of cores. */
void text_of_cores(const struct rows *rows)
{
    draw_text(rows, rows->count, NULL, &text);
    text.cores = draw_cores();
    compare_text();
}

/* A text into lent bytes of each length around the one needed, none, and one byte. */
void text_lent_lengths(const struct rows *rows)
{
    struct called csv, table, called;
    size_t needed, bytes;

    draw_text(rows, rows->count, NULL, &text);
    compare_whole(&csv, &table);
    needed = csv.first_written < 6 ? 6 : csv.first_written;
    bytes = table.first_written < 6 ? 6 : table.first_written;
    for (size_t n = 0; n <= 12; n++) {
        compare_csv(needed - 6 + n, &called);
        compare_csv_table(bytes - 6 + n, &called);
    }
    for (size_t n = 0; n <= 1; n++) {
        compare_csv(n, &called);
        compare_csv_table(n, &called);
    }
    count(csv.answer.number);
}

/* Compares all on the text at hand, one byte of it damaged once in so many times. */
static void compare_long_text(uint32_t times)
{
    struct called csv, table;

    if (once_in(times))
        damage_text(&text);
    compare_whole(&csv, &table);
    count(csv.answer.number);
}

/* Two texts of some MiB: very many zeros before a number, and very many rows. For one row or more. */
void text_of_mebibytes(const struct rows *rows)
{
    struct long_number number;

    draw_long_number(rows, rows->count, &number);
    number.zeros = MEBIBYTE + below(MEBIBYTE);
    if (once_in(2)) { /* the one that stood there */
        number.field = 2;
        sprintf(number.digits, "%u", (unsigned)rows->row[number.row].t);
    }
    draw_text(rows, rows->count, &number, &text);
    compare_long_text(4);
    draw_text(rows, MEBIBYTE / 8, NULL, &text);
    compare_long_text(2);
}
