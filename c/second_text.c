/* The second program's csv service: request 2 in plain C and without proofs. It takes the text apart into lines, a line
 * into fields and a field into its digits, first to judge every line and then once more for the numbers; the table that
 * comes of it goes to the second program's table service as bytes. */
#include "second.h"

#include <stdbool.h>
#include <stdio.h>
#include <string.h>

enum { FIELDS = 3, ROWS_MAX = 24, DIGITS_MAX = 9 };
enum { CORES_BYTES = 2, ROW_BYTES = 13, FIGURES_BYTES = 10, END_BYTES = 2 };
enum { TABLE_ROOM = CORES_BYTES + ROW_BYTES * (ROWS_MAX + 1) + END_BYTES };
enum { REPORT_ROOM = CORES_BYTES + (ROW_BYTES + FIGURES_BYTES) * ROWS_MAX + END_BYTES };
enum { TEXT_ROOM = 2048 };

/* A part of the text. */
struct part {
    const uint8_t *at;
    size_t len;
};

/* A table's bytes; one row more than allowed fits. */
struct table_bytes {
    uint8_t of[TABLE_ROOM];
    size_t len, rows;
};

/* ---- Lines and fields ---- */

/* Takes a line off the front of the text that is left, and leaves out its end; false when no text is left. */
static bool take_line(struct part *left, struct part *line)
{
    const uint8_t *end = memchr(left->at, '\n', left->len);
    size_t taken = end == NULL ? left->len : (size_t)(end - left->at) + 1;

    if (taken == 0)
        return false;
    *line = (struct part){ left->at, end == NULL ? taken : taken - 1 };
    if (end != NULL && line->len > 0 && line->at[line->len - 1] == '\r')
        line->len--;
    *left = (struct part){ left->at + taken, left->len - taken };
    return true;
}

/* Splits a line at its commas; false when these make more or fewer than three fields. */
static bool split_line(struct part line, struct part *fields)
{
    for (int n = 0; n < FIELDS; n++) {
        const uint8_t *comma = memchr(line.at, ',', line.len);
        size_t len = comma == NULL ? line.len : (size_t)(comma - line.at);

        if ((comma == NULL) != (n == FIELDS - 1))
            return false;
        fields[n] = (struct part){ line.at, len };
        if (comma != NULL)
            line = (struct part){ comma + 1, line.len - len - 1 };
    }
    return true;
}

/* A field without the quotes around it, where it has them. */
static struct part unquoted(struct part field)
{
    if (field.len >= 2 && field.at[0] == '"' && field.at[field.len - 1] == '"')
        return (struct part){ field.at + 1, field.len - 2 };
    return field;
}

/* Whether a field is a name of the header. */
static bool is_name(struct part field, const char *name)
{
    return field.len == strlen(name) && memcmp(field.at, name, field.len) == 0;
}

/* Whether a field is a number: digits, one or more. */
static bool is_number(struct part field)
{
    for (size_t n = 0; n < field.len; n++)
        if (field.at[n] < '0' || field.at[n] > '9')
            return false;
    return field.len > 0;
}

/* Whether a line is as its place asks: the first one the header, the others numbers. */
static bool line_holds(struct part line, bool first)
{
    static const char *const names[FIELDS] = { "wcet", "deadline", "period" };
    struct part fields[FIELDS];

    if (!split_line(line, fields))
        return false;
    for (int n = 0; n < FIELDS; n++)
        if (first ? !is_name(unquoted(fields[n]), names[n]) : !is_number(unquoted(fields[n])))
            return false;
    return true;
}

/* The first line that is not of the form, or 0 where all are; no text has a bad first line. */
static size_t first_bad_line(struct part text)
{
    struct part line;
    size_t number = 0;

    while (take_line(&text, &line))
        if (!line_holds(line, ++number == 1))
            return number;
    return number == 0 ? 1 : 0;
}

/* ---- The table ---- */

/* The number that digits are, or one above every limit where there are too many. */
static uint32_t number_of(struct part digits)
{
    uint32_t number = 0;

    for (; digits.len > 0 && *digits.at == '0'; digits.len--)
        digits.at++;
    if (digits.len > DIGITS_MAX)
        return UINT32_MAX;
    for (size_t n = 0; n < digits.len; n++)
        number = 10 * number + (digits.at[n] - '0');
    return number;
}

/* Writes the record of the row on a line. */
static void write_row(struct part line, uint8_t *record)
{
    struct part fields[FIELDS];

    split_line(line, fields);
    record[0] = 2;
    for (int n = 0; n < FIELDS; n++) {
        uint32_t number = number_of(unquoted(fields[n]));

        for (int byte = 0; byte < 4; byte++)
            record[1 + 4 * n + byte] = (uint8_t)(number >> (24 - 8 * byte));
    }
}

/* Writes the table of a text of the form; of more rows than allowed, one too many. */
static void write_table(uint32_t cores, struct part text, struct table_bytes *table)
{
    struct part line;
    size_t at = CORES_BYTES;

    table->of[0] = 1;
    table->of[1] = (uint8_t)(cores > 255 ? 255 : cores);
    table->rows = 0;
    take_line(&text, &line);
    for (; table->rows <= ROWS_MAX && take_line(&text, &line); table->rows++, at += ROW_BYTES)
        write_row(line, table->of + at);
    table->of[at] = 4;
    table->of[at + 1] = (uint8_t)table->rows;
    table->len = at + END_BYTES;
}

/* Reads a text: refusal 9, then those of its table in their order. A table service that is lent no report refuses with 7
 * each table that can be read. */
static struct second_answer read_text(uint32_t cores, struct part text, struct table_bytes *table)
{
    size_t bad = first_bad_line(text);
    struct second_answer read;
    uint8_t none[1];

    if (bad != 0)
        return (struct second_answer){ 9, bad > UINT32_MAX ? UINT32_MAX : (uint32_t)bad };
    write_table(cores, text, table);
    read = second_table(table->of, table->len, none, 0);
    return read.number == 7 ? (struct second_answer){ 0, 0 } : read;
}

/* ---- What is written ---- */

/* An answer with nothing written. */
static struct second_written refused(struct second_answer answer)
{
    return (struct second_written){ answer, 0 };
}

/* Writes bytes at the front of what is lent, or gives refusal 7. */
static struct second_written write_out(const void *bytes, size_t len, uint8_t *out, size_t out_len)
{
    if (len > out_len)
        return refused((struct second_answer){ 7, 0 });
    memcpy(out, bytes, len);
    return (struct second_written){ { 0, 0 }, (uint32_t)len };
}

/* A number of four bytes in a report. */
static unsigned number_in(const uint8_t *bytes)
{
    return (unsigned)bytes[0] << 24 | (unsigned)bytes[1] << 16 | (unsigned)bytes[2] << 8 | bytes[3];
}

/* Prints the lines of a report's rows; gives their bytes. */
static size_t print_rows(const uint8_t *report, size_t rows, char *text)
{
    const uint8_t *row = report + CORES_BYTES, *figures = row + ROW_BYTES * rows;
    size_t used = (size_t)snprintf(text, TEXT_ROOM, "wcet,deadline,period,core,response,allowance\r\n");

    for (size_t n = 0; n < rows; n++, row += ROW_BYTES, figures += FIGURES_BYTES)
        used += (size_t)snprintf(text + used, TEXT_ROOM - used, "%u,%u,%u,%u,%u,%u\r\n", number_in(row + 1),
                                 number_in(row + 5), number_in(row + 9), (unsigned)figures[1], number_in(figures + 2),
                                 number_in(figures + 6));
    return used;
}

/* The csv service. */
struct second_written second_csv(uint32_t cores, const uint8_t *text, size_t text_len, uint8_t *out, size_t out_len)
{
    struct table_bytes table;
    uint8_t report[REPORT_ROOM];
    char written[TEXT_ROOM];
    struct second_answer answer = read_text(cores, (struct part){ text, text_len }, &table);

    if (answer.number == 0)
        answer = second_table(table.of, table.len, report, sizeof report);
    if (answer.number != 0)
        return refused(answer);
    return write_out(written, print_rows(report, table.rows, written), out, out_len);
}

/* The table that a text is, as bytes. */
struct second_written second_csv_table(uint32_t cores, const uint8_t *text, size_t text_len,
                                       uint8_t *out, size_t out_len)
{
    struct table_bytes table;
    struct second_answer answer = read_text(cores, (struct part){ text, text_len }, &table);

    return answer.number != 0 ? refused(answer) : write_out(table.of, table.len, out, out_len);
}
