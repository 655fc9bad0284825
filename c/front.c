/* A front end over the services and the listing, and the example of how to call them: certifies the table in a file,
 * prints its listing, then gives each core's rows to the set service and the point service and says whether they agree
 * with the report. After the word `why` it says of each row instead which row would be late with one tick more than its
 * allowance, by the why service. After the word `csv` and a number of cores it certifies a spreadsheet and prints its
 * text with three columns more, by the csv service; after `table` it writes the spreadsheet's table bytes.
 * Status 0: certified; 1: refused; 2: no file to read; 3: a service does not agree. */
#include "front_text.h"
#include "hibalunduk.h"

#include <stdbool.h>
#include <stdio.h>
#include <string.h>

enum { CORES_RECORD = 2, ROW_RECORD = 13, FIGURES_RECORD = 10 };

/* A table and its report; the table has room for the one byte that shows that it is too long. */
struct certificate {
    uint8_t table[HIBALUNDUK_TABLE_MAX + 1], report[HIBALUNDUK_REPORT_MAX];
    size_t table_len, rows;
};

/* One core's rows as lists, what the report says of them, and their numbers in the table. */
struct core {
    size_t len; /* of each list, four bytes a row */
    unsigned row[HIBALUNDUK_ROWS_MAX];
    uint8_t c[HIBALUNDUK_LIST_MAX], d[HIBALUNDUK_LIST_MAX], t[HIBALUNDUK_LIST_MAX];
    uint8_t responses[HIBALUNDUK_LIST_MAX], allowances[HIBALUNDUK_LIST_MAX];
};

typedef struct hibalunduk_answer list_service(const uint8_t *, size_t, const uint8_t *, size_t,
                                              const uint8_t *, size_t, uint8_t *, size_t,
                                              uint8_t *, size_t);

/* The body of a row's kind 2 record in the report: C, D and T. */
static const uint8_t *row_body(const struct certificate *certificate, size_t row)
{
    return certificate->report + CORES_RECORD + ROW_RECORD * row + 1;
}

/* The body of a row's kind 3 record in the report: core, response time and allowance. */
static const uint8_t *figures_body(const struct certificate *certificate, size_t row)
{
    return certificate->report + CORES_RECORD + ROW_RECORD * certificate->rows + FIGURES_RECORD * row + 1;
}

/* Reads a table from a file, or from standard input; false when there is nothing to read from. */
static bool read_table(const char *name, struct certificate *certificate)
{
    FILE *file = strcmp(name, "-") == 0 ? stdin : fopen(name, "rb");

    if (file == NULL)
        return false;
    certificate->table_len = fread(certificate->table, 1, sizeof certificate->table, file);
    return !ferror(file) && (file == stdin || fclose(file) == 0);
}

/* Prints the report in hex. */
static void print_report(const struct certificate *certificate)
{
    printf("report ");
    for (size_t n = 0; n < 4 + 23 * certificate->rows; n++)
        printf("%02x", certificate->report[n]);
    printf("\n");
}

/* Prints the table's listing, or the line of its refusal. */
static void print_listing(const struct certificate *certificate)
{
    uint8_t listing[HIBALUNDUK_LISTING_MAX];

    fwrite(listing, 1, hibalunduk_listing(certificate->table, certificate->table_len, listing, sizeof listing), stdout);
}

/* Gathers the rows that the report puts on a core, in table order. */
static void gather_core(const struct certificate *certificate, unsigned number, struct core *core)
{
    core->len = 0;
    for (size_t row = 0; row < certificate->rows; row++) {
        const uint8_t *body = row_body(certificate, row), *figures = figures_body(certificate, row);

        if (figures[0] != number)
            continue;
        memcpy(core->c + core->len, body, 4);
        memcpy(core->d + core->len, body + 4, 4);
        memcpy(core->t + core->len, body + 8, 4);
        memcpy(core->responses + core->len, figures + 1, 4);
        memcpy(core->allowances + core->len, figures + 5, 4);
        core->row[core->len / 4] = (unsigned)row + 1;
        core->len += 4;
    }
}

/* Whether a list service accepts a core's rows and gives the report's response times and allowances. */
static bool agrees(list_service *service, const struct core *core)
{
    uint8_t responses[HIBALUNDUK_LIST_MAX], allowances[HIBALUNDUK_LIST_MAX];
    struct hibalunduk_answer answer = service(core->c, core->len, core->d, core->len, core->t, core->len,
                                              responses, sizeof responses, allowances, sizeof allowances);

    return answer.number == 0 && memcmp(responses, core->responses, core->len) == 0 &&
           memcmp(allowances, core->allowances, core->len) == 0;
}

/* Prints for each core whether both list services agree with the report; false when one does not. */
static bool print_cores(const struct certificate *certificate)
{
    bool all = true;

    for (unsigned number = 1; number <= certificate->report[1]; number++) {
        struct core core;

        gather_core(certificate, number, &core);
        if (core.len == 0) {
            printf("core %u: no rows\n", number);
            continue;
        }
        bool set = agrees(hibalunduk_set, &core), point = agrees(hibalunduk_point, &core);

        printf("core %u: set %s, point %s\n", number, set ? "agrees" : "differs", point ? "agrees" : "differs");
        all = all && set && point;
    }
    return all;
}

/* A number of four bytes, big-endian. */
static unsigned number(const uint8_t *bytes)
{
    return (unsigned)bytes[0] << 24 | (unsigned)bytes[1] << 16 | (unsigned)bytes[2] << 8 | bytes[3];
}

/* The place of a row of the table on its core, from 1. */
static uint32_t place_on_core(const struct core *core, unsigned row)
{
    uint32_t place = 1;

    while (core->row[place - 1] != row)
        place++;
    return place;
}

/* Prints which row would be late with one tick more for a row; false when the why service refuses the row's core. */
static bool print_why(const struct certificate *certificate, unsigned row)
{
    const uint8_t *figures = figures_body(certificate, row - 1);
    struct core core;
    struct hibalunduk_why why;

    gather_core(certificate, figures[0], &core);
    why = hibalunduk_why(core.c, core.len, core.d, core.len, core.t, core.len, place_on_core(&core, row));
    if (why.number != 0) {
        printf("row %u on core %u: why refused %u row %u\n", row, figures[0], (unsigned)why.number, (unsigned)why.row);
        return false;
    }
    printf("row %u on core %u has an allowance of %u: "
           "with all of it row %u is done by %u, with one tick more it would be late\n",
           row, figures[0], number(figures + 5), core.row[why.limited_by - 1], (unsigned)why.point);
    return true;
}

/* Prints for each row which row would be late with one tick more; false when the why service refuses one. */
static bool print_whys(const struct certificate *certificate)
{
    bool all = true;

    for (unsigned row = 1; row <= certificate->rows; row++)
        all = print_why(certificate, row) && all;
    return all;
}

/* Certifies the table or the text of the file named, or of standard input. */
int main(int argc, char **argv)
{
    bool why = argc > 1 && strcmp(argv[1], "why") == 0;
    struct certificate certificate;
    struct hibalunduk_answer answer;

    if (argc > 1 && is_text_command(argv[1]))
        return run_text_command(argc - 1, argv + 1);
    if (argc > 2 + why || !read_table(argc == 2 + why ? argv[1 + why] : "-", &certificate)) {
        fprintf(stderr, "usage: front [why] [TABLE], a file of table bytes; or " TEXT_USAGE
                        "; standard input without a file\n");
        return 2;
    }
    answer = hibalunduk_table(certificate.table, certificate.table_len, certificate.report,
                              sizeof certificate.report);
    if (answer.number != 0) {
        print_listing(&certificate);
        return 1;
    }
    certificate.rows = (certificate.table_len - 4) / ROW_RECORD;
    if (why)
        return print_whys(&certificate) ? 0 : 3;
    print_report(&certificate);
    print_listing(&certificate);
    return print_cores(&certificate) ? 0 : 3;
}
