/* Document 01's sheets, and request 1's, as inputs with the answers on paper. */
#include "sheets.h"

#include <stdio.h>
#include <string.h>

/* A sheet as one set: its rows and the answer on paper. */
struct set_sheet {
    struct rows rows;
    struct second_answer answer;
    uint32_t responses[4], allowances[4];
};

static const struct set_sheet set_sheets[SET_SHEETS] = {
    { { 1, 4, { { 10, 60, 70 }, { 15, 85, 100 }, { 30, 190, 210 }, { 45, 260, 320 } } }, /* 1 */
      { 0, 0 }, { 10, 25, 55, 125 }, { 21, 32, 65, 70 } },
    { { 1, 1, { { 1, 1, 1 } } }, { 0, 0 }, { 1 }, { 0 } }, /* 5 */
    { { 1, 1, { { 1, 1000000, 1000000 } } }, { 0, 0 }, { 1 }, { 999999 } }, /* 6 */
    { { 1, 2, { { 5, 10, 10 }, { 5, 10, 10 } } }, { 0, 0 }, { 5, 10 }, { 0, 0 } }, /* 7 */
    { { 1, 2, { { 5, 10, 10 }, { 6, 14, 14 } } }, { 8, 2 }, { 0 }, { 0 } }, /* 8 */
    { { 1, 2, { { 5, 10, 10 }, { 10, 20, 20 } } }, { 0, 0 }, { 5, 20 }, { 0, 0 } }, /* 9 */
    { { 1, 2, { { 5, 10, 10 }, { 11, 20, 20 } } }, { 8, 2 }, { 0 }, { 0 } }, /* 10 */
};

/* A question for the why service: rows, the row number asked for, and the answer on paper. */
struct why_sheet {
    const struct rows *rows;
    uint32_t row;
    struct second_why why;
};

static const struct rows rounded_half = { 1, 2, { { 1, 3, 3 }, { 2, 5, 5 } } };
static const struct rows rounded_down = { 1, 2, { { 2, 4, 4 }, { 5, 11, 12 } } };

static const struct why_sheet why_sheets[WHY_SHEETS] = {
    { &set_sheets[0].rows, 1, { { 0, 0 }, 4, 200 } }, /* the four */
    { &set_sheets[0].rows, 2, { { 0, 0 }, 4, 200 } },
    { &set_sheets[0].rows, 3, { { 0, 0 }, 4, 200 } },
    { &set_sheets[0].rows, 4, { { 0, 0 }, 4, 260 } },
    { &set_sheets[0].rows, 0, { { 10, 0 }, 0, 0 } },
    { &set_sheets[0].rows, 5, { { 10, 0 }, 0, 0 } },
    { &set_sheets[1].rows, 1, { { 0, 0 }, 1, 1 } }, /* 1/1/1 */
    { &set_sheets[2].rows, 1, { { 0, 0 }, 1, 1000000 } }, /* 1/1000000/1000000 */
    { &rounded_half, 1, { { 0, 0 }, 2, 3 } }, /* 0 at 3, and 1/2 at 5 */
    { &rounded_half, 2, { { 0, 0 }, 2, 5 } },
    { &rounded_down, 1, { { 0, 0 }, 2, 11 } }, /* -1/2 at 8, and 0 at 11 */
    { &set_sheets[4].rows, 1, { { 8, 2 }, 0, 0 } }, /* 5/10/10 and 6/14/14 */
    { &set_sheets[4].rows, 3, { { 10, 0 }, 0, 0 } },
};

/* A sheet as a table, or as no bytes at all: the answer and the listing on paper. */
struct table_sheet {
    struct rows rows;
    bool empty;
    struct second_answer answer;
    const char *listing;
};

static const struct table_sheet table_sheets[TABLE_SHEETS] = {
    { { 2, 4, { { 10, 60, 70 }, { 15, 85, 100 }, { 30, 190, 210 }, { 45, 260, 320 } } }, false, { 0, 0 },
      "row core response allowance\n1 2 10 50\n2 1 15 47\n3 1 45 95\n4 1 90 110\nsystem 47\n" }, /* 3 */
    { { 2, 5, { { 6, 10, 10 }, { 4, 10, 10 }, { 4, 10, 10 }, { 3, 10, 10 }, { 3, 10, 10 } } }, false,
      { 6, 5 }, "refused 6 row 5\n" }, /* 4 */
    { { 1, 1, { { 0, 5, 5 } } }, false, { 4, 1 }, "refused 4 row 1\n" }, /* 11 */
    { { 1, 1, { { 6, 5, 9 } } }, false, { 4, 1 }, "refused 4 row 1\n" },
    { { 1, 1, { { 2, 9, 8 } } }, false, { 4, 1 }, "refused 4 row 1\n" },
    { { 1, 1, { { 1, 1, 1000001 } } }, false, { 4, 1 }, "refused 4 row 1\n" },
    { { 0, 1, { { 1, 1, 1 } } }, false, { 2, 0 }, "refused 2 row 0\n" },
    { { 0, 0, { { 0, 0, 0 } } }, true, { 1, 0 }, "refused 1 row 0\n" },
    { { 1, 0, { { 0, 0, 0 } } }, false, { 3, 0 }, "refused 3 row 0\n" },
};

/* Whether a list service answers a sheet as the paper does. */
bool set_sheet_holds(size_t sheet, list_service *service, struct called *called)
{
    const struct set_sheet *paper = &set_sheets[sheet];
    size_t written = paper->answer.number == 0 ? 4 * (size_t)paper->rows.count : 0;
    struct lists lists;
    bool holds;

    list_bytes(&paper->rows, &lists);
    lists.responses_len += 3;
    lists.allowances_len += 5;
    call_lists(service, &lists, called);
    holds = same_answer(called->answer, paper->answer) && well_behaved(called);
    for (size_t n = 0; n < written / 4; n++)
        holds = holds && get_number(called->first + MARGIN + 4 * n) == paper->responses[n] &&
                get_number(called->second + MARGIN + 4 * n) == paper->allowances[n];
    return holds;
}

/* Whether a why service answers a question as the paper does. */
bool why_sheet_holds(size_t sheet, why_service *service, struct called *called)
{
    const struct why_sheet *paper = &why_sheets[sheet];
    struct lists lists;

    list_bytes(paper->rows, &lists);
    lists.row = paper->row;
    call_why(service, &lists, called);
    return same_answer(called->answer, paper->why.answer) && called->limited_by == paper->why.limited_by &&
           called->point == paper->why.point && well_behaved(called);
}

/* Whether a table service answers a sheet as the paper does: the table's bytes, and its report read as a listing. */
bool table_sheet_holds(size_t sheet, table_service *service, struct called *called)
{
    const struct table_sheet *paper = &table_sheets[sheet];
    uint8_t bytes[TABLE_ROOM];
    size_t len = table_bytes(&paper->rows, bytes), report_len = 4 + 23 * (size_t)paper->rows.count;
    const uint8_t *report = called->first + MARGIN;
    char text[LISTING_ROOM];

    call_table(service, bytes, paper->empty ? 0 : len, report_len + 3, called);
    text[listing_of(called, paper->rows.count, text)] = '\0';
    if (!same_answer(called->answer, paper->answer) || !well_behaved(called) || strcmp(text, paper->listing) != 0)
        return false;
    return called->answer.number != 0 ||
           (memcmp(report, bytes, len - 2) == 0 &&
            memcmp(report + report_len - 2, bytes + len - 2, 2) == 0);
}

/* Whether a table is listed as the paper does, into lent bytes with three to spare. */
bool listing_sheet_holds(size_t sheet, listing_service *service, struct called *called)
{
    const struct table_sheet *paper = &table_sheets[sheet];
    uint8_t bytes[TABLE_ROOM];
    size_t len = table_bytes(&paper->rows, bytes), listed = strlen(paper->listing);

    call_listing(service, bytes, paper->empty ? 0 : len, listed + 3, called);
    return called->first_written == listed && memcmp(called->first + MARGIN, paper->listing, listed) == 0 &&
           well_behaved(called);
}

/* The listing that a call of a table service stands for, by its answer and its report; gives its bytes. */
size_t listing_of(const struct called *called, size_t rows, char *text)
{
    const uint8_t *record = called->first + MARGIN + 2 + 13 * rows;
    uint32_t system = UINT32_MAX;
    int used;

    if (called->answer.number != 0)
        return (size_t)sprintf(text, "refused %u row %u\n", (unsigned)called->answer.number,
                               (unsigned)called->answer.row);
    used = sprintf(text, "row core response allowance\n");
    for (size_t n = 0; n < rows; n++, record += 10) {
        uint32_t allowance = get_number(record + 6);

        used += sprintf(text + used, "%u %u %u %u\n", (unsigned)n + 1, (unsigned)record[1],
                        (unsigned)get_number(record + 2), (unsigned)allowance);
        if (allowance < system)
            system = allowance;
    }
    return (size_t)(used + sprintf(text + used, "system %u\n", (unsigned)system));
}
