/* Runs the product and the second program, two answers to the documents that share no line, on the documents' sheets and
 * on random cases, and a third opinion on small numbers too. Compares the answer, the row and every byte lent, and
 * stops at the first that differ. Arguments: seed, number of cases. Status 0: none differ, and every number that a
 * service can give was given; 1: some do, or one was not; 2: an argument is no number. */
#include "brute.h"
#include "compare_texts.h"
#include "outcomes.h"
#include "programs.h"
#include "sheets.h"
#include "text_sheets.h"

#include <stdio.h>
#include <string.h>

/* Above these, the second program's walk with its repeats, the why services on every row and the third opinion take
 * long. */
enum { WALKED_ROWS = 16, ASKED_ROWS = 8, SMALL_TICKS = 60, SMALL_WORK = 400 };

static struct service table_numbers = { "table service", { 0, 1, 2, 3, 4, 5, 6, 7 }, 8, { 0 } };
static struct service set_numbers = { "set service", { 0, 3, 4, 7, 8 }, 5, { 0 } };
static struct service point_numbers = { "point service", { 0, 3, 4, 7, 8 }, 5, { 0 } };
static struct service why_numbers = { "why service", { 0, 3, 4, 8, 10 }, 5, { 0 } };
static struct service listing_numbers = { "listing", { 0, 1, 2, 3, 4, 5, 6 }, 7, { 0 } };

static const struct program third_program = { .name = "the third opinion", .table = brute_table, .set = brute_set,
                                              .point = brute_set, .why = brute_why };

/* ---- Tables ---- */

/* Counts the number in the text of a listing. */
static void count_listing(const struct called *called)
{
    const uint8_t *text = called->first + MARGIN;

    if (called->first_written > 0)
        listing_numbers.given[memcmp(text, "refused ", 8) == 0 ? text[8] - '0' : 0]++;
}

/* Whether the third opinion can be had on a table in reasonable time: few rows of small numbers. */
static bool small_table(const uint8_t *bytes, size_t len)
{
    uint32_t rows = 0, greatest = 0;

    for (size_t at = 2; at + 13 <= len && bytes[at] == 2; at += 13, rows++)
        if (get_number(bytes + at + 9) > greatest)
            greatest = get_number(bytes + at + 9);
    return greatest <= SMALL_TICKS && rows * greatest <= SMALL_WORK;
}

/* Compares what the product left of a table with what another program left. */
static void against_table(const char *what, const struct called *ours, const struct called *theirs,
                          const uint8_t *bytes, size_t len, size_t lent_len)
{
    if (same_called(ours, theirs) && well_behaved(ours))
        return;
    print_case(what);
    print_bytes("table", bytes, len);
    printf("  report or listing of %lu bytes\n", (unsigned long)lent_len);
    print_called("the product", ours, lent_len, 0);
    print_called("the other", theirs, lent_len, 0);
    stop();
}

/* A listing's length by turns: as needed, longer, one byte too short, none. */
static size_t listing_length(size_t needed)
{
    switch (current->compared % 4) {
    case 0: return needed;
    case 1: return needed + 1 + below(29);
    case 2: return needed - 1;
    default: return 0;
    }
}

/* Compares both listings of a table, into bytes for the listing that its report, where there is one, stands for. */
static void compare_listing(const uint8_t *bytes, size_t len, const struct called *report)
{
    char text[LISTING_ROOM];
    bool known = report->answer.number != 7;
    size_t listing_len = known ? listing_length(listing_of(report, len / 13, text)) : LENT_ROOM;
    struct called ours, theirs;

    call_listing(product_program.listing, bytes, len, listing_len, &ours);
    call_listing(second_program.listing, bytes, len, listing_len, &theirs);
    against_table("listing, the second program", &ours, &theirs, bytes, len, listing_len);
    count_listing(&ours);
}

/* Compares all programs on a table and a report of these lengths. */
static void compare_table(const uint8_t *bytes, size_t len, size_t report_len)
{
    struct called ours, theirs;

    call_table(product_program.table, bytes, len, report_len, &ours);
    call_table(second_program.table, bytes, len, report_len, &theirs);
    against_table("table, the second program", &ours, &theirs, bytes, len, report_len);
    if (small_table(bytes, len)) {
        call_table(third_program.table, bytes, len, report_len, &theirs);
        against_table("table, the third opinion", &ours, &theirs, bytes, len, report_len);
        current->third++;
    }
    compare_listing(bytes, len, &ours);
    table_numbers.given[ours.answer.number]++;
    count(ours.answer.number);
}

/* A length for what is lent: as needed, or a little more, or now and then less. */
static size_t lent_length(size_t needed)
{
    return once_in(8) ? below((uint32_t)needed + 1) : needed + (once_in(2) ? 0 : below(30));
}

/* A report's length. */
static size_t report_length(const struct rows *rows)
{
    return lent_length(4 + 23 * (size_t)rows->count);
}

/* A table as it was drawn. */
static void table_as_drawn(const struct rows *rows)
{
    uint8_t bytes[TABLE_ROOM];

    compare_table(bytes, table_bytes(rows, bytes), report_length(rows));
}

/* A table with one byte changed, or two: any byte, or a kind, the cores or the count. */
static void table_damaged(const struct rows *rows)
{
    uint8_t bytes[TABLE_ROOM];
    size_t len = table_bytes(rows, bytes);

    do {
        size_t record = 2 + 13 * (size_t)below(rows->count + 1);

        switch (below(4)) {
        case 0: bytes[below((uint32_t)len)] = (uint8_t)below(256); break;
        case 1: bytes[record] = (uint8_t)below(6); break;
        case 2: bytes[below(2)] = (uint8_t)below(12); break;
        default: bytes[record + below(2)] ^= (uint8_t)(1 << below(8)); break;
        }
    } while (once_in(3));
    compare_table(bytes, len, report_length(rows));
}

/* A table cut at every one of its last bytes, and somewhere else. */
static void table_truncated(const struct rows *rows)
{
    uint8_t bytes[TABLE_ROOM];
    size_t len = table_bytes(rows, bytes), least = len < 18 ? 0 : len - 18;

    for (size_t cut = least; cut < len; cut++)
        compare_table(bytes, cut, report_length(rows));
    compare_table(bytes, below((uint32_t)len), report_length(rows));
}

/* A table with bytes after it: any bytes, or bytes that look like records. */
static void table_with_bytes_after(const struct rows *rows)
{
    uint8_t bytes[TABLE_ROOM];
    size_t len = table_bytes(rows, bytes), after = 1 + below(15);

    for (size_t n = 0; n < after; n++)
        bytes[len + n] = (uint8_t)below(once_in(2) ? 5 : 256);
    compare_table(bytes, len + after, report_length(rows));
}

/* A table with every count next to its own, and with another. */
static void table_miscounted(const struct rows *rows)
{
    uint8_t bytes[TABLE_ROOM];
    size_t len = table_bytes(rows, bytes);
    uint8_t counts[] = { 0, (uint8_t)(rows->count - 1), (uint8_t)(rows->count + 1), (uint8_t)below(256), 255 };

    for (size_t n = 0; n < sizeof counts; n++) {
        bytes[len - 1] = counts[n];
        compare_table(bytes, len, report_length(rows));
        compare_table(bytes, len - below(2), report_length(rows));
        bytes[len] = (uint8_t)below(256);
        compare_table(bytes, len + 1, report_length(rows));
    }
}

/* A table with every report length around the one needed, none, and one byte. */
static void table_report_lengths(const struct rows *rows)
{
    uint8_t bytes[TABLE_ROOM];
    size_t len = table_bytes(rows, bytes), needed = 4 + 23 * (size_t)rows->count;

    for (size_t report_len = needed < 12 ? 0 : needed - 12; report_len <= needed + 12; report_len++)
        compare_table(bytes, len, report_len);
    compare_table(bytes, len, 0);
    compare_table(bytes, len, 1);
}

/* ---- Lists ---- */

/* Whether the third opinion can be had on lists in reasonable time. */
static bool small_lists(const struct lists *lists)
{
    uint32_t greatest = 0;

    for (size_t at = 0; at + 4 <= lists->t_len; at += 4)
        if (get_number(lists->t + at) > greatest)
            greatest = get_number(lists->t + at);
    return greatest <= SMALL_TICKS && lists->t_len / 4 * greatest <= SMALL_WORK;
}

/* Compares what the product left of lists with what another program left. */
static void against_lists(const char *what, const struct called *ours, const struct called *theirs,
                          const struct lists *lists)
{
    if (same_called(ours, theirs) && well_behaved(ours))
        return;
    print_case(what);
    print_bytes("C", lists->c, lists->c_len);
    print_bytes("D", lists->d, lists->d_len);
    print_bytes("T", lists->t, lists->t_len);
    printf("  answer lists of %lu and %lu bytes; row number %u\n", (unsigned long)lists->responses_len,
           (unsigned long)lists->allowances_len, (unsigned)lists->row);
    print_called("the product", ours, lists->responses_len, lists->allowances_len);
    print_called("the other", theirs, lists->responses_len, lists->allowances_len);
    stop();
}

/* Compares both point services on lists. */
static void compare_walks(const struct lists *lists)
{
    struct called ours, theirs;

    call_lists(product_program.point, lists, &ours);
    call_lists(second_program.point, lists, &theirs);
    against_lists("point, the second program", &ours, &theirs, lists);
}

/* Compares all programs on lists; both point services where the second program's does not walk too long. */
static void compare_lists(const struct lists *lists)
{
    struct called set, point, theirs;

    call_lists(product_program.set, lists, &set);
    call_lists(product_program.point, lists, &point);
    call_lists(second_program.set, lists, &theirs);
    against_lists("set, the second program", &set, &theirs, lists);
    against_lists("point, the second program's set", &point, &theirs, lists);
    if (lists->c_len / 4 <= WALKED_ROWS)
        compare_walks(lists);
    if (small_lists(lists)) {
        call_lists(third_program.set, lists, &theirs);
        against_lists("set, the third opinion", &set, &theirs, lists);
        current->third++;
    }
    set_numbers.given[set.answer.number]++;
    point_numbers.given[point.answer.number]++;
    count(set.answer.number);
}

/* How many rows rank above a row of lists. */
static unsigned rows_above(const struct lists *lists, uint32_t row)
{
    uint32_t d = get_number(lists->d + 4 * (row - 1));
    unsigned above = 0;

    for (uint32_t other = 1; other <= lists->d_len / 4; other++) {
        uint32_t of = get_number(lists->d + 4 * (other - 1));

        above += of < d || (of == d && other < row);
    }
    return above;
}

/* Compares all programs on lists and the row number asked for. */
static void compare_why(const struct lists *lists)
{
    struct called ours, theirs;

    call_why(product_program.why, lists, &ours);
    call_why(second_program.why, lists, &theirs);
    against_lists("why, the second program", &ours, &theirs, lists);
    if (small_lists(lists)) {
        call_why(third_program.why, lists, &theirs);
        against_lists("why, the third opinion", &ours, &theirs, lists);
    }
    why_numbers.given[ours.answer.number]++;
}

/* Compares the product's limiting row with the second program's set service; gives whether its walk takes too long. */
static bool compare_limit(const struct lists *lists)
{
    struct called set, ours, theirs;

    call_lists(second_program.set, lists, &set);
    if (set.answer.number != 0)
        return false;
    call_why(product_program.why, lists, &ours);
    theirs = ours;
    theirs.answer = set.answer;
    theirs.limited_by = limiting_row_by_set(second_program.set, lists, &set);
    against_lists("why, the second program's set", &ours, &theirs, lists);
    return rows_above(lists, theirs.limited_by) >= WALKED_ROWS;
}

/* A row number by turns, from 0 to one too many. */
static uint32_t row_by_turns(const struct lists *lists)
{
    return (uint32_t)(current->compared % (lists->c_len / 4 + 2));
}

/* Compares all programs on lists and one row number; of many rows the limiting row alone where the walk takes long. */
static void compare_one_why(struct lists *lists, uint32_t row)
{
    uint32_t rows = (uint32_t)(lists->c_len / 4);

    lists->row = row;
    if (rows <= WALKED_ROWS || row < 1 || row > rows || !compare_limit(lists))
        compare_why(lists);
}

/* Compares all programs on lists and every row number up to one too many; of many rows, on one by turns. */
static void compare_whys(struct lists *lists)
{
    if (lists->c_len / 4 > ASKED_ROWS)
        compare_one_why(lists, row_by_turns(lists));
    else
        for (uint32_t row = 0; row <= lists->c_len / 4 + 1; row++)
            compare_one_why(lists, row);
}

/* The lists of rows that were drawn for several cores: their C, where it is not above D, shared between these. */
static void one_core_lists(const struct rows *rows, struct lists *lists)
{
    struct rows shared = *rows;

    for (unsigned n = 0; n < rows->count; n++)
        if (rows->cores > 1 && rows->row[n].c <= rows->row[n].d)
            shared.row[n].c = (rows->row[n].c - 1) / rows->cores + 1;
    list_bytes(&shared, lists);
}

/* Compares all programs on lists and answer lists of lengths that are drawn. */
static void compare_lent(struct lists *lists)
{
    lists->responses_len = lent_length(lists->c_len);
    lists->allowances_len = lent_length(lists->c_len);
    compare_lists(lists);
}

/* Lists as they were drawn. */
static void lists_as_drawn(const struct rows *rows)
{
    struct lists lists;

    one_core_lists(rows, &lists);
    compare_whys(&lists);
    compare_lent(&lists);
}

/* Lists as they were drawn, with one row number: their climbs take long. */
static void lists_climbed(const struct rows *rows)
{
    struct lists lists;

    one_core_lists(rows, &lists);
    compare_one_why(&lists, row_by_turns(&lists));
    compare_lent(&lists);
}

/* Lists as they were drawn, with both point services whatever the walk. */
static void lists_walked(const struct rows *rows)
{
    struct lists lists;

    list_bytes(rows, &lists);
    compare_lists(&lists);
    compare_walks(&lists);
    lists.row = row_by_turns(&lists);
    compare_why(&lists);
}

/* Lists with one byte changed, or two. */
static void lists_damaged(const struct rows *rows)
{
    struct lists lists;

    one_core_lists(rows, &lists);
    do {
        uint8_t *list = once_in(3) ? lists.c : once_in(2) ? lists.d : lists.t;

        list[below((uint32_t)lists.c_len + 1)] = (uint8_t)(once_in(2) ? below(256) : below(3));
    } while (once_in(3));
    compare_lists(&lists);
    compare_whys(&lists);
}

/* Every three lengths around that of the rows but the last, so that the longer ones hold rows too. */
static void lists_of_lengths(const struct rows *rows)
{
    struct lists lists;
    size_t len = 4 * (size_t)(rows->count > 0 ? rows->count - 1 : 0), least = len < 4 ? 0 : len - 4;

    one_core_lists(rows, &lists);
    for (lists.c_len = least; lists.c_len <= len + 4; lists.c_len++)
        for (lists.d_len = least; lists.d_len <= len + 4; lists.d_len++)
            for (lists.t_len = least; lists.t_len <= len + 4; lists.t_len++) {
                compare_lists(&lists);
                compare_one_why(&lists, row_by_turns(&lists));
            }
}

/* Every two lengths of the answer lists around the one needed, and none. */
static void answer_lists_of_lengths(const struct rows *rows)
{
    struct lists lists;
    size_t len = 4 * (size_t)rows->count, least = len < 5 ? 0 : len - 5;

    one_core_lists(rows, &lists);
    for (lists.responses_len = least; lists.responses_len <= len + 5; lists.responses_len++)
        for (lists.allowances_len = least; lists.allowances_len <= len + 5; lists.allowances_len++)
            compare_lists(&lists);
    lists.responses_len = 0;
    compare_lists(&lists);
    lists.responses_len = lists.allowances_len;
    lists.allowances_len = 0;
    compare_lists(&lists);
}

/* ---- The run ---- */

static struct kind sheets = { .name = "sheets of the documents" };

static struct kind kinds[] = {
    KIND("table: small numbers", small_rows, table_as_drawn, 1),
    KIND("table: ordinary", ordinary_rows, table_as_drawn, 1),
    KIND("table: near the limits", limit_rows, table_as_drawn, 4),
    KIND("table: rows break the limits", broken_rows, table_as_drawn, 1),
    KIND("table: equal deadlines", equal_deadlines, table_as_drawn, 1),
    KIND("table: equal utilisations", equal_utilisations, table_as_drawn, 1),
    KIND("table: ties between cores", equal_cores, table_as_drawn, 1),
    KIND("table: full cores", full_cores, table_as_drawn, 1),
    KIND("table: short D, long T", urgent_rows, table_as_drawn, 1),
    KIND("table: damaged bytes", any_rows, table_damaged, 1),
    KIND("table: truncated", any_rows, table_truncated, 1),
    KIND("table: bytes after", any_rows, table_with_bytes_after, 1),
    KIND("table: wrong count", any_rows, table_miscounted, 1),
    KIND("table: report lengths", small_rows, table_report_lengths, 4),
    KIND("table: report lengths, any rows", any_rows, table_report_lengths, 20),
    KIND("table: long climbs", long_climbs, table_as_drawn, 20),
    KIND("table: long climbs of many rows", many_long_climbs, table_as_drawn, 50),
    KIND("table: long walks", long_walks, table_as_drawn, 10),
    KIND("lists: small numbers", small_rows, lists_as_drawn, 1),
    KIND("lists: ordinary", ordinary_rows, lists_as_drawn, 1),
    KIND("lists: near the limits", limit_rows, lists_as_drawn, 1),
    KIND("lists: rows break the limits", broken_rows, lists_as_drawn, 1),
    KIND("lists: equal deadlines", equal_deadlines, lists_as_drawn, 1),
    KIND("lists: equal utilisations", equal_utilisations, lists_as_drawn, 1),
    KIND("lists: full core", full_cores, lists_as_drawn, 1),
    KIND("lists: short D, long T", urgent_rows, lists_as_drawn, 1),
    KIND("lists: damaged bytes", any_rows, lists_damaged, 1),
    KIND("lists: lengths of C, D and T", any_rows, lists_of_lengths, 20),
    KIND("lists: answer list lengths", small_rows, answer_lists_of_lengths, 8),
    KIND("lists: long climbs", long_climbs, lists_climbed, 20),
    KIND("lists: long walks", long_walks, lists_walked, 100),
    KIND("text: small numbers", small_rows, text_as_drawn, 1),
    KIND("text: ordinary", ordinary_rows, text_as_drawn, 2),
    KIND("text: near the limits", limit_rows, text_as_drawn, 16),
    KIND("text: rows break the limits", broken_rows, text_as_drawn, 1),
    KIND("text: damaged bytes", small_rows, text_damaged, 1),
    KIND("text: damaged bytes, any rows", any_rows, text_damaged, 1),
    KIND("text: cut", small_rows, text_cut, 4),
    KIND("text: a part twice", any_rows, text_doubled, 1),
    KIND("text: numbers of many digits", any_rows, text_with_long_number, 1),
    KIND("text: many rows", any_rows, text_of_many_rows, 4),
    KIND("text: cores", small_rows, text_of_cores, 1),
    KIND("text: lent lengths", small_rows, text_lent_lengths, 8),
    KIND("text: some MiB", small_rows, text_of_mebibytes, 300),
};

enum { KINDS = sizeof kinds / sizeof kinds[0] };

/* Compares a sheet's call with the paper. */
static void compare_sheet(bool holds, const struct called *called)
{
    if (holds) {
        count(called->answer.number);
        return;
    }
    print_case("the paper");
    print_called(product_program.name, called, LENT_ROOM, LENT_ROOM);
    stop();
}

/* Runs the product's services on the sheets. */
static void compare_sheets(void)
{
    struct called called;

    current = &sheets;
    for (size_t n = 0; n < SET_SHEETS; n++) {
        current->drawn++;
        compare_sheet(set_sheet_holds(n, product_program.set, &called), &called);
        compare_sheet(set_sheet_holds(n, product_program.point, &called), &called);
    }
    for (size_t n = 0; n < WHY_SHEETS; n++) {
        current->drawn++;
        compare_sheet(why_sheet_holds(n, product_program.why, &called), &called);
    }
    for (size_t n = 0; n < TABLE_SHEETS; n++) {
        current->drawn++;
        compare_sheet(table_sheet_holds(n, product_program.table, &called), &called);
        compare_sheet(listing_sheet_holds(n, product_program.listing, &called), &called);
    }
    for (size_t n = 0; n < text_sheets(); n++) {
        current->drawn++;
        compare_sheet(text_sheet_holds(n, product_program.csv, product_program.csv_table, &called), &called);
    }
}

/* Runs random cases, the kinds in turn, each kind as often as it says. */
static void compare_cases(void)
{
    struct rows rows;

    start_random(run.seed);
    for (unsigned long n = 0, drawn = 0; drawn < run.cases; n++) {
        current = &kinds[n % KINDS];
        if (n / KINDS % current->once_in != 0)
            continue;
        drawn++;
        current->drawn++;
        current->draw(&rows);
        current->compare(&rows);
    }
}

/* Prints what came of a kind; gives the calls compared. */
static unsigned long print_kind(const struct kind *kind)
{
    printf("%-32s%7lu%9lu%7lu%9lu", kind->name, kind->drawn, kind->compared, kind->third, kind->numbers[0]);
    for (int number = 1; number <= 9; number++)
        printf("%8lu", kind->numbers[number]);
    printf("\n");
    return kind->compared;
}

/* Prints what came of each kind. */
static void print_kinds(void)
{
    unsigned long compared = print_kind(&sheets);

    for (size_t n = 0; n < KINDS; n++)
        compared += print_kind(&kinds[n]);
    printf("%lu inputs compared\n", compared);
}

/* Prints how often a service gave each number that it can give. */
static void print_given(const struct service *service)
{
    printf("%s:", service->name);
    for (unsigned n = 0; n < service->many; n++)
        printf(" number %u %lu times%s", service->can_give[n], service->given[service->can_give[n]],
               n + 1 < service->many ? "," : "\n");
}

/* Runs the sheets and the cases of a seed. */
int main(int argc, char **argv)
{
    unsigned never;

    run = read_arguments(argc, argv, "compare");
    printf("seed %lu, %lu cases; inputs compared, of these with a third opinion, and their answers\n", run.seed,
           run.cases);
    compare_sheets();
    compare_cases();
    printf("%-32s%7s%9s%7s%9s%8s%8s%8s%8s%8s%8s%8s%8s%8s\n", "kind", "cases", "inputs", "third", "accepted", "1", "2",
           "3", "4", "5", "6", "7", "8", "9");
    print_kinds();
    print_given(&why_numbers);
    print_given(&csv_numbers);
    print_given(&csv_table_numbers);
    never = never_given(&table_numbers) + never_given(&set_numbers) + never_given(&point_numbers) +
            never_given(&why_numbers) + never_given(&listing_numbers) + never_given(&csv_numbers) +
            never_given(&csv_table_numbers);
    printf("compare: %lu cases, 0 differ, %u numbers never reached\n", run.cases, never);
    return never == 0 ? 0 : 1;
}
