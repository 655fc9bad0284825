/* What the product costs beside the second program: both on the same inputs in the same run, by processor time, best of
 * several runs, as second / product: above 1 the product is the faster one; its why service beside three calls of its
 * point service; and how fast its csv service reads. Argument: how many random tables a line. */
#include "programs.h"
#include "texts.h"

#include <math.h>
#include <stdio.h>
#include <stdlib.h>
#include <string.h>
#include <time.h>

enum { REPORT_ROOM = 4 + 23 * ROWS_MAX, CSV_ROOM = 46 + 67 * ROWS_MAX, TABLES_MAX = 1000, BAR = 60 };
enum { MEBIBYTE = 1 << 20 };

/* Microseconds: a run has so many calls that it takes the first; after one that takes the second no other is made. */
static const double SHORT_RUN = 2000, LONG_RUN = 200000;

enum service { TABLE, SET, POINT, WHY, CSV };

static const char *const service_names[] = { "table", "set", "point", "why", "csv" };

/* The bytes of one input, as a table and as lists, or as a text. */
struct input {
    uint8_t table[TABLE_ROOM];
    size_t table_len;
    struct lists lists;
    struct text text;
};

/* Microseconds of one call. */
struct cost {
    double product, second;
};

/* One of those whose calls are measured in turn: a program's service, how many calls make a run, and the microseconds of
 * a call in its best run. */
struct measured {
    const struct program *program;
    enum service service;
    unsigned long calls;
    double best;
};

/* ---- Calls ---- */

static uint8_t report[REPORT_ROOM], responses[LIST_ROOM], allowances[LIST_ROOM], written[CSV_ROOM];

/* Calls a program's service; gives the answer's number. */
static uint32_t call(const struct program *program, enum service service, const struct input *input)
{
    const struct lists *lists = &input->lists;
    const struct text *text = &input->text;

    if (service == TABLE)
        return program->table(input->table, input->table_len, report, sizeof report).number;
    if (service == CSV)
        return program->csv(text->cores, text->bytes, text->len, written, sizeof written).answer.number;
    if (service == WHY)
        return program->why(lists->c, lists->c_len, lists->d, lists->d_len, lists->t, lists->t_len, lists->row)
            .answer.number;
    return (service == SET ? program->set : program->point)(
               lists->c, lists->c_len, lists->d, lists->d_len, lists->t, lists->t_len, responses,
               sizeof responses, allowances, sizeof allowances)
        .number;
}

/* Microseconds of a run. */
static double time_run(const struct measured *measured, const struct input *input)
{
    clock_t start = clock();

    for (unsigned long n = 0; n < measured->calls; n++)
        call(measured->program, measured->service, input);
    return (double)(clock() - start) * 1000000 / CLOCKS_PER_SEC;
}

/* Finds how many calls make a run that is long enough to be timed. */
static void find_calls(struct measured *measured, const struct input *input)
{
    measured->best = 1e300;
    measured->calls = 1;
    while (time_run(measured, input) < SHORT_RUN)
        measured->calls *= 2;
}

/* Times a run of each; the time of all. */
static double time_each(struct measured *measured, unsigned many, const struct input *input)
{
    double all = 0;

    for (unsigned n = 0; n < many; n++) {
        double time = time_run(&measured[n], input);

        measured[n].best = fmin(measured[n].best, time / (double)measured[n].calls);
        all += time;
    }
    return all;
}

/* Measures several on an input: the best of so many runs of each in turn, of one where a run takes long. */
static void measure_in_turn(struct measured *measured, unsigned many, const struct input *input, int runs)
{
    for (unsigned n = 0; n < many; n++)
        find_calls(&measured[n], input);
    while (runs-- > 0 && time_each(measured, many, input) <= LONG_RUN)
        continue;
}

/* What a call costs in both programs. */
static struct cost measure(enum service service, const struct input *input, int runs)
{
    struct measured both[] = { { &product_program, service, 0, 0 }, { &second_program, service, 0, 0 } };

    measure_in_turn(both, 2, input, runs);
    return (struct cost){ both[0].best, both[1].best };
}

/* ---- Inputs ---- */

/* The input of these rows. */
static void make_input(const struct rows *rows, struct input *input)
{
    input->table_len = table_bytes(rows, input->table);
    list_bytes(rows, &input->lists);
}

/* Rows from a text: C/D/T, or N*C/D/T for N of them, with spaces between. */
static void read_rows(const char *text, struct rows *rows)
{
    unsigned times, c, d, t;
    int used;

    rows->count = 0;
    for (; *text != '\0'; text += used) {
        times = 1;
        if (sscanf(text, " %u*%u/%u/%u%n", &times, &c, &d, &t, &used) != 4 &&
            (times = 1, sscanf(text, " %u/%u/%u%n", &c, &d, &t, &used)) != 3)
            abort();
        while (times-- > 0)
            rows->row[rows->count++] = (struct row){ c, d, t };
    }
}

/* A random number above 0 and below 1. */
static double fraction(void)
{
    return (below(1000000) + 0.5) / 1000000;
}

/* Splits a utilisation between rows by UUniFast; false when one would have more than a core. */
static bool split_utilisation(double utilisation, unsigned count, double *parts)
{
    for (unsigned n = 0; n < count; n++) {
        unsigned left = count - 1 - n;
        double rest = left == 0 ? 0 : utilisation * pow(fraction(), 1.0 / left);

        parts[n] = utilisation - rest;
        utilisation = rest;
        if (parts[n] > 1)
            return false;
    }
    return true;
}

/* Rows by UUniFast with this utilisation of the cores that they can use; periods from 100 to 100,000, as logarithms. */
static void uunifast_rows(struct rows *rows, unsigned cores, unsigned count, double utilisation,
                          bool deadline_is_period)
{
    double parts[ROWS_MAX];

    rows->cores = cores;
    rows->count = count;
    while (!split_utilisation(utilisation * (count < cores ? count : cores), count, parts))
        continue;
    for (unsigned n = 0; n < count; n++) {
        uint32_t t = (uint32_t)(100 * pow(1000, fraction())), c = (uint32_t)(parts[n] * t);

        c = c < 1 ? 1 : c;
        rows->row[n] = (struct row){ c, deadline_is_period ? t : t - below((t - c) / 2 + 1), t };
    }
}

/* Draws rows by UUniFast until the service accepts them; their utilisation is 0.5 and this share of 0.4 more. */
static void draw_accepted(enum service service, unsigned cores, unsigned count, bool deadline_is_period, double share,
                          struct rows *rows)
{
    struct input input;

    do {
        uunifast_rows(rows, cores, count, 0.5 + 0.4 * share, deadline_is_period);
        make_input(rows, &input);
    } while (call(&product_program, service, &input) != 0);
}

/* ---- The table ---- */

/* Prints a number in a column, with as many decimals as say something. */
static void print_number(double number)
{
    printf("%12.*f", number < 0.1 ? 4 : number < 100 ? 2 : 0, number);
}

/* Prints a line of the table. */
static void print_line(enum service service, const char *input, struct cost cost, double ratio)
{
    printf("%-6s", service_names[service]);
    print_number(cost.product);
    print_number(cost.second);
    print_number(ratio);
    printf("  %s\n", input);
    fflush(stdout);
}

/* Measures and prints one input. */
static void given_input(enum service service, const char *text, unsigned cores, const char *name)
{
    struct rows rows = { .cores = cores };
    struct input input;
    struct cost cost;

    read_rows(text, &rows);
    make_input(&rows, &input);
    cost = measure(service, &input, 7);
    print_line(service, name, cost, cost.second / cost.product);
}

/* Which of two numbers is the smaller, for qsort. */
static int order(const void *one, const void *other)
{
    double x = *(const double *)one, y = *(const double *)other;

    return (x > y) - (x < y);
}

/* The middle one of numbers. */
static double median(double *numbers, unsigned count)
{
    qsort(numbers, count, sizeof *numbers, order);
    return count % 2 == 1 ? numbers[count / 2] : (numbers[count / 2 - 1] + numbers[count / 2]) / 2;
}

/* The median costs of random inputs, and the median of their ratios. */
static struct cost random_inputs(enum service service, unsigned cores, unsigned count, bool deadline_is_period,
                                 unsigned tables, double *ratio)
{
    static double product[TABLES_MAX], second[TABLES_MAX], ratios[TABLES_MAX];
    struct cost middle;

    for (unsigned n = 0; n < tables; n++) {
        struct rows rows;
        struct input input;
        struct cost cost;

        draw_accepted(service, cores, count, deadline_is_period, tables == 1 ? 0.5 : (double)n / (tables - 1), &rows);
        make_input(&rows, &input);
        cost = measure(service, &input, 3);
        product[n] = cost.product;
        second[n] = cost.second;
        ratios[n] = cost.second / cost.product;
    }
    middle = (struct cost){ median(product, tables), median(second, tables) };
    *ratio = median(ratios, tables);
    return middle;
}

/* Measures and prints random inputs of 24 rows. */
static void random_line(enum service service, unsigned cores, bool deadline_is_period, unsigned tables)
{
    char name[100];
    double ratio;
    struct cost cost = random_inputs(service, cores, ROWS_MAX, deadline_is_period, tables, &ratio);

    sprintf(name, "median of %u: 24 rows by UUniFast, %s, %u core%s", tables, deadline_is_period ? "D = T" : "D <= T",
            cores, cores == 1 ? "" : "s");
    print_line(service, name, cost, ratio);
}

/* The four rows of document 01. */
static const char four[] = "10/60/70 15/85/100 30/190/210 45/260/320";

/* The four rows, as a set and as a table. */
static void print_the_four(void)
{
    given_input(SET, four, 1, "the four rows of document 01");
    given_input(POINT, four, 1, "the four rows of document 01");
    given_input(TABLE, four, 2, "the four rows of document 01 on 2 cores");
}

/* Hostile rows, made for long climbs or for huge walks. */
static const char five[] = "1/2/2 1/4/4 1/5/5 1/21/21 1/427/427 19*1/1000000/1000000";
static const char eleven[] = "1/2/2 1/3/3 1/8/8 1/25/25 1/608/608 3/999986/999986 1/999987/999987 1/999990/999990 "
                             "1/999994/999994 1/999998/999998 1/999999/999999 13*1/1000000/1000000";
static const char seven[] = "7*1/1/1 17*1/1000000/1000000";
static const char walks[] = "1/4/4 1/4/7 1/8/11 1/10/19 1/37/37 1/67/71 1/138/138 1/168/235 4/421/421 2/526/1003 "
                            "1/1603/1603 1/2678/2678 1/3706/3994 933/7987/7987 19/15973/15973 1/31935/31935 "
                            "45/63859/63859 1/127585/127585 1/254939/254939 1/507611/507611 1/999998/999998 "
                            "3*1/1000000/1000000";

/* The hostile tables and lists. */
static void print_hostile(void)
{
    given_input(SET, five, 1, "long climbs: five short rows");
    given_input(POINT, five, 1, "long climbs: five short rows");
    given_input(TABLE, five, 1, "long climbs: five short rows, 1 core");
    given_input(TABLE, five, 2, "long climbs: five short rows, 2 cores");
    given_input(TABLE, five, 8, "long climbs: five short rows, 8 cores");
    given_input(SET, eleven, 1, "long climbs: eleven rows");
    given_input(POINT, eleven, 1, "long climbs: eleven rows");
    given_input(TABLE, eleven, 1, "long climbs: eleven rows, 1 core");
    given_input(TABLE, seven, 8, "long climbs: seven 1/1/1, 8 cores");
    given_input(SET, walks, 1, "huge walks");
    given_input(POINT, walks, 1, "huge walks");
    given_input(TABLE, walks, 1, "huge walks, 1 core");
}

/* ---- The why service ---- */

/* The row number of the first row in rank, or of the last. */
static uint32_t ranked_row(const struct rows *rows, bool last)
{
    uint32_t found = 1;

    for (uint32_t row = 2; row <= rows->count; row++)
        if (last ? rows->row[row - 1].d >= rows->row[found - 1].d : rows->row[row - 1].d < rows->row[found - 1].d)
            found = row;
    return found;
}

/* Measures and prints the why service on rows that are accepted, for the first row in rank or the last. */
static void why_line(const struct rows *rows, bool last, const char *name)
{
    struct measured three[] = { { &product_program, WHY, 0, 0 },
                                { &second_program, WHY, 0, 0 },
                                { &product_program, POINT, 0, 0 } };
    struct input input;

    make_input(rows, &input);
    input.lists.row = ranked_row(rows, last);
    measure_in_turn(three, 3, &input, 7);
    printf("%-6s", service_names[WHY]);
    print_number(three[0].best);
    print_number(three[1].best);
    print_number(three[1].best / three[0].best);
    print_number(3 * three[2].best);
    print_number(3 * three[2].best / three[0].best);
    printf("  %s, %s in rank\n", name, last ? "last" : "first");
    fflush(stdout);
}

/* Measures and prints the why service on rows from a text. */
static void why_given(const char *text, const char *name)
{
    struct rows rows = { .cores = 1 };

    read_rows(text, &rows);
    why_line(&rows, false, name);
    why_line(&rows, true, name);
}

/* Measures and prints the why service on 24 rows by UUniFast that are accepted. */
static void why_random(bool deadline_is_period, double share, const char *name)
{
    struct rows rows;

    draw_accepted(SET, 1, ROWS_MAX, deadline_is_period, share, &rows);
    why_line(&rows, false, name);
    why_line(&rows, true, name);
}

/* Prints the why service beside the second program's, and beside three calls of the point service on the same rows, which is
 * what it may take. */
static void print_whys(void)
{
    printf("\nThe why service, microseconds a call; and three calls of the product's point service on the same rows, "
           "points / why: above 1 why is the faster.\n\n");
    printf("%-6s%12s%12s%12s%12s%12s  %s\n", "", "product", "second", "ratio", "3 points", "points/why", "input");
    why_given(four, "the four rows of document 01");
    why_random(false, 0, "24 rows by UUniFast, D <= T, utilisation 0.5");
    why_random(false, 1, "24 rows by UUniFast, D <= T, utilisation 0.9");
    why_random(true, 1, "24 rows by UUniFast, D = T, utilisation 0.9");
    why_given(five, "long climbs: five short rows");
    why_given(eleven, "long climbs: eleven rows");
    why_given(walks, "huge walks");
}

/* ---- The csv service ---- */

/* Measures and prints the csv service on a text. */
static void csv_line(const struct text *text, const char *name)
{
    struct input input = { .text = *text };
    struct cost cost = measure(CSV, &input, 7);

    printf("%-6s", service_names[CSV]);
    print_number(cost.product);
    print_number(cost.second);
    print_number(cost.second / cost.product);
    print_number((double)text->len / MEBIBYTE / (cost.product / 1000000));
    printf("  %s: answer %u\n", name, (unsigned)call(&product_program, CSV, &input));
    fflush(stdout);
}

/* Prints the csv service beside the second program's, on texts as a spreadsheet writes them and on long ones. */
static void print_csvs(void)
{
    static struct text text;
    struct rows rows = { .cores = 2 };
    struct long_number zeros = { 0, 0, 4 * MEBIBYTE, "10" };

    printf("\nThe csv service, microseconds a call, and MiB of text that the product reads in a second.\n\n");
    printf("%-6s%12s%12s%12s%12s  %s\n", "", "product", "second", "ratio", "MiB/s", "input");
    read_rows(four, &rows);
    plain_text(&rows, rows.count, NULL, &text);
    csv_line(&text, "the four rows of document 01 on 2 cores");
    plain_text(&rows, rows.count, &zeros, &text);
    csv_line(&text, "the same with 4 MiB of zeros before a number");
    draw_accepted(TABLE, 2, ROWS_MAX, false, 0.5, &rows);
    plain_text(&rows, rows.count, NULL, &text);
    csv_line(&text, "24 rows by UUniFast, D <= T, 2 cores");
    plain_text(&rows, 4 * MEBIBYTE / (text.len / ROWS_MAX), NULL, &text);
    csv_line(&text, "4 MiB of these rows over and over");
}

/* ---- The picture ---- */

/* Prints a bar: # up to the product's cost, o at the second program's. */
static void print_bar(struct cost cost, double scale)
{
    int product = (int)(cost.product * scale + 0.5), second = (int)(cost.second * scale + 0.5);

    for (int at = 1; at <= product || at <= second; at++)
        putchar(at == second ? 'o' : at <= product ? '#' : ' ');
    putchar('\n');
}

/* The cost of the table service on 2 cores against the number of rows. */
static void print_picture(unsigned tables)
{
    struct cost costs[ROWS_MAX + 1];
    double ratio, most = 0;

    printf("\nTable service on 2 cores, microseconds against rows, medians of %u: # product, o second program\n\n",
           tables);
    for (unsigned count = 1; count <= ROWS_MAX; count++) {
        costs[count] = random_inputs(TABLE, 2, count, false, tables, &ratio);
        most = fmax(most, fmax(costs[count].product, costs[count].second));
    }
    printf("rows     product      second\n");
    for (unsigned count = 1; count <= ROWS_MAX; count++) {
        printf("%4u", count);
        print_number(costs[count].product);
        print_number(costs[count].second);
        printf("  ");
        print_bar(costs[count], BAR / most);
    }
}

/* Prints the table, the picture and the lines of the why service and of the csv service. */
int main(int argc, char **argv)
{
    unsigned tables = argc > 1 ? (unsigned)strtoul(argv[1], NULL, 10) : 50;

    if (argc > 2 || tables < 1 || tables > TABLES_MAX) {
        fprintf(stderr, "usage: benchmark [TABLES], 1 to %u random tables a line\n", TABLES_MAX);
        return 2;
    }
    start_random(1);
    printf("Microseconds a call, and second / product: above 1 the product is the faster one.\n\n");
    printf("%-6s%12s%12s%12s  %s\n", "", "product", "second", "ratio", "input");
    print_the_four();
    for (unsigned cores = 1; cores <= CORES_MAX; cores *= 2)
        random_line(TABLE, cores, false, tables);
    random_line(SET, 1, false, tables);
    random_line(POINT, 1, false, tables < 9 ? tables : 9);
    random_line(SET, 1, true, tables);
    random_line(POINT, 1, true, tables < 3 ? tables : 3);
    print_hostile();
    print_picture(tables);
    print_whys();
    print_csvs();
    return 0;
}
