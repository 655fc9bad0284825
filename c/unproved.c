/* The entries for C where no library is made, since the kit makes one only of what is proved: a Rattle program that holds the code of the entries, which `rt try` runs
 * unproved, makes the calls in their place (c/edits). The C program that wants the answers runs beside it on a stack of its own, and waits in each call until the
 * Rattle program has answered it. Its main goes by the name of program_main, and its arguments are program_words. */
#include "hibalunduk.h"

#include <stdbool.h>
#include <stdlib.h>
#include <ucontext.h>

enum { STACK_SIZE = 16 << 20, STRINGS_MAX = 5 };

/* The calls by their numbers, as the Rattle program knows them. */
enum { TABLE = 1, SET, POINT, LISTING, WHY, CSV, CSV_TABLE };

/* A byte string of a call. */
struct string {
    const uint8_t *bytes;
    size_t len;
};

/* A call: which it is, its number if it takes one, its byte strings in their order, and what is answered. */
static struct {
    uint32_t which, number;
    struct string string[STRINGS_MAX];
    uint32_t answer[4];
    size_t written;
} call;

static ucontext_t rattle, program;
static char stack[STACK_SIZE];

extern char *program_words[];
int program_main(int argc, char **argv);

/* Runs the C program to its end, which is the end of all. */
static void run_program(void)
{
    int words = 0;

    while (program_words[words] != NULL)
        words++;
    exit(program_main(words, program_words));
}

/* Has the Rattle program make the call. */
static void make_call(uint32_t which, uint32_t number)
{
    call.which = which;
    call.number = number;
    swapcontext(&program, &rattle);
}

/* A byte string of the call to come. */
static void pass(size_t place, const uint8_t *bytes, size_t len)
{
    call.string[place] = (struct string){ bytes, len };
}

/* For the Rattle program: runs the C program up to its next call, and gives the number of that. */
uint32_t call_next(void)
{
    static bool is_begun = false;

    if (!is_begun) {
        is_begun = true;
        getcontext(&program);
        program.uc_stack.ss_sp = stack;
        program.uc_stack.ss_size = sizeof stack;
        makecontext(&program, run_program, 0);
    }
    swapcontext(&rattle, &program);
    return call.which;
}

/* For the Rattle program: a byte string of the call, and the number that it takes. */
uint8_t *call_bytes(uint32_t place)
{
    return (uint8_t *)call.string[place].bytes;
}

size_t call_length(uint32_t place)
{
    return call.string[place].len;
}

uint32_t call_number(void)
{
    return call.number;
}

/* For the Rattle program: the answer to the call. */
void call_answered(uint32_t number, uint32_t row, uint32_t third, uint32_t fourth)
{
    call.answer[0] = number;
    call.answer[1] = row;
    call.answer[2] = third;
    call.answer[3] = fourth;
}

void call_wrote(size_t written)
{
    call.written = written;
}

/* Makes a call that is answered by a number and a row. */
static struct hibalunduk_answer answered(uint32_t which)
{
    make_call(which, 0);
    return (struct hibalunduk_answer){ call.answer[0], call.answer[1] };
}

/* Makes a call that is answered by a number, a row and a length. */
static struct hibalunduk_written written(uint32_t which, uint32_t cores)
{
    make_call(which, cores);
    return (struct hibalunduk_written){ call.answer[0], call.answer[1], call.answer[2] };
}

/* Passes three lists. */
static void pass_lists(const uint8_t *c, size_t c_len, const uint8_t *d, size_t d_len, const uint8_t *t, size_t t_len)
{
    pass(0, c, c_len);
    pass(1, d, d_len);
    pass(2, t, t_len);
}

struct hibalunduk_answer hibalunduk_table(const uint8_t *table, size_t table_len, uint8_t *report, size_t report_len)
{
    pass(0, table, table_len);
    pass(1, report, report_len);
    return answered(TABLE);
}

/* Makes a call of a list service. */
static struct hibalunduk_answer lists_answered(uint32_t which, const uint8_t *c, size_t c_len, const uint8_t *d, size_t d_len,
                                               const uint8_t *t, size_t t_len, uint8_t *responses, size_t responses_len,
                                               uint8_t *allowances, size_t allowances_len)
{
    pass_lists(c, c_len, d, d_len, t, t_len);
    pass(3, responses, responses_len);
    pass(4, allowances, allowances_len);
    return answered(which);
}

struct hibalunduk_answer hibalunduk_set(const uint8_t *c, size_t c_len, const uint8_t *d, size_t d_len,
                                        const uint8_t *t, size_t t_len, uint8_t *responses, size_t responses_len,
                                        uint8_t *allowances, size_t allowances_len)
{
    return lists_answered(SET, c, c_len, d, d_len, t, t_len, responses, responses_len, allowances, allowances_len);
}

struct hibalunduk_answer hibalunduk_point(const uint8_t *c, size_t c_len, const uint8_t *d, size_t d_len,
                                          const uint8_t *t, size_t t_len, uint8_t *responses, size_t responses_len,
                                          uint8_t *allowances, size_t allowances_len)
{
    return lists_answered(POINT, c, c_len, d, d_len, t, t_len, responses, responses_len, allowances, allowances_len);
}

size_t hibalunduk_listing(const uint8_t *table, size_t table_len, uint8_t *listing, size_t listing_len)
{
    pass(0, table, table_len);
    pass(1, listing, listing_len);
    make_call(LISTING, 0);
    return call.written;
}

struct hibalunduk_why hibalunduk_why(const uint8_t *c, size_t c_len, const uint8_t *d, size_t d_len,
                                     const uint8_t *t, size_t t_len, uint32_t row)
{
    pass_lists(c, c_len, d, d_len, t, t_len);
    make_call(WHY, row);
    return (struct hibalunduk_why){ call.answer[0], call.answer[1], call.answer[2], call.answer[3] };
}

struct hibalunduk_written hibalunduk_csv(uint32_t cores, const uint8_t *text, size_t text_len, uint8_t *out, size_t out_len)
{
    pass(0, text, text_len);
    pass(1, out, out_len);
    return written(CSV, cores);
}

struct hibalunduk_written hibalunduk_csv_table(uint32_t cores, const uint8_t *text, size_t text_len, uint8_t *out, size_t out_len)
{
    pass(0, text, text_len);
    pass(1, out, out_len);
    return written(CSV_TABLE, cores);
}
