/* What a comparison comes to: the case at hand, what differs, and what was reached. */
#include "outcomes.h"

#include <stdio.h>
#include <stdlib.h>

struct run run;
struct kind *current;

/* ---- What differs ---- */

/* Prints bytes in hex on a line. */
void print_bytes(const char *name, const uint8_t *bytes, size_t len)
{
    printf("  %s, %lu bytes: ", name, (unsigned long)len);
    for (size_t n = 0; n < len; n++)
        printf("%02x", bytes[n]);
    printf("\n");
}

/* Prints what a call left, with the margins. */
void print_called(const char *name, const struct called *called, size_t first_len, size_t second_len)
{
    printf("  %s: number %u row %u, limited by %u at %u, %lu bytes to write, what it read %s\n", name,
           (unsigned)called->answer.number, (unsigned)called->answer.row, (unsigned)called->limited_by,
           (unsigned)called->point, (unsigned long)called->first_written, called->read_kept ? "kept" : "changed");
    print_bytes("report, listing, text, table or response times, with margins", called->first,
                MARGIN + first_len + MARGIN);
    print_bytes("allowances, with margins", called->second, MARGIN + second_len + MARGIN);
}

/* Says which case the difference is in. */
void print_case(const char *what)
{
    printf("differ: seed %lu, %s, case %lu of its kind: %s\n", run.seed, current->name, current->drawn, what);
}

/* Ends the run at the first difference. */
void stop(void)
{
    printf("compare: %lu cases, 1 differ\n", run.cases);
    exit(1);
}

/* ---- What was reached ---- */

/* Counts an input with the number of its answer. */
void count(uint32_t number)
{
    current->compared++;
    current->numbers[number]++;
}

/* Says which numbers a service can give and never gave; gives how many. */
unsigned never_given(const struct service *service)
{
    unsigned never = 0;

    for (unsigned n = 0; n < service->many; n++)
        if (service->given[service->can_give[n]] == 0) {
            printf("never reached: %s, number %u\n", service->name, service->can_give[n]);
            never++;
        }
    return never;
}
