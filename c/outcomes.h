/* What a comparison comes to: the case at hand, what differs, and what was reached. */
#ifndef OUTCOMES_H
#define OUTCOMES_H

#include "arguments.h"
#include "calls.h"

enum { NUMBERS = 11 }; /* of answers: accepted and refusals up to 10 */

/* A kind of cases: how its rows are drawn, what is compared on them, and how often; then what came of it. */
struct kind {
    const char *name;
    void (*draw)(struct rows *);
    void (*compare)(const struct rows *);
    unsigned once_in;
    unsigned long drawn, compared, third, numbers[NUMBERS];
};

#define KIND(kind, drawn_by, compared_by, times) \
    { .name = kind, .draw = drawn_by, .compare = compared_by, .once_in = times }

/* A service: the numbers that it can give, and how often it gave them. A listing's number is that of its text. */
struct service {
    const char *name;
    unsigned can_give[NUMBERS], many;
    unsigned long given[NUMBERS];
};

extern struct run run;
extern struct kind *current; /* the kind of the case at hand */

/* What differs: which case it is, bytes in hex on a line, what a call left, with the margins; and the end of the run. */
void print_case(const char *what);
void print_bytes(const char *name, const uint8_t *bytes, size_t len);
void print_called(const char *name, const struct called *called, size_t first_len, size_t second_len);
void stop(void);

/* What was reached: an input with the number of its answer; which numbers a service can give and never gave. */
void count(uint32_t number);
unsigned never_given(const struct service *service);

#endif
