/* What a runner is started with: a seed and a number of cases. */
#include "arguments.h"

#include <stdio.h>
#include <stdlib.h>
#include <string.h>

enum { SEED = 1, CASES = 10000, DIGITS_MAX = 9 };

/* Ends the program with the way to start it. */
static void fail(const char *program)
{
    fprintf(stderr, "usage: %s [SEED [CASES]], numbers of at most %d digits, 1 or more cases\n", program, DIGITS_MAX);
    exit(2);
}

/* The number that a word is. */
static unsigned long number(const char *word, const char *program)
{
    size_t digits = strspn(word, "0123456789");

    if (digits == 0 || digits > DIGITS_MAX || word[digits] != '\0')
        fail(program);
    return strtoul(word, NULL, 10);
}

/* Reads a seed and a number of cases, or what stands for them. */
struct run read_arguments(int argc, char **argv, const char *program)
{
    struct run run = { SEED, CASES };

    if (argc > 3)
        fail(program);
    if (argc > 1)
        run.seed = number(argv[1], program);
    if (argc > 2)
        run.cases = number(argv[2], program);
    if (run.cases == 0)
        fail(program);
    return run;
}
