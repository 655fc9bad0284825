/* What a runner is started with: a seed and a number of cases. */
#ifndef ARGUMENTS_H
#define ARGUMENTS_H

struct run {
    unsigned long seed, cases;
};

/* Reads [SEED [CASES]]; where a word is no number, or there are 0 cases, says how to start the program and ends it with
 * status 2. */
struct run read_arguments(int argc, char **argv, const char *program);

#endif
