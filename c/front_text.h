/* The front end's commands on a spreadsheet's text: the text with three columns more, and its table bytes. */
#ifndef FRONT_TEXT_H
#define FRONT_TEXT_H

#include <stdbool.h>

/* How they are started. */
#define TEXT_USAGE "front csv CORES [TEXT], or front table CORES [TEXT], a file of comma-separated text"

/* Whether a word is one of these commands. */
bool is_text_command(const char *word);

/* Runs the command of the arguments, COMMAND CORES [TEXT], and gives the status to end with. */
int run_text_command(int argc, char **argv);

#endif
