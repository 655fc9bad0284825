/* The front end's commands on a spreadsheet's text: the text with three columns more, and its table bytes. A refusal is
 * said in words on standard error, and nothing is printed. */
#include "front_text.h"

#include "hibalunduk.h"

#include <stdio.h>
#include <stdlib.h>
#include <string.h>

enum { FIRST_ROOM = 65536, SHOWN = 60 };

/* A spreadsheet's text, whole. */
struct text {
    uint8_t *bytes;
    size_t len;
};

typedef struct hibalunduk_written text_service(uint32_t, const uint8_t *, size_t, uint8_t *, size_t);

/* ---- What is read ---- */

/* Reads a file to its end into memory that grows. */
static bool read_whole(FILE *file, struct text *text)
{
    size_t room = 0;

    *text = (struct text){ NULL, 0 };
    while (!feof(file) && !ferror(file)) {
        if (text->len == room) {
            room = room == 0 ? FIRST_ROOM : 2 * room;
            text->bytes = realloc(text->bytes, room);
            if (text->bytes == NULL)
                return false;
        }
        text->len += fread(text->bytes + text->len, 1, room - text->len, file);
    }
    return !ferror(file);
}

/* Reads a text from a file, or from standard input; false when it cannot be read whole. */
static bool read_text(const char *name, struct text *text)
{
    FILE *file = strcmp(name, "-") == 0 ? stdin : fopen(name, "rb");

    return file != NULL && read_whole(file, text) && (file == stdin || fclose(file) == 0);
}

/* Reads a number of cores, far too great ones as the greatest; false when the word is no number. */
static bool read_cores(const char *word, uint32_t *cores)
{
    uint64_t number = 0;

    if (*word == '\0' || strspn(word, "0123456789") != strlen(word))
        return false;
    for (; *word != '\0' && number <= UINT32_MAX; word++)
        number = 10 * number + (uint64_t)(*word - '0');
    *cores = number > UINT32_MAX ? UINT32_MAX : (uint32_t)number;
    return true;
}

/* ---- What is refused ---- */

/* Whether a line ends at a place, by its end or by the text's. */
static bool line_ends(const struct text *text, size_t at)
{
    return at >= text->len || text->bytes[at] == '\n' ||
           (text->bytes[at] == '\r' && at + 1 < text->len && text->bytes[at + 1] == '\n');
}

/* Shows the beginning of a line, without its end; a byte that is no plain character by its number. */
static void show_line(const struct text *text, uint32_t line)
{
    size_t at = 0, shown = 0;

    for (; line > 1 && at < text->len; at++)
        line -= text->bytes[at] == '\n';
    fputc('[', stderr);
    for (; !line_ends(text, at) && shown < SHOWN; at++, shown++)
        fprintf(stderr, text->bytes[at] >= ' ' && text->bytes[at] < 127 ? "%c" : "\\x%02x", text->bytes[at]);
    fputs(line_ends(text, at) ? "]" : " ..]", stderr);
}

/* Says which line is not of the form, and what it has to be. */
static void explain_line(const struct text *text, uint32_t line)
{
    static const char mark[] = "\xEF\xBB\xBF";

    fprintf(stderr, "line %u has to be %s, and nothing else; it is ", (unsigned)line,
            line == 1 ? "the header wcet,deadline,period"
                      : "three numbers in digits with commas between, as in 10,60,70");
    show_line(text, line);
    if (line == 1 && text->len >= strlen(mark) && memcmp(text->bytes, mark, strlen(mark)) == 0)
        fputs(", with a byte order mark in front: export it without one", stderr);
}

/* Says something of a row, with its line. */
static void explain_row(const struct text *text, uint32_t row, const char *words)
{
    fprintf(stderr, "row %u, line %u, ", (unsigned)row, (unsigned)row + 1);
    show_line(text, row + 1);
    fprintf(stderr, ", %s", words);
}

/* Says in a sentence why a text is refused. */
static void explain(const struct text *text, struct hibalunduk_written refused)
{
    fprintf(stderr, "front: refused %u: ", (unsigned)refused.number);
    switch (refused.number) {
    case 2: fputs("the number of cores has to be from 1 to 8", stderr); break;
    case 3: fputs("there are no rows, or more than 24; 1 to 24 are allowed", stderr); break;
    case 4: explain_row(text, refused.row, "breaks the rule 1 <= wcet <= deadline <= period <= 1000000"); break;
    case 6:
        explain_row(text, refused.row,
                    "fits on no core: a row there would be late; with more cores, or shorter times, it may fit");
        break;
    case 9: explain_line(text, refused.row); break;
    default: fputs("there is too little room for what is to be written", stderr); break;
    }
    fputc('\n', stderr);
}

/* ---- The commands ---- */

/* Whether a word is one of these commands. */
bool is_text_command(const char *word)
{
    return strcmp(word, "csv") == 0 || strcmp(word, "table") == 0;
}

/* Prints what a service makes of a text, or says why it refuses it. */
static int print_made(text_service *service, uint32_t cores, const struct text *text)
{
    uint8_t out[HIBALUNDUK_CSV_MAX];
    struct hibalunduk_written written = service(cores, text->bytes, text->len, out, sizeof out);

    if (written.number != 0) {
        explain(text, written);
        return 1;
    }
    if (fwrite(out, 1, written.length, stdout) != written.length || fflush(stdout) != 0) {
        fputs("front: cannot write to standard output\n", stderr);
        return 2;
    }
    return 0;
}

/* Runs the command of the arguments. */
int run_text_command(int argc, char **argv)
{
    const char *name = argc == 3 ? argv[2] : "-";
    struct text text;
    uint32_t cores;
    int status;

    if (argc < 2 || argc > 3 || !read_cores(argv[1], &cores)) {
        fputs("usage: " TEXT_USAGE "; CORES is a number\n", stderr);
        return 2;
    }
    if (!read_text(name, &text)) {
        fprintf(stderr, "front: cannot read %s\n", name);
        return 2;
    }
    status = print_made(strcmp(argv[0], "csv") == 0 ? hibalunduk_csv : hibalunduk_csv_table, cores, &text);
    free(text.bytes);
    return status;
}
