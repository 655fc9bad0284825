/* Makes the calls that the lines of standard input are, by the second program or (argument `product`) by the product, and
 * prints what they return and what is lent at the end. samples/calls has such lines. Byte strings are in lowercase hex.
 *
 *     table TABLE LENGTH              the table service, with a report of so many bytes
 *     rows C D T LENGTH LENGTH        the set service, then the point service, with answer lists of so many
 *     why C D T ROW                   the why service, for the row of that number
 *     listing TABLE LENGTH            the listing, into so many bytes
 *     text TEXT CORES LENGTH LENGTH   the csv service, then the table of the text, into so many
 *
 * A text is not in hex but as it is, with \r and \n for a line's end and \x20 for a space or any byte that is no plain
 * character.
 *
 * Printed are number and row, or for the listing how many bytes were written, or for a text all three, and then the lent
 * bytes; these are a5 before the call. The why service is lent none: printed last are its limiting row and its point. A
 * line that begins with # is printed as it is. No byte string has more than 1700 bytes. A line that has none of these
 * forms ends the run with status 2. */
#include "programs.h"

#include <stdio.h>
#include <stdlib.h>
#include <string.h>

enum { LINE_MAX = 16384, WORDS_MAX = 6, BYTES_MAX = 1700, LENT = 0xA5 };

/* Bytes that a call reads, or that it is lent. */
struct bytes {
    uint8_t of[BYTES_MAX];
    size_t len;
};

/* A line: its words, each behind one space. */
struct line {
    unsigned long number;
    char text[LINE_MAX], *word[WORDS_MAX];
    size_t words;
};

static const struct program *program = &second_program;

/* Ends the run at a line that cannot be answered. */
static void fail(const struct line *line, const char *message)
{
    fprintf(stderr, "answer: line %lu: %s\n", line->number, message);
    exit(2);
}

/* The value of a hex digit in lower case, or -1. */
static int digit(char symbol)
{
    const char *digits = "0123456789abcdef", *found = symbol == '\0' ? NULL : strchr(digits, symbol);

    return found == NULL ? -1 : (int)(found - digits);
}

/* The byte that two hex digits are. */
static uint8_t read_byte(const struct line *line, const char *digits)
{
    int high = digit(digits[0]), low = high < 0 ? -1 : digit(digits[1]);

    if (low < 0)
        fail(line, "not bytes in hex");
    return (uint8_t)(16 * high + low);
}

/* Reads a word in hex. */
static void read_bytes(const struct line *line, size_t word, struct bytes *bytes)
{
    const char *text = line->word[word];

    bytes->len = strlen(text) / 2;
    if (strlen(text) % 2 != 0 || bytes->len > BYTES_MAX)
        fail(line, "not at most 1700 bytes in hex");
    for (size_t n = 0; n < bytes->len; n++)
        bytes->of[n] = read_byte(line, text + 2 * n);
}

/* Reads the byte behind a backslash, \r, \n or \x and two hex digits; gives where the next one begins. */
static const char *read_escaped(const struct line *line, const char *at, uint8_t *byte)
{
    if (*at == 'r' || *at == 'n') {
        *byte = *at == 'r' ? '\r' : '\n';
        return at + 1;
    }
    if (*at != 'x')
        fail(line, "not a byte behind a backslash");
    *byte = read_byte(line, at + 1);
    return at + 3;
}

/* Reads a word that is a text. */
static void read_text(const struct line *line, size_t word, struct bytes *bytes)
{
    const char *at = line->word[word];

    for (bytes->len = 0; *at != '\0'; bytes->len++) {
        if (bytes->len == BYTES_MAX)
            fail(line, "a text of more than 1700 bytes");
        if (*at == '\\')
            at = read_escaped(line, at + 1, &bytes->of[bytes->len]);
        else
            bytes->of[bytes->len] = (uint8_t)*at++;
    }
}

/* Reads a word in decimal digits, a number up to the greatest that it can be. */
static uint32_t read_number(const struct line *line, size_t word, uint32_t greatest)
{
    const char *text = line->word[word];

    if (*text == '\0' || strspn(text, "0123456789") != strlen(text) || strlen(text) > 10)
        fail(line, "not a number");
    if (strtoull(text, NULL, 10) > greatest)
        fail(line, "too great a number");
    return (uint32_t)strtoull(text, NULL, 10);
}

/* Lends as many bytes as a word says. */
static void lend(const struct line *line, size_t word, struct bytes *bytes)
{
    bytes->len = read_number(line, word, BYTES_MAX);
    memset(bytes->of, LENT, sizeof bytes->of);
}

/* Prints an answer's number and row. */
static void print_answer(struct second_answer answer)
{
    printf("%u %u", (unsigned)answer.number, (unsigned)answer.row);
}

/* Prints bytes in hex, behind a space. */
static void print_bytes(const struct bytes *bytes)
{
    putchar(' ');
    for (size_t n = 0; n < bytes->len; n++)
        printf("%02x", bytes->of[n]);
}

/* A line with a table, for the table service or for the listing. */
static void answer_table(const struct line *line, bool listing)
{
    struct bytes table, lent;

    read_bytes(line, 1, &table);
    lend(line, 2, &lent);
    if (listing)
        printf("%lu", (unsigned long)program->listing(table.of, table.len, lent.of, lent.len));
    else
        print_answer(program->table(table.of, table.len, lent.of, lent.len));
    print_bytes(&lent);
    putchar('\n');
}

/* Reads three words in hex, from the second on. */
static void read_lists(const struct line *line, struct bytes *c, struct bytes *d, struct bytes *t)
{
    read_bytes(line, 1, c);
    read_bytes(line, 2, d);
    read_bytes(line, 3, t);
}

/* A line with rows, for one of the list services. */
static void answer_rows(const struct line *line, list_service *service)
{
    struct bytes c, d, t, responses, allowances;

    read_lists(line, &c, &d, &t);
    lend(line, 4, &responses);
    lend(line, 5, &allowances);
    print_answer(service(c.of, c.len, d.of, d.len, t.of, t.len, responses.of, responses.len, allowances.of,
                         allowances.len));
    print_bytes(&responses);
    print_bytes(&allowances);
    putchar('\n');
}

/* A line with rows and a row number, for the why service. */
static void answer_why(const struct line *line)
{
    struct bytes c, d, t;
    struct second_why why;

    read_lists(line, &c, &d, &t);
    why = program->why(c.of, c.len, d.of, d.len, t.of, t.len, read_number(line, 4, UINT32_MAX));
    print_answer(why.answer);
    printf(" %u %u\n", (unsigned)why.limited_by, (unsigned)why.point);
}

/* A line with a text and a number of cores, for one of the text services; the length to lend is in this word. */
static void answer_text(const struct line *line, text_service *service, size_t word)
{
    struct bytes text, lent;
    struct second_written written;

    read_text(line, 1, &text);
    lend(line, word, &lent);
    written = service(read_number(line, 2, UINT32_MAX), text.of, text.len, lent.of, lent.len);
    print_answer(written.answer);
    printf(" %u", (unsigned)written.length);
    print_bytes(&lent);
    putchar('\n');
}

/* Reads a line and takes it apart; false at the end of the input. */
static bool read_line(struct line *line)
{
    char *at = line->text;

    if (fgets(line->text, sizeof line->text, stdin) == NULL)
        return false;
    line->number++;
    line->words = 0;
    if (strchr(line->text, '\n') == NULL)
        fail(line, "no newline at its end, or too long");
    *strchr(line->text, '\n') = '\0';
    if (*at == '#')
        return true;
    for (; at != NULL && line->words < WORDS_MAX; at = strchr(at, ' ')) {
        if (line->words > 0)
            *at++ = '\0';
        line->word[line->words++] = at;
    }
    return true;
}

/* Answers a line by its first word. */
static void answer_line(const struct line *line)
{
    if (line->text[0] == '#')
        puts(line->text);
    else if (line->words == 3 && strcmp(line->word[0], "table") == 0)
        answer_table(line, false);
    else if (line->words == 3 && strcmp(line->word[0], "listing") == 0)
        answer_table(line, true);
    else if (line->words == 6 && strcmp(line->word[0], "rows") == 0) {
        answer_rows(line, program->set);
        answer_rows(line, program->point);
    } else if (line->words == 5 && strcmp(line->word[0], "why") == 0)
        answer_why(line);
    else if (line->words == 5 && strcmp(line->word[0], "text") == 0) {
        answer_text(line, program->csv, 3);
        answer_text(line, program->csv_table, 4);
    } else
        fail(line, "not a line to answer");
}

/* Answers each line of the input. */
int main(int argc, char **argv)
{
    static struct line line;

    if (argc > 2 || (argc == 2 && strcmp(argv[1], "product") != 0)) {
        fprintf(stderr, "usage: answer [product]\n");
        return 2;
    }
    if (argc == 2)
        program = &product_program;
    while (read_line(&line))
        answer_line(&line);
    return 0;
}
