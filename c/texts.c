/* Texts for the csv service, drawn at random in every way that the form allows, and what spoils them. */
#include "texts.h"

#include <stdio.h>
#include <stdlib.h>
#include <string.h>

/* How often a text does what it may do or not. */
enum habit { NEVER, ALWAYS, NOW_AND_THEN, HABITS };

/* A way to write a text. */
struct style {
    enum habit quotes, zeros, short_ends;
    bool last_end;
};

static const struct style plain_style = { NEVER, NEVER, NEVER, true };

/* ---- Bytes of a text ---- */

/* Makes room for so many bytes more. */
static void make_room(struct text *text, size_t more)
{
    if (text->len + more <= text->room)
        return;
    text->room = 2 * (text->len + more);
    text->bytes = realloc(text->bytes, text->room);
    if (text->bytes == NULL)
        abort();
}

/* Puts bytes at a place of a text. */
static void insert_bytes(struct text *text, size_t at, const void *bytes, size_t len)
{
    make_room(text, len);
    memmove(text->bytes + at + len, text->bytes + at, text->len - at);
    memcpy(text->bytes + at, bytes, len);
    text->len += len;
}

/* Puts bytes at the end of a text. */
void add_bytes(struct text *text, const void *bytes, size_t len)
{
    insert_bytes(text, text->len, bytes, len);
}

/* Puts zeros at the end of a text. */
static void add_zeros(struct text *text, size_t zeros)
{
    make_room(text, zeros);
    memset(text->bytes + text->len, '0', zeros);
    text->len += zeros;
}

/* ---- Texts of the form ---- */

/* Whether to do this time what is done by habit. */
static bool by_habit(enum habit habit)
{
    return habit == ALWAYS || (habit == NOW_AND_THEN && once_in(2));
}

/* Writes a field: zeros, then what it says. */
static void write_field(const struct style *style, size_t zeros, const char *said, struct text *text)
{
    bool quoted = by_habit(style->quotes);

    if (quoted)
        add_bytes(text, "\"", 1);
    add_zeros(text, zeros);
    add_bytes(text, said, strlen(said));
    if (quoted)
        add_bytes(text, "\"", 1);
}

/* Writes the end of a field that is not the last one of its line, or of the line. */
static void write_end(const struct style *style, bool line, struct text *text)
{
    if (!line)
        add_bytes(text, ",", 1);
    else if (by_habit(style->short_ends))
        add_bytes(text, "\n", 1);
    else
        add_bytes(text, "\r\n", 2);
}

/* Writes a field of a row: its own number, or the one in place of it. */
static void write_number(const struct style *style, uint32_t own, const struct long_number *other, struct text *text)
{
    char digits[12];

    if (other != NULL) {
        write_field(style, other->zeros, other->digits, text);
        return;
    }
    sprintf(digits, "%u", (unsigned)own);
    write_field(style, by_habit(style->zeros) ? 1 + below(once_in(8) ? 40 : 3) : 0, digits, text);
}

/* Takes the line end off the end of a text. */
static void drop_last_end(struct text *text)
{
    text->len--;
    if (text->bytes[text->len - 1] == '\r')
        text->len--;
}

/* Writes a text in a style. */
static void write_text(const struct rows *rows, size_t count, const struct long_number *number,
                       const struct style *style, struct text *text)
{
    static const char *const names[] = { "wcet", "deadline", "period" };

    text->cores = rows->cores;
    text->len = 0;
    for (size_t field = 0; field < 3; field++) {
        write_field(style, 0, names[field], text);
        write_end(style, field == 2, text);
    }
    for (size_t n = 0; n < count; n++) {
        const struct row *row = &rows->row[n % rows->count];
        const uint32_t own[] = { row->c, row->d, row->t };

        for (size_t field = 0; field < 3; field++) {
            bool other = number != NULL && number->row == n && number->field == field;

            write_number(style, own[field], other ? number : NULL, text);
            write_end(style, field == 2, text);
        }
    }
    if (!style->last_end)
        drop_last_end(text);
}

/* Writes a text as a spreadsheet does. */
void plain_text(const struct rows *rows, size_t count, const struct long_number *number, struct text *text)
{
    write_text(rows, count, number, &plain_style, text);
}

/* Writes a text in a style that is drawn. */
void draw_text(const struct rows *rows, size_t count, const struct long_number *number, struct text *text)
{
    struct style style = { (enum habit)below(HABITS), (enum habit)below(HABITS), (enum habit)below(HABITS), !once_in(3) };

    write_text(rows, count, number, &style, text);
}

/* ---- Long numbers ---- */

/* Adds a number to a greater one in digits. */
static void add_to_digits(char *digits, uint64_t more)
{
    for (size_t at = strlen(digits); at-- > 0; more /= 10) {
        more += (uint64_t)(digits[at] - '0');
        digits[at] = (char)('0' + more % 10);
    }
}

/* Digits without end, none of them leading zeros. */
static void draw_digits(char *digits)
{
    size_t len = 1 + below(once_in(2) ? 25 : NUMBER_ROOM - 1);

    for (size_t n = 0; n < len; n++)
        digits[n] = (char)('0' + (n == 0 ? 1 + below(9) : below(10)));
    digits[len] = '\0';
}

/* Draws a number for a field of a text with one row or more: digits, or the row's own number added to a number of many
 * digits, which is 0 more often than another. */
void draw_long_number(const struct rows *rows, size_t count, struct long_number *number)
{
    static const char *const around[] = { "4294967296", "18446744073709551616", "340282366920938463463374607431768211456",
                                          "4294967295", "18446744073709551615", "1000000", "0999999", "100000000",
                                          "0000000", "0000000", "0000000" };
    const struct row *row;

    number->row = below((uint32_t)count);
    number->field = below(3);
    number->zeros = once_in(2) ? 0 : below(once_in(2) ? 10 : 1000);
    row = &rows->row[number->row % rows->count];
    if (once_in(6)) {
        draw_digits(number->digits);
        return;
    }
    strcpy(number->digits, around[below(sizeof around / sizeof around[0])]);
    if (once_in(3))
        add_to_digits(number->digits, below(3));
    else
        add_to_digits(number->digits, number->field == 0 ? row->c : number->field == 1 ? row->d : row->t);
}

/* Draws a number of cores. */
uint32_t draw_cores(void)
{
    static const uint32_t others[] = { 0, 9, 10, 255, 256, 257, 264, 65537, UINT32_C(0x80000001), UINT32_MAX };

    return once_in(2) ? below(CORES_MAX + 2) : others[below(sizeof others / sizeof others[0])];
}

/* ---- What spoils a text ---- */

/* A byte that says something in a text, or any. */
static uint8_t draw_byte(void)
{
    static const char some[] = "\"\"\",,,\r\r\n\n\n0123459 +-.;wcetWp\t";

    return (uint8_t)(once_in(4) ? below(256) : (uint8_t)some[below(sizeof some - 1)]);
}

/* A place in a text before its end: any, or the next one of an end, a comma or a quote. */
static size_t draw_place(const struct text *text)
{
    size_t at = below((uint32_t)text->len);

    if (once_in(3))
        while (at + 1 < text->len && strchr("\r\n,\"", text->bytes[at]) == NULL)
            at++;
    return at;
}

/* Removes bytes at a place of a text. */
static void remove_bytes(struct text *text, size_t at, size_t len)
{
    text->len -= len;
    memmove(text->bytes + at, text->bytes + at + len, text->len - at);
}

/* Replaces, inserts or removes one byte. */
void damage_text(struct text *text)
{
    uint8_t byte = draw_byte();
    size_t at;

    if (text->len == 0 || once_in(3)) {
        insert_bytes(text, once_in(4) ? text->len : below((uint32_t)text->len + 1), &byte, 1);
        return;
    }
    at = once_in(4) ? text->len - 1 : draw_place(text);
    if (once_in(2))
        text->bytes[at] = byte;
    else
        remove_bytes(text, at, 1);
}

/* Whether there is a digit at a place of a text. */
static bool digit_at(const struct text *text, size_t at)
{
    return at < text->len && text->bytes[at] >= '0' && text->bytes[at] <= '9';
}

/* Inserts a few bytes, or removes the digits around a place. */
void damage_field(struct text *text)
{
    static const char *const pieces[] = { "\"\"", "\"\"\"\"", "\r\n", "\n\r",
                                          "\r\r\n", "\"\r\n\"", ",\"\"", "\xEF\xBB\xBF" };
    const char *piece = pieces[below(sizeof pieces / sizeof pieces[0])];
    size_t at = draw_place(text), to;

    if (once_in(2)) {
        insert_bytes(text, at, piece, strlen(piece));
        return;
    }
    while (at > 0 && digit_at(text, at - 1))
        at--;
    for (to = at; digit_at(text, to);)
        to++;
    remove_bytes(text, at, to - at);
}

/* Writes a part of a text twice: all, one byte, up to a line's end, or any part. */
void double_part(struct text *text)
{
    size_t from = draw_place(text), to = from + 1;
    struct text part = { .len = 0 };

    switch (below(4)) {
    case 0: from = 0, to = text->len; break;
    case 1: break;
    case 2:
        while (to < text->len && text->bytes[to - 1] != '\n')
            to++;
        break;
    default: to = from + 1 + below((uint32_t)(text->len - from)); break;
    }
    add_bytes(&part, text->bytes + from, to - from);
    insert_bytes(text, to, part.bytes, part.len);
    free(part.bytes);
}

/* Cuts a text. */
void cut_text(struct text *text)
{
    text->len = below((uint32_t)text->len + 1);
}
