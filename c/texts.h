/* Texts for the csv service, drawn at random in every way that the form allows, and what spoils them. */
#ifndef TEXTS_H
#define TEXTS_H

#include "cases.h"

/* A text, in memory that grows, and the number of cores beside it. */
struct text {
    uint32_t cores;
    uint8_t *bytes;
    size_t len, room;
};

enum { NUMBER_ROOM = 400 };

/* A number in place of one that a row has: zeros, then digits. */
struct long_number {
    size_t row, field, zeros;
    char digits[NUMBER_ROOM];
};

/* Bytes at the end of a text. */
void add_bytes(struct text *text, const void *bytes, size_t len);

/* The text of so many rows, these over and over, as a spreadsheet writes it: plain, with CRLF; with a number in place of
 * another unless that is null. */
void plain_text(const struct rows *rows, size_t count, const struct long_number *number, struct text *text);

/* The same, quoted or plain, with zeros or without, in CRLF or LF, the last end there or not. */
void draw_text(const struct rows *rows, size_t count, const struct long_number *number, struct text *text);

/* A number around a power of two or of ten, or of very many digits, or the one that stood there with zeros before it; of
 * some, what is left in 32 or 64 bits is the one that stood there. For one row or more. */
void draw_long_number(const struct rows *rows, size_t count, struct long_number *number);

/* A number of cores: none, some, one too many, or far too many. */
uint32_t draw_cores(void);

/* Spoils a text: one byte replaced, inserted or removed; a few bytes inserted, or the digits of a field removed; a part
 * of it twice; cut. */
void damage_text(struct text *text);
void damage_field(struct text *text);
void double_part(struct text *text);
void cut_text(struct text *text);

#endif
