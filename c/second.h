/* The second program's services: document 01 and requests 1 and 2 in plain C, written from their words alone. */
#ifndef SECOND_H
#define SECOND_H

#include <stddef.h>
#include <stdint.h>

/* An answer: number 0 and row 0 when accepted, else the refusal's number and row. */
struct second_answer {
    uint32_t number;
    uint32_t row;
};

/* The table service: table bytes to report bytes. */
struct second_answer second_table(const uint8_t *table, size_t table_len,
                                  uint8_t *report, size_t report_len);

/* The set service: lists as big-endian bytes, four per number; allowances by trial of the definition. */
struct second_answer second_set(const uint8_t *c, size_t c_len, const uint8_t *d, size_t d_len,
                                const uint8_t *t, size_t t_len,
                                uint8_t *responses, size_t responses_len,
                                uint8_t *allowances, size_t allowances_len);

/* The point service: the same lists; allowances by the point formula. */
struct second_answer second_point(const uint8_t *c, size_t c_len, const uint8_t *d, size_t d_len,
                                  const uint8_t *t, size_t t_len,
                                  uint8_t *responses, size_t responses_len,
                                  uint8_t *allowances, size_t allowances_len);

/* An answer of the why service; the limiting row and the point are 0 on a refusal. */
struct second_why {
    struct second_answer answer;
    uint32_t limited_by;
    uint32_t point;
};

/* The why service: the same lists and a row number from 1; the row that limits it, and the point. */
struct second_why second_why(const uint8_t *c, size_t c_len, const uint8_t *d, size_t d_len,
                             const uint8_t *t, size_t t_len, uint32_t row);

/* The listing of a table: the number of bytes written, 0 and nothing written when out is too short. */
size_t second_listing(const uint8_t *table, size_t table_len, uint8_t *out, size_t out_len);

/* An answer of the csv service; its row is the line where the number is 9, and the length written is 0 on a refusal. */
struct second_written {
    struct second_answer answer;
    uint32_t length;
};

/* The csv service: a spreadsheet's text and a number of cores to the text with three columns more. */
struct second_written second_csv(uint32_t cores, const uint8_t *text, size_t text_len, uint8_t *out, size_t out_len);

/* The same text to table bytes. */
struct second_written second_csv_table(uint32_t cores, const uint8_t *text, size_t text_len,
                                       uint8_t *out, size_t out_len);

#endif
