/* A third opinion for small numbers: the table, set and why services by trying every number in turn. */
#ifndef BRUTE_H
#define BRUTE_H

#include "second.h"

/* The table service, with second_table's form. */
struct second_answer brute_table(const uint8_t *table, size_t table_len,
                                 uint8_t *report, size_t report_len);

/* The set service, with second_set's form. */
struct second_answer brute_set(const uint8_t *c, size_t c_len, const uint8_t *d, size_t d_len,
                               const uint8_t *t, size_t t_len,
                               uint8_t *responses, size_t responses_len,
                               uint8_t *allowances, size_t allowances_len);

/* The why service, with second_why's form. */
struct second_why brute_why(const uint8_t *c, size_t c_len, const uint8_t *d, size_t d_len,
                            const uint8_t *t, size_t t_len, uint32_t row);

#endif
