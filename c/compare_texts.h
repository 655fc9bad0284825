/* What compare compares on texts: both programs' csv services and tables of a text; the product's csv service with its
 * table service; and what it writes, read again. */
#ifndef COMPARE_TEXTS_H
#define COMPARE_TEXTS_H

#include "outcomes.h"

extern struct service csv_numbers, csv_table_numbers;

/* Texts of rows, one kind each. */
void text_as_drawn(const struct rows *rows);
void text_damaged(const struct rows *rows);
void text_cut(const struct rows *rows);
void text_doubled(const struct rows *rows);
void text_with_long_number(const struct rows *rows);
void text_of_many_rows(const struct rows *rows);
void text_of_cores(const struct rows *rows);
void text_lent_lengths(const struct rows *rows);
void text_of_mebibytes(const struct rows *rows);

#endif
