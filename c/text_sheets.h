/* Texts for the csv service with the answers on paper: document 01's sheets as spreadsheets, and request 2's words. */
#ifndef TEXT_SHEETS_H
#define TEXT_SHEETS_H

#include "calls.h"

/* How many there are. */
size_t text_sheets(void);

/* Whether the csv service answers a text as the paper does, and the table of the text too, into lent bytes of several
 * lengths; what a call left is given too, that of the one that does not hold. */
bool text_sheet_holds(size_t sheet, text_service *csv, text_service *csv_table, struct called *called);

/* The text that an accepted call of a table service stands for, by its report; gives its bytes. */
size_t text_of_report(const struct called *called, size_t rows, char *text);

#endif
