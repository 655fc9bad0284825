/* Document 01's sheets, and request 1's, as inputs with the answers on paper. */
#ifndef SHEETS_H
#define SHEETS_H

#include "calls.h"

enum { SET_SHEETS = 7, WHY_SHEETS = 13, TABLE_SHEETS = 9, LISTING_ROOM = 1024 };

/* Whether a service answers a sheet as the paper does, with nothing else written; what the call left is given too. */
bool set_sheet_holds(size_t sheet, list_service *service, struct called *called);
bool why_sheet_holds(size_t sheet, why_service *service, struct called *called);
bool table_sheet_holds(size_t sheet, table_service *service, struct called *called);
bool listing_sheet_holds(size_t sheet, listing_service *service, struct called *called);

/* The listing that a call of a table service stands for, by its answer and its report; gives its bytes. */
size_t listing_of(const struct called *called, size_t rows, char *text);

#endif
