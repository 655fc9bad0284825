/* The product and the second program, each as its services and the listing in one form. */
#ifndef PROGRAMS_H
#define PROGRAMS_H

#include "calls.h"

/* A program: its services and its listing. */
struct program {
    const char *name;
    table_service *table;
    list_service *set, *point;
    why_service *why;
    listing_service *listing;
    text_service *csv, *csv_table;
};

extern const struct program product_program, second_program;

#endif
