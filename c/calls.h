/* Calls of a service with lent bytes that a runner can look at afterwards. */
#ifndef CALLS_H
#define CALLS_H

#include "cases.h"
#include "second.h"

/* Lent bytes: a margin, what is lent, and a margin at least as long. The longest is what the csv service writes. */
enum { MARGIN = 16, LENT_ROOM = 46 + 67 * ROWS_MAX + 40, OUTPUT_ROOM = MARGIN + LENT_ROOM + MARGIN };

typedef struct second_answer table_service(const uint8_t *, size_t, uint8_t *, size_t);
typedef struct second_answer list_service(const uint8_t *, size_t, const uint8_t *, size_t,
                                          const uint8_t *, size_t, uint8_t *, size_t,
                                          uint8_t *, size_t);
typedef struct second_why why_service(const uint8_t *, size_t, const uint8_t *, size_t,
                                      const uint8_t *, size_t, uint32_t);
typedef size_t listing_service(const uint8_t *, size_t, uint8_t *, size_t);
typedef struct second_written text_service(uint32_t, const uint8_t *, size_t, uint8_t *, size_t);

/* What a call leaves: its answer; the limiting row and the point; a report, a listing, a text, a table or response times;
 * allowances; how many bytes of these it has to write, or says that it wrote; and whether what it read is as it was. */
struct called {
    struct second_answer answer;
    uint32_t limited_by, point;
    uint8_t first[OUTPUT_ROOM], second[OUTPUT_ROOM];
    size_t first_written, second_written;
    bool read_kept;
};

/* Calls on bytes of exactly their length; outputs are filled with a pattern before. A listing's answer is 0. */
void call_table(table_service *service, const uint8_t *bytes, size_t len, size_t report_len, struct called *called);
void call_listing(listing_service *service, const uint8_t *bytes, size_t len, size_t listing_len,
                  struct called *called);
void call_lists(list_service *service, const struct lists *lists, struct called *called);
void call_why(why_service *service, const struct lists *lists, struct called *called);
void call_text(text_service *service, uint32_t cores, const uint8_t *bytes, size_t len, size_t out_len,
               struct called *called);

/* The row that limits the row asked for, by a set service and what it left of lists that it accepts. */
uint32_t limiting_row_by_set(list_service *set, const struct lists *lists, const struct called *accepted);

/* What a call left. */
bool same_answer(struct second_answer one, struct second_answer other);
bool same_called(const struct called *one, const struct called *other);
bool well_behaved(const struct called *called);

#endif
