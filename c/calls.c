/* Calls of a service with lent bytes that a runner can look at afterwards. */
#include "calls.h"

#include <stdlib.h>
#include <string.h>

/* What stands in an output before a call. */
static const uint8_t *pattern(void)
{
    static uint8_t bytes[OUTPUT_ROOM];

    if (bytes[0] == 0)
        for (size_t place = 0; place < OUTPUT_ROOM; place++)
            bytes[place] = (uint8_t)(0xA5 + 37 * place);
    return bytes;
}

/* Fills both outputs with the pattern; nothing is answered or written. */
static void fill(struct called *called)
{
    called->answer = (struct second_answer){ 0, 0 };
    called->limited_by = called->point = 0;
    called->first_written = called->second_written = 0;
    memcpy(called->first, pattern(), OUTPUT_ROOM);
    memcpy(called->second, pattern(), OUTPUT_ROOM);
}

/* Whether an output has the pattern from a place of what is lent to its end, and in the margin before. */
static bool kept_from(const uint8_t *output, size_t lent_from)
{
    size_t from = lent_from < OUTPUT_ROOM - MARGIN ? MARGIN + lent_from : OUTPUT_ROOM;

    return memcmp(output, pattern(), MARGIN) == 0 &&
           memcmp(output + from, pattern() + from, OUTPUT_ROOM - from) == 0;
}

/* A copy of bytes in memory of exactly their length, so that a sanitizer sees a read beyond it. */
static uint8_t *exact(const uint8_t *bytes, size_t len)
{
    uint8_t *copy = malloc(len == 0 ? 1 : len);

    if (copy == NULL)
        abort();
    memcpy(copy, bytes, len);
    return copy;
}

/* Frees a copy; false when it is not as it was. */
static bool free_kept(uint8_t *copy, const uint8_t *bytes, size_t len)
{
    bool kept = memcmp(copy, bytes, len) == 0;

    free(copy);
    return kept;
}

/* Calls a table service on a table and a report of these lengths. */
void call_table(table_service *service, const uint8_t *bytes, size_t len, size_t report_len, struct called *called)
{
    uint8_t *table = exact(bytes, len);

    fill(called);
    called->answer = service(table, len, called->first + MARGIN, report_len);
    if (called->answer.number == 0)
        called->first_written = 4 + 23 * (len / 13);
    called->read_kept = free_kept(table, bytes, len);
}

/* Calls a listing on a table and lent bytes of these lengths. */
void call_listing(listing_service *service, const uint8_t *bytes, size_t len, size_t listing_len,
                  struct called *called)
{
    uint8_t *table = exact(bytes, len);

    fill(called);
    called->first_written = service(table, len, called->first + MARGIN, listing_len);
    called->read_kept = free_kept(table, bytes, len);
}

/* Copies of three lists. */
struct copies {
    uint8_t *c, *d, *t;
};

/* Copies three lists. */
static struct copies copy_lists(const struct lists *lists)
{
    return (struct copies){ exact(lists->c, lists->c_len), exact(lists->d, lists->d_len),
                            exact(lists->t, lists->t_len) };
}

/* Frees the copies of three lists; false when one is not as it was. */
static bool free_lists(struct copies copies, const struct lists *lists)
{
    bool c_kept = free_kept(copies.c, lists->c, lists->c_len);
    bool d_kept = free_kept(copies.d, lists->d, lists->d_len);
    bool t_kept = free_kept(copies.t, lists->t, lists->t_len);

    return c_kept && d_kept && t_kept;
}

/* Calls a list service on lists and answer lists of their lengths. */
void call_lists(list_service *service, const struct lists *lists, struct called *called)
{
    struct copies of = copy_lists(lists);

    fill(called);
    called->answer = service(of.c, lists->c_len, of.d, lists->d_len, of.t, lists->t_len, called->first + MARGIN,
                             lists->responses_len, called->second + MARGIN, lists->allowances_len);
    if (called->answer.number == 0)
        called->first_written = called->second_written = lists->c_len;
    called->read_kept = free_lists(of, lists);
}

/* Calls a why service on lists and the row number asked for. */
void call_why(why_service *service, const struct lists *lists, struct called *called)
{
    struct copies of = copy_lists(lists);
    struct second_why why = service(of.c, lists->c_len, of.d, lists->d_len, of.t, lists->t_len, lists->row);

    fill(called);
    called->answer = why.answer;
    called->limited_by = why.limited_by;
    called->point = why.point;
    called->read_kept = free_lists(of, lists);
}

/* Calls a text service on a text for so many cores and lent bytes of this length. */
void call_text(text_service *service, uint32_t cores, const uint8_t *bytes, size_t len, size_t out_len,
               struct called *called)
{
    uint8_t *text = exact(bytes, len);
    struct second_written written;

    fill(called);
    written = service(cores, text, len, called->first + MARGIN, out_len);
    called->answer = written.answer;
    called->first_written = written.length;
    called->read_kept = free_kept(text, bytes, len);
}

/* The row that limits the row asked for: the one that a set service says is late with one tick more than the allowance,
 * or the row itself where its C would be above its D. */
uint32_t limiting_row_by_set(list_service *set, const struct lists *lists, const struct called *accepted)
{
    size_t at = 4 * (size_t)(lists->row - 1);
    struct lists raised = *lists;
    struct called called;

    put_number(raised.c + at, get_number(lists->c + at) + get_number(accepted->second + MARGIN + at) + 1);
    if (get_number(raised.c + at) > get_number(lists->d + at))
        return lists->row;
    call_lists(set, &raised, &called);
    return called.answer.row;
}

/* Whether two answers are the same. */
bool same_answer(struct second_answer one, struct second_answer other)
{
    return one.number == other.number && one.row == other.row;
}

/* Whether two calls left the same, every byte counted. */
bool same_called(const struct called *one, const struct called *other)
{
    return same_answer(one->answer, other->answer) && one->limited_by == other->limited_by &&
           one->point == other->point && one->first_written == other->first_written &&
           memcmp(one->first, other->first, OUTPUT_ROOM) == 0 &&
           memcmp(one->second, other->second, OUTPUT_ROOM) == 0 && one->read_kept == other->read_kept;
}

/* Whether a call left what it read as it was, and its outputs too but for what it has to write. */
bool well_behaved(const struct called *called)
{
    return called->read_kept && kept_from(called->first, called->first_written) &&
           kept_from(called->second, called->second_written);
}
