/* The product and the second program, each as its services and the listing in the second program's form. */
#include "programs.h"

#include "hibalunduk.h"

/* An answer of the product. */
static struct second_answer answered(struct hibalunduk_answer answer)
{
    return (struct second_answer){ answer.number, answer.row };
}

/* The product's table service. */
static struct second_answer product_table(const uint8_t *table, size_t table_len, uint8_t *report, size_t report_len)
{
    return answered(hibalunduk_table(table, table_len, report, report_len));
}

/* The product's set service. */
static struct second_answer product_set(const uint8_t *c, size_t c_len, const uint8_t *d, size_t d_len,
                                        const uint8_t *t, size_t t_len, uint8_t *responses, size_t responses_len,
                                        uint8_t *allowances, size_t allowances_len)
{
    return answered(hibalunduk_set(c, c_len, d, d_len, t, t_len, responses, responses_len, allowances,
                                   allowances_len));
}

/* The product's point service. */
static struct second_answer product_point(const uint8_t *c, size_t c_len, const uint8_t *d, size_t d_len,
                                          const uint8_t *t, size_t t_len, uint8_t *responses, size_t responses_len,
                                          uint8_t *allowances, size_t allowances_len)
{
    return answered(hibalunduk_point(c, c_len, d, d_len, t, t_len, responses, responses_len, allowances,
                                     allowances_len));
}

/* The product's why service. */
static struct second_why product_why(const uint8_t *c, size_t c_len, const uint8_t *d, size_t d_len,
                                     const uint8_t *t, size_t t_len, uint32_t row)
{
    struct hibalunduk_why why = hibalunduk_why(c, c_len, d, d_len, t, t_len, row);

    return (struct second_why){ { why.number, why.row }, why.limited_by, why.point };
}

/* An answer of the product with the bytes that it wrote. */
static struct second_written wrote(struct hibalunduk_written written)
{
    return (struct second_written){ { written.number, written.row }, written.length };
}

/* The product's csv service. */
static struct second_written product_csv(uint32_t cores, const uint8_t *text, size_t text_len,
                                         uint8_t *out, size_t out_len)
{
    return wrote(hibalunduk_csv(cores, text, text_len, out, out_len));
}

/* The product's table of a text. */
static struct second_written product_csv_table(uint32_t cores, const uint8_t *text, size_t text_len,
                                               uint8_t *out, size_t out_len)
{
    return wrote(hibalunduk_csv_table(cores, text, text_len, out, out_len));
}

const struct program product_program = { "the product", product_table, product_set, product_point, product_why,
                                         hibalunduk_listing, product_csv, product_csv_table };
const struct program second_program = { "the second program", second_table, second_set, second_point, second_why,
                                        second_listing, second_csv, second_csv_table };
