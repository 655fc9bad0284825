/* Texts for the csv service with the answers on paper: document 01's sheets as spreadsheets, and request 2's words. */
#include "text_sheets.h"

#include <stdio.h>
#include <string.h>

/* A text and a number of cores: the answer, the text written where accepted, and the table where there is one. */
struct text_sheet {
    const char *text;
    uint32_t cores;
    struct second_answer answer;
    const char *written;
    struct rows rows;
};

#define HEAD "wcet,deadline,period\r\n"
#define OUT "wcet,deadline,period,core,response,allowance\r\n"
#define FOUR_OUT OUT "10,60,70,2,10,50\r\n15,85,100,1,15,47\r\n30,190,210,1,45,95\r\n45,260,320,1,90,110\r\n"
#define FOUR { 2, 4, { { 10, 60, 70 }, { 15, 85, 100 }, { 30, 190, 210 }, { 45, 260, 320 } } }
#define FIVE { 2, 5, { { 6, 10, 10 }, { 4, 10, 10 }, { 4, 10, 10 }, { 3, 10, 10 }, { 3, 10, 10 } } }
#define ROW "1,100,100\n"
#define SIX ROW ROW ROW ROW ROW ROW
#define TWENTY_THREE SIX SIX SIX ROW ROW ROW ROW ROW
#define ALIKE { 1, 100, 100 }
#define SIX_ALIKE ALIKE, ALIKE, ALIKE, ALIKE, ALIKE, ALIKE
#define ALIKE_OUT(response) "1,100,100,1," response ",76\r\n"
#define NO_TABLE NULL, { 0 }

static const struct text_sheet sheets[] = {
    /* Accepted: each way to write a text. */
    { HEAD "10,60,70\r\n15,85,100\r\n30,190,210\r\n45,260,320\r\n", 2, { 0, 0 }, FOUR_OUT, FOUR }, /* sheet 3 */
    { HEAD "10,60,70\r\n15,85,100\r\n30,190,210\r\n45,260,320", 2, { 0, 0 }, FOUR_OUT, FOUR },
    { "wcet,deadline,period\n10,60,70\n15,85,100\n30,190,210\n45,260,320\n", 2, { 0, 0 }, FOUR_OUT, FOUR },
    { "wcet,deadline,period\n10,60,70\r\n15,85,100\n30,190,210\r\n45,260,320", 2, { 0, 0 }, FOUR_OUT, FOUR },
    { "\"wcet\",\"deadline\",\"period\"\r\n\"10\",\"60\",\"70\"\r\n\"15\",\"85\",\"100\"\r\n\"30\",\"190\",\"210\"\r\n"
      "\"45\",\"260\",\"320\"\r\n", 2, { 0, 0 }, FOUR_OUT, FOUR },
    { "wcet,\"deadline\",period\n010,\"60\",0070\n\"0015\",85,100\n30,190,\"000210\"\n45,260,\"320\"", 2, { 0, 0 },
      FOUR_OUT, FOUR },
    { HEAD "1,1,1", 1, { 0, 0 }, OUT "1,1,1,1,1,0\r\n", { 1, 1, { { 1, 1, 1 } } } }, /* sheet 5 */
    { HEAD "1,1000000,1000000\n", 1, { 0, 0 }, OUT "1,1000000,1000000,1,1,999999\r\n", /* sheet 6 */
      { 1, 1, { { 1, 1000000, 1000000 } } } },
    { HEAD "00000000000000000005,010,0000000000000000000000000000000000000000010", 8, { 0, 0 },
      OUT "5,10,10,1,5,5\r\n", { 8, 1, { { 5, 10, 10 } } } },
    { HEAD TWENTY_THREE ROW, 1, { 0, 0 },
      OUT ALIKE_OUT("1") ALIKE_OUT("2") ALIKE_OUT("3") ALIKE_OUT("4") ALIKE_OUT("5") ALIKE_OUT("6") ALIKE_OUT("7")
      ALIKE_OUT("8") ALIKE_OUT("9") ALIKE_OUT("10") ALIKE_OUT("11") ALIKE_OUT("12") ALIKE_OUT("13") ALIKE_OUT("14")
      ALIKE_OUT("15") ALIKE_OUT("16") ALIKE_OUT("17") ALIKE_OUT("18") ALIKE_OUT("19") ALIKE_OUT("20") ALIKE_OUT("21")
      ALIKE_OUT("22") ALIKE_OUT("23") ALIKE_OUT("24"),
      { 1, 24, { SIX_ALIKE, SIX_ALIKE, SIX_ALIKE, SIX_ALIKE } } },

    /* Refusal 9: each way not to be of the form, and the line. */
    { "", 1, { 9, 1 }, NO_TABLE },
    { "\n", 1, { 9, 1 }, NO_TABLE },
    { "\r\n" HEAD "1,1,1\r\n", 1, { 9, 1 }, NO_TABLE },
    { "\xEF\xBB\xBF" HEAD "1,1,1\r\n", 1, { 9, 1 }, NO_TABLE },
    { "1,1,1\r\n", 1, { 9, 1 }, NO_TABLE },
    { "WCET,deadline,period\r\n1,1,1\r\n", 1, { 9, 1 }, NO_TABLE },
    { "wcet, deadline, period\r\n1,1,1\r\n", 1, { 9, 1 }, NO_TABLE },
    { "wcet;deadline;period\r\n1;1;1\r\n", 1, { 9, 1 }, NO_TABLE },
    { "deadline,wcet,period\r\n1,1,1\r\n", 1, { 9, 1 }, NO_TABLE },
    { "wcet,deadline\r\n1,1\r\n", 1, { 9, 1 }, NO_TABLE },
    { "wcet,deadline,period,\r\n1,1,1\r\n", 1, { 9, 1 }, NO_TABLE },
    { "\"wcet,deadline,period\"\r\n1,1,1\r\n", 1, { 9, 1 }, NO_TABLE },
    { "\"wcet\"\"\",deadline,period\r\n1,1,1\r\n", 1, { 9, 1 }, NO_TABLE },
    { "wcet,deadline,period\r", 1, { 9, 1 }, NO_TABLE },
    { "wcet,deadline,period\r1,1,1\r", 1, { 9, 1 }, NO_TABLE },
    { OUT "1,1,1,1,1,0\r\n", 1, { 9, 1 }, NO_TABLE }, /* what is written has six columns */
    { HEAD "\r\n", 1, { 9, 2 }, NO_TABLE },
    { HEAD "1,1,1\r\n\r\n", 1, { 9, 3 }, NO_TABLE },
    { HEAD "1,1,1\n\n1,1,1\n", 1, { 9, 3 }, NO_TABLE },
    { HEAD "1,1,1\r", 1, { 9, 2 }, NO_TABLE },
    { HEAD "1,1,1\r\r\n", 1, { 9, 2 }, NO_TABLE },
    { HEAD "1,1,1\n\r\n", 1, { 9, 3 }, NO_TABLE },
    { HEAD "1,1\r\n", 1, { 9, 2 }, NO_TABLE },
    { HEAD "1,1,1,1\r\n", 1, { 9, 2 }, NO_TABLE },
    { HEAD "1,1,1,\r\n", 1, { 9, 2 }, NO_TABLE },
    { HEAD "1,,1\r\n", 1, { 9, 2 }, NO_TABLE },
    { HEAD ",1,1\r\n", 1, { 9, 2 }, NO_TABLE },
    { HEAD "1,1,\r\n", 1, { 9, 2 }, NO_TABLE },
    { HEAD "1,1,", 1, { 9, 2 }, NO_TABLE },
    { HEAD "1,\"\",1\r\n", 1, { 9, 2 }, NO_TABLE },
    { HEAD "+1,1,1\r\n", 1, { 9, 2 }, NO_TABLE },
    { HEAD "1,-1,1\r\n", 1, { 9, 2 }, NO_TABLE },
    { HEAD "1,1,1.0\r\n", 1, { 9, 2 }, NO_TABLE },
    { HEAD "1,1, 1\r\n", 1, { 9, 2 }, NO_TABLE },
    { HEAD "1,1,1 \r\n", 1, { 9, 2 }, NO_TABLE },
    { HEAD "1,\" 1\",1\r\n", 1, { 9, 2 }, NO_TABLE },
    { HEAD "1,\"1,000\",1000\r\n", 1, { 9, 2 }, NO_TABLE },
    { HEAD "1,1\"1\",1\r\n", 1, { 9, 2 }, NO_TABLE },
    { HEAD "1,\"1\"1,1\r\n", 1, { 9, 2 }, NO_TABLE },
    { HEAD "1,\"1,1\r\n", 1, { 9, 2 }, NO_TABLE },
    { HEAD "1,1\",1\r\n", 1, { 9, 2 }, NO_TABLE },
    { HEAD "1,1,\"\r\n", 1, { 9, 2 }, NO_TABLE },
    { HEAD "1,1,\"1", 1, { 9, 2 }, NO_TABLE },
    { HEAD "1,\"1\"\"1\",1\r\n", 1, { 9, 2 }, NO_TABLE }, /* a doubled quote */
    { HEAD "1,1,1\r\n1,\"1\r\n\",1\r\n", 1, { 9, 3 }, NO_TABLE }, /* a line end in quotes */
    { HEAD "1,1,\"1\n\"\n1,1,1\n", 1, { 9, 2 }, NO_TABLE },
    { HEAD "1,1,1\r\nwcet,deadline,period\r\n", 1, { 9, 3 }, NO_TABLE },

    /* The other refusals, and the order: 9 over the whole text, 2, the rows from the front, none at all, 6. */
    { HEAD "0,5,5\r\n1,1,1\r\n1,1\r\n", 0, { 9, 4 }, NO_TABLE },
    { HEAD TWENTY_THREE ROW ROW ROW "1,1,x\n", 1, { 9, 28 }, NO_TABLE },
    { HEAD "4294967301,10,10\r\nx,1,1\r\n", 9, { 9, 3 }, NO_TABLE },
    { HEAD "1,1,1\r\n", 0, { 2, 0 }, NO_TABLE },
    { HEAD "1,1,1\r\n", 9, { 2, 0 }, NO_TABLE },
    { HEAD "1,1,1\r\n", 257, { 2, 0 }, NO_TABLE },
    { HEAD "1,1,1\r\n", UINT32_MAX, { 2, 0 }, NO_TABLE },
    { HEAD "0,5,5\r\n", 0, { 2, 0 }, NO_TABLE },
    { HEAD, 0, { 2, 0 }, NO_TABLE },
    { HEAD TWENTY_THREE ROW ROW, 9, { 2, 0 }, NO_TABLE },
    { HEAD, 1, { 3, 0 }, NO_TABLE },
    { "wcet,deadline,period", 1, { 3, 0 }, NO_TABLE },
    { HEAD TWENTY_THREE ROW ROW, 1, { 3, 0 }, NO_TABLE },
    { HEAD TWENTY_THREE ROW "0,5,5\n", 1, { 3, 0 }, NO_TABLE },
    { HEAD TWENTY_THREE "0,5,5\n" ROW, 1, { 4, 24 }, NO_TABLE },
    { HEAD TWENTY_THREE ROW ROW "0,5,5\n", 1, { 3, 0 }, NO_TABLE },
    { HEAD "0,5,5\r\n", 1, { 4, 1 }, NO_TABLE }, /* sheet 11 */
    { HEAD "6,5,9\r\n", 1, { 4, 1 }, NO_TABLE },
    { HEAD "2,9,8\r\n", 1, { 4, 1 }, NO_TABLE },
    { HEAD "1,1,1000001\r\n", 1, { 4, 1 }, NO_TABLE },
    { HEAD "1,1,1\r\n000,5,5\r\n0,5,5\r\n", 1, { 4, 2 }, NO_TABLE },
    { HEAD "4294967301,10,10\r\n", 1, { 4, 1 }, NO_TABLE }, /* 5 in 32 bits */
    { HEAD "5,4294967306,4294967306\r\n", 1, { 4, 1 }, NO_TABLE },
    { HEAD "5,10,4294967306\r\n", 1, { 4, 1 }, NO_TABLE },
    { HEAD "18446744073709551621,10,10\r\n", 1, { 4, 1 }, NO_TABLE }, /* 5 in 64 bits */
    { HEAD "5,10,18446744073709551626\r\n", 1, { 4, 1 }, NO_TABLE },
    { HEAD "5,10,340282366920938463463374607431768211466\r\n", 1, { 4, 1 }, NO_TABLE }, /* 10 in 128 bits */
    { HEAD "5,10,1000000000000000000000000000000000000000000000000000000000000000000\r\n", 1, { 4, 1 }, NO_TABLE },
    { HEAD "6,10,10\n4,10,10\n4,10,10\n3,10,10\n3,10,10\n", 2, { 6, 5 }, NULL, FIVE }, /* sheet 4 */
};

/* How many there are. */
size_t text_sheets(void)
{
    return sizeof sheets / sizeof sheets[0];
}

/* Whether a service answers so for lent bytes of a length, and writes these bytes and no others. */
static bool answers_so(text_service *service, const struct text_sheet *sheet, size_t out_len,
                       struct second_answer answer, const void *bytes, size_t len, struct called *called)
{
    call_text(service, sheet->cores, (const uint8_t *)sheet->text, strlen(sheet->text), out_len, called);
    return same_answer(called->answer, answer) && called->first_written == len &&
           memcmp(called->first + MARGIN, bytes, len) == 0 && well_behaved(called);
}

/* Whether a service writes these bytes where they fit, into just as many and into more, and refuses with 7 into less. */
static bool writes(text_service *service, const struct text_sheet *sheet, const void *bytes, size_t len,
                   struct called *called)
{
    static const struct second_answer accepted = { 0, 0 }, too_short = { 7, 0 };

    return answers_so(service, sheet, 0, too_short, bytes, 0, called) &&
           answers_so(service, sheet, len - 1, too_short, bytes, 0, called) &&
           answers_so(service, sheet, len, accepted, bytes, len, called) &&
           answers_so(service, sheet, len + 3, accepted, bytes, len, called);
}

/* Whether a service refuses a text so, whatever it is lent. */
static bool refuses(text_service *service, const struct text_sheet *sheet, struct called *called)
{
    return answers_so(service, sheet, 0, sheet->answer, "", 0, called) &&
           answers_so(service, sheet, LENT_ROOM, sheet->answer, "", 0, called);
}

/* Whether a text's csv service and table are those on paper. */
bool text_sheet_holds(size_t sheet, text_service *csv, text_service *csv_table, struct called *called)
{
    const struct text_sheet *paper = &sheets[sheet];
    uint8_t table[TABLE_ROOM];

    if (paper->rows.count == 0 ? !refuses(csv_table, paper, called)
                               : !writes(csv_table, paper, table, table_bytes(&paper->rows, table), called))
        return false;
    if (paper->written == NULL)
        return refuses(csv, paper, called);
    return writes(csv, paper, paper->written, strlen(paper->written), called);
}

/* The text that an accepted call of a table service stands for; gives its bytes. */
size_t text_of_report(const struct called *called, size_t rows, char *text)
{
    const uint8_t *row = called->first + MARGIN + 2, *figures = row + 13 * rows;
    int used = sprintf(text, OUT);

    for (size_t n = 0; n < rows; n++, row += 13, figures += 10)
        used += sprintf(text + used, "%u,%u,%u,%u,%u,%u\r\n", (unsigned)get_number(row + 1),
                        (unsigned)get_number(row + 5), (unsigned)get_number(row + 9), (unsigned)figures[1],
                        (unsigned)get_number(figures + 2), (unsigned)get_number(figures + 6));
    return (size_t)used;
}
