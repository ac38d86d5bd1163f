/* Runs a schedule of one request that puts its first input into register 0 and replies with it, audits what the host wrote, prints
   what the audit says, and sees that the order has the operations that were counted. It is C and C++.

   cc -I crates/export crates/export/example.c target/staticlib/libexport.a -o target/example && target/example */
#include "teaselshears.h"
#include <stdio.h>
#include <string.h>

static const char programs[] = "program=0\ndo=7,0,0,0\ndo=0,0,0,0\n";
static const char schedule[] = "arrive=1,0,7,0\nturn=1\nturn=1\n";
static uint8_t trace[TEASELSHEARS_TEXT], report[TEASELSHEARS_TEXT], printed[TEASELSHEARS_PRINTED];
static uint64_t order[TEASELSHEARS_ORDER];

#define TEXT(s) (const uint8_t *)s, strlen(s)

int main(void) {
    uint64_t host[4], audit[TEASELSHEARS_ORDER_NUMBERS];
    size_t written, i, operations = 0;
    /* The library that was linked is the one of this header. */
    if (teaselshears_version() != TEASELSHEARS_VERSION_NUMBER)
        return 1;
    /* The numbers mean something only where all of them were written. */
    if (teaselshears_record(TEXT(programs), TEXT(schedule), trace, sizeof trace, report, sizeof report, host, 4) != 4 ||
        host[0] != TEASELSHEARS_ACCEPTED)
        return 1;
    if (teaselshears_audit(TEXT(programs), trace, (size_t)host[2], report, (size_t)host[3], audit, TEASELSHEARS_AUDIT_NUMBERS) !=
        TEASELSHEARS_AUDIT_NUMBERS)
        return 1;
    /* The same six, and the order behind them. */
    if (teaselshears_order(TEXT(programs), trace, (size_t)host[2], report, (size_t)host[3], audit, TEASELSHEARS_ORDER_NUMBERS, order,
                           TEASELSHEARS_ORDER) != TEASELSHEARS_ORDER_NUMBERS)
        return 1;
    for (i = 0; i < audit[6]; i += 2)
        if (order[i + 1] != 0)
            operations++;
    written = teaselshears_audit_text(TEXT(programs), trace, (size_t)host[2], report, (size_t)host[3], printed, sizeof printed);
    fwrite(printed, 1, written, stdout);
    return written > 0 && audit[0] == TEASELSHEARS_ACCEPTED && operations == audit[3] && operations == 100 * audit[4] + audit[5] ? 0 : 1;
}
