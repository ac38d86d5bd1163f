/* The proved audit and reference host for C and C++. `tools/library` builds them: link target/staticlib/libexport.a, or
   what `tools/install` made of it, libteaselshears.a.

   What holds of every function here:
   - It answers on every input, and its answer is proved equal to the definitions that docs/PROOF.md names.
   - A text is given by its address and its length; a text of length 0 may have any address but a null pointer. A buffer
     that is lent must overlap neither a text nor another buffer.
   - Threads: any number at once. There is no state between two calls.
   - Allocation: none, and no call of the system.
   - Stack, as measured: 220 KiB for the audit in its three forms, 320 KiB for teaselshears_record, 450 KiB for
     teaselshears_record_text. Give a thread that calls one of them 1 MiB. */
#ifndef TEASELSHEARS_H
#define TEASELSHEARS_H

#include <stddef.h>
#include <stdint.h>

#ifdef __cplusplus
extern "C" {
#endif

/* The version of this header, which is that of the library and of the command. It is raised with each change of what is read,
   printed or called: minor is the number of the last change request that is in it (P6 was 0.6.0), and patch is raised with
   every change between two of them. CHANGELOG.md says what changed, and what a caller has to change. The number is
   major * 1000000 + minor * 1000 + patch, so that a later version has the larger one. */
#define TEASELSHEARS_VERSION "0.6.1"
#define TEASELSHEARS_VERSION_NUMBER 6001

/* The version of the library as such a number. Header and library belong together where this is TEASELSHEARS_VERSION_NUMBER:
   a caller looks at it once, before its first call. A library before 0.6.1 has no such function, and the linker says so. */
uint64_t teaselshears_version(void);

/* The verdicts. docs/FORMATS.md has them with their rules and examples. There is no 15. */
enum teaselshears_verdict {
    TEASELSHEARS_ACCEPTED = 0,             /* of the host: recorded */
    TEASELSHEARS_PROGRAMS_UNREADABLE = 1,
    TEASELSHEARS_RULE_BROKEN = 2,
    TEASELSHEARS_TRACE_UNREADABLE = 3,
    TEASELSHEARS_TRACE_FAULT = 4,          /* rid used twice, unknown program, response with no open request */
    TEASELSHEARS_REPORT_UNREADABLE = 5,
    TEASELSHEARS_OF_LINES = 6,             /* not one per request in arrival order */
    TEASELSHEARS_LOG_LINE = 7,             /* rid unknown, num 0 or above count, or claimed before */
    TEASELSHEARS_OPERATION_UNLOGGED = 8,
    TEASELSHEARS_ORDER_RETURNS = 9,
    TEASELSHEARS_OPERATION_DIFFERS = 10,
    TEASELSHEARS_RESPONSE_DIFFERS = 11,
    TEASELSHEARS_PATH_DIFFERS = 12,
    TEASELSHEARS_SCHEDULE_UNREADABLE = 13,
    TEASELSHEARS_SCHEDULE_FAULT = 14,      /* rid arrives twice, unknown program, turn of a rid not arrived, 1,025th operation */
    TEASELSHEARS_BUFFER_SHORT = 16
};

/* The longest text. A buffer of this length is long enough for every text that the host writes. */
enum { TEASELSHEARS_TEXT = 65535 };

/* The most numbers that an order has, and the most bytes that teaselshears_audit_text writes. */
enum { TEASELSHEARS_ORDER = 2304, TEASELSHEARS_PRINTED = 14763 };

/* How many numbers a verdict has, and how many are written with an order. */
enum { TEASELSHEARS_AUDIT_NUMBERS = 6, TEASELSHEARS_ORDER_NUMBERS = 7 };

/* The verdict on three texts. Verdict, line, requests, operations, blocks and rest are written to out[0] to out[5], and 6 is
   returned; with out_length below 6 nothing is written, and 0 is returned. So out[0] means nothing unless 6 was returned: an
   out that was cleared to 0 and is too short looks accepted to whoever does not look at the result. Blocks are the whole
   hundreds of operations, by which they are charged, and rest is what is left over, 0 to 99: 100 * out[4] + out[5] is
   out[3]. All four counts are 0 on a refusal. How many requests of an accepted batch were left open, and never got a response, is
   not among the numbers: it is its `request` lines less its `response` lines.

   Before there were blocks and rest, four numbers were written and 4 was returned. A caller that was compiled for four gets 0
   for an out of four, and 6 for a longer one: neither is the 4 that it has to look for. */
size_t teaselshears_audit(const uint8_t *programs, size_t programs_length,
                          const uint8_t *trace, size_t trace_length,
                          const uint8_t *report, size_t report_length,
                          uint64_t *out, size_t out_length);

/* The verdict on three texts, with an order in which an accepted batch could have gone: every trace line and every operation
   once, in an order whose plain run gives every response, count and log. The numbers of teaselshears_audit are written to out[0]
   to out[5], to out[6] how many numbers the order has, and to the front of order these numbers, two for each item: the line of a
   trace event and 0, or the rid of an operation and its number there, which is never 0. Of the items whose forerunners all stand
   before it, an operation goes before an event, and of several operations the one with the smallest report line number is next. A
   refused batch has no order: out[6] is 0. Then 7 is returned; with out_length below 7, or order_length too short for the order,
   which TEASELSHEARS_ORDER never is, nothing is written anywhere, and 0 is returned: out[0] means nothing then. A caller that was
   compiled for the five numbers of earlier versions gets 0 or 7, and never 5. */
size_t teaselshears_order(const uint8_t *programs, size_t programs_length,
                          const uint8_t *trace, size_t trace_length,
                          const uint8_t *report, size_t report_length,
                          uint64_t *out, size_t out_length,
                          uint64_t *order, size_t order_length);

/* The run of a schedule. Its trace and its report are written to the fronts of the two buffers, or nothing on a refusal;
   verdict, line and the lengths of the two texts are written to out[0] to out[3], and 4 is returned. With out_length
   below 4 nothing is written anywhere, and 0 is returned: out[0] means nothing then. */
size_t teaselshears_record(const uint8_t *programs, size_t programs_length,
                           const uint8_t *schedule, size_t schedule_length,
                           uint8_t *trace, size_t trace_length,
                           uint8_t *report, size_t report_length,
                           uint64_t *out, size_t out_length);

/* What the program `audit` prints of three texts, `verdict=0`, `line=0` and so on, and behind these lines the order of an
   accepted batch, a line `event=n` or `op=rid,num` for each item, written to the front of out. The result is its length, or 0
   where out is too short, which TEASELSHEARS_PRINTED bytes never are, and then nothing is written; nothing is ever printed that
   has no byte. */
size_t teaselshears_audit_text(const uint8_t *programs, size_t programs_length,
                               const uint8_t *trace, size_t trace_length,
                               const uint8_t *report, size_t report_length,
                               uint8_t *out, size_t out_length);

/* What the program `record` prints of a schedule: verdict and line, then the trace and the report. The result is as above. */
size_t teaselshears_record_text(const uint8_t *programs, size_t programs_length,
                                const uint8_t *schedule, size_t schedule_length,
                                uint8_t *out, size_t out_length);

#ifdef __cplusplus
}
#endif

#endif
