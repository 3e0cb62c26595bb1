/* Measures what include/overlay.h says of limits: the longest text, and the stack that each call needs. Prints one line; ends with 1 where a number
 * is above the header's. */
#define _POSIX_C_SOURCE 200809L
#include "overlay.h"

#include <pthread.h>
#include <stdio.h>
#include <string.h>

/* The largest plan, and what the calls put out for it. */
static uint32_t k = OVERLAY_MOST_LAYERS, sizes[6] = {512, 512, 512, 512, 512, 512};
static uint32_t margins[6] = {400, 300, 200, 100, 0, 0};
static int32_t cells[OVERLAY_MOST_CELLS];
static uint32_t hours[OVERLAY_MOST_HOURS];
static uint32_t order[OVERLAY_MOST_RECTS], table[OVERLAY_MOST_RECTS], ticket[OVERLAY_TICKET_CELLS];
static int32_t work[OVERLAY_MOST_RECTS];
static uint64_t record;
static uint8_t text[OVERLAY_MOST_TEXT];
static size_t text_length;

/* Each call once, on the largest plan; the pages and the run go over rows of all six layers. Its points are segments too. */
static uint32_t plan_cause(void) { return overlay_plan_cause(k, sizes, margins, cells, OVERLAY_MOST_CELLS); }
static uint32_t make_order(void)
{
    return overlay_make_order(k, sizes, margins, cells, OVERLAY_MOST_CELLS, order, OVERLAY_MOST_RECTS);
}
static uint32_t order_cause(void)
{
    return overlay_order_cause(k, sizes, margins, cells, OVERLAY_MOST_CELLS, order, OVERLAY_MOST_RECTS);
}
static uint32_t row(void)
{
    uint64_t answer[OVERLAY_ROW_CELLS];
    return overlay_row(k, sizes, margins, cells, OVERLAY_MOST_CELLS, table, k, answer);
}
static uint32_t row_common(void)
{
    int32_t answer[OVERLAY_COMMON_CELLS];
    return overlay_row_common(k, sizes, margins, cells, OVERLAY_MOST_CELLS, table, k, answer) ||
           answer[OVERLAY_COMMON_KIND] == OVERLAY_KIND_NO_ROW;
}
static uint32_t nearest(void)
{
    static const int32_t around[4] = {0, 0, 1, 1};
    uint64_t answer[OVERLAY_NEAREST_CELLS];
    return overlay_nearest(k, sizes, margins, cells, OVERLAY_MOST_CELLS, around, answer);
}
static uint32_t apart_pair(void)
{
    uint64_t answer[OVERLAY_PAIR_CELLS];
    return overlay_apart_pair(k, sizes, margins, cells, OVERLAY_MOST_CELLS, table, k, answer);
}
static uint32_t row_hours(void)
{
    uint32_t answer[OVERLAY_HOURS_CELLS];
    return overlay_row_hours(k, sizes, margins, cells, OVERLAY_MOST_CELLS, hours, OVERLAY_MOST_HOURS, table, k,
                             answer) ||
           answer[OVERLAY_HOURS_TO] == 0;
}
static uint32_t fresh_ticket(void)
{
    return overlay_fresh_ticket(k, sizes, margins, cells, OVERLAY_MOST_CELLS, order, OVERLAY_MOST_RECTS, ticket,
                                &record, 1);
}
static uint32_t fetch_page(void)
{
    uint64_t answer[OVERLAY_PAGE_CELLS];
    uint32_t cause;
    do
        cause = overlay_fetch_page(k, sizes, margins, cells, OVERLAY_MOST_CELLS, order, OVERLAY_MOST_RECTS, ticket,
                                   &record, 1, 10000, table, OVERLAY_MOST_RECTS, answer);
    while (cause == 0 && answer[OVERLAY_PAGE_STOP] != OVERLAY_ENDED);
    return cause;
}
static uint32_t timed_page(void)
{
    static uint32_t own[OVERLAY_TICKET_CELLS];
    uint64_t answer[OVERLAY_PAGE_CELLS], own_record = record;
    uint32_t cause;
    memcpy(own, ticket, sizeof ticket);
    do
        cause = overlay_timed_page(k, sizes, margins, cells, OVERLAY_MOST_CELLS, hours, OVERLAY_MOST_HOURS, order,
                                   OVERLAY_MOST_RECTS, own, &own_record, 1, 10000, table, OVERLAY_MOST_RECTS, answer);
    while (cause == 0 && answer[OVERLAY_PAGE_STOP] != OVERLAY_ENDED);
    return cause;
}
static uint32_t serve_round(void)
{
    static uint32_t tickets[OVERLAY_ROUND_TICKETS];
    static uint64_t records[OVERLAY_MOST_CLIENTS];
    uint64_t answer[OVERLAY_ROUND_PAGES];
    uint32_t next;
    for (int i = 0; i < OVERLAY_MOST_CLIENTS; i++) {
        memcpy(tickets + i * OVERLAY_TICKET_CELLS, ticket, sizeof ticket);
        records[i] = record;
    }
    return overlay_round(k, sizes, margins, cells, OVERLAY_MOST_CELLS, order, OVERLAY_MOST_RECTS, OVERLAY_MOST_CLIENTS,
                         16, 160000, tickets, records, OVERLAY_MOST_CLIENTS, table, OVERLAY_MOST_RECTS, &next,
                         answer) ||
           next != 1;
}
static uint32_t run_all(void)
{
    uint64_t answer[OVERLAY_RUN_CELLS];
    return overlay_run_all(k, sizes, margins, cells, OVERLAY_MOST_CELLS, order, OVERLAY_MOST_RECTS, table,
                           OVERLAY_MOST_RECTS, work, OVERLAY_MOST_RECTS, answer);
}
static uint32_t timed_run(void)
{
    uint64_t answer[OVERLAY_RUN_CELLS];
    return overlay_timed_run(k, sizes, margins, cells, OVERLAY_MOST_CELLS, hours, OVERLAY_MOST_HOURS, order,
                             OVERLAY_MOST_RECTS, table, OVERLAY_MOST_RECTS, work, OVERLAY_MOST_RECTS, answer) ||
           answer[OVERLAY_RUN_ROWS] != 512;
}
/* Two layers of equal points: so many rows that their ground is counted by layers. */
static uint32_t run_many(void)
{
    enum { ROWS = 512 * 512, RECTS = 2 * 512 };
    static const uint32_t two[6] = {512, 512}, apart[6] = {400, 300};
    static int32_t points[4 * RECTS], spare[2 * ROWS];
    static uint32_t sweep[RECTS], rows[2 * ROWS];
    uint64_t answer[OVERLAY_RUN_CELLS];
    return overlay_make_order(2, two, apart, points, 4 * RECTS, sweep, RECTS) ||
           overlay_run_all(2, two, apart, points, 4 * RECTS, sweep, RECTS, rows, 2 * ROWS, spare, 2 * ROWS, answer) ||
           answer[OVERLAY_RUN_ROWS] != ROWS;
}
static uint32_t row_class(void)
{
    uint32_t told;
    return overlay_row_class(k, sizes, margins, cells, OVERLAY_MOST_CELLS, table, k, &told);
}
static uint32_t crossing_report(void)
{
    uint64_t answer[OVERLAY_RUN_CELLS];
    uint32_t counts[OVERLAY_CLASS_COUNTS];
    return overlay_crossing_report(k, sizes, margins, cells, OVERLAY_MOST_CELLS, order, OVERLAY_MOST_RECTS, table,
                                   OVERLAY_MOST_RECTS, work, OVERLAY_MOST_RECTS, answer, counts);
}
static uint32_t write_text(void)
{
    return overlay_write_text(k, sizes, margins, cells, OVERLAY_MOST_CELLS, text, OVERLAY_MOST_TEXT, &text_length);
}
static uint32_t read_text(void)
{
    return overlay_read_text(text, text_length, cells, OVERLAY_MOST_CELLS, &k, sizes, margins);
}

static uint32_t cover_records(void)
{
    static const uint32_t kinds[OVERLAY_STRIP_KINDS] = {OVERLAY_STRIP_BETWEEN, OVERLAY_STRIP_BETWEEN};
    static const double stops[OVERLAY_STRIP_STOPS] = {-1, 1, -1, 1};
    static double corners[4 * 1000];
    static int32_t layer[4 * 512];
    size_t kept;
    for (int i = 0; i < 4 * 1000; i++)
        corners[i] = i / 4 % 2 ? 0.5 : 2.5;
    return overlay_cover_records(kinds, stops, corners, 4 * 1000, layer, 4 * 512, &kept) || kept != 500;
}

/* Each call with its name; those that fill a buffer come before those that take it. */
static const struct {
    const char *name;
    uint32_t (*call)(void);
} calls[] = {{"plan_cause", plan_cause}, {"make_order", make_order},           {"order_cause", order_cause},
             {"row", row},               {"row_common", row_common},           {"nearest", nearest},
             {"apart_pair", apart_pair}, {"row_hours", row_hours},             {"row_class", row_class},
             {"fresh_ticket", fresh_ticket}, {"round", serve_round},           {"timed_page", timed_page},
             {"fetch_page", fetch_page}, {"run_all", run_all},                 {"run_all of many rows", run_many},
             {"timed_run", timed_run},   {"crossing_report", crossing_report}, {"write_text", write_text},
             {"read_text", read_text},   {"cover_records", cover_records}};
enum { CALLS = sizeof calls / sizeof *calls };

/* A stack of our own, and how much of it each call has used: all below the caller's frame is filled with a byte, and the lowest that is another one
 * after the call was the deepest. */
enum { STACK = 1 << 19, OWN = 256, FILL = 0xA5 };
static _Alignas(4096) unsigned char stack[STACK];
static size_t used[CALLS];
static int failed;

static void *measure(void *unused)
{
    unsigned char *frame = (unsigned char *)__builtin_frame_address(0) - OWN;
    for (int i = 0; i < CALLS; i++) {
        for (volatile unsigned char *at = stack; at < frame; at++)
            *at = FILL;
        if (calls[i].call() != 0)
            failed = 1;
        unsigned char *lowest = stack;
        while (lowest < frame && *lowest == FILL)
            lowest++;
        size_t depth = (size_t)(frame + OWN - lowest);
        if (depth > used[i])
            used[i] = depth;
    }
    return unused;
}

/* Measures all calls on a thread of its own. */
static void measure_all(void)
{
    pthread_attr_t attributes;
    pthread_t thread;
    if (pthread_attr_init(&attributes) || pthread_attr_setstack(&attributes, stack, STACK) ||
        pthread_create(&thread, &attributes, measure, NULL) || pthread_join(thread, NULL))
        failed = 1;
}

int main(void)
{
    /* Points on a diagonal, a metre apart: one row for each place, also with the margins. Their lefts fall, so that every merge of the order moves
     * them. */
    for (int i = 0; i < OVERLAY_MOST_CELLS; i++)
        cells[i] = 1000000 - 1000 * (i / 4 % 512);
    /* Windows that share the middle of the week. */
    for (uint32_t i = 0; i < OVERLAY_MOST_HOURS; i++)
        hours[i] = i % 2 ? OVERLAY_WEEK - i / 2 : i / 2;
    measure_all();

    /* The longest text. PLAN takes 7 bytes, each of 6 LAYER lines 16, each of 3,072 RECT lines 45: a word of four bytes, four times a tab and
     * -10000000, and the line end. 7 + 96 + 138,240 = 138,343. */
    for (int i = 0; i < OVERLAY_MOST_CELLS; i++)
        cells[i] = -10000000;
    for (int layer = 0; layer < 6; layer++)
        margins[layer] = OVERLAY_MOST_MARGIN;
    if (write_text() != 0 || text_length != OVERLAY_MOST_TEXT || read_text() != 0)
        failed = 1;
    size_t none;
    if (overlay_write_text(k, sizes, margins, cells, OVERLAY_MOST_CELLS, text, OVERLAY_MOST_TEXT - 1, &none) != OVERLAY_CAUSE_TEXT_LENGTH)
        failed = 1;

    printf("longest text %zu bytes; stack in bytes:", text_length);
    for (int i = 0; i < CALLS; i++) {
        printf(" %s %zu", calls[i].name, used[i]);
        if (used[i] >= OVERLAY_STACK_BYTES)
            failed = 1;
    }
    printf("\n");
    return failed;
}
