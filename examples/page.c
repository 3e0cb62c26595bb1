/* Reads a plan text on standard input, fetches its table page by page, has its ground counted once, and prints what the report program prints. Both C11
 * and C++17.
 *
 *     gcc -std=c11 -Iinclude examples/page.c target/staticlib/libcapi.a -o target/page
 *     target/page < examples/forecourt.plan */
#include "overlay.h"

#include <inttypes.h>
#include <stdio.h>
#include <string.h>

/* The report's limits: the longest input, and the cells of the table that all rows must fit. */
enum { INPUT_BYTES = 65536, TABLE_CELLS = 12288, MOST_ROWS = TABLE_CELLS / 2 };

/* One page: so small that short plans take several too. Budgets of thousands are faster. */
enum { PAGE_CELLS = 40, PAGE_BUDGET = 100 };

/* A plan as the calls take it. */
struct plan {
    uint32_t k;
    uint32_t sizes[6];
    uint32_t margins[6];
    int32_t cells[OVERLAY_MOST_CELLS];
    size_t cells_length;
    uint32_t order[OVERLAY_MOST_RECTS];
    size_t order_length;
};

/* A row: its places, its guard's layer and its area, its common ground and the kind of it. */
struct row {
    uint32_t places[6];
    uint64_t answer[OVERLAY_ROW_CELLS];
    int32_t common[OVERLAY_COMMON_CELLS];
};

/* What all pages brought, and the ground of all rows counted once: whole square metres and a rest in square millimetres. */
struct table {
    struct row rows[MOST_ROWS];
    uint64_t count, trials, metres, rest;
};

/* Reads a text and makes the order of its plan. */
static uint32_t read_plan(const uint8_t *text, size_t length, struct plan *plan)
{
    uint32_t cause = overlay_read_text(text, length, plan->cells, OVERLAY_MOST_CELLS,
                                       &plan->k, plan->sizes, plan->margins);
    if (cause != OVERLAY_CAUSE_NONE)
        return cause;
    /* The calls want as many cells as the plan has, and an order of as many as it has rectangles. */
    plan->cells_length = overlay_count_cells(plan->sizes);
    plan->order_length = overlay_count_rects(plan->sizes);
    return overlay_make_order(plan->k, plan->sizes, plan->margins, plan->cells, plan->cells_length,
                              plan->order, plan->order_length);
}

/* Adds the rows of a page to the table. */
static uint32_t take_rows(const struct plan *plan, const uint32_t *page, uint64_t rows, struct table *table)
{
    if (rows > TABLE_CELLS / plan->k - table->count)
        return OVERLAY_CAUSE_ROWS;
    for (uint64_t i = 0; i < rows; i++) {
        struct row *row = &table->rows[table->count++];
        memcpy(row->places, page + i * plan->k, plan->k * sizeof *page);
        uint32_t cause = overlay_row(plan->k, plan->sizes, plan->margins, plan->cells, plan->cells_length,
                                     row->places, plan->k, row->answer);
        if (cause != OVERLAY_CAUSE_NONE)
            return cause;
        cause = overlay_row_common(plan->k, plan->sizes, plan->margins, plan->cells, plan->cells_length,
                                   row->places, plan->k, row->common);
        if (cause != OVERLAY_CAUSE_NONE)
            return cause;
    }
    return OVERLAY_CAUSE_NONE;
}

/* Fetches page after page until the walk has ended. */
static uint32_t fetch_table(const struct plan *plan, struct table *table)
{
    uint32_t ticket[OVERLAY_TICKET_CELLS], page[PAGE_CELLS];
    uint64_t record, answer[OVERLAY_PAGE_CELLS];
    uint32_t cause = overlay_fresh_ticket(plan->k, plan->sizes, plan->margins, plan->cells, plan->cells_length,
                                          plan->order, plan->order_length, ticket, &record, 1);
    if (cause != OVERLAY_CAUSE_NONE)
        return cause;
    do {
        cause = overlay_fetch_page(plan->k, plan->sizes, plan->margins, plan->cells, plan->cells_length,
                                   plan->order, plan->order_length, ticket, &record, 1, PAGE_BUDGET,
                                   page, PAGE_CELLS, answer);
        if (cause != OVERLAY_CAUSE_NONE)
            return cause;
        cause = take_rows(plan, page, answer[OVERLAY_PAGE_ROWS], table);
        if (cause != OVERLAY_CAUSE_NONE)
            return cause;
        table->trials += answer[OVERLAY_PAGE_TRIALS];
    } while (answer[OVERLAY_PAGE_STOP] != OVERLAY_ENDED);
    return OVERLAY_CAUSE_NONE;
}

/* Takes the ground from a whole run: a page has the sum of its rows' areas alone, and ground may lie under rows of several pages. */
static uint32_t count_ground(const struct plan *plan, struct table *table)
{
    static uint32_t rows[TABLE_CELLS];
    static int32_t work[TABLE_CELLS];
    uint64_t answer[OVERLAY_RUN_CELLS];
    uint32_t cause = overlay_run_all(plan->k, plan->sizes, plan->margins, plan->cells, plan->cells_length,
                                     plan->order, plan->order_length, rows, TABLE_CELLS, work, TABLE_CELLS, answer);
    table->metres = answer[OVERLAY_RUN_GROUND_METRES];
    table->rest = answer[OVERLAY_RUN_GROUND_REST];
    return cause;
}

/* The lines of the report. Square metres are rounded once, from the exact ground: half a hundredth up, and a hundred of them carry into the metres. */
static void print_table(uint32_t k, const struct table *table)
{
    for (uint64_t i = 0; i < table->count; i++) {
        const struct row *row = &table->rows[i];
        printf("ROW\t%" PRIu64, row->answer[OVERLAY_ROW_LAYER]);
        for (uint32_t layer = 0; layer < k; layer++)
            printf("\t%" PRIu32, row->places[layer]);
        printf("\t%" PRIu64 "\t%c\n", row->answer[OVERLAY_ROW_AREA], (char)row->common[OVERLAY_COMMON_KIND]);
    }
    uint64_t hundredths = (table->rest + 5000) / 10000;
    printf("TOTAL\t%" PRIu64 "\t%" PRIu64 "\t%" PRIu64 ".%02" PRIu64 "\n", table->count, table->trials,
           table->metres + hundredths / 100, hundredths % 100);
}

int main(void)
{
    static uint8_t text[INPUT_BYTES + 1]; /* one byte more tells a longer input */
    static struct plan plan;
    static struct table table;
    size_t length = fread(text, 1, sizeof text, stdin);
    if (ferror(stdin)) {
        perror("standard input");
        return 1;
    }
    uint32_t cause = OVERLAY_CAUSE_INPUT;
    if (length <= INPUT_BYTES)
        cause = read_plan(text, length, &plan);
    if (cause == OVERLAY_CAUSE_NONE)
        cause = fetch_table(&plan, &table);
    if (cause == OVERLAY_CAUSE_NONE)
        cause = count_ground(&plan, &table);
    /* Nothing is printed before it is known that the whole table fits. */
    if (cause == OVERLAY_CAUSE_NONE) {
        print_table(plan.k, &table);
    } else {
        printf("REFUSED\t%" PRIu32 "\n", cause);
        fprintf(stderr, "%s\n", overlay_cause_text(cause));
    }
    if (fflush(stdout) != 0) {
        perror("standard output");
        return 1;
    }
    return 0;
}
