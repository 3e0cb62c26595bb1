/* Reads a plan text on standard input whose layer k - 1 holds pipes, drawn as horizontal segments, and whose layer k holds ducts, drawn as vertical ones.
 * Prints for each row ROW, its places and its class, for each class that has rows CLASS, the class and their number, and last TOTAL, rows and trials; or
 * REFUSED and the number of a cause; fields are tabbed. Both C11 and C++17.
 *
 *     gcc -std=c11 -Iinclude examples/classes.c target/staticlib/libcapi.a -o target/classes
 *     target/classes < examples/pipes.plan */
#include "overlay.h"

#include <inttypes.h>
#include <stdio.h>

/* The cells of the table, which all rows must fit; a work buffer of as many is always enough. */
enum { TABLE_CELLS = 60000 };

/* A plan and its order as the calls take them, and its table. */
static uint32_t k, sizes[6], margins[6], order[OVERLAY_MOST_RECTS], table[TABLE_CELLS];
static int32_t cells[OVERLAY_MOST_CELLS], work[TABLE_CELLS];
static size_t cells_length, order_length;

/* Reads a text and makes the order of its plan. */
static uint32_t read_plan(const uint8_t *text, size_t length)
{
    uint32_t cause = overlay_read_text(text, length, cells, OVERLAY_MOST_CELLS, &k, sizes, margins);
    if (cause != OVERLAY_CAUSE_NONE)
        return cause;
    cells_length = overlay_count_cells(sizes);
    order_length = overlay_count_rects(sizes);
    return overlay_make_order(k, sizes, margins, cells, cells_length, order, order_length);
}

/* Prints the rows with their classes. */
static uint32_t print_rows(uint64_t rows)
{
    for (uint64_t row = 0; row < rows; row++) {
        const uint32_t *places = table + row * k;
        uint32_t told;
        uint32_t cause = overlay_row_class(k, sizes, margins, cells, cells_length, places, k, &told);
        if (cause != OVERLAY_CAUSE_NONE)
            return cause;
        printf("ROW");
        for (uint32_t layer = 0; layer < k; layer++)
            printf("\t%" PRIu32, places[layer]);
        printf("\t%" PRIu32 "\n", told);
    }
    return OVERLAY_CAUSE_NONE;
}

/* Makes the crossing report of the plan and prints it. */
static uint32_t print_report(void)
{
    uint64_t answer[OVERLAY_RUN_CELLS];
    uint32_t counts[OVERLAY_CLASS_COUNTS];
    uint32_t cause = overlay_crossing_report(k, sizes, margins, cells, cells_length, order, order_length, table,
                                             TABLE_CELLS, work, TABLE_CELLS, answer, counts);
    if (cause == OVERLAY_CAUSE_NONE)
        cause = print_rows(answer[OVERLAY_RUN_ROWS]);
    if (cause != OVERLAY_CAUSE_NONE)
        return cause;
    for (int number = 0; number < OVERLAY_CLASS_COUNTS; number++)
        if (counts[number] != 0)
            printf("CLASS\t%d\t%" PRIu32 "\n", number, counts[number]);
    printf("TOTAL\t%" PRIu64 "\t%" PRIu64 "\n", answer[OVERLAY_RUN_ROWS], answer[OVERLAY_RUN_TRIALS]);
    return OVERLAY_CAUSE_NONE;
}

int main(void)
{
    static uint8_t text[OVERLAY_MOST_TEXT + 1]; /* one byte more than any plan's text has */
    size_t length = fread(text, 1, sizeof text, stdin);
    if (ferror(stdin)) {
        perror("standard input");
        return 1;
    }
    uint32_t cause = read_plan(text, length);
    if (cause == OVERLAY_CAUSE_NONE)
        cause = print_report();
    if (cause != OVERLAY_CAUSE_NONE) {
        printf("REFUSED\t%" PRIu32 "\n", cause);
        fprintf(stderr, "%s\n", overlay_cause_text(cause));
    }
    if (fflush(stdout) != 0) {
        perror("standard output");
        return 1;
    }
    return 0;
}
