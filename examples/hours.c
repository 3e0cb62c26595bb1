/* Reads a plan text on standard input and takes the window of each rectangle, in the order of the RECT lines, as an argument FROM-TO in minutes of the
 * week. Prints for each row whose windows share a minute ROW, its places, the first shared minute and the first after them; last TOTAL, rows and trials of
 * the timed walk; or REFUSED and the number of a cause; fields are tabbed. Both C11 and C++17.
 *
 *     gcc -std=c11 -Iinclude examples/hours.c target/staticlib/libcapi.a -o target/hours
 *     target/hours 480-600 0-10080 600-720 540-660 < examples/stand.plan */
#include "overlay.h"

#include <errno.h>
#include <inttypes.h>
#include <stdio.h>
#include <stdlib.h>

/* One page. */
enum { PAGE_CELLS = 600, PAGE_BUDGET = 10000 };

/* Some windows more than any plan has rectangles: as many as are worth handing on to be refused. */
enum { MOST_HOURS = OVERLAY_MOST_HOURS + 2 };

/* A plan with its windows as the calls take it. */
static uint32_t k, sizes[6], margins[6];
static int32_t cells[OVERLAY_MOST_CELLS];
static uint32_t hours[MOST_HOURS], order[OVERLAY_MOST_RECTS];
static size_t cells_length, hours_length, order_length;

/* Reads a number of 32 bits in base ten, digits alone, and the byte behind it. */
static const char *read_minute(const char *word, char end, uint32_t *minute)
{
    char *behind;
    errno = 0;
    unsigned long long number = strtoull(word, &behind, 10);
    if (word[0] < '0' || word[0] > '9' || *behind != end || errno != 0 || number > UINT32_MAX)
        return NULL;
    *minute = (uint32_t)number;
    return behind + 1;
}

/* Reads the windows. */
static int read_hours(int count, char **words)
{
    for (int i = 1; i < count; i++) {
        if (hours_length == MOST_HOURS)
            return 0;
        const char *word = read_minute(words[i], '-', &hours[hours_length++]);
        if (word == NULL || read_minute(word, '\0', &hours[hours_length++]) == NULL)
            return 0;
    }
    return 1;
}

/* Reads a text and makes the order of its plan. */
static uint32_t read_plan(const uint8_t *text, size_t length)
{
    uint32_t cause = overlay_read_text(text, length, cells, OVERLAY_MOST_CELLS, &k, sizes, margins);
    if (cause != OVERLAY_CAUSE_NONE)
        return cause;
    cells_length = overlay_count_cells(sizes);
    order_length = overlay_count_rects(sizes);
    return overlay_make_order(k, sizes, margins, cells, cells_length, order, order_length);
}

/* Prints the rows of a page with their shared minutes. */
static uint32_t print_rows(const uint32_t *table, uint64_t rows)
{
    for (uint64_t row = 0; row < rows; row++) {
        const uint32_t *places = table + row * k;
        uint32_t answer[OVERLAY_HOURS_CELLS];
        uint32_t cause = overlay_row_hours(k, sizes, margins, cells, cells_length, hours, hours_length, places, k,
                                           answer);
        if (cause != OVERLAY_CAUSE_NONE)
            return cause;
        printf("ROW");
        for (uint32_t layer = 0; layer < k; layer++)
            printf("\t%" PRIu32, places[layer]);
        printf("\t%" PRIu32 "\t%" PRIu32 "\n", answer[OVERLAY_HOURS_FROM], answer[OVERLAY_HOURS_TO]);
    }
    return OVERLAY_CAUSE_NONE;
}

/* Fetches all pages of the timed walk. */
static uint32_t print_table(void)
{
    uint32_t ticket[OVERLAY_TICKET_CELLS], table[PAGE_CELLS];
    uint64_t answer[OVERLAY_PAGE_CELLS], record, rows = 0, trials = 0;
    /* The fresh ticket takes no windows: both walks begin with the same trial. */
    uint32_t cause = overlay_fresh_ticket(k, sizes, margins, cells, cells_length, order, order_length, ticket, &record,
                                          1);
    if (cause != OVERLAY_CAUSE_NONE)
        return cause;
    do {
        cause = overlay_timed_page(k, sizes, margins, cells, cells_length, hours, hours_length, order, order_length,
                                   ticket, &record, 1, PAGE_BUDGET, table, PAGE_CELLS, answer);
        if (cause == OVERLAY_CAUSE_NONE)
            cause = print_rows(table, answer[OVERLAY_PAGE_ROWS]);
        if (cause != OVERLAY_CAUSE_NONE)
            return cause;
        rows += answer[OVERLAY_PAGE_ROWS];
        trials += answer[OVERLAY_PAGE_TRIALS];
    } while (answer[OVERLAY_PAGE_STOP] != OVERLAY_ENDED);
    printf("TOTAL\t%" PRIu64 "\t%" PRIu64 "\n", rows, trials);
    return OVERLAY_CAUSE_NONE;
}

int main(int count, char **words)
{
    static uint8_t text[OVERLAY_MOST_TEXT + 1]; /* one byte more than any plan's text has */

    if (!read_hours(count, words)) {
        fprintf(stderr, "usage: %s FROM-TO.. < PLAN\n", words[0]);
        return 2;
    }
    size_t length = fread(text, 1, sizeof text, stdin);
    if (ferror(stdin)) {
        perror("standard input");
        return 1;
    }
    uint32_t cause = read_plan(text, length);
    if (cause == OVERLAY_CAUSE_NONE)
        cause = print_table();
    if (cause != OVERLAY_CAUSE_NONE) {
        printf("REFUSED\t%" PRIu32 "\n", cause);
        fprintf(stderr, "%s\n", overlay_cause_text(cause));
    }
    if (fflush(stdout) != 0) {
        perror("standard output");
        return 1;
    }
    return 0;
}
