/* The frame in which tests/documents compiles and runs the C of docs/INTEGRATORS.md: what its parts take, of plan D, under the names that they have there.
 * fragments.h has each part as a function that returns `number`, and a list of all. */
#include "overlay.h"

#include <stdio.h>

static uint32_t k = 2, sizes[6] = {2, 1}, margins[6] = {0};
static int32_t cells[] = {0, 0, 1000, 1000, 1000, 0, 2000, 500, 500, 500, 1500, 1500};
static uint32_t hours[] = {480, 600, 0, 10080, 540, 660}, order[3], table[100];
static int32_t work[100];
static size_t cells_length = 12, hours_length = 6, order_length = 3, table_length = 100, work_length = 100;
static uint64_t answer[OVERLAY_ROUND_PAGES], records[OVERLAY_MOST_CLIENTS], metres, rest, budget = 5;
static uint32_t tickets[OVERLAY_ROUND_TICKETS], m = 2, first = 1, next, i, number;
static const double corners[16] = {1000.2, 500, 1250.7, 750.4, 19999.9, -0.3, 20400, 80, 20000.25, 100, 20300, 300, -250.5, 10, 0, 20};

#include "fragments.h"

int main(void)
{
    number = overlay_make_order(k, sizes, margins, cells, cells_length, order, order_length);
    for (size_t part = 0; part < sizeof fragments / sizeof *fragments && number == 0; part++) {
        number = fragments[part]();
        if (number != 0)
            printf("part %zu: %s\n", part, overlay_cause_text(number));
    }
    return (int)number;
}
