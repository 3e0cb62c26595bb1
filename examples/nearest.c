/* Reads a plan text on standard input and takes a box as arguments: left, bottom, right, top in millimetres. Prints for each layer NEAR, the layer, the place
 * of the rectangle that lies nearest to the box and its squared gap in square millimetres, or NONE and a layer without rectangles; or REFUSED and the number
 * of a cause; fields are tabbed. Both C11 and C++17.
 *
 *     gcc -std=c11 -Iinclude examples/nearest.c target/staticlib/libcapi.a -o target/nearest
 *     target/nearest 30000 11500 30600 12100 < examples/forecourt.plan */
#include "overlay.h"

#include <errno.h>
#include <inttypes.h>
#include <stdio.h>
#include <stdlib.h>

/* The coordinate that an argument names: a number of 32 bits in base ten. */
static int read_coordinate(const char *word, int32_t *coordinate)
{
    char *end;
    errno = 0;
    long long number = strtoll(word, &end, 10);
    if (end == word || *end != '\0' || errno != 0 || number < INT32_MIN || number > INT32_MAX)
        return 0;
    *coordinate = (int32_t)number;
    return 1;
}

/* Prints what lies nearest in each layer. */
static void print_nearest(uint32_t k, const uint64_t *answer)
{
    for (uint32_t layer = 1; layer <= k; layer++) {
        const uint64_t *near = answer + OVERLAY_NEAR_CELLS * (layer - 1);
        if (near[OVERLAY_NEAR_FOUND] == 0)
            printf("NONE\t%" PRIu32 "\n", layer);
        else
            printf("NEAR\t%" PRIu32 "\t%" PRIu64 "\t%" PRIu64 "\n", layer, near[OVERLAY_NEAR_PLACE],
                   near[OVERLAY_NEAR_GAP]);
    }
}

int main(int count, char **words)
{
    static uint8_t text[OVERLAY_MOST_TEXT + 1]; /* one byte more than any plan's text has */
    static int32_t cells[OVERLAY_MOST_CELLS];
    uint32_t k, sizes[6], margins[6];
    int32_t around[4];
    uint64_t answer[OVERLAY_NEAREST_CELLS];

    int given = count == 5;
    for (int i = 0; given && i < 4; i++)
        given = read_coordinate(words[i + 1], &around[i]);
    if (!given) {
        fprintf(stderr, "usage: %s LEFT BOTTOM RIGHT TOP < PLAN\n", words[0]);
        return 2;
    }
    size_t length = fread(text, 1, sizeof text, stdin);
    if (ferror(stdin)) {
        perror("standard input");
        return 1;
    }
    uint32_t cause = overlay_read_text(text, length, cells, OVERLAY_MOST_CELLS, &k, sizes, margins);
    if (cause == OVERLAY_CAUSE_NONE)
        cause = overlay_nearest(k, sizes, margins, cells, overlay_count_cells(sizes), around, answer);
    if (cause == OVERLAY_CAUSE_NONE) {
        print_nearest(k, answer);
    } else {
        printf("REFUSED\t%" PRIu32 "\n", cause);
        fprintf(stderr, "%s\n", overlay_cause_text(cause));
    }
    if (fflush(stdout) != 0) {
        perror("standard output");
        return 1;
    }
    return 0;
}
