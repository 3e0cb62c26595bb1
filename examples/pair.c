/* Reads a plan text on standard input and takes one place in each layer as arguments. Prints SHARE where their rectangles share a point, APART and the
 * first pair of layers whose two do not meet, or REFUSED and the number of a cause; fields are tabbed. Both C11 and C++17.
 *
 *     gcc -std=c11 -Iinclude examples/pair.c target/staticlib/libcapi.a -o target/pair
 *     target/pair 0 0 0 0 0 3 < examples/forecourt.plan */
#include "overlay.h"

#include <errno.h>
#include <inttypes.h>
#include <stdio.h>
#include <stdlib.h>

/* More places than any plan has layers: as many as are worth handing on to be refused. */
enum { MOST_PLACES = 16 };

/* The place that an argument names: a number of 32 bits in base ten, digits alone. */
static int read_place(const char *word, uint32_t *place)
{
    char *end;
    errno = 0;
    unsigned long long number = strtoull(word, &end, 10);
    if (word[0] < '0' || word[0] > '9' || *end != '\0' || errno != 0 || number > UINT32_MAX)
        return 0;
    *place = (uint32_t)number;
    return 1;
}

int main(int count, char **words)
{
    static uint8_t text[OVERLAY_MOST_TEXT + 1]; /* one byte more than any plan's text has */
    static int32_t cells[OVERLAY_MOST_CELLS];
    uint32_t k, sizes[6], margins[6], places[MOST_PLACES];
    uint64_t answer[OVERLAY_PAIR_CELLS];
    size_t given = 0;

    for (int i = 1; i < count; i++) {
        if (given == MOST_PLACES || !read_place(words[i], &places[given++])) {
            fprintf(stderr, "usage: %s PLACE.. < PLAN\n", words[0]);
            return 2;
        }
    }
    size_t length = fread(text, 1, sizeof text, stdin);
    if (ferror(stdin)) {
        perror("standard input");
        return 1;
    }
    uint32_t cause = overlay_read_text(text, length, cells, OVERLAY_MOST_CELLS, &k, sizes, margins);
    if (cause == OVERLAY_CAUSE_NONE)
        cause = overlay_apart_pair(k, sizes, margins, cells, overlay_count_cells(sizes), places, given, answer);
    if (cause != OVERLAY_CAUSE_NONE) {
        printf("REFUSED\t%" PRIu32 "\n", cause);
        fprintf(stderr, "%s\n", overlay_cause_text(cause));
    } else if (answer[OVERLAY_PAIR_LOWER] == 0) {
        printf("SHARE\n");
    } else {
        printf("APART\t%" PRIu64 "\t%" PRIu64 "\n", answer[OVERLAY_PAIR_LOWER], answer[OVERLAY_PAIR_HIGHER]);
    }
    if (fflush(stdout) != 0) {
        perror("standard output");
        return 1;
    }
    return 0;
}
