/* Reads the corner records of a survey on standard input, numbers with spaces or line ends between them, four a record: left, bottom, right, top in
 * millimetres. Takes the stops of the strip as arguments, left, right, bottom and top, each a number or - for none. Prints the covers of the records that the
 * strip keeps as a layer of a plan text: LAYER, their number and margin 0, and a RECT line for each; or REFUSED and the number of a cause; fields are tabbed.
 * Both C11 and C++17.
 *
 *     gcc -std=c11 -Iinclude examples/covers.c target/staticlib/libcapi.a -o target/covers
 *     target/covers 0 20000 - - < examples/survey.txt */
#include "overlay.h"

#include <inttypes.h>
#include <stdio.h>
#include <stdlib.h>
#include <string.h>

/* As many corners as are read; the call itself knows no such limit. */
enum { MOST_CORNERS = 40000 };

/* Reads the two stops of an axis: which there are, and what they are. */
static int read_strip(char **words, uint32_t *kind, double *stops)
{
    *kind = OVERLAY_STRIP_FREE;
    for (int i = 0; i < 2; i++) {
        char *end;
        stops[i] = 0;
        if (strcmp(words[i], "-") == 0)
            continue;
        stops[i] = strtod(words[i], &end);
        if (end == words[i] || *end != '\0')
            return 0;
        *kind |= i == 0 ? OVERLAY_STRIP_FROM : OVERLAY_STRIP_TO;
    }
    return 1;
}

int main(int count, char **words)
{
    static double corners[MOST_CORNERS];
    static int32_t cells[OVERLAY_MOST_LAYER_CELLS];
    uint32_t kinds[OVERLAY_STRIP_KINDS];
    double stops[OVERLAY_STRIP_STOPS];
    size_t length = 0, kept;

    if (count != 5 || !read_strip(words + 1, &kinds[OVERLAY_STRIP_ACROSS], stops + OVERLAY_STRIP_LEFT) ||
        !read_strip(words + 3, &kinds[OVERLAY_STRIP_UPWARD], stops + OVERLAY_STRIP_BOTTOM)) {
        fprintf(stderr, "usage: %s LEFT RIGHT BOTTOM TOP < CORNERS\n", words[0]);
        return 2;
    }
    while (length < MOST_CORNERS && scanf("%lf", &corners[length]) == 1)
        length++;
    if (!feof(stdin)) {
        fprintf(stderr, "standard input: not numbers alone, or more than %d\n", MOST_CORNERS);
        return 1;
    }
    uint32_t cause = overlay_cover_records(kinds, stops, corners, length, cells, OVERLAY_MOST_LAYER_CELLS, &kept);
    if (cause == OVERLAY_CAUSE_NONE) {
        printf("LAYER\t%zu\t0\n", kept);
        for (size_t i = 0; i < 4 * kept; i += 4)
            printf("RECT\t%" PRId32 "\t%" PRId32 "\t%" PRId32 "\t%" PRId32 "\n", cells[i], cells[i + 1], cells[i + 2],
                   cells[i + 3]);
    } else {
        printf("REFUSED\t%" PRIu32 "\n", cause);
        fprintf(stderr, "%s\n", overlay_cause_text(cause));
    }
    if (fflush(stdout) != 0) {
        perror("standard output");
        return 1;
    }
    return 0;
}
