/* Reads a plan text on standard input and takes as arguments how many clients page through it, 1 to 16, the budget of a round in trials and the cells of its
 * table. Serves rounds until every client's run has ended or a round does no trial, and prints for each client of each round PAGE, the client, why its page stopped, its rows and its
 * trials, in the order of the clients; last TOTAL, the rounds, and rows and trials of all; or REFUSED and the number of a cause; fields are tabbed. Both C11 and
 * C++17.
 *
 *     gcc -std=c11 -Iinclude examples/rounds.c target/staticlib/libcapi.a -o target/rounds
 *     target/rounds 2 5 9 < examples/d.plan */
#include "overlay.h"

#include <errno.h>
#include <inttypes.h>
#include <stdio.h>
#include <stdlib.h>

/* The most cells of the table that may be asked for. */
enum { TABLE_CELLS = 60000 };

/* A plan and its order as the calls take them. */
static uint32_t k, sizes[6], margins[6], order[OVERLAY_MOST_RECTS];
static int32_t cells[OVERLAY_MOST_CELLS];
static size_t cells_length, order_length;

/* The clients: their tickets and run records, and what the rounds brought them. */
static uint32_t tickets[OVERLAY_ROUND_TICKETS];
static uint64_t records[OVERLAY_MOST_CLIENTS], rounds, rows, trials;

/* The number that an argument names, in base ten, up to a limit. */
static int read_number(const char *word, unsigned long long most, unsigned long long *number)
{
    char *end;
    errno = 0;
    *number = strtoull(word, &end, 10);
    return word[0] >= '0' && word[0] <= '9' && *end == '\0' && errno == 0 && *number <= most;
}

/* Reads a text and makes the order of its plan. */
static uint32_t read_plan(const uint8_t *text, size_t length)
{
    uint32_t cause = overlay_read_text(text, length, cells, OVERLAY_MOST_CELLS, &k, sizes, margins);
    if (cause != OVERLAY_CAUSE_NONE)
        return cause;
    cells_length = overlay_count_cells(sizes);
    order_length = overlay_count_rects(sizes);
    return overlay_make_order(k, sizes, margins, cells, cells_length, order, order_length);
}

/* Begins a run for each client. */
static uint32_t begin_runs(uint32_t clients)
{
    uint32_t cause = OVERLAY_CAUSE_NONE;
    for (uint32_t i = 0; i < clients && i < OVERLAY_MOST_CLIENTS && cause == OVERLAY_CAUSE_NONE; i++)
        cause = overlay_fresh_ticket(k, sizes, margins, cells, cells_length, order, order_length,
                                     tickets + OVERLAY_TICKET_CELLS * i, records + i, 1);
    return cause;
}

/* Prints the pages of a round, and tells whether another one would bring something: a run has not ended, and this round did a trial. */
static int print_pages(uint32_t clients, const uint64_t *answer)
{
    static const char *const stops[] = {"REFUSED", "ENDED", "FULL", "SPENT"};
    uint64_t before = trials;
    int ended = 1;
    for (uint32_t client = 1; client <= clients; client++) {
        const uint64_t *page = answer + OVERLAY_PAGE_CELLS * (client - 1);
        printf("PAGE\t%" PRIu32 "\t%s\t%" PRIu64 "\t%" PRIu64 "\n", client, stops[page[OVERLAY_PAGE_STOP]],
               page[OVERLAY_PAGE_ROWS], page[OVERLAY_PAGE_TRIALS]);
        rows += page[OVERLAY_PAGE_ROWS];
        trials += page[OVERLAY_PAGE_TRIALS];
        ended = ended && page[OVERLAY_PAGE_STOP] == OVERLAY_ENDED;
    }
    return !ended && trials > before;
}

/* Serves rounds, each from the client on that the one before names. */
static uint32_t serve(uint32_t clients, uint64_t budget, size_t table_length)
{
    static uint32_t table[TABLE_CELLS];
    uint64_t answer[OVERLAY_ROUND_PAGES];
    uint32_t first = 1, next;
    /* A round of more clients is refused by their number; there are no more records to lend. */
    size_t most = OVERLAY_MOST_CLIENTS, kept = clients < most ? clients : most;
    do {
        uint32_t cause = overlay_round(k, sizes, margins, cells, cells_length, order, order_length, clients, first,
                                       budget, tickets, records, kept, table, table_length, &next, answer);
        if (cause != OVERLAY_CAUSE_NONE)
            return cause;
        first = next;
        rounds++;
    } while (print_pages(clients, answer));
    printf("TOTAL\t%" PRIu64 "\t%" PRIu64 "\t%" PRIu64 "\n", rounds, rows, trials);
    return OVERLAY_CAUSE_NONE;
}

int main(int count, char **words)
{
    static uint8_t text[OVERLAY_MOST_TEXT + 1]; /* one byte more than any plan's text has */
    unsigned long long clients, budget, room;

    if (count != 4 || !read_number(words[1], UINT32_MAX, &clients) || !read_number(words[2], UINT64_MAX, &budget) ||
        !read_number(words[3], TABLE_CELLS, &room)) {
        fprintf(stderr, "usage: %s CLIENTS BUDGET CELLS < PLAN\n", words[0]);
        return 2;
    }
    size_t length = fread(text, 1, sizeof text, stdin);
    if (ferror(stdin)) {
        perror("standard input");
        return 1;
    }
    uint32_t cause = read_plan(text, length);
    if (cause == OVERLAY_CAUSE_NONE)
        cause = begin_runs((uint32_t)clients);
    if (cause == OVERLAY_CAUSE_NONE)
        cause = serve((uint32_t)clients, budget, room);
    if (cause != OVERLAY_CAUSE_NONE) {
        printf("REFUSED\t%" PRIu32 "\n", cause);
        fprintf(stderr, "%s\n", overlay_cause_text(cause));
    }
    if (fflush(stdout) != 0) {
        perror("standard output");
        return 1;
    }
    return 0;
}
