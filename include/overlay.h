/* The calls of the plan overlay for C and C++, x86-64 Linux. Link with libcapi.a, which `./build capi` writes to target/staticlib, or, where it is
 * installed, with what `pkg-config --cflags --libs overlay` says. docs/INTEGRATORS.md of the repository says how to page and what each call is for,
 * docs/MANUAL.md what the answers mean on site and what to do about each number; examples/ has programs that are both C and C++. All three are installed below
 * share/doc/overlay.
 *
 * A PLAN is k, six sizes, six margins and its cells.
 *   k        how many layers it has, 2 to 6. Layers are numbered from 1.
 *   sizes    how many rectangles each layer has, 0 to 512, layer 1 first; those past k are 0. Their sum is n, overlay_count_rects(sizes).
 *   margins  the distance that is kept around each layer's rectangles, 0 to 50,000 millimetres, layer 1 first; those past k are 0.
 *   cells    four for each rectangle, left, bottom, right, top in millimetres, -10,000,000 to 10,000,000, the edges included; those of layer 1 first, then
 *            those of layer 2, and so on: 4n in all, overlay_count_cells(sizes). left = right or bottom = top is a segment, both are a point.
 * Plan D of the scope paper, layer 1 with two rectangles and layer 2 with one:
 *     uint32_t k = 2, sizes[6] = {2, 1}, margins[6] = {0};
 *     int32_t cells[] = {0, 0, 1000, 1000,   1000, 0, 2000, 500,   500, 500, 1500, 1500};
 *
 * The PLACE of a rectangle counts from 0 in its layer. A ROW of the table is k places, that of layer 1 first, whose rectangles have a common point; a table
 * of m cells takes m / k rows, never more than OVERLAY_MOST_ROWS. An ORDER has n cells: the numbers of the rectangles, 0 to n - 1 as they lie in the cells
 * through all layers, sorted by left, then by layer, then by place. Make it once with overlay_make_order and keep it beside the plan.
 *
 * Wherever a call compares, sorts or measures a rectangle, it is the one grown by its layer's margin on all four sides: table, order, pages, guards,
 * areas, pairs, classes and gaps are those of the grown rectangles. Cause 4 and the text take it as it is. A box is never grown.
 *
 * Every call returns the NUMBER of the first cause that refuses it, or 0. Look at it before the answer: after a refusal every buffer is as it was and all
 * cells of an answer are 0, and 0 is a place, a class and a count too. The fresh ticket is then the ended one with count 0, and a page or a round leaves its
 * tickets as they were. That places name no row is no refusal: so it is also where they are not k, or one is not in its layer. overlay_cause_text says a
 * number in words.
 *
 * Every LENGTH counts cells, and of a text bytes; never the bytes of cells. What is checked of them:
 *   cells_length     of a plan exactly 4n, else 3; what a call writes to may be longer, and is refused by 11 where it is too short
 *   order_length     exactly n, else 8 where it is made, 5 where it is brought
 *   places_length    exactly k, else they are no row; 23 in overlay_apart_pair
 *   hours_length     exactly 2n, else 24
 *   record_length    exactly 1, else 18; records_length exactly m, else 22
 *   work_length      two for each row or more, else 19
 *   corners_length   four for each record, else 20
 *   text_length      of a text to write as many as it has or more, else 12
 *   table_length     any; a whole run whose rows do not fit is refused by 7
 * Believed, and nothing else is: that a buffer has as many cells as its length says, that an array has as many as stand in brackets behind its name (a round
 * takes 192 and 80 also where it serves one client), that no pointer is null, also where its length is 0, and that a buffer which a call writes to overlaps no
 * other that it is handed. In C++ the data() of an empty vector may be null: lend the address of any variable of that type with length 0 in its place.
 *
 * A TRIAL holds one rectangle against what the rectangles chosen so far have in common. The walk of a plan is all of its trials in their order. A RUN is a
 * fresh ticket and the pages from it on. Each ticket counts the trials that its run has done, and the RUN RECORD, one cell that the caller keeps beside the
 * plan, holds the count of the newest. So a page call tells an earlier ticket from the newest, and refuses it by 18.
 *
 * A BUDGET is the most trials that a call may do: 32 bits for a page, 64 for a round, where one above 2^32 - 1 is refused by 22.
 *
 * A timed call takes a WINDOW of the week for each rectangle: two cells in the order of the plan's cells, the first minute that is in it and the first
 * after it, 0 to 10,080. It goes over the rows whose windows share a minute, and over the walk in which a trial passes only where the windows so far share
 * one. The pages of a run are all timed, with the same windows, or all not; the fresh ticket of both is the same.
 *
 * A whole run takes a WORK BUFFER. It does not matter what its cells hold before, and what they hold after an acceptance is free.
 *
 * No call allocates or keeps anything: any number of calls may run at once, each with its own buffers to write to; those that are only read may be
 * shared. A page writes to its ticket and to the run record, so two pages of one run are never made at once. A call needs less than
 * OVERLAY_STACK_BYTES of stack (measured). overlay_cover_records compares floats in the default environment: not where subnormal numbers are taken as 0, as a
 * program that is linked with -ffast-math may have it. */
#ifndef OVERLAY_H
#define OVERLAY_H

#include <stddef.h>
#include <stdint.h>

/* The version of this interface: another one where a declaration, a number or the order of cells is another, or one comes. */
#define OVERLAY_VERSION 14

/* A call whose number is not looked at is a warning. */
#if defined(__GNUC__)
#define OVERLAY_CHECKED __attribute__((warn_unused_result))
#else
#define OVERLAY_CHECKED
#endif

/* The largest plan. So much is enough for every plan. */
enum {
    OVERLAY_MOST_LAYERS = 6,
    OVERLAY_MOST_SIZE = 512,             /* rectangles of a layer, and records that are kept */
    OVERLAY_MOST_COORDINATE = 10000000,  /* millimetres, either way of 0 */
    OVERLAY_MOST_MARGIN = 50000,         /* millimetres */
    OVERLAY_MOST_RECTS = 3072,           /* cells of an order */
    OVERLAY_MOST_CELLS = 12288,          /* cells of a plan */
    OVERLAY_MOST_LAYER_CELLS = 2048,     /* cells of a layer, and of the covers of records */
    OVERLAY_MOST_HOURS = 6144,           /* cells of the windows */
    OVERLAY_MOST_TEXT = 138343           /* bytes of the longest text; proved */
};

/* The most rows of one table, however long it is; and of a total: the rest stays below so many square millimetres. */
enum { OVERLAY_MOST_ROWS = 1000000, OVERLAY_SQUARE_METRE = 1000000 };

/* The stack that is enough for every call (measured). */
enum { OVERLAY_STACK_BYTES = 262144 };

/* Causes, in the words of overlay_cause_text. Each call checks those that it tells in the order in which it names them; 13 is the report program's alone, and
 * there the first. */
enum overlay_cause {
    OVERLAY_CAUSE_NONE = 0,         /* accepted */
    OVERLAY_CAUSE_LAYERS = 1,       /* the plan has not 2 to 6 layers */
    OVERLAY_CAUSE_SIZES = 2,        /* a layer has more than 512 rectangles, or one past the last has some; or more than 512 records are kept */
    OVERLAY_CAUSE_CELLS = 3,        /* the cells are not four for each rectangle */
    OVERLAY_CAUSE_RECT = 4,         /* a coordinate is not from -10000000 to 10000000, left is greater than right or bottom greater than top */
    OVERLAY_CAUSE_ORDER = 5,        /* the order is not the sweep order of the plan */
    OVERLAY_CAUSE_TICKET = 6,       /* the ticket is none of this plan */
    OVERLAY_CAUSE_ROWS = 7,         /* there are more rows than the table takes */
    OVERLAY_CAUSE_ORDER_LENGTH = 8, /* the order buffer has not one cell for each rectangle */
    OVERLAY_CAUSE_FORM = 9,         /* the text is not well formed */
    OVERLAY_CAUSE_COUNT = 10,       /* the text is well formed, but layers or rectangles are miscounted, or a number is out of range or out of order */
    OVERLAY_CAUSE_ROOM = 11,        /* the cells are too few */
    OVERLAY_CAUSE_TEXT_LENGTH = 12, /* the text is longer than the buffer */
    OVERLAY_CAUSE_INPUT = 13,       /* the input has more than 65536 bytes */
    OVERLAY_CAUSE_BOX = 14,         /* the box has left greater than right, bottom greater than top or a coordinate out of range */
    OVERLAY_CAUSE_FEW_LAYERS = 15,  /* the plan has fewer than three layers */
    OVERLAY_CAUSE_SEGMENTS = 16,    /* the last two layers are not segments without margin: east to west (bottom = top) in the last but one, north to south (left = right) in the last */
    OVERLAY_CAUSE_MARGINS = 17,     /* a margin is greater than 50000, or a layer past the last has one */
    OVERLAY_CAUSE_STALE = 18,       /* the ticket is not the newest of its run, or the run record is not one sound cell */
    OVERLAY_CAUSE_WORK = 19,        /* the work buffer is shorter than two cells for each row */
    OVERLAY_CAUSE_RECORD = 20,      /* the corners are not four a record, or one is not finite, out of order or beyond ten million */
    OVERLAY_CAUSE_STRIP = 21,       /* a stop is not finite, the lower one of a strip is greater than the upper one, or a kind is greater than 3 */
    OVERLAY_CAUSE_ROUND = 22,       /* a round has not 1 to 16 clients, or its first client, its budget or its records are wrong */
    OVERLAY_CAUSE_PLACES = 23,      /* there is not one place for each layer, or a place is not in its layer */
    OVERLAY_CAUSE_HOURS = 24        /* there is not one window for each rectangle, or one does not end behind its start within the week of 10080 minutes */
};

/* The cells of a ticket. The ended ticket is 1, nine times 0 and its count. */
enum {
    OVERLAY_TICKET_ENDED = 0,  /* whether the walk has ended: 0 or 1 */
    OVERLAY_TICKET_LAYER = 1,  /* the guard's layer, from 1 */
    OVERLAY_TICKET_PLACE = 2,  /* the guard's place */
    OVERLAY_TICKET_FILLED = 3, /* how many slots are filled */
    OVERLAY_TICKET_CHOSEN = 4, /* the first of the five chosen places */
    OVERLAY_TICKET_NEXT = 9,   /* the place to try */
    OVERLAY_TICKET_LOW = 10,   /* the trials that its run has done, modulo 2^32 */
    OVERLAY_TICKET_HIGH = 11,  /* ... divided by 2^32 */
    OVERLAY_TICKET_CELLS = 12
};

/* The cells of a page's answer. */
enum {
    OVERLAY_PAGE_STOP = 0,   /* why it stopped */
    OVERLAY_PAGE_ROWS = 1,   /* how many rows it put at the start of the table, k cells each */
    OVERLAY_PAGE_TRIALS = 2, /* how many trials it did */
    OVERLAY_PAGE_METRES = 3, /* the sum of the rows' areas: whole square metres ... */
    OVERLAY_PAGE_REST = 4,   /* ... and a rest below 1,000,000 square millimetres */
    OVERLAY_PAGE_CELLS = 5,
    OVERLAY_PAGE_PROBES = OVERLAY_PAGE_TRIALS /* the same by its former name */
};

/* Why a page stopped: all rows are handed out, the table holds no more, the budget is used up; 0 after a refusal. */
enum overlay_stop { OVERLAY_REFUSED = 0, OVERLAY_ENDED = 1, OVERLAY_FULL = 2, OVERLAY_SPENT = 3 };

/* The cells of a round's tickets and pages: those of client 1 come first, then those of the others up to 16. There are always so many, however many clients
 * are served. */
enum {
    OVERLAY_MOST_CLIENTS = 16,
    OVERLAY_ROUND_TICKETS = 192, /* twelve for each ticket */
    OVERLAY_ROUND_PAGES = 80     /* five for each page */
};

/* The cells of a whole run's answer. */
enum {
    OVERLAY_RUN_ROWS = 0,          /* how many rows there are */
    OVERLAY_RUN_TRIALS = 1,        /* how many trials the walk has */
    OVERLAY_RUN_METRES = 2,        /* the sum of the rows' areas in whole square metres, as of a page's: ground under two rows counts twice */
    OVERLAY_RUN_REST = 3,          /* ... and its rest below 1,000,000 square millimetres */
    OVERLAY_RUN_GROUND_METRES = 4, /* the ground of all rows counted once, in whole square metres */
    OVERLAY_RUN_GROUND_REST = 5,   /* ... and its rest */
    OVERLAY_RUN_CELLS = 6,
    OVERLAY_RUN_PROBES = OVERLAY_RUN_TRIALS /* the same by its former name */
};

/* The cells of a row's answer: the guard's layer, from 1, and the area in square millimetres. */
enum { OVERLAY_ROW_LAYER = 0, OVERLAY_ROW_AREA = 1, OVERLAY_ROW_CELLS = 2 };

/* The cells of a row's common ground: its sides in millimetres and its kind. */
enum {
    OVERLAY_COMMON_LEFT = 0,
    OVERLAY_COMMON_BOTTOM = 1,
    OVERLAY_COMMON_RIGHT = 2,
    OVERLAY_COMMON_TOP = 3,
    OVERLAY_COMMON_KIND = 4,
    OVERLAY_COMMON_CELLS = 5
};

/* The kind of a row's common ground, a letter. */
enum overlay_kind {
    OVERLAY_KIND_NO_ROW = 0,   /* the places name no row, which is no refusal */
    OVERLAY_KIND_GROUND = 'G', /* both sides are above 0 */
    OVERLAY_KIND_EDGE = 'E',   /* exactly one side is 0: they touch along an edge */
    OVERLAY_KIND_POINT = 'P'   /* both sides are 0: they touch in a point */
};

/* Classes of a row. Class 4(i - 1) + 1 is the left end in the rectangle of layer i, + 2 the right end, + 3 the bottom end, + 4 the top end. */
enum {
    OVERLAY_CLASS_CROSSED = 0, /* both segments cross every rectangle of layers 1 to k - 2 */
    OVERLAY_CLASS_NO_ROW = 17, /* the places name no row, which is no refusal */
    OVERLAY_CLASS_COUNTS = 17  /* how many counts a crossing report has, of classes 0 to 16 */
};

/* The cells of a pair's answer: the lower layer and the higher, from 1. */
enum { OVERLAY_PAIR_LOWER = 0, OVERLAY_PAIR_HIGHER = 1, OVERLAY_PAIR_CELLS = 2 };

/* The cells of a row's shared minutes: the first one, and the first after them. */
enum { OVERLAY_HOURS_FROM = 0, OVERLAY_HOURS_TO = 1, OVERLAY_HOURS_CELLS = 2 };

/* The minutes of a week, where the last window ends. */
enum { OVERLAY_WEEK = 10080 };

/* The cells of what lies nearest: three for each of six layers, the first layer first; those of layer i begin at OVERLAY_NEAR_CELLS * (i - 1). Where a layer
 * is empty or past k, all three are 0. */
enum {
    OVERLAY_NEAR_FOUND = 0, /* whether the layer has a rectangle: 0 or 1 */
    OVERLAY_NEAR_PLACE = 1, /* the place of the nearest; the lowest among equals */
    OVERLAY_NEAR_GAP = 2,   /* its squared gap in square millimetres; 0 where it meets the box */
    OVERLAY_NEAR_CELLS = 3,     /* of one layer */
    OVERLAY_NEAREST_CELLS = 18  /* of the whole answer */
};

/* The kinds of a survey strip: which stops it has. They belong to it. */
enum overlay_strip {
    OVERLAY_STRIP_FREE = 0,
    OVERLAY_STRIP_FROM = 1,   /* a lower stop */
    OVERLAY_STRIP_TO = 2,     /* an upper stop */
    OVERLAY_STRIP_BETWEEN = 3 /* both */
};

/* The cells of two strips: a kind for each axis, and two stops for each. A stop that a kind has not is not looked at. Stops stand left, right, bottom, top;
 * a corner record stands left, bottom, right, top. */
enum { OVERLAY_STRIP_ACROSS = 0, OVERLAY_STRIP_UPWARD = 1, OVERLAY_STRIP_KINDS = 2 };
enum {
    OVERLAY_STRIP_LEFT = 0,   /* the lower stop across */
    OVERLAY_STRIP_RIGHT = 1,  /* the upper stop across */
    OVERLAY_STRIP_BOTTOM = 2, /* the lower stop upward */
    OVERLAY_STRIP_TOP = 3,    /* the upper stop upward */
    OVERLAY_STRIP_STOPS = 4
};

#ifdef __cplusplus
extern "C" {
#endif

/* The version of the library, for a program that loads it while it runs. */
OVERLAY_CHECKED uint32_t overlay_version(void);

/* The same, by a name that only a library of this version has. What this header is included in refers to it, so that it links with no other. */
OVERLAY_CHECKED uint32_t overlay_version_14(void);

/* Judges a plan. Tells 1, 2, 17, 3 and 4. */
OVERLAY_CHECKED uint32_t overlay_plan_cause(uint32_t k, const uint32_t sizes[6], const uint32_t margins[6],
    const int32_t *cells, size_t cells_length);

/* Makes the sweep order of a plan. Tells 1, 2, 17, 3, 4 and 8. */
OVERLAY_CHECKED uint32_t overlay_make_order(uint32_t k, const uint32_t sizes[6], const uint32_t margins[6],
    const int32_t *cells, size_t cells_length, uint32_t *order, size_t order_length);

/* Judges a plan and an order. Tells 1, 2, 17, 3, 4 and 5. */
OVERLAY_CHECKED uint32_t overlay_order_cause(uint32_t k, const uint32_t sizes[6], const uint32_t margins[6],
    const int32_t *cells, size_t cells_length, const uint32_t *order, size_t order_length);

/* What places name in the table of a plan: layer 0 and area 0 where they are no row, which is no refusal. Tells 1, 2, 17, 3 and 4. */
OVERLAY_CHECKED uint32_t overlay_row(uint32_t k, const uint32_t sizes[6], const uint32_t margins[6],
    const int32_t *cells, size_t cells_length, const uint32_t *places, size_t places_length, uint64_t answer[2]);

/* The common ground of the row that places name in the table of a plan, and its kind: all cells 0 where they are no row, which is no refusal. Tells 1, 2,
 * 17, 3 and 4. */
OVERLAY_CHECKED uint32_t overlay_row_common(uint32_t k, const uint32_t sizes[6], const uint32_t margins[6],
    const int32_t *cells, size_t cells_length, const uint32_t *places, size_t places_length, int32_t answer[5]);

/* What lies nearest to a box (left, bottom, right, top) in each layer. Tells 1, 2, 17, 3, 4 and 14. */
OVERLAY_CHECKED uint32_t overlay_nearest(uint32_t k, const uint32_t sizes[6], const uint32_t margins[6],
    const int32_t *cells, size_t cells_length, const int32_t around[4], uint64_t answer[18]);

/* The first pair of layers, by its lower and then its higher, whose rectangles at these places do not meet: both layers 0 where all of them share a
 * point, which is no refusal. Tells 1, 2, 17, 3, 4 and 23. */
OVERLAY_CHECKED uint32_t overlay_apart_pair(uint32_t k, const uint32_t sizes[6], const uint32_t margins[6],
    const int32_t *cells, size_t cells_length, const uint32_t *places, size_t places_length, uint64_t answer[2]);

/* The minutes that the windows of the row which places name share: the first one and the first after them, both 0 where the places are no row or its windows
 * share none, which is no refusal. Tells 1, 2, 17, 3, 4 and 24. */
OVERLAY_CHECKED uint32_t overlay_row_hours(uint32_t k, const uint32_t sizes[6], const uint32_t margins[6],
    const int32_t *cells, size_t cells_length, const uint32_t *hours, size_t hours_length, const uint32_t *places,
    size_t places_length, uint32_t answer[2]);

/* The ticket of the first trial; the ended ticket where there is none, and after a refusal. A run begins: its record, one cell, is left with 0.
 * Tells 1, 2, 17, 3, 4, 5 and 18. */
OVERLAY_CHECKED uint32_t overlay_fresh_ticket(uint32_t k, const uint32_t sizes[6], const uint32_t margins[6],
    const int32_t *cells, size_t cells_length, const uint32_t *order, size_t order_length, uint32_t ticket[12],
    uint64_t *record, size_t record_length);

/* A page from a ticket on, which is left with what is due next, and the run's record with its count. Cells of the table behind the rows keep what they
 * held. Tells 1, 2, 17, 3, 4, 5, 6 and 18; 6 whatever the ticket counts, and 18 where the record is not one cell, holds 2^57 or more, or not the ticket's
 * count. After 18 go on with the newest ticket of the run, or begin another run. */
OVERLAY_CHECKED uint32_t overlay_fetch_page(uint32_t k, const uint32_t sizes[6], const uint32_t margins[6],
    const int32_t *cells, size_t cells_length, const uint32_t *order, size_t order_length, uint32_t ticket[12],
    uint64_t *record, size_t record_length, uint32_t budget, uint32_t *table, size_t table_length,
    uint64_t answer[5]);

/* A page of the timed walk, as overlay_fetch_page, of the rows whose windows share a minute. Tells 1, 2, 17, 3, 4, 24, 5, 6 and 18; 6 where the ticket is no
 * trial of the timed walk, also where it is one without windows. */
OVERLAY_CHECKED uint32_t overlay_timed_page(uint32_t k, const uint32_t sizes[6], const uint32_t margins[6],
    const int32_t *cells, size_t cells_length, const uint32_t *hours, size_t hours_length, const uint32_t *order,
    size_t order_length, uint32_t ticket[12], uint64_t *record, size_t record_length, uint32_t budget,
    uint32_t *table, size_t table_length, uint64_t answer[5]);

/* A round: m clients, 1 to 16, page through one plan out of one budget, which may be up to 2^32 - 1. They are served in turn, 1
 * after m, from `first` on. Each makes one page call, as overlay_fetch_page, with its own ticket, its own cell of the run records, the trials left divided
 * by the clients still to serve, and its own part of the table: the table is cut into m parts of table_length / (k * m) rows, that of client 1 first, and
 * the cells behind them keep what they held. `next` is left with the client that the next round starts with, and the answer with the page of each client;
 * past m it says OVERLAY_SPENT and 0, and the tickets there stay as they were. No client is served where one is refused. Tells 1, 2, 17, 3, 4, 5, 22
 * where m is not 1 to 16, first not 1 to m, the budget above 2^32 - 1 or records_length not m, and then 6 and 18 of the lowest client that has one; after a
 * refusal `next` is 0. */
OVERLAY_CHECKED uint32_t overlay_round(uint32_t k, const uint32_t sizes[6], const uint32_t margins[6],
    const int32_t *cells, size_t cells_length, const uint32_t *order, size_t order_length, uint32_t m, uint32_t first,
    uint64_t budget, uint32_t tickets[192], uint64_t *records, size_t records_length, uint32_t *table,
    size_t table_length, uint32_t *next, uint64_t answer[80]);

/* All rows of a plan's table. Cells of the table behind the rows keep what they held. The work buffer has two cells or more for each row: as many cells as
 * the table are always enough. Tells 1, 2, 17, 3, 4, 5, 7 and 19. */
OVERLAY_CHECKED uint32_t overlay_run_all(uint32_t k, const uint32_t sizes[6], const uint32_t margins[6],
    const int32_t *cells, size_t cells_length, const uint32_t *order, size_t order_length, uint32_t *table,
    size_t table_length, int32_t *work, size_t work_length, uint64_t answer[6]);

/* All rows of a plan's table whose windows share a minute, as overlay_run_all: rows, trials, area and ground are those of the timed walk and its rows, and the
 * table and the work buffer need room for these alone. Tells 1, 2, 17, 3, 4, 24, 5, 7 and 19. */
OVERLAY_CHECKED uint32_t overlay_timed_run(uint32_t k, const uint32_t sizes[6], const uint32_t margins[6],
    const int32_t *cells, size_t cells_length, const uint32_t *hours, size_t hours_length, const uint32_t *order,
    size_t order_length, uint32_t *table, size_t table_length, int32_t *work, size_t work_length, uint64_t answer[6]);

/* Leaves in `told` the class of the row that places name, for a plan whose layer k - 1 holds horizontal segments and whose layer k holds vertical ones; 0
 * after a refusal. Tells 1, 2, 17, 3, 4, 15 and 16, the last where bottom and top differ in layer k - 1, or left and right in layer k, or one of the two has
 * a margin above 0. */
OVERLAY_CHECKED uint32_t overlay_row_class(uint32_t k, const uint32_t sizes[6], const uint32_t margins[6],
    const int32_t *cells, size_t cells_length, const uint32_t *places, size_t places_length, uint32_t *told);

/* All rows of such a plan's table, as overlay_run_all, and in `counts` how many fall in each class, 0 to 16; all 0 after a refusal. Tells 1, 2, 17, 3, 4,
 * 15, 16, 5, 7 and 19. */
OVERLAY_CHECKED uint32_t overlay_crossing_report(uint32_t k, const uint32_t sizes[6], const uint32_t margins[6],
    const int32_t *cells, size_t cells_length, const uint32_t *order, size_t order_length, uint32_t *table,
    size_t table_length, int32_t *work, size_t work_length, uint64_t answer[6], uint32_t counts[17]);

/* Reads a plan text. k, the sizes and the margins are left in theirs, 0 after a refusal; cells behind the plan's keep what they held. Tells 9 to 11. */
OVERLAY_CHECKED uint32_t overlay_read_text(const uint8_t *text, size_t text_length, int32_t *cells,
    size_t cells_length, uint32_t *k, uint32_t sizes[6], uint32_t margins[6]);

/* Writes the text of a plan. Its length is left in `size`, 0 after a refusal; bytes behind it keep what they held. Tells 1, 2, 17, 3, 4 and 12. */
OVERLAY_CHECKED uint32_t overlay_write_text(uint32_t k, const uint32_t sizes[6], const uint32_t margins[6],
    const int32_t *cells, size_t cells_length, uint8_t *text, size_t text_length, size_t *size);

/* Covers corner records, four corners each: left, bottom, right, top. Those whose extent meets both strips are kept, and the smallest whole rectangles
 * that contain them are left in the first cells, four for each, in their order: a layer of a plan. How many there are is left in `kept`, 0 after a
 * refusal; cells behind them keep what they held. Every record has to be finite, in order and covered within OVERLAY_MOST_COORDINATE, kept or not. Tells 21,
 * 20, 2 and 11, in this order. */
OVERLAY_CHECKED uint32_t overlay_cover_records(const uint32_t kinds[2], const double stops[4], const double *corners,
    size_t corners_length, int32_t *cells, size_t cells_length, size_t *kept);

/* The reference to the library's version. A source that takes only names and numbers from this header, and links without the library, defines
 * OVERLAY_UNLINKED before it includes it. */
#ifndef OVERLAY_UNLINKED
#if defined(__GNUC__)
#if defined(__has_attribute)
#if __has_attribute(retain)
__attribute__((retain))
#endif
#endif
__attribute__((used))
#endif
static uint32_t (*const overlay_linked_version)(void) = overlay_version_14;
#endif

/* How many rectangles a plan of these sizes has, n: the cells of its order. */
static inline size_t overlay_count_rects(const uint32_t sizes[6])
{
    size_t first = sizes[0];
    return first + sizes[1] + sizes[2] + sizes[3] + sizes[4] + sizes[5];
}

/* How many cells a plan of these sizes has: four for each rectangle. */
static inline size_t overlay_count_cells(const uint32_t sizes[6])
{
    return 4 * overlay_count_rects(sizes);
}

/* Adds the sum of a page or of a run to a total, both whole square metres and a rest below 1,000,000 square millimetres. */
static inline void overlay_add_total(uint64_t *metres, uint64_t *rest, uint64_t more_metres, uint64_t more_rest)
{
    uint64_t sum = *rest + more_rest;
    *metres += more_metres + sum / OVERLAY_SQUARE_METRE;
    *rest = sum % OVERLAY_SQUARE_METRE;
}

/* What a number means, in words. */
static inline const char *overlay_cause_text(uint32_t number)
{
    switch (number) {
    case OVERLAY_CAUSE_NONE:
        return "accepted";
    case OVERLAY_CAUSE_LAYERS:
        return "the plan has not 2 to 6 layers";
    case OVERLAY_CAUSE_SIZES:
        return "a layer has more than 512 rectangles, or one past the last has some; or more than 512 records are kept";
    case OVERLAY_CAUSE_CELLS:
        return "the cells are not four for each rectangle";
    case OVERLAY_CAUSE_RECT:
        return "a coordinate is not from -10000000 to 10000000, left is greater than right or bottom greater than top";
    case OVERLAY_CAUSE_ORDER:
        return "the order is not the sweep order of the plan";
    case OVERLAY_CAUSE_TICKET:
        return "the ticket is none of this plan";
    case OVERLAY_CAUSE_ROWS:
        return "there are more rows than the table takes";
    case OVERLAY_CAUSE_ORDER_LENGTH:
        return "the order buffer has not one cell for each rectangle";
    case OVERLAY_CAUSE_FORM:
        return "the text is not well formed";
    case OVERLAY_CAUSE_COUNT:
        return "the text is well formed, but layers or rectangles are miscounted, or a number is out of range or out of order";
    case OVERLAY_CAUSE_ROOM:
        return "the cells are too few";
    case OVERLAY_CAUSE_TEXT_LENGTH:
        return "the text is longer than the buffer";
    case OVERLAY_CAUSE_INPUT:
        return "the input has more than 65536 bytes";
    case OVERLAY_CAUSE_BOX:
        return "the box has left greater than right, bottom greater than top or a coordinate out of range";
    case OVERLAY_CAUSE_FEW_LAYERS:
        return "the plan has fewer than three layers";
    case OVERLAY_CAUSE_SEGMENTS:
        return "the last two layers are not segments without margin: east to west (bottom = top) in the last but one, north to south (left = right) in the last";
    case OVERLAY_CAUSE_MARGINS:
        return "a margin is greater than 50000, or a layer past the last has one";
    case OVERLAY_CAUSE_STALE:
        return "the ticket is not the newest of its run, or the run record is not one sound cell";
    case OVERLAY_CAUSE_WORK:
        return "the work buffer is shorter than two cells for each row";
    case OVERLAY_CAUSE_RECORD:
        return "the corners are not four a record, or one is not finite, out of order or beyond ten million";
    case OVERLAY_CAUSE_STRIP:
        return "a stop is not finite, the lower one of a strip is greater than the upper one, or a kind is greater than 3";
    case OVERLAY_CAUSE_ROUND:
        return "a round has not 1 to 16 clients, or its first client, its budget or its records are wrong";
    case OVERLAY_CAUSE_PLACES:
        return "there is not one place for each layer, or a place is not in its layer";
    case OVERLAY_CAUSE_HOURS:
        return "there is not one window for each rectangle, or one does not end behind its start within the week of 10080 minutes";
    default:
        return "no number of this version";
    }
}

/* ---- The program `overlay` as functions. Link with libprogram.a, which `./build program` writes; programs/overlay.c is the program around them. */

/* The bytes of the longest text, one more of which is refused by 13; the cells of `table` and of `work`; the bytes of the buffers for standard output and
 * standard error. */
enum {
    OVERLAY_COMMAND_TEXT = 65536,
    OVERLAY_COMMAND_CELLS = 524288,
    OVERLAY_COMMAND_OUT = 167772160,
    OVERLAY_COMMAND_ERR = 65536
};

/* Where the text comes from, and the second text, by the program's arguments: each argument from the first on, followed by a byte 0. 0: from nowhere, 1:
 * from standard input, n above 1: from the file that argument n names. */
size_t overlay_text_source(const uint8_t *arguments, size_t arguments_length);
size_t overlay_second_source(const uint8_t *arguments, size_t arguments_length);

/* What the program says for these arguments and texts. Returns the exit status: 0 done, 1 refused, 2 wrong arguments. The bytes for standard output and
 * for standard error are left at the start of `out`, which has OVERLAY_COMMAND_OUT bytes, and of `err`, which has OVERLAY_COMMAND_ERR; how many they are in
 * `out_size` and `err_size`. It does not matter what `table` and `work`, OVERLAY_COMMAND_CELLS cells each, hold before, and what they hold afterwards is
 * free. */
uint32_t overlay_command(const uint8_t *arguments, size_t arguments_length, const uint8_t *text, size_t text_length,
                         const uint8_t *second, size_t second_length, uint32_t *table, int32_t *work, uint8_t *out,
                         uint8_t *err, size_t *out_size, size_t *err_size);

#ifdef __cplusplus
}
#endif

#endif
