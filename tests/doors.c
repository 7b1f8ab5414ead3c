/*
 * The names of the numbers; what only C can pass: null pointers for empty slices, and players other than 0 and 1; results
 * without a strategy; a second opinion; an export that is mended; a game as text; a record that is edited; and the largest game.
 * Every function is called.
 * Each line is what was asked and the number, the place and the count given; tests/doors compares them.
 */
#include <inttypes.h>
#include <stdio.h>

#include "reckonbough.h"

static uint64_t place, count;
static uint64_t work[1024];

/* The kept numbers of the record at hand: GAME(n, m, TABLES) lends the tables as one. */
static uint64_t numbers_kept[RECKONBOUGH_KEPT];
#define GAME(n, m, ...) n, m, __VA_ARGS__, numbers_kept, RECKONBOUGH_KEPT
#define COUNT_AFRESH(n, m, ...) reckonbough_fresh_count(GAME(n, m, __VA_ARGS__), &place, &count)

static void print(const char *asked, uint64_t number)
{
    printf("%s: %" PRIu64 " %" PRIu64 " %" PRIu64 "\n", asked, number, place, count);
    place = count = UINT64_MAX;
}

/* The header's names for the numbers, in order. */
static void names(void)
{
    static const int numbers[] = {
        RECKONBOUGH_ANSWERED,
        RECKONBOUGH_TOO_MANY_VERTICES,
        RECKONBOUGH_TABLE_LENGTHS,
        RECKONBOUGH_TOO_MANY_EDGES,
        RECKONBOUGH_BAD_OWNER,
        RECKONBOUGH_BAD_PRIORITY,
        RECKONBOUGH_BAD_OFFSET,
        RECKONBOUGH_BAD_TARGET,
        RECKONBOUGH_DEAD_END,
        RECKONBOUGH_BAD_SIZE,
        RECKONBOUGH_SHORT_WORK,
        RECKONBOUGH_OWNERS_DIFFER,
        RECKONBOUGH_STRAY_BIT,
        RECKONBOUGH_OVER_BUDGET,
        RECKONBOUGH_NOT_ONE_WINNER,
        RECKONBOUGH_BAD_ENTRY,
        RECKONBOUGH_LEAVES_SET,
        RECKONBOUGH_LOSING_CYCLE,
        RECKONBOUGH_NO_STRATEGY,
        RECKONBOUGH_BAD_TEXT,
        RECKONBOUGH_BAD_IDENTIFIER,
        RECKONBOUGH_BEYOND_LIMIT,
        RECKONBOUGH_NO_VERTEX,
        RECKONBOUGH_SHORT_TEXT,
        RECKONBOUGH_SHORT_OUTPUT,
        RECKONBOUGH_NO_SUCH_ENTRY,
        RECKONBOUGH_HIGH_PRIORITY,
        RECKONBOUGH_NO_SUCH_TARGET,
        RECKONBOUGH_NO_SUCH_VERTEX,
        RECKONBOUGH_SHORT_LIST,
        RECKONBOUGH_NO_LOOP,
        RECKONBOUGH_KEPT_DIFFER,
        RECKONBOUGH_NO_SUCH_OWNER,
    };
    printf("numbers:");
    for (size_t i = 0; i < sizeof numbers / sizeof *numbers; i++)
        printf(" %d", numbers[i]);
    printf("\n");
}

/* C1, with a null pointer wherever the length is 0. */
static void no_vertices(void)
{
    static const uint16_t offset = 0;
    const size_t w = reckonbough_work_words(0, 0);
#define C1 NULL, 0, NULL, 0, &offset, 1, NULL, 0
    print("check_tables of nothing", reckonbough_check_tables(NULL, 0, NULL, 0, NULL, 0, NULL, 0, &place, &count));
    print("check_tables of C1", reckonbough_check_tables(C1, &place, &count));
    uint64_t new_kept[RECKONBOUGH_KEPT];
    COUNT_AFRESH(0, 0, C1);
    print("attractor in C1",
          reckonbough_attractor(GAME(0, 0, C1), 0, NULL, 0, NULL, 0, NULL, 0, NULL, 0, NULL, 0, work, w, &place, &count));
    print("zielonka of C1", reckonbough_zielonka(GAME(0, 0, C1), 1, NULL, 0, NULL, 0, NULL, 0, work, w, &place, &count));
    print("zielonka of C1, budget 0",
          reckonbough_zielonka(GAME(0, 0, C1), 0, NULL, 0, NULL, 0, NULL, 0, work, w, &place, &count));
    print("zielonka of C1, no work area",
          reckonbough_zielonka(GAME(0, 0, C1), 1, NULL, 0, NULL, 0, NULL, 0, NULL, 0, &place, &count));
    print("priority_promotion of C1, budget 0",
          reckonbough_priority_promotion(GAME(0, 0, C1), 0, NULL, 0, NULL, 0, NULL, 0, work, w, &place, &count));
    print("quasi_polynomial of C1",
          reckonbough_quasi_polynomial(GAME(0, 0, C1), NULL, 0, NULL, 0, work, reckonbough_opinion_words(0, 0), &place, &count));
    print("solitaire of C1", reckonbough_solitaire(GAME(0, 0, C1), NULL, 0, work, w, &place, &count));
    uint64_t length = 7;
    print("show_loop of C1", reckonbough_show_loop(GAME(0, 0, C1), 0, NULL, 0, NULL, 0, work, w, &length, &place, &count));
    printf("  path %" PRIu64 "\n", length);
    print("check of C1", reckonbough_check(GAME(0, 0, C1), NULL, 0, NULL, 0, NULL, 0, work, w, &place, &count));
    print("compact of C1", reckonbough_compact(GAME(0, 0, C1), NULL, 0, new_kept, RECKONBOUGH_KEPT, &place, &count));
    print("write of C1", reckonbough_write(GAME(0, 0, C1), NULL, 0, &place, &count));
    uint16_t new_offset = 7;
    print("mend of C1", reckonbough_mend(C1, NULL, 0, &new_offset, 1, NULL, 0, NULL, 0, &place, &count));
    print("mend of C1, no offsets", reckonbough_mend(C1, NULL, 0, NULL, 0, NULL, 0, NULL, 0, &place, &count));
}

/* C8's run from each vertex and beyond, and what is lent too short. */
static const uint8_t c8_owners[] = {0, 0, 0, 0};
static const uint16_t c8_priorities[] = {1, 2, 1, 3}, c8_offsets[] = {0, 1, 2, 3, 4}, c8_targets[] = {1, 2, 1, 3};
#define C8 c8_owners, 4, c8_priorities, 4, c8_offsets, 5, c8_targets, 4

static void loops(void)
{
    uint16_t path[9], cycle[9];
    uint64_t length;
    const size_t w = reckonbough_work_words(4, 4);
    COUNT_AFRESH(4, 4, C8);
    for (uint64_t v = 0; v < 5; v++) {
        for (size_t i = 0; i < 9; i++)
            path[i] = cycle[i] = 77;
        print("show_loop of C8", reckonbough_show_loop(GAME(4, 4, C8), v, path, 9, cycle, 9, work, w, &length, &place, &count));
        printf("  path %" PRIu64 ":", length);
        for (size_t i = 0; i < 9; i++)
            printf(" %u", (unsigned)path[i]);
        printf("; cycle:");
        for (size_t i = 0; i < 9; i++)
            printf(" %u", (unsigned)cycle[i]);
        printf("\n");
    }
    print("show_loop, short path", reckonbough_show_loop(GAME(4, 4, C8), 0, path, 7, cycle, 9, work, w, &length, &place, &count));
    print("show_loop, short cycle", reckonbough_show_loop(GAME(4, 4, C8), 0, path, 8, cycle, 7, work, w, &length, &place, &count));
    print("show_loop, short work", reckonbough_show_loop(GAME(4, 4, C8), 9, path, 8, cycle, 8, work, w - 1, &length, &place, &count));
}

static const uint8_t c7_owners[] = {0, 1};
static const uint16_t c7_priorities[] = {2, 0}, c7_offsets[] = {0, 1, 3}, c7_targets[] = {1, 0, 1};
#define C7 c7_owners, 2, c7_priorities, 2, c7_offsets, 3, c7_targets, 3

/* Players other than 0 and 1. In C7 Odd's attractor of vertex 0 has vertex 1 in it, Even's has not. */
static void players(void)
{
    static const uint8_t numbers[] = {0, 1, 2, 255};
    const uint64_t all = 3, first = 1;
    uint64_t set;
    uint16_t strategy[2], distances[2];
    const size_t w = reckonbough_work_words(2, 3);
    COUNT_AFRESH(2, 3, C7);
    for (size_t i = 0; i < sizeof numbers; i++) {
        printf("with %u\n", (unsigned)numbers[i]);
        print("attractor of 0 in C7",
              reckonbough_attractor(GAME(2, 3, C7), numbers[i], &all, 1, &first, 1, &set, 1, strategy, 2, distances, 2, work, w, &place,
                                    &count));
        printf("  set %" PRIu64 ", entries %u %u\n", set, (unsigned)strategy[0], (unsigned)strategy[1]);
    }
}

/* Even's attractor of target in within, and its distances and entries. */
static void attract(const char *asked, const uint8_t *owners, size_t n, const uint16_t *offsets, const uint16_t *targets,
                    size_t m, uint64_t within, uint64_t target)
{
    static const uint16_t priorities[5] = {0};
    uint64_t set;
    uint16_t strategy[5], distances[5];
#define ASKED owners, n, priorities, n, offsets, n + 1, targets, m
    COUNT_AFRESH(n, m, ASKED);
    print(asked, reckonbough_attractor(GAME(n, m, ASKED), 0, &within, 1, &target, 1, &set, 1, strategy, n, distances, n, work,
                                       reckonbough_work_words(n, m), &place, &count));
    printf("  distances");
    for (size_t v = 0; v < n; v++)
        printf(" %u", (unsigned)distances[v]);
    printf(", entries");
    for (size_t v = 0; v < n; v++)
        printf(" %u", (unsigned)strategy[v]);
    printf("\n");
}

/* C8's edges; a tie between two that are as near, the higher one first in the table; and a vertex of Odd's that is drawn in
 * only once its last edge inside within leads there. */
static void how_far(void)
{
    static const uint8_t c8_owners[] = {0, 0, 0, 0};
    static const uint16_t c8_offsets[] = {0, 1, 2, 3, 4}, c8_targets[] = {1, 2, 1, 3};
    attract("attractor of 1 in 0, 1, 2 of C8", c8_owners, 4, c8_offsets, c8_targets, 4, 7, 2);
    static const uint8_t tie_owners[] = {0, 0, 0, 0};
    static const uint16_t tie_offsets[] = {0, 3, 4, 5, 6}, tie_targets[] = {0, 2, 1, 3, 3, 3};
    attract("with a tie", tie_owners, 4, tie_offsets, tie_targets, 6, 15, 8);
    static const uint8_t late_owners[] = {1, 0, 0, 0, 1};
    static const uint16_t late_offsets[] = {0, 3, 4, 5, 6, 7}, late_targets[] = {3, 1, 4, 2, 3, 3, 4};
    attract("with one drawn in late", late_owners, 5, late_offsets, late_targets, 7, 15, 8);
}

/* C7 is Even's. Without its strategy the result gets 25; with another wrong one 22; and 21 comes first. */
static void without_strategy(void)
{
    static const uint16_t nothing[] = {RECKONBOUGH_NONE, RECKONBOUGH_NONE}, other[] = {RECKONBOUGH_NONE, 0};
    const uint64_t none = 0, first = 1;
    uint64_t even, odd;
    uint16_t strategy[2];
    const size_t w = reckonbough_work_words(2, 3);
    COUNT_AFRESH(2, 3, C7);
    print("zielonka of C7", reckonbough_zielonka(GAME(2, 3, C7), 3, &even, 1, &odd, 1, strategy, 2, work, w, &place, &count));
    printf("  sets %" PRIu64 " %" PRIu64 ", entries %u %u\n", even, odd, (unsigned)strategy[0], (unsigned)strategy[1]);
    print("check of it", reckonbough_check(GAME(2, 3, C7), &even, 1, &odd, 1, strategy, 2, work, w, &place, &count));
    print("without entries", reckonbough_check(GAME(2, 3, C7), &even, 1, &odd, 1, nothing, 2, work, w, &place, &count));
    print("with Odd's entry alone", reckonbough_check(GAME(2, 3, C7), &even, 1, &odd, 1, other, 2, work, w, &place, &count));
    print("without entries, vertex 1 in no set",
          reckonbough_check(GAME(2, 3, C7), &first, 1, &none, 1, nothing, 2, work, w, &place, &count));
}

/*
 * C2, E0 to itself, is the smallest game in which a solver of the second opinion that gave up at precision 1 would be wrong: the
 * precisions are 1 at the start, and its one vertex is a dominion. In C7 Even wins both vertices. A word too few is refused.
 */
static void second_opinion(void)
{
    static const uint8_t c2_owners[] = {0};
    static const uint16_t c2_priorities[] = {0}, c2_offsets[] = {0, 1}, c2_targets[] = {0};
    static uint64_t area[4096];
    const size_t w = reckonbough_opinion_words(2, 3);
    uint64_t even = 5, odd = 7;
#define C2 c2_owners, 1, c2_priorities, 1, c2_offsets, 2, c2_targets, 1
    COUNT_AFRESH(1, 1, C2);
    print("quasi_polynomial of C2", reckonbough_quasi_polynomial(GAME(1, 1, C2), &even, 1, &odd, 1, area,
                                                                 reckonbough_opinion_words(1, 1), &place, &count));
    printf("  sets %" PRIu64 " %" PRIu64 "\n", even, odd);
    print("quasi_polynomial of C7 with C2's kept numbers",
          reckonbough_quasi_polynomial(GAME(2, 3, C7), &even, 1, &odd, 1, area, w, &place, &count));
    COUNT_AFRESH(2, 3, C7);
    print("quasi_polynomial of C7", reckonbough_quasi_polynomial(GAME(2, 3, C7), &even, 1, &odd, 1, area, w, &place, &count));
    printf("  sets %" PRIu64 " %" PRIu64 "\n", even, odd);
    even = 5;
    print("in a word too few", reckonbough_quasi_polynomial(GAME(2, 3, C7), &even, 1, &odd, 1, area, w - 1, &place, &count));
    printf("  sets %" PRIu64 " %" PRIu64 "\n", even, odd);
    print("with two words for a set", reckonbough_quasi_polynomial(GAME(2, 3, C7), area, 2, &odd, 1, area + 2, w, &place, &count));
}

/* An export with a dead end and two missing targets, its list read as the header says. */
static void mending(void)
{
    static const uint8_t owners[] = {0, 1};
    static const uint16_t priorities[] = {4, 7}, offsets[] = {0, 2, 3}, targets[] = {1, 9, 2};
    uint16_t new_priorities[2], new_offsets[3], new_targets[5], list[7];
#define HALF owners, 2, priorities, 2, offsets, 3, targets, 3
    const uint64_t number =
        reckonbough_mend(HALF, new_priorities, 2, new_offsets, 3, new_targets, 5, list, 7, &place, &count);
    const size_t entries = (size_t)count, new_m = new_offsets[2];
    const size_t altered = (entries + new_m - 3) / 3, dropped = entries - 2 * altered;
    print("mend", number);
    printf("  dropped edges:");
    for (size_t i = 0; i < dropped; i++)
        printf(" %u", (unsigned)list[i]);
    printf("\n  altered vertices:");
    for (size_t i = dropped; i < entries; i += 2)
        printf(" %u was %u", (unsigned)list[i], (unsigned)list[i + 1]);
    printf("\n");
    print("check_tables of it",
          reckonbough_check_tables(owners, 2, new_priorities, 2, new_offsets, 3, new_targets, new_m, &place, &count));
}

/* C7 as text, in no room, in one byte too few, and in more than it needs; read again; and a text that is cut. */
static void as_text(void)
{
    uint8_t text[40], owners[3];
    uint16_t priorities[3], offsets[4], targets[4];
    uint64_t n = 0, m = 0, kept[RECKONBOUGH_KEPT];
#define ROOMS owners, 3, priorities, 3, offsets, 4, targets, 4
#define KEPT kept, RECKONBOUGH_KEPT
    for (size_t i = 0; i < sizeof text; i++)
        text[i] = '.';
    COUNT_AFRESH(2, 3, C7);
    print("write of C7, no room", reckonbough_write(GAME(2, 3, C7), NULL, 0, &place, &count));
    print("write of C7, 29 bytes", reckonbough_write(GAME(2, 3, C7), text, 29, &place, &count));
    printf("%.*s\n", (int)sizeof text, (const char *)text);
    print("write of C7, 40 bytes", reckonbough_write(GAME(2, 3, C7), text, sizeof text, &place, &count));
    printf("%.*s\n", (int)sizeof text, (const char *)text);
    print("read of it, 257 kept", reckonbough_read(text, 30, 16384, ROOMS, kept, 257, work, 7, &n, &m, &place, &count));
    print("read of it", reckonbough_read(text, 30, 16384, ROOMS, KEPT, work, 7, &n, &m, &place, &count));
    printf("  %u vertices, %u edges, targets %u %u %u %u\n", (unsigned)n, (unsigned)m, (unsigned)targets[0], (unsigned)targets[1],
           (unsigned)targets[2], (unsigned)targets[3]);
    print("set_owner in it", reckonbough_set_owner(n, m, ROOMS, KEPT, 0, 1, &place, &count));
    print("read of 27 bytes", reckonbough_read(text, 27, 16384, ROOMS, KEPT, work, 7, &n, &m, &place, &count));
    printf("  of priority 2: %u\n", (unsigned)kept[2]);
    print("read of 30 bytes, 20 allowed", reckonbough_read_tables(text, 30, 20, ROOMS, work, 7, &n, &m, &place, &count));
    print("read of no text", reckonbough_read_tables(NULL, 0, 0, ROOMS, work, 7, &n, &m, &place, &count));
}

/* C7 over a serial line: cut in a number and with an empty portion; refused, and again; then a fresh start. */
static void in_portions(void)
{
    static const uint8_t text[] = "parity 1; 0 22 0 1; 1 0 1 0,1;";
    uint8_t owners[3];
    uint16_t priorities[3], offsets[4], targets[4];
    uint64_t n = 7, m = 7, state[33] = {0}, kept[RECKONBOUGH_KEPT];
#define LENT(words) state, words, owners, 3, priorities, 3, offsets, 4, targets, 4
    state[32] = 99;
    print("start, 31 words of state", reckonbough_read_start(16384, LENT(31), &place, &count));
    print("start", reckonbough_read_start(16384, LENT(33), &place, &count));
    print("13 bytes", reckonbough_read_portion(text, 13, LENT(33), &place, &count));
    print("none", reckonbough_read_portion(NULL, 0, LENT(33), &place, &count));
    print("17 bytes", reckonbough_read_portion(text + 13, 17, LENT(33), &place, &count));
    print("end, 6 words of work", reckonbough_read_end(LENT(33), KEPT, work, 6, &n, &m, &place, &count));
    print("end", reckonbough_read_end(LENT(33), KEPT, work, 7, &n, &m, &place, &count));
    printf("  %u vertices, %u edges, priority %u, the highest %u, beyond the state %u\n", (unsigned)n, (unsigned)m,
           (unsigned)priorities[0], (unsigned)kept[257], (unsigned)state[32]);
    print("5 bytes more", reckonbough_read_portion(text, 5, LENT(33), &place, &count));
    print("end again", reckonbough_read_end(LENT(33), KEPT, work, 7, &n, &m, &place, &count));
    print("start again", reckonbough_read_start(16384, LENT(33), &place, &count));
    print("20 bytes", reckonbough_read_portion(text, 20, LENT(33), &place, &count));
    print("a letter", reckonbough_read_portion((const uint8_t *)"x", 1, LENT(33), &place, &count));
    print("5 bytes more", reckonbough_read_portion(text, 5, LENT(33), &place, &count));
    print("end", reckonbough_read_end(LENT(33), KEPT, work, 7, &n, &m, &place, &count));
    printf("  %u vertices, %u edges, priority %u\n", (unsigned)n, (unsigned)m, (unsigned)priorities[0]);
}

/* C7 as a record with room for one vertex and one edge more: each edit and each of its refusals, and what is kept. */
static void edits(void)
{
    uint8_t owners[3] = {0, 1, 9};
    uint16_t priorities[3] = {2, 0, 9}, offsets[4] = {0, 1, 3, 9}, targets[4] = {1, 0, 1, 9};
    uint64_t kept[RECKONBOUGH_KEPT] = {7};
#define RECORD(n, m) n, m, owners, 3, priorities, 3, offsets, 4, targets, 4, kept, RECKONBOUGH_KEPT
    print("set_owner before the count", reckonbough_set_owner(RECORD(2, 3), 0, 1, &place, &count));
    print("fresh_count, 257 kept",
          reckonbough_fresh_count(2, 3, owners, 3, priorities, 3, offsets, 4, targets, 4, kept, 257, &place, &count));
    print("fresh_count of 4 vertices", reckonbough_fresh_count(RECORD(4, 3), &place, &count));
    print("fresh_count of 5 edges", reckonbough_fresh_count(RECORD(2, 5), &place, &count));
    print("fresh_count", reckonbough_fresh_count(RECORD(2, 3), &place, &count));
    printf("  %u %u %u, %u different, highest %u\n", (unsigned)kept[0], (unsigned)kept[1], (unsigned)kept[2], (unsigned)kept[256],
           (unsigned)kept[257]);
    print("set_priority of vertex 2", reckonbough_set_priority(RECORD(2, 3), 2, 256, &place, &count));
    print("set_priority to 256", reckonbough_set_priority(RECORD(2, 3), 1, 256, &place, &count));
    print("set_priority to 1", reckonbough_set_priority(RECORD(2, 3), 0, 1, &place, &count));
    printf("  %u %u %u, %u different, highest %u\n", (unsigned)kept[0], (unsigned)kept[1], (unsigned)kept[2], (unsigned)kept[256],
           (unsigned)kept[257]);
    print("set_owner of vertex 2^64 - 1", reckonbough_set_owner(RECORD(2, 3), UINT64_MAX, 2, &place, &count));
    print("set_owner to 2", reckonbough_set_owner(RECORD(2, 3), 1, 2, &place, &count));
    print("set_owner to 1", reckonbough_set_owner(RECORD(2, 3), 0, 1, &place, &count));
    print("turn_edge of edge 3", reckonbough_turn_edge(RECORD(2, 3), 3, 2, &place, &count));
    print("turn_edge to 2", reckonbough_turn_edge(RECORD(2, 3), 2, 2, &place, &count));
    print("turn_edge to 0", reckonbough_turn_edge(RECORD(2, 3), 2, 0, &place, &count));
    printf("  owners %u %u %u, priorities %u %u %u, targets %u %u %u %u\n", owners[0], owners[1], owners[2], priorities[0],
           priorities[1], priorities[2], targets[0], targets[1], targets[2], targets[3]);
    kept[9] = 1;
    print("set_priority, one kept number wrong", reckonbough_set_priority(RECORD(2, 3), 0, 0, &place, &count));
}

/*
 * The largest game, 2,048 pairs: E2 to the pair's other; E1 to itself and to the next pair. Zielonka's recursion nests 2,049
 * deep in it. One vertex more is refused.
 */
static void most_vertices(void)
{
    enum { N = 4096, M = 3 * N / 2 - 1, S = N / 64 };
    static uint8_t owners[N + 1];
    static uint16_t priorities[N + 1], offsets[N + 2], targets[M], strategy[N];
    static uint64_t even[S], odd[S], area[8 * (N + 2) * S + 4 * N + 2 * M + 272 + 2064 * S];
    const size_t w = reckonbough_work_words(N, M);
    for (size_t v = 0, m = 0; v < N; v++) {
        priorities[v] = v % 2 == 0 ? 2 : 1;
        targets[m++] = (uint16_t)(v | 1);
        if (v % 2 == 1 && v + 1 < N)
            targets[m++] = (uint16_t)(v + 1);
        offsets[v + 1] = (uint16_t)m;
    }
#define CHAIN owners, N, priorities, N, offsets, N + 1, targets, M
    COUNT_AFRESH(N, M, CHAIN);
    print("zielonka of 4,096 vertices",
          reckonbough_zielonka(GAME(N, M, CHAIN), UINT64_MAX, even, S, odd, S, strategy, N, area, w, &place, &count));
    print("check of it", reckonbough_check(GAME(N, M, CHAIN), even, S, odd, S, strategy, N, area, w, &place, &count));
    print("priority_promotion of 4,096 vertices",
          reckonbough_priority_promotion(GAME(N, M, CHAIN), UINT64_MAX, even, S, odd, S, strategy, N, area, w, &place, &count));
    print("check of it", reckonbough_check(GAME(N, M, CHAIN), even, S, odd, S, strategy, N, area, w, &place, &count));
    print("quasi_polynomial of 4,096 vertices",
          reckonbough_quasi_polynomial(GAME(N, M, CHAIN), even, S, odd, S, area, reckonbough_opinion_words(N, M), &place, &count));
    print("check of its sets", reckonbough_check(GAME(N, M, CHAIN), even, S, odd, S, strategy, N, area, w, &place, &count));
    print("solitaire of 4,096 vertices", reckonbough_solitaire(GAME(N, M, CHAIN), even, S, area, w, &place, &count));
    static uint8_t text[RECKONBOUGH_MAX_TEXT];
    print("write of 4,096 vertices", reckonbough_write(GAME(N, M, CHAIN), text, sizeof text, &place, &count));
    print("zielonka of 4,097 vertices",
          reckonbough_zielonka(N + 1, M, owners, N + 1, priorities, N + 1, offsets, N + 2, targets, M, numbers_kept,
                               RECKONBOUGH_KEPT, UINT64_MAX, even, S, odd, S, strategy, N, area, w, &place, &count));
}

int main(void)
{
    names();
    no_vertices();
    players();
    how_far();
    without_strategy();
    second_opinion();
    mending();
    as_text();
    loops();
    in_portions();
    edits();
    most_vertices();
    return 0;
}
