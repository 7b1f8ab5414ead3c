/*
 * Solves the worked game C7 by both solvers, prints who wins and by which choices, and has the checker check each answer.
 * bindings/rust/examples/solve.rs does the same in Rust and prints the same. examples/c/run builds and runs it.
 */
#include <inttypes.h>
#include <stdio.h>
#include <stdlib.h>

#include "reckonbough.h"

/* Vertex 0 is Even's, with priority 2 and an edge to 1; vertex 1 is Odd's, with priority 0 and edges to 0 and 1. */
enum { N = 2, M = 3, S = (N + 63) / 64 };
static const uint8_t owners[N] = {0, 1};
static const uint16_t priorities[N] = {2, 0};
static const uint16_t offsets[N + 1] = {0, 1, 3};
static const uint16_t targets[M] = {1, 0, 1};
static uint64_t kept[RECKONBOUGH_KEPT];
#define GAME N, M, owners, N, priorities, N, offsets, N + 1, targets, M, kept, RECKONBOUGH_KEPT

static uint64_t even[S], odd[S], place, count;
static uint16_t strategy[N];
static uint64_t *work;
static size_t work_length;

static int wins(const uint64_t *set, size_t v)
{
    return set[v / 64] >> (v % 64) & 1;
}

/* Prints the answer that stands in the sets and the strategy, and what the checker says of it. */
static void print_checked(void)
{
    for (size_t v = 0; v < N; v++) {
        printf("vertex %zu of %s: %s wins", v, owners[v] == 0 ? "Even" : "Odd", wins(odd, v) ? "Odd" : "Even");
        if (strategy[v] != RECKONBOUGH_NONE)
            printf(" and goes to %u", (unsigned)strategy[v]);
        printf("\n");
    }
    uint64_t number = reckonbough_check(GAME, even, S, odd, S, strategy, N, work, work_length, &place, &count);
    if (number == RECKONBOUGH_ANSWERED)
        printf("checked: yes\n");
    else
        printf("checked: %" PRIu64 " at %" PRIu64 "\n", number, place);
}

/* Ends the program where a solver refused. */
static void answered(uint64_t number)
{
    if (number != RECKONBOUGH_ANSWERED) {
        fprintf(stderr, "refused: %" PRIu64 " at %" PRIu64 "\n", number, place);
        exit(1);
    }
}

int main(void)
{
    work_length = reckonbough_work_words(N, M);
    work = malloc(work_length * sizeof *work);
    if (work == NULL)
        return 1;

    answered(reckonbough_fresh_count(GAME, &place, &count));
    answered(reckonbough_zielonka(GAME, UINT64_MAX, even, S, odd, S, strategy, N, work, work_length, &place, &count));
    printf("zielonka: %" PRIu64 " calls\n", count);
    print_checked();

    answered(reckonbough_priority_promotion(
        GAME, UINT64_MAX, even, S, odd, S, strategy, N, work, work_length, &place, &count));
    printf("priority promotion: %" PRIu64 " rounds\n", count);
    print_checked();

    printf("a choice that is no edge\n");
    strategy[0] = 0;
    print_checked();
    free(work);
    return 0;
}
