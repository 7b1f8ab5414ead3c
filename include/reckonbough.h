/*
 * Reckonbough: parity games, solved by code that is proved correct. The functions of libreckonbough.a, for C99 and C++.
 *
 * A game is four tables. Let n be its vertices and m its edges:
 *   owners      n bytes, 0 Even, 1 Odd
 *   priorities  n numbers, at most 255; the highest on a cycle decides, and an even one is Even's
 *   offsets     n + 1 numbers; the edges of vertex v stand from offsets[v] up to offsets[v + 1]
 *   targets     m numbers, each below n; parallel edges and self loops are allowed
 * A game with n = 0 has the one offset 0. Every vertex needs an edge.
 *
 * A game record is n and m, the four tables, which may have room to spare, and the kept numbers: how many vertices have priority
 * 0 to 255, how many different priorities there are, and the highest, 0 where there is no vertex; RECKONBOUGH_KEPT numbers in
 * all. Only the first n, n, n + 1 and m entries of the tables count. Every function but reckonbough_check_tables and
 * reckonbough_mend, which take plain tables, takes a record: it gives 2 where n is above the room of owners or priorities or n + 1
 * above that of offsets, 3 where m is above 16384 or above the room of targets, and 47, right after 8, for kept numbers that a fresh
 * count does not give. reckonbough_fresh_count makes them; the readers, compaction and the edits keep them.
 *
 * A set is s words, vertex v at bit v % 64 of word v / 64; reckonbough_set_words gives s. A strategy is n entries, each a
 * vertex or RECKONBOUGH_NONE. The work area is W words or more; reckonbough_work_words gives W, and reckonbough_opinion_words
 * the larger W of reckonbough_quasi_polynomial. It may hold anything.
 *
 * Every slice is a pointer and the number of its elements (not bytes). The pointer is aligned for its type and good for
 * that many elements; a null pointer with length 0 is an empty slice. place and count are not null. What a function writes
 * to (place and count too) overlaps nothing else that it is lent in that call. Apart from that every content and every
 * length is answered.
 *
 * Nothing of it is kept after the call, and no state is kept between calls: several threads may call at the same time, each
 * with a place, a count, a work area and outputs of its own. What is only read may be shared.
 *
 * Each function returns a number, named below, and writes a place and a count. The count of an answer is what the function
 * says below. With 13 it is the budget, with every other number 0.
 *
 * Numbers 1 to 12, 33 to 35 and 41 to 48 write nothing but place and count, where a function says nothing else. With 13 the sets and
 * the strategy stay as they were. With 0, 13 and 21 to 25 the first W words of the work area are zero afterwards; words beyond W never
 * change.
 *
 * The budget is the most calls of reckonbough_zielonka, or rounds of reckonbough_priority_promotion. Let d be the number of
 * different priorities. 2 * (C(n,0) + C(n,1) + ... + C(n,d)) - 1 calls and n * (n + 2)^d rounds are always enough; both are
 * proved. Where that number is above UINT64_MAX, no budget is proved to be enough; UINT64_MAX then asks for as much as can be asked.
 *
 * Stack, on x86-64: reckonbough_zielonka nests at most n + 1 calls of itself, 192 bytes each; a thread with 2 MiB of stack is
 * enough for every game. reckonbough_quasi_polynomial nests at most 258 calls, 224 bytes each. What takes or gives a record needs
 * less than 6 KiB beside that, every other function less than 2 KiB.
 */
#ifndef RECKONBOUGH_H
#define RECKONBOUGH_H

#include <stddef.h>
#include <stdint.h>

/* A strategy entry that chooses nothing. */
#define RECKONBOUGH_NONE 65535

/* The most vertices, the most edges and the highest priority of a game. */
#define RECKONBOUGH_MAX_VERTICES 4096
#define RECKONBOUGH_MAX_EDGES 16384
#define RECKONBOUGH_MAX_PRIORITY 255

/* The most bytes that the text of a game needs. */
#define RECKONBOUGH_MAX_TEXT 131085

/*
 * The numbers. Of those that a function gives it is the first that applies, in the order that the function names, else 0;
 * 25 stands in the place of 22. The place is 0 where the line says none. Later versions may have more numbers; none of them is
 * an answer.
 */
#define RECKONBOUGH_ANSWERED 0          /* an answer, the checker's yes included */
#define RECKONBOUGH_TOO_MANY_VERTICES 1 /* n above 4096 */
#define RECKONBOUGH_TABLE_LENGTHS 2     /* priorities not n or offsets not n + 1 long; of a record, n above their room */
#define RECKONBOUGH_TOO_MANY_EDGES 3    /* m above 16384; of a record, also above the room of targets */
#define RECKONBOUGH_BAD_OWNER 4         /* an owner that is not 0 or 1; place: lowest vertex */
#define RECKONBOUGH_BAD_PRIORITY 5      /* a priority above 255; place: lowest vertex */
#define RECKONBOUGH_BAD_OFFSET 6        /* the first offset is not 0, or one is above the next, or the last is not m;
                                           place: 0, or lowest index, or n */
#define RECKONBOUGH_BAD_TARGET 7        /* a target not below n; place: lowest edge */
#define RECKONBOUGH_DEAD_END 8          /* a vertex without an edge; place: lowest vertex */
#define RECKONBOUGH_BAD_SIZE 9          /* a set not s words, a strategy or another table not n entries, a kept to be written
                                           not RECKONBOUGH_KEPT numbers long */
#define RECKONBOUGH_SHORT_WORK 10       /* a work area shorter than W */
#define RECKONBOUGH_OWNERS_DIFFER 11    /* solitaire, show_loop: two owners differ */
#define RECKONBOUGH_STRAY_BIT 12        /* attractor: a bit at n or above, or a bit of target that is not in within;
                                           place: lowest such bit */
#define RECKONBOUGH_OVER_BUDGET 13      /* more calls or rounds are needed than the budget */
#define RECKONBOUGH_NOT_ONE_WINNER 21   /* checker: a vertex in both sets or in neither, or a bit at n or above;
                                           place: lowest bit */
#define RECKONBOUGH_BAD_ENTRY 22        /* checker: an entry where the vertex's owner does not win it, or one that is no
                                           target of the vertex's edges where the owner does; place: lowest vertex */
#define RECKONBOUGH_LEAVES_SET 23       /* checker: the entry's edge at a vertex whose owner wins it, or any edge at another
                                           vertex, ends outside the winner's set; place: lowest vertex */
#define RECKONBOUGH_LOSING_CYCLE 24     /* checker: a cycle of those edges inside a set, whose highest priority has the
                                           other player's parity; place: lowest vertex on one */
#define RECKONBOUGH_NO_STRATEGY 25      /* checker: 22 would be given, and every entry is none; place: that of 22 */
#define RECKONBOUGH_BAD_TEXT 30         /* reading: no text of the grammar can follow this byte, or the text ends too soon or has
                                           no record; place: the byte, or the text's length */
#define RECKONBOUGH_BAD_IDENTIFIER 31   /* reading: identifiers 0 to n - 1 do not each appear once, or N is not n - 1;
                                           place: the lowest that does not, else n */
#define RECKONBOUGH_BEYOND_LIMIT 32     /* reading: the byte goes beyond a limit; place: the byte */
#define RECKONBOUGH_NO_VERTEX 33        /* write: n is 0 */
#define RECKONBOUGH_SHORT_TEXT 34       /* write: a text shorter than needed; place: the length needed */
#define RECKONBOUGH_SHORT_OUTPUT 35     /* mend: an output or the list is shorter than needed */
#define RECKONBOUGH_NO_SUCH_ENTRY 41    /* edits: no such vertex or edge; place: the one asked for, as for 42, 43 and 48 */
#define RECKONBOUGH_HIGH_PRIORITY 42    /* edits: a priority above 255 */
#define RECKONBOUGH_NO_SUCH_TARGET 43   /* edits: a target not below n */
#define RECKONBOUGH_NO_SUCH_VERTEX 44   /* show_loop: the vertex is not below n; place: its number */
#define RECKONBOUGH_SHORT_LIST 45       /* show_loop: a list shorter than 2 * n entries */
#define RECKONBOUGH_NO_LOOP 46          /* show_loop: no cycle of the owner's parity can be reached; place: the vertex */
#define RECKONBOUGH_KEPT_DIFFER 47      /* a record: kept numbers that a fresh count does not give */
#define RECKONBOUGH_NO_SUCH_OWNER 48    /* edits: an owner that is not 0 or 1 */

/* The kept numbers of a record: how many vertices have priority 0 to 255, how many different ones there are, the highest. */
#define RECKONBOUGH_KEPT 258

#ifdef __cplusplus
extern "C" {
#endif

/* s: the words of a set of n vertices. */
static inline size_t reckonbough_set_words(size_t n)
{
    return n / 64 + (n % 64 != 0);
}

/* W: the fewest words of the work area for n vertices and m edges, for games within the limits above. */
static inline size_t reckonbough_work_words(size_t n, size_t m)
{
    return 8 * (n + 2) * reckonbough_set_words(n) + 4 * n + 2 * m + 272;
}

/* The same for reckonbough_quasi_polynomial: 2064 * s words more. */
static inline size_t reckonbough_opinion_words(size_t n, size_t m)
{
    return reckonbough_work_words(n, m) + 2064 * reckonbough_set_words(n);
}

/*
 * Checks the tables.
 * Gives 0 or 1 to 8. The count is 0.
 */
uint64_t reckonbough_check_tables(
    const uint8_t *owners, size_t owners_length,
    const uint16_t *priorities, size_t priorities_length,
    const uint16_t *offsets, size_t offsets_length,
    const uint16_t *targets, size_t targets_length,
    uint64_t *place, uint64_t *count);

/*
 * The attractor of target in within for a player (0 Even, anything else Odd): the smallest set that contains target, each
 * vertex of the player in within with an edge into it, and each other vertex of within that has an edge inside within and
 * all such edges into it.
 * Reads within and target, s words each; target lies inside within. Writes result, s words, and distances and strategy, n
 * entries each. A distance is 0 in target; for a vertex of the player one more than the least of those that its edges end
 * in, in the result; for another vertex one more than the greatest of those in within; outside the result 65,535. The entry
 * of a vertex of the player that was drawn in is the lowest of the least distant that its edges end in; else none. Works in
 * work, W words or more.
 * Gives 0, 1 to 8, 47, 9, 10 or 12. The count is the looks: how many edges end in the result.
 */
uint64_t reckonbough_attractor(
    uint64_t n, uint64_t m,
    const uint8_t *owners, size_t owners_room,
    const uint16_t *priorities, size_t priorities_room,
    const uint16_t *offsets, size_t offsets_room,
    const uint16_t *targets, size_t targets_room,
    const uint64_t *kept, size_t kept_length,
    uint8_t player,
    const uint64_t *within, size_t within_length,
    const uint64_t *target, size_t target_length,
    uint64_t *result, size_t result_length,
    uint16_t *strategy, size_t strategy_length,
    uint16_t *distances, size_t distances_length,
    uint64_t *work, size_t work_length,
    uint64_t *place, uint64_t *count);

/*
 * Solves the game by Zielonka's recursion, in at most budget calls.
 * Writes even and odd, s words each: who wins where; and strategy, n entries: the chosen target for each vertex whose owner
 * wins it and none elsewhere. Works in work, W words or more.
 * Gives 0, 1 to 8, 47, 9, 10 or 13. The count is the calls, those on empty sets included.
 */
uint64_t reckonbough_zielonka(
    uint64_t n, uint64_t m,
    const uint8_t *owners, size_t owners_room,
    const uint16_t *priorities, size_t priorities_room,
    const uint16_t *offsets, size_t offsets_room,
    const uint16_t *targets, size_t targets_room,
    const uint64_t *kept, size_t kept_length,
    uint64_t budget,
    uint64_t *even, size_t even_length,
    uint64_t *odd, size_t odd_length,
    uint16_t *strategy, size_t strategy_length,
    uint64_t *work, size_t work_length,
    uint64_t *place, uint64_t *count);

/*
 * Solves the game by priority promotion, in at most budget rounds. Takes, writes and gives what reckonbough_zielonka does;
 * the count is the rounds. The sets are the same; the strategy may be another.
 */
uint64_t reckonbough_priority_promotion(
    uint64_t n, uint64_t m,
    const uint8_t *owners, size_t owners_room,
    const uint16_t *priorities, size_t priorities_room,
    const uint16_t *offsets, size_t offsets_room,
    const uint16_t *targets, size_t targets_room,
    const uint64_t *kept, size_t kept_length,
    uint64_t budget,
    uint64_t *even, size_t even_length,
    uint64_t *odd, size_t odd_length,
    uint16_t *strategy, size_t strategy_length,
    uint64_t *work, size_t work_length,
    uint64_t *place, uint64_t *count);

/*
 * A second opinion: solves the game by the quasi-polynomial recursion of Parys (2019), two solvers that call each other. It shares
 * the tables, the sets, the predecessors and the attractor with the two solvers above, and nothing of how they go about it.
 * Writes even and odd, s words each: who wins where, the same sets as theirs. There is no strategy and no budget. Works in
 * work, reckonbough_opinion_words or more.
 * Gives 0, 1 to 8, 47, 9 or 10. The count is 0.
 */
uint64_t reckonbough_quasi_polynomial(
    uint64_t n, uint64_t m,
    const uint8_t *owners, size_t owners_room,
    const uint16_t *priorities, size_t priorities_room,
    const uint16_t *offsets, size_t offsets_room,
    const uint16_t *targets, size_t targets_room,
    const uint64_t *kept, size_t kept_length,
    uint64_t *even, size_t even_length,
    uint64_t *odd, size_t odd_length,
    uint64_t *work, size_t work_length,
    uint64_t *place, uint64_t *count);

/*
 * Solves a game in which one player owns every vertex.
 * Writes set, s words: the vertices that the owner wins, those from which a cycle can be reached whose highest priority
 * has the owner's parity. The other player wins the rest. Works in work, W words or more.
 * Gives 0, 1 to 8, 47, 9, 10 or 11. The count is 0.
 */
uint64_t reckonbough_solitaire(
    uint64_t n, uint64_t m,
    const uint8_t *owners, size_t owners_room,
    const uint16_t *priorities, size_t priorities_room,
    const uint16_t *offsets, size_t offsets_room,
    const uint16_t *targets, size_t targets_room,
    const uint64_t *kept, size_t kept_length,
    uint64_t *set, size_t set_length,
    uint64_t *work, size_t work_length,
    uint64_t *place, uint64_t *count);

/*
 * Shows the run: in a game in which one player owns every vertex, a path from the vertex to a cycle whose highest priority has
 * the owner's parity, and the cycle.
 * Writes the front of path and of cycle, 2 * n entries or more each; the rest of both stays. The path begins at the vertex
 * and ends with the cycle's first vertex; it may be that one vertex alone. The cycle's last vertex has an edge to its first,
 * which is not repeated at the end. *path_length is the path's length, and 0 on every refusal; the cycle's is the count less
 * that. Path and cycle together have at most 2 * n vertices, the shared one counted in both. Any such run will do; this one
 * goes to the nearest vertex that can be the highest of a cycle of the lowest such priority, and round from there by the
 * fewest edges. Works in work, W words or more; the first W words are zero after 46 too.
 * Gives 0, 1 to 8, 47, 10, 11, 44, 45 or 46, in this order. It gives 46 exactly where reckonbough_solitaire's set lacks the
 * vertex. The count is both lengths together.
 */
uint64_t reckonbough_show_loop(
    uint64_t n, uint64_t m,
    const uint8_t *owners, size_t owners_room,
    const uint16_t *priorities, size_t priorities_room,
    const uint16_t *offsets, size_t offsets_room,
    const uint16_t *targets, size_t targets_room,
    const uint64_t *kept, size_t kept_length,
    uint64_t vertex,
    uint16_t *path, size_t path_room,
    uint16_t *cycle, size_t cycle_room,
    uint64_t *work, size_t work_length,
    uint64_t *path_length,
    uint64_t *place, uint64_t *count);

/*
 * Checks a claim: that Even wins from even and Odd from odd, each by the entries of strategy.
 * Reads even and odd, s words each, and strategy, n entries: a target of the vertex's edges where the vertex's owner wins
 * it, none elsewhere. Works in work, W words or more.
 * Gives 0 for yes, 1 to 8, 47, 9, 10, or 21 to 24 for the first thing that is wrong, with 25 in the place of 22 where every
 * entry is none: a result that was kept without its strategy. The count is 0.
 */
uint64_t reckonbough_check(
    uint64_t n, uint64_t m,
    const uint8_t *owners, size_t owners_room,
    const uint16_t *priorities, size_t priorities_room,
    const uint16_t *offsets, size_t offsets_room,
    const uint16_t *targets, size_t targets_room,
    const uint64_t *kept, size_t kept_length,
    const uint64_t *even, size_t even_length,
    const uint64_t *odd, size_t odd_length,
    const uint16_t *strategy, size_t strategy_length,
    uint64_t *work, size_t work_length,
    uint64_t *place, uint64_t *count);

/*
 * Makes the priorities small without changing who wins: the lowest used becomes 0 or 1 by its parity, each next different
 * one the last new number plus 1 where the parity differs and the same number where it does not. 3, 7, 4 becomes 1, 3, 2;
 * 2, 6 becomes 0, 0; 3, 7, 8 becomes 1, 1, 2. No relabelling that keeps order and parity uses lower or fewer numbers, and
 * compacting what was compacted changes nothing. Writes new_priorities, n numbers, and new_kept, RECKONBOUGH_KEPT numbers, a
 * fresh count of them: with the other tables a record.
 * Gives 0, 1 to 8, 47, or 9 for an output of another length. The count is 0.
 */
uint64_t reckonbough_compact(
    uint64_t n, uint64_t m,
    const uint8_t *owners, size_t owners_room,
    const uint16_t *priorities, size_t priorities_room,
    const uint16_t *offsets, size_t offsets_room,
    const uint16_t *targets, size_t targets_room,
    const uint64_t *kept, size_t kept_length,
    uint16_t *new_priorities, size_t new_priorities_length,
    uint64_t *new_kept, size_t new_kept_length,
    uint64_t *place, uint64_t *count);

/*
 * Reads a game from a text in PGSolver's form: an optional `parity N;` with N the highest identifier, then records of
 * identifier, priority, owner, targets with commas between, an optional quoted name, and a semicolon. Space, tab, CR and LF
 * separate. Records may stand in any order.
 * The rooms of the tables are the limits: at most as many vertices as owners has room for, at most as many edges as targets
 * has, never more than 4096 and 16384; at most most_bytes bytes; no number above 65535. priorities is as long as owners, offsets
 * one longer. An owner above 255 is kept as 255. Works in work, owners' room + targets' room words or more.
 * With 0 the tables stand at the front of their rooms, every entry behind them is zero, *n and *m are their sizes, and kept,
 * RECKONBOUGH_KEPT numbers, is a fresh count of the priorities: together a record that every function which takes one accepts.
 * With 9 and 10 nothing is written but place and count. With every other number all four tables and kept are zero, and *n and
 * *m are 0. With every number but 9 and 10 the first owners' room + targets' room words of work are zero afterwards.
 * Gives, in this order: 9 (a kept of another length, or rooms that do not fit each other), 10, 30 or 32 (the earlier byte, and
 * 32 at the same byte), 31, then of 1 to 8 what can occur: 4, 5 or 7; else 0. The count is 0.
 */
uint64_t reckonbough_read(
    const uint8_t *text, size_t text_length,
    uint64_t most_bytes,
    uint8_t *owners, size_t owners_length,
    uint16_t *priorities, size_t priorities_length,
    uint16_t *offsets, size_t offsets_length,
    uint16_t *targets, size_t targets_length,
    uint64_t *kept, size_t kept_length,
    uint64_t *work, size_t work_length,
    uint64_t *n, uint64_t *m,
    uint64_t *place, uint64_t *count);

/*
 * Reads what the text says, also where it is no game: takes, writes and gives what reckonbough_read does, but no kept and none of
 * 1 to 8.
 */
uint64_t reckonbough_read_tables(
    const uint8_t *text, size_t text_length,
    uint64_t most_bytes,
    uint8_t *owners, size_t owners_length,
    uint16_t *priorities, size_t priorities_length,
    uint16_t *offsets, size_t offsets_length,
    uint16_t *targets, size_t targets_length,
    uint64_t *work, size_t work_length,
    uint64_t *n, uint64_t *m,
    uint64_t *place, uint64_t *count);

/*
 * A text that comes in portions, as over a serial line: one start, any number of portions, empty ones among them, and the end
 * give the same number, place, tables, kept numbers and sizes as reckonbough_read of the whole text. The place is counted from
 * the start of the text. state is 32 words or more, for the caller to keep between the calls with the four tables; what they
 * hold until the end is free. Handed others than the last call left, a call still ends and stays inside them, and what it gives
 * is free. Words of state beyond 32 stay.
 *
 * The start forgets whatever came before. Gives 9 (rooms that do not fit each other), 10 (a state shorter than 32 words); else 0.
 * With 9 and 10 no function for portions writes anything but place and count, and the text can go on as if the call had not been.
 */
uint64_t reckonbough_read_start(
    uint64_t most_bytes,
    uint64_t *state, size_t state_length,
    uint8_t *owners, size_t owners_length,
    uint16_t *priorities, size_t priorities_length,
    uint16_t *offsets, size_t offsets_length,
    uint16_t *targets, size_t targets_length,
    uint64_t *place, uint64_t *count);

/*
 * One portion more. Gives 9, 10, 30 or 32 where one of its bytes is refused, and then all four tables are zero at once; else 0. After
 * a refusal or the end it changes nothing and gives that outcome again.
 */
uint64_t reckonbough_read_portion(
    const uint8_t *portion, size_t portion_length,
    uint64_t *state, size_t state_length,
    uint8_t *owners, size_t owners_length,
    uint16_t *priorities, size_t priorities_length,
    uint16_t *offsets, size_t offsets_length,
    uint16_t *targets, size_t targets_length,
    uint64_t *place, uint64_t *count);

/*
 * The end of the text: gives and leaves what reckonbough_read does. Called again, or after a refusal, it gives the same and
 * writes kept, n and m again; state and tables stay. 10 is here a state or a work area that is too short.
 */
uint64_t reckonbough_read_end(
    uint64_t *state, size_t state_length,
    uint8_t *owners, size_t owners_length,
    uint16_t *priorities, size_t priorities_length,
    uint16_t *offsets, size_t offsets_length,
    uint16_t *targets, size_t targets_length,
    uint64_t *kept, size_t kept_length,
    uint64_t *work, size_t work_length,
    uint64_t *n, uint64_t *m,
    uint64_t *place, uint64_t *count);

/*
 * Mends an incomplete export, whose targets need not be below n and whose vertices need no edge: drops each edge whose target
 * is not below n, then gives every vertex that is left without an edge a self loop and, as its owner is stuck and loses there,
 * priority 1 if the owner is Even and 0 if Odd. All other vertices, edges and their order stay; so do the owners. The result
 * passes reckonbough_check_tables, and a game that passed already comes back the same, with an empty list.
 * Writes new_priorities, n numbers; new_offsets, n + 1 numbers, the last of which is the new m; new_targets, the new m
 * numbers; and list, count numbers: each dropped edge by its old index, ascending, then each altered vertex, ascending, each
 * followed by its old priority. Each may be longer; the rest of it stays. n numbers, n + 1, m + n and m + 2 * n always do.
 * To read the list: altered vertices = (count + new m - m) / 3, dropped edges = count - 2 * altered vertices.
 * Gives 0, 1 to 6, 3 too where the result has more than 16384 edges (place 0), or 35 (place 0). The count is the list's length.
 */
uint64_t reckonbough_mend(
    const uint8_t *owners, size_t owners_length,
    const uint16_t *priorities, size_t priorities_length,
    const uint16_t *offsets, size_t offsets_length,
    const uint16_t *targets, size_t targets_length,
    uint16_t *new_priorities, size_t new_priorities_length,
    uint16_t *new_offsets, size_t new_offsets_length,
    uint16_t *new_targets, size_t new_targets_length,
    uint16_t *list, size_t list_length,
    uint64_t *place, uint64_t *count);

/*
 * Writes the game as PGSolver text: `parity N;` with N the highest identifier, then for each vertex in order its identifier,
 * priority, owner and targets, one space between fields, commas without spaces between targets, no leading zeros and no
 * name; a semicolon and a line feed behind each. Writes the front of text; what is behind stays. RECKONBOUGH_MAX_TEXT bytes
 * are enough for every game.
 * Gives 0, 1 to 8, 47, 33 or 34. The count is the text's length.
 */
uint64_t reckonbough_write(
    uint64_t n, uint64_t m,
    const uint8_t *owners, size_t owners_room,
    const uint16_t *priorities, size_t priorities_room,
    const uint16_t *offsets, size_t offsets_room,
    const uint16_t *targets, size_t targets_room,
    const uint64_t *kept, size_t kept_length,
    uint8_t *text, size_t text_length,
    uint64_t *place, uint64_t *count);

/*
 * Counts the priorities of a record afresh.
 * Writes kept, RECKONBOUGH_KEPT numbers.
 * Gives 0, 1 to 8, or 9 for a kept of another length. The count is 0.
 */
uint64_t reckonbough_fresh_count(
    uint64_t n, uint64_t m,
    const uint8_t *owners, size_t owners_room,
    const uint16_t *priorities, size_t priorities_room,
    const uint16_t *offsets, size_t offsets_room,
    const uint16_t *targets, size_t targets_room,
    uint64_t *kept, size_t kept_length,
    uint64_t *place, uint64_t *count);

/*
 * Sets the priority of a vertex.
 * Writes that entry of priorities, and kept, which is then a fresh count. A refusal writes nothing.
 * Gives 0, 1 to 8, 47, 41 or 42. The count is 0.
 */
uint64_t reckonbough_set_priority(
    uint64_t n, uint64_t m,
    const uint8_t *owners, size_t owners_room,
    uint16_t *priorities, size_t priorities_room,
    const uint16_t *offsets, size_t offsets_room,
    const uint16_t *targets, size_t targets_room,
    uint64_t *kept, size_t kept_length,
    uint64_t vertex, uint64_t priority,
    uint64_t *place, uint64_t *count);

/*
 * Sets the owner of a vertex, 0 or 1.
 * Writes that entry of owners. A refusal writes nothing.
 * Gives 0, 1 to 8, 47, 41 or 48. The count is 0.
 */
uint64_t reckonbough_set_owner(
    uint64_t n, uint64_t m,
    uint8_t *owners, size_t owners_room,
    const uint16_t *priorities, size_t priorities_room,
    const uint16_t *offsets, size_t offsets_room,
    const uint16_t *targets, size_t targets_room,
    const uint64_t *kept, size_t kept_length,
    uint64_t vertex, uint64_t owner,
    uint64_t *place, uint64_t *count);

/*
 * Turns an edge to another target.
 * Writes that entry of targets. A refusal writes nothing.
 * Gives 0, 1 to 8, 47, 41 or 43. The count is 0.
 */
uint64_t reckonbough_turn_edge(
    uint64_t n, uint64_t m,
    const uint8_t *owners, size_t owners_room,
    const uint16_t *priorities, size_t priorities_room,
    const uint16_t *offsets, size_t offsets_room,
    uint16_t *targets, size_t targets_room,
    const uint64_t *kept, size_t kept_length,
    uint64_t edge, uint64_t target,
    uint64_t *place, uint64_t *count);

#ifdef __cplusplus
}
#endif

#endif
