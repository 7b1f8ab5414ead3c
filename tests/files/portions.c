/*
 * Reads the cases of tests/files on standard input and reads each text once whole and then in portions, through the C
 * functions: cut after each byte, byte by byte, and in three random ways with empty portions among them. Number, place,
 * sizes, tables, kept numbers and work area must be the same each time, and a portion after the outcome must change nothing.
 */
#include <stdio.h>
#include <stdlib.h>
#include <string.h>

#include "reckonbough.h"

enum { MOST = 16384, VERTICES = 128, EDGES = 512, STATE = 32, WORK = VERTICES + EDGES, LONGEST = 1 << 16 };

struct result {
    uint64_t number, place, count, n, m;
    uint8_t owners[VERTICES];
    uint16_t priorities[VERTICES], offsets[VERTICES + 1], targets[EDGES];
    uint64_t kept[RECKONBOUGH_KEPT], work[WORK];
};

#define OUT(r) (r)->owners, VERTICES, (r)->priorities, VERTICES, (r)->offsets, VERTICES + 1, (r)->targets, EDGES

static uint64_t state[STATE];
static unsigned long random_now = 1;

static size_t random_below(size_t limit)
{
    random_now = random_now * 6364136223846793005UL + 1442695040888963407UL;
    return (size_t)(random_now >> 33) % limit;
}

static void begin(struct result *r)
{
    memset(r, 0xa5, sizeof *r);
    memset(state, 0xa5, sizeof state);
    r->number = reckonbough_read_start(MOST, state, STATE, OUT(r), &r->place, &r->count);
}

/* One portion; where an outcome is there afterwards, one more that must change nothing. */
static int portion(struct result *r, const uint8_t *text, size_t length)
{
    static struct result after;
    static uint64_t kept[STATE];
    r->number = reckonbough_read_portion(text, length, state, STATE, OUT(r), &r->place, &r->count);
    if (r->number == 0)
        return 1;
    after = *r;
    memcpy(kept, state, sizeof state);
    after.number = reckonbough_read_portion((const uint8_t *)";", 1, state, STATE, OUT(&after), &after.place, &after.count);
    return memcmp(&after, r, sizeof after) == 0 && memcmp(kept, state, sizeof state) == 0;
}

static void end(struct result *r)
{
    memset(r->work, 0x5a, sizeof r->work);
    r->number = reckonbough_read_end(state, STATE, OUT(r), r->kept, RECKONBOUGH_KEPT, r->work, WORK, &r->n, &r->m,
                                     &r->place, &r->count);
}

/* The text in two portions, the first so long. */
static int cut_at(const struct result *whole, const uint8_t *text, size_t length, size_t first)
{
    static struct result r;
    begin(&r);
    const int kept = portion(&r, text, first) && portion(&r, text + first, length - first);
    end(&r);
    return kept && memcmp(&r, whole, sizeof r) == 0;
}

/* In portions of random lengths below a limit, 0 among them, or of one byte where the limit is 0; the end twice. */
static int cut_often(const struct result *whole, const uint8_t *text, size_t length, size_t limit)
{
    static struct result r;
    int kept = 1;
    begin(&r);
    for (size_t at = 0; at < length;) {
        size_t next = limit == 0 ? 1 : random_below(limit);
        if (next > length - at)
            next = length - at;
        kept &= portion(&r, text + at, next);
        at += next;
    }
    end(&r);
    kept &= memcmp(&r, whole, sizeof r) == 0;
    end(&r);
    return kept && memcmp(&r, whole, sizeof r) == 0;
}

/* How many ways to cut a text differ from reading it whole. */
static unsigned differing(const uint8_t *text, size_t length)
{
    static struct result whole;
    memset(&whole, 0xa5, sizeof whole);
    whole.number = reckonbough_read(text, length, MOST, OUT(&whole), whole.kept, RECKONBOUGH_KEPT, whole.work, WORK,
                                    &whole.n, &whole.m, &whole.place, &whole.count);
    unsigned wrong = 0;
    for (size_t first = 0; first <= length; first++)
        wrong += !cut_at(&whole, text, length, first);
    wrong += !cut_often(&whole, text, length, 0);
    wrong += !cut_often(&whole, text, length, 4);
    wrong += !cut_often(&whole, text, length, 17);
    wrong += !cut_often(&whole, text, length, length + 2);
    return wrong;
}

/* One byte of printf's format at *from; the text behind it. */
static const char *one_byte(const char *from, uint8_t *into)
{
    if (from[0] == '%' && from[1] == '%') {
        *into = '%';
        return from + 2;
    }
    if (from[0] != '\\') {
        *into = (uint8_t)from[0];
        return from + 1;
    }
    if (from[1] >= '0' && from[1] <= '7') {
        unsigned value = 0, digits = 0;
        while (digits < 3 && from[1 + digits] >= '0' && from[1 + digits] <= '7')
            value = 8 * value + (unsigned)(from[1 + digits++] - '0');
        *into = (uint8_t)value;
        return from + 1 + digits;
    }
    const char *const names = "nrtabfv\\\"", *const bytes = "\n\r\t\a\b\f\v\\\"";
    const char *const found = strchr(names, from[1]);
    *into = found ? (uint8_t)bytes[found - names] : (uint8_t)from[1];
    return from + 2;
}

/* The bytes of a case's text; {COUNT*BYTE} is a run of one byte. */
static size_t bytes_of(const char *from, uint8_t *into)
{
    size_t length = 0;
    while (*from) {
        char *star;
        const unsigned long run = *from == '{' ? strtoul(from + 1, &star, 10) : 0;
        uint8_t byte;
        if (*from == '{' && star != from + 1 && *star == '*') {
            from = one_byte(star + 1, &byte) + 1;
            memset(into + length, byte, run);
            length += run;
        } else {
            from = one_byte(from, &byte);
            into[length++] = byte;
        }
    }
    return length;
}

int main(void)
{
    static char line[4 * LONGEST];
    static uint8_t text[LONGEST];
    unsigned texts = 0, wrong = 0;
    while (fgets(line, sizeof line, stdin)) {
        char *const arguments = strchr(line, '|');
        char *const from = arguments ? strchr(arguments + 1, '|') : NULL;
        char *const to = from ? strrchr(from + 1, '|') : NULL;
        if (!to)
            return 2;
        *to = 0;
        if (strcmp(from + 1, "!") == 0)
            continue;
        const unsigned differ = differing(text, bytes_of(from + 1, text));
        if (differ) {
            *arguments = 0;
            fprintf(stderr, "%s: %u ways to cut it differ\n", line, differ);
        }
        texts++;
        wrong += differ != 0;
    }
    printf("%u texts, %u differ\n", texts, wrong);
    return wrong != 0 || texts < 1000;
}
