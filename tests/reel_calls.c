/* Makes lists of calls on reels, for the tests, and shows after each call all that it changed.
 *
 *   reel_calls < LISTS      a list: the length of the strip (4 bytes), the count (8), the three sums (8 each), how many calls there are (4), and the
 *                           strip; then of each call what it is (1 byte: 0 appends, 1 replaces, 2 drops), the index (8) and the record (10)
 *
 * A line for each call: the number that it returned, the count and the three sums after it, and each byte that is another than before the call, as
 * PLACE=VALUE. The places count from the strip's begin, and those of MARGIN bytes before it and behind it are watched too. The record must stay. */
#include <inttypes.h>
#include <stdio.h>
#include <stdlib.h>
#include <string.h>

#include "ropeinstant.h"

enum { MARGIN = 64, APPEND = 0, REPLACE = 1, DROP = 2 };

struct list {
    uint32_t length;
    uint64_t count;
    int64_t sums[3];
    uint32_t calls;
};

struct call {
    uint8_t what;
    uint64_t index;
    uint8_t record[10];
};

static void fail(const char *why)
{
    fprintf(stderr, "reel_calls: %s\n", why);
    exit(1);
}

static void take(void *at, size_t length)
{
    if (fread(at, 1, length, stdin) != length)
        fail("a list is cut short");
}

/* Whether there is another list. */
static int next(struct list *list)
{
    size_t read = fread(&list->length, 1, sizeof list->length, stdin);
    if (read == 0)
        return 0;
    if (read != sizeof list->length)
        fail("a list is cut short");
    take(&list->count, sizeof list->count);
    take(list->sums, sizeof list->sums);
    take(&list->calls, sizeof list->calls);
    return 1;
}

static uint32_t made(struct list *list, uint8_t *reel, const struct call *call)
{
    switch (call->what) {
    case APPEND: return ropeinstant_reel_append(reel, list->length, &list->count, list->sums, call->record);
    case REPLACE: return ropeinstant_reel_replace(reel, list->length, list->count, list->sums, call->index, call->record);
    case DROP: return ropeinstant_reel_drop(reel, list->length, &list->count, list->sums);
    default: fail("no such call"); return 0;
    }
}

static void show(uint32_t number, const struct list *list, const uint8_t *before, const uint8_t *after, size_t whole)
{
    printf("%" PRIu32 " %" PRIu64 " %" PRId64 " %" PRId64 " %" PRId64, number, list->count, list->sums[0], list->sums[1], list->sums[2]);
    if (memcmp(before, after, whole) != 0)
        for (size_t k = 0; k < whole; k++)
            if (before[k] != after[k])
                printf(" %td=%d", (ptrdiff_t)k - MARGIN, after[k]);
    putchar('\n');
}

static void make(struct list *list)
{
    size_t whole = MARGIN + list->length + MARGIN;
    uint8_t *before = calloc(whole, 1), *after = calloc(whole, 1);
    if (!before || !after)
        fail("no memory");
    take(after + MARGIN, list->length);
    memcpy(before, after, whole);
    for (uint32_t k = 0; k < list->calls; k++) {
        struct call call, lent;
        take(&call.what, sizeof call.what);
        take(&call.index, sizeof call.index);
        take(call.record, sizeof call.record);
        lent = call;
        uint32_t number = made(list, after + MARGIN, &lent);
        if (memcmp(call.record, lent.record, sizeof call.record) != 0)
            fail("the record has changed");
        show(number, list, before, after, whole);
        memcpy(before, after, whole);
    }
    free(before);
    free(after);
}

int main(void)
{
    struct list list;
    while (next(&list))
        make(&list);
    return 0;
}
