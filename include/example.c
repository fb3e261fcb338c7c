/* An example: one pixel to ACES and back, a refusal, the tolerant way back, and a reel with its sums.
 *
 *   gcc -Iinclude include/example.c target/staticlib/libropeinstant.a -o target/example && target/example */
#include <inttypes.h>
#include <stdio.h>
#include <string.h>

#include "ropeinstant.h"

static void say(const char *what, uint32_t number, uint64_t at)
{
    if (number == 0)
        printf("%s: %" PRIu64 " record(s)\n", what, at);
    else
        printf("%s: refused %" PRIu32 " at record %" PRIu64 ": %s\n", what, number, at, ropeinstant_words(number));
}

static void compare(const uint8_t pixel[10], const uint8_t back[10])
{
    printf("  %s\n", memcmp(pixel, back, 10) == 0 ? "the same codes" : "other codes");
}

/* What a call on a reel answered, and what is kept after it. */
static void say_reel(const char *what, uint32_t number, uint64_t count, const int64_t sums[3])
{
    printf("%s: ", what);
    if (number != 0)
        printf("refused %" PRIu32 ": ", number);
    printf("%s\n  %" PRIu64 " record(s), sums %" PRId64 " %" PRId64 " %" PRId64 "\n", ropeinstant_words(number), count, sums[0], sums[1], sums[2]);
}

/* A reel, whose sums are kept while its records change. */
static void meter(const uint8_t pixel[10])
{
    /* Curve 4, width 12, EI 0, codes 1000 (0x03e8) three times. */
    const uint8_t grey[10] = {4, 12, 0, 0, 0xe8, 0x03, 0xe8, 0x03, 0xe8, 0x03};
    uint8_t reel[ROPEINSTANT_REEL_BYTES];
    uint64_t count = 0;
    int64_t sums[3] = {0, 0, 0};
    uint32_t number = ropeinstant_reel_append(reel, sizeof reel, &count, sums, pixel);

    say_reel("append", number, count, sums);
    number = ropeinstant_reel_append(reel, sizeof reel, &count, sums, grey);
    say_reel("append", number, count, sums);
    number = ropeinstant_reel_replace(reel, sizeof reel, count, sums, 0, grey);
    say_reel("replace at 0", number, count, sums);
    number = ropeinstant_reel_replace(reel, sizeof reel, count, sums, 2, pixel); /* 0 and 1 are held */
    say_reel("replace at 2", number, count, sums);
    number = ropeinstant_reel_drop(reel, sizeof reel, &count, sums);
    say_reel("drop", number, count, sums);
}

int main(void)
{
    /* Curve 3, width 12, EI 800 (0x0320), codes 100, 0, 0. */
    const uint8_t pixel[10] = {3, 12, 0x20, 0x03, 100, 0, 0, 0, 0, 0};
    uint8_t aces[28], back[10], tolerant[10];
    uint64_t at;
    uint32_t number = ropeinstant_pixel_to_aces(pixel, sizeof pixel, aces, sizeof aces, &at);

    say("to ACES", number, at);
    for (int i = 0; i < 3; i++) {
        int64_t units;
        memcpy(&units, aces + 4 + 8 * i, sizeof units);
        printf("  %" PRId64 "\n", units);
    }

    number = ropeinstant_aces_to_pixel(aces, sizeof aces, back, sizeof back, &at);
    say("back", number, at);
    compare(pixel, back);

    aces[4] += 1; /* one unit more: no pixel has these numbers */
    number = ropeinstant_aces_to_pixel(aces, sizeof aces, back, sizeof back, &at);
    say("back, one unit off", number, at);
    number = ropeinstant_aces_to_pixel_tolerant(aces, sizeof aces, tolerant, sizeof tolerant, &at);
    say("back, one unit off, tolerant", number, at);
    compare(pixel, tolerant);
    meter(pixel);
    return 0;
}
