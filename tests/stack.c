/* How much stack a call takes: each conversion runs on a stack that was painted before, over strips of every curve and width and of the
 * lengths where another way through the library begins, and so do the calls on float pixels and on reels. Prints the most of each; fails
 * where one takes more than the header promises, or is refused.
 *
 *   gcc -Iinclude tests/stack.c target/staticlib/libropeinstant.a -lpthread -o target/stack && target/stack */
#define _GNU_SOURCE
#include <pthread.h>
#include <stdio.h>
#include <stdlib.h>
#include <string.h>

#include "ropeinstant.h"

enum { PROMISED = ROPEINSTANT_STACK, WHOLE = 1 << 20, MOST = 5000, PAINT = 0xa5 };

/* A pixel of each curve and width, those with an ACES matrix first, laid out as a record is. */
struct pixel {
    uint8_t curve, width;
    uint16_t ei, codes[3];
};
static const struct pixel PIXELS[] = {
    {3, 10, 800, {0, 500, 1023}}, {3, 12, 800, {0, 2000, 4095}}, {3, 16, 800, {0, 32000, 65535}},
    {4, 12, 0, {0, 2000, 4095}},  {4, 16, 0, {0, 32000, 65520}}, {4, 140, 0, {256, 2000, 3760}},
    {2, 10, 800, {0, 500, 1023}}, {2, 12, 800, {0, 2000, 4095}},
};
enum { ALL = sizeof PIXELS / sizeof *PIXELS, WITH_MATRIX = 6 };

typedef uint32_t function(const uint8_t *, size_t, uint8_t *, size_t, uint64_t *);

static uint8_t *in, *out;

struct job {
    function *call;
    size_t in_len, out_len;
    void (*other)(void);
};

static void float_pixels(void)
{
    double floats[3];
    uint16_t codes[3];
    for (const struct pixel *p = PIXELS; p < PIXELS + ALL; p++)
        if (ropeinstant_codes_to_floats(p->curve, p->width, p->ei, p->codes[0], p->codes[1], p->codes[2], floats) != 0 ||
            ropeinstant_floats_to_codes(p->curve, p->width, p->ei, floats[0], floats[1], floats[2], codes) != 0)
            exit(1);
}

static void top_codes(void)
{
    for (int width = 0; width <= UINT8_MAX; width++)
        ropeinstant_top_code(width);
}

/* a reel that is filled with pixels, each of which replaces the first one too, and emptied */
static void reels(void)
{
    static uint8_t reel[ROPEINSTANT_REEL_BYTES];
    uint64_t count = 0;
    int64_t sums[3] = {0, 0, 0};
    for (size_t k = 0; k < ROPEINSTANT_REEL_RECORDS; k++) {
        const uint8_t *record = (const uint8_t *)&PIXELS[k % WITH_MATRIX];
        if (ropeinstant_reel_append(reel, sizeof reel, &count, sums, record) != 0 ||
            ropeinstant_reel_replace(reel, sizeof reel, count, sums, 0, record) != 0)
            exit(1);
    }
    while (count > 0)
        if (ropeinstant_reel_drop(reel, sizeof reel, &count, sums) != 0)
            exit(1);
}

/* pixels to half records, by way of ACES */
static uint32_t halves_of(const uint8_t *pixels, size_t length, uint8_t *halves, size_t room, uint64_t *at)
{
    uint32_t number = ropeinstant_pixel_to_aces(pixels, length, out, MOST * 28, at);
    return number != 0 ? number : ropeinstant_aces_to_half(out, length / 10 * 28, halves, room, at);
}

/* pixels to ACES records, each number moved by 5 units */
static uint32_t moved_of(const uint8_t *pixels, size_t length, uint8_t *aces, size_t room, uint64_t *at)
{
    uint32_t number = ropeinstant_pixel_to_aces(pixels, length, aces, room, at);
    for (size_t k = 0; number == 0 && k < *at; k++)
        for (size_t byte = 28 * k + 4; byte < 28 * (k + 1); byte += 8) {
            int64_t units;
            memcpy(&units, aces + byte, sizeof units);
            units += 5;
            memcpy(aces + byte, &units, sizeof units);
        }
    return number;
}

static void *run(void *of)
{
    struct job *job = of;
    uint64_t at;
    if (job->call && job->call(in, job->in_len, out, job->out_len, &at) != 0)
        exit(1);
    if (job->other)
        job->other();
    return NULL;
}

/* the bytes of stack that a thread with a job touches */
static size_t touched(struct job job)
{
    pthread_attr_t attr;
    pthread_t thread;
    uint8_t *stack;
    size_t low = 0;
    if (posix_memalign((void **)&stack, 4096, WHOLE))
        exit(1);
    memset(stack, PAINT, WHOLE);
    pthread_attr_init(&attr);
    pthread_attr_setstack(&attr, stack, WHOLE);
    if (pthread_create(&thread, &attr, run, &job) || pthread_join(thread, NULL))
        exit(1);
    while (low < WHOLE && stack[low] == PAINT)
        low++;
    free(stack);
    return WHOLE - low;
}

int main(void)
{
    const struct {
        const char *name;
        function *call;
        size_t from, pixels;
        function *before;
    } conversions[] = {
        {"pixel to scene", ropeinstant_pixel_to_scene, 10, ALL, NULL},
        {"scene to pixel", ropeinstant_scene_to_pixel, 28, ALL, ropeinstant_pixel_to_scene},
        {"pixel to ACES", ropeinstant_pixel_to_aces, 10, WITH_MATRIX, NULL},
        {"ACES to pixel", ropeinstant_aces_to_pixel, 28, WITH_MATRIX, ropeinstant_pixel_to_aces},
        {"ACES to half", ropeinstant_aces_to_half, 28, WITH_MATRIX, ropeinstant_pixel_to_aces},
        {"half to ACES", ropeinstant_half_to_aces, 10, WITH_MATRIX, halves_of},
        {"graded to pixel", ropeinstant_graded_to_pixel, 28, WITH_MATRIX, ropeinstant_pixel_to_aces},
        {"graded to scene", ropeinstant_graded_to_scene, 28, WITH_MATRIX, ropeinstant_pixel_to_aces},
        {"tolerant ACES to pixel", ropeinstant_aces_to_pixel_tolerant, 28, WITH_MATRIX, moved_of},
    };
    const struct {
        const char *name;
        void (*call)(void);
    } others[] = {{"float pixels", float_pixels}, {"reels", reels}, {"top codes", top_codes}};
    const size_t counts[] = {0, 1, 15, 16, 4096, 4097, MOST};
    size_t none = touched((struct job){NULL, 0, 0, NULL}), greatest = 0;
    uint8_t *pixels = malloc(MOST * 10);
    in = malloc(MOST * 28), out = malloc(MOST * 28);
    for (size_t c = 0; c < sizeof conversions / sizeof *conversions; c++) {
        size_t most = 0;
        uint64_t at;
        for (size_t k = 0; k < MOST; k++)
            memcpy(pixels + 10 * k, &PIXELS[k % conversions[c].pixels], 10);
        memcpy(in, pixels, MOST * 10);
        if (conversions[c].before && conversions[c].before(pixels, MOST * 10, in, MOST * 28, &at) != 0)
            return 1;
        for (size_t k = 0; k < sizeof counts / sizeof *counts; k++) {
            size_t used = touched((struct job){conversions[c].call, counts[k] * conversions[c].from, MOST * 28, NULL}) - none;
            most = used > most ? used : most;
        }
        printf("stack: %s takes %zu bytes\n", conversions[c].name, most);
        greatest = most > greatest ? most : greatest;
    }
    for (size_t k = 0; k < sizeof others / sizeof *others; k++) {
        size_t used = touched((struct job){NULL, 0, 0, others[k].call}) - none;
        printf("stack: %s take %zu bytes\n", others[k].name, used);
        greatest = used > greatest ? used : greatest;
    }
    return greatest > PROMISED;
}
