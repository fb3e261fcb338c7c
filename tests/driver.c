/* Runs the conversions of libropeinstant.a in process, for the tests.
 *
 *   driver jobs < JOBS                  jobs: a byte for the conversion (its row below), the lengths of the input and of the output strip,
 *                                       two bytes each, then the bytes of both. For each: the answer's line, then the output's bytes
 *   driver strip CONVERSION FILE        a strip into an output of just its need: the answer's line, then the output's bytes
 *   driver records CONVERSION FILE      each record as a strip of its own: a line for each answer
 *   driver time CONVERSION FILE         nanoseconds a record, the least of several conversions of the strip
 *   driver tops                         the top code of each width byte from 0 to 255, a line each
 *   driver words                        the words of each refusal's number from 0 to 255, a line each
 *
 * The answer's line is `done` and the count of records, or `refused`, the refusal's number and the record's index. */
#include <inttypes.h>
#include <stdio.h>
#include <stdlib.h>
#include <string.h>
#include <time.h>

#include "ropeinstant.h"

enum { REPETITIONS = 9 };

struct conversion {
    const char *name;
    uint32_t (*convert)(const uint8_t *, size_t, uint8_t *, size_t, uint64_t *);
    size_t from, to; /* bytes of a record that is read, and of one that is written */
};

static const struct conversion CONVERSIONS[] = {
    {"pixel-to-scene", ropeinstant_pixel_to_scene, 10, 28},
    {"scene-to-pixel", ropeinstant_scene_to_pixel, 28, 10},
    {"pixel-to-aces", ropeinstant_pixel_to_aces, 10, 28},
    {"aces-to-pixel", ropeinstant_aces_to_pixel, 28, 10},
    {"aces-to-half", ropeinstant_aces_to_half, 28, 10},
    {"half-to-aces", ropeinstant_half_to_aces, 10, 28},
    {"graded-to-pixel", ropeinstant_graded_to_pixel, 28, 10},
    {"graded-to-scene", ropeinstant_graded_to_scene, 28, 28},
    {"aces-to-pixel-tolerant", ropeinstant_aces_to_pixel_tolerant, 28, 10},
};
enum { COUNT = sizeof CONVERSIONS / sizeof CONVERSIONS[0] };

struct bytes {
    uint8_t *at;
    size_t length;
};

static void fail(const char *why)
{
    fprintf(stderr, "driver: %s\n", why);
    exit(1);
}

static uint8_t *room(size_t length)
{
    uint8_t *at = malloc(length + 1); /* never null for a length of 0 */
    if (!at)
        fail("no memory");
    return at;
}

static const struct conversion *named(const char *name)
{
    for (size_t i = 0; i < COUNT; i++)
        if (strcmp(CONVERSIONS[i].name, name) == 0)
            return &CONVERSIONS[i];
    fail("no such conversion");
    return NULL;
}

static struct bytes contents(const char *path)
{
    FILE *f = fopen(path, "rb");
    size_t room_for = 1 << 20, n;
    struct bytes b = {room(room_for), 0};
    if (!f)
        fail("no such file");
    while ((n = fread(b.at + b.length, 1, room_for - b.length, f)) > 0) {
        b.length += n;
        if (b.length == room_for && !(b.at = realloc(b.at, room_for *= 2)))
            fail("no memory");
    }
    fclose(f);
    return b;
}

static void print_answer(uint32_t number, uint64_t at)
{
    if (number == 0)
        printf("done %" PRIu64 "\n", at);
    else
        printf("refused %" PRIu32 " %" PRIu64 "\n", number, at);
}

/* Converts, and prints the answer and the output; the input must be as it was. */
static void show(const struct conversion *c, struct bytes in, struct bytes out)
{
    uint8_t *before = room(in.length);
    uint64_t at;
    memcpy(before, in.at, in.length);
    uint32_t number = c->convert(in.at, in.length, out.at, out.length, &at);
    if (memcmp(before, in.at, in.length) != 0)
        fail("the input has changed");
    print_answer(number, at);
    fwrite(out.at, 1, out.length, stdout);
    free(before);
}

static struct bytes read_bytes(size_t length)
{
    struct bytes b = {room(length), length};
    if (fread(b.at, 1, length, stdin) != length)
        fail("a job is cut short");
    return b;
}

static void jobs(void)
{
    uint8_t head[5];
    while (fread(head, 1, sizeof head, stdin) == sizeof head) {
        if (head[0] >= COUNT)
            fail("no such conversion");
        struct bytes in = read_bytes(head[1] + 256 * head[2]);
        struct bytes out = read_bytes(head[3] + 256 * head[4]);
        show(&CONVERSIONS[head[0]], in, out);
        free(in.at);
        free(out.at);
    }
}

/* An output for all the records of an input. */
static struct bytes output_for(const struct conversion *c, struct bytes in)
{
    size_t need = in.length / c->from * c->to;
    struct bytes out = {room(need), need};
    memset(out.at, 0, need);
    return out;
}

static void records(const struct conversion *c, struct bytes in)
{
    uint8_t out[32];
    uint64_t at;
    for (size_t i = 0; i + c->from <= in.length; i += c->from) {
        uint32_t number = c->convert(in.at + i, c->from, out, c->to, &at);
        print_answer(number, at);
    }
}

static double now(void)
{
    struct timespec t;
    clock_gettime(CLOCK_MONOTONIC, &t);
    return t.tv_sec * 1e9 + t.tv_nsec;
}

static void measure(const struct conversion *c, struct bytes in)
{
    struct bytes out = output_for(c, in);
    double best = 0;
    uint64_t at;
    for (int i = 0; i < REPETITIONS; i++) {
        double begun = now();
        uint32_t number = c->convert(in.at, in.length, out.at, out.length, &at);
        double took = now() - begun;
        if (number != 0 || at == 0)
            fail("a strip to be timed must be converted, and not be empty");
        if (i == 0 || took < best)
            best = took;
    }
    printf("%.1f\n", best / at);
}

static void tops(void)
{
    for (int width = 0; width <= UINT8_MAX; width++)
        printf("%" PRIu16 "\n", ropeinstant_top_code(width));
}

static void words(void)
{
    for (int number = 0; number <= UINT8_MAX; number++)
        puts(ropeinstant_words(number));
}

int main(int argc, char **argv)
{
    if (argc == 2 && strcmp(argv[1], "tops") == 0) {
        tops();
        return 0;
    }
    if (argc == 2 && strcmp(argv[1], "words") == 0) {
        words();
        return 0;
    }
    if (argc == 2 && strcmp(argv[1], "jobs") == 0) {
        jobs();
        return 0;
    }
    if (argc != 4)
        fail("usage: driver jobs | tops | words | strip CONVERSION FILE | records CONVERSION FILE | time CONVERSION FILE");
    const struct conversion *c = named(argv[2]);
    struct bytes in = contents(argv[3]);
    if (strcmp(argv[1], "strip") == 0)
        show(c, in, output_for(c, in));
    else if (strcmp(argv[1], "records") == 0)
        records(c, in);
    else if (strcmp(argv[1], "time") == 0)
        measure(c, in);
    else
        fail("no such command");
    return 0;
}
