/* Ropeinstant for C: the conversions of strips and of float pixels, reels with their sums, and the top code of a width, for x86-64 Linux. A
 * program that uses them is compiled by
 *
 *   gcc program.c $(pkg-config --cflags --libs ropeinstant) -o program       with the installed library (`make install`)
 *   gcc -Iinclude program.c target/staticlib/libropeinstant.a -o program      in the repository (`./ropeinstant --version` builds it)
 *
 * A strip is bytes: records of one size, one after the other, with no header; numbers are little endian. Each record begins with its
 * setting: curve (1 byte), width (1 byte), EI (2 bytes). A width is a count of bits, at full range; 140 is the legal range of 12 bits, the
 * codes 256 to 3760; and width 16 of curve 4 is the 12-bit code times 16, as recorders write it, the multiples of 16 from 0 to 65520. A pixel
 * record has 10 bytes, with three codes of 2 bytes; a scene record and an ACES record have 28, with three signed numbers of 8 bytes in units
 * of 2^-24; a half record has 10, with three IEEE 754 binary16 numbers of 2 bytes.
 *
 * The master, from which every code of the camera comes back, is the ACES record of 28 bytes. A half record is no master: different pixels may
 * share one.
 *
 * From ACES numbers to codes there are three ways. The way back, ropeinstant_aces_to_pixel, is for an untouched master: it refuses a record that
 * no pixel gives. The tolerant way back, ropeinstant_aces_to_pixel_tolerant, is for a master that another package moved by a few units when it
 * saved it: it gives the pixel whose ACES numbers are within 5 units of the record's in every channel, and refuses where there is none. Two
 * different pixels of a setting differ by at least 12 units in some channel, so that there is never more than one. The graded road,
 * ropeinstant_graded_to_pixel, is for graded numbers: it gives codes for any numbers from -2^38 to 2^38, and never says that something was
 * changed, so that a damaged master may come out as some pixels without a word.
 *
 * Curve 3 is LogC3 and curve 4 LogC4. Curve 2 is LogC of SUP 2.x firmware, with widths 10 and 12. Its scene numbers are units of normalised
 * sensor value. It has no ACES numbers, since ARRI publishes no ACES matrix for it: in a conversion to or from ACES one record of curve 2
 * refuses the whole strip, by 12.
 *
 * Every conversion of strips reads in[0 .. in_len) and returns
 *   0       converted: *at is the count of records. Each record is written in its own stretch of the output, from out[0] on, and the bytes
 *           beyond the last are unchanged;
 *   else    refused: the number is one of the causes below, *at is the index of the first refused record (0 for 1 and 2), and no byte
 *           of out has changed.
 * It never changes a byte of in, and writes *at in every case. This is proved, for any bytes and any lengths (crates/ropeinstant).
 *
 * A call takes no memory but its stack, of which ROPEINSTANT_STACK bytes are enough (tests/stack.c measures it), keeps nothing from one to the
 * next, and may be made on any thread.
 *
 * What the caller owes, and no proof sees: each pointer is not null (even for a length of 0) and points to as many bytes as its
 * length says, or to the values that its type says (one for *at and *count); in, out and *at do not overlap, nor do reel, *count, sums and
 * record; nothing else writes them during the call. */
#ifndef ROPEINSTANT_H
#define ROPEINSTANT_H

#include <stddef.h>
#include <stdint.h>

#ifdef __cplusplus
extern "C" {
#endif

/* The bytes of stack that a call needs at most, its callees' included. */
#define ROPEINSTANT_STACK 49152

/* The most records that a reel holds, and the bytes of a strip with room for them. */
#define ROPEINSTANT_REEL_RECORDS 4096
#define ROPEINSTANT_REEL_BYTES 40960

/* Why a strip, a float pixel or a call on a reel is refused; ropeinstant_words says it. */
enum ropeinstant_refusal {
    ROPEINSTANT_PARTIAL_RECORD = 1,
    ROPEINSTANT_SHORT_OUTPUT = 2,
    ROPEINSTANT_UNKNOWN_CURVE = 3,
    ROPEINSTANT_UNKNOWN_WIDTH = 4,
    ROPEINSTANT_UNKNOWN_EI = 5,
    ROPEINSTANT_CODE_ABOVE_TOP = 6,
    ROPEINSTANT_SCENE_OUT_OF_RANGE = 7,
    ROPEINSTANT_FLOAT_NOT_FINITE = 8,
    ROPEINSTANT_FLOAT_OUT_OF_RANGE = 9,
    ROPEINSTANT_NO_PIXEL = 10,
    ROPEINSTANT_CODE_BELOW_FIRST = 11,
    ROPEINSTANT_NO_MATRIX = 12,
    ROPEINSTANT_CODE_NOT_DIVISIBLE = 13,
    ROPEINSTANT_GRADED_OUT_OF_RANGE = 14,
    ROPEINSTANT_REEL_FULL = 15,
    ROPEINSTANT_NOT_HELD = 16,
};

/* A refusal's number in words; "done" for 0, and "no such refusal" for a number that no function returns. */
static inline const char *ropeinstant_words(uint32_t number)
{
    switch (number) {
    case 0: return "done";
    case ROPEINSTANT_PARTIAL_RECORD: return "the input is not a whole number of records";
    case ROPEINSTANT_SHORT_OUTPUT: return "the output is shorter than the records need";
    case ROPEINSTANT_UNKNOWN_CURVE: return "the curve is not 2, 3 or 4";
    case ROPEINSTANT_UNKNOWN_WIDTH: return "the width is not one of the curve's";
    case ROPEINSTANT_UNKNOWN_EI: return "the EI is not one of the curve's";
    case ROPEINSTANT_CODE_ABOVE_TOP: return "a code is above the top code of its width";
    case ROPEINSTANT_SCENE_OUT_OF_RANGE: return "a scene number to encode is outside -2^40 to 2^40";
    case ROPEINSTANT_FLOAT_NOT_FINITE: return "a float or a half float is infinite or not a number";
    case ROPEINSTANT_FLOAT_OUT_OF_RANGE: return "a float is below -65536 or above 65536";
    case ROPEINSTANT_NO_PIXEL: return "no pixel of the setting has this ACES triple (tolerant: nor one within 5 units of it in every channel)";
    case ROPEINSTANT_CODE_BELOW_FIRST: return "a code is below the first code of its width";
    case ROPEINSTANT_NO_MATRIX: return "the curve has no ACES matrix";
    case ROPEINSTANT_CODE_NOT_DIVISIBLE: return "a code of curve 4, width 16, is not a multiple of 16";
    case ROPEINSTANT_GRADED_OUT_OF_RANGE: return "a graded ACES number is outside -2^38 to 2^38";
    case ROPEINSTANT_REEL_FULL: return "the reel is full";
    case ROPEINSTANT_NOT_HELD: return "the reel does not hold the record to replace or drop";
    default: return "no such refusal";
    }
}

/* Decoding: pixel records (10 bytes) to scene records (28 bytes). Each scene number is within 51/100 of a unit of the exact curve, and is
 * the nearest whole number of units. Refuses by 1 to 6, 11 and 13. */
uint32_t ropeinstant_pixel_to_scene(const uint8_t *in, size_t in_len, uint8_t *out, size_t out_len, uint64_t *at);

/* Encoding: scene records (28 bytes) to pixel records (10 bytes), each number to the nearest code. Refuses by 1 to 5 and 7. */
uint32_t ropeinstant_scene_to_pixel(const uint8_t *in, size_t in_len, uint8_t *out, size_t out_len, uint64_t *at);

/* Pixel records (10 bytes) to ACES records (28 bytes). Each ACES number is within 9/8 of a unit of what the exact curve and matrix give.
 * Refuses by 1 to 6 and 11 to 13. */
uint32_t ropeinstant_pixel_to_aces(const uint8_t *in, size_t in_len, uint8_t *out, size_t out_len, uint64_t *at);

/* The way back: ACES records (28 bytes) to the pixel records (10 bytes) with exactly these ACES numbers. Refuses by 1 to 5, 10 and 12.
 * A strip of 16 to 4096 records is converted in one pass, with a buffer of 40 KiB on the stack, and any other in two, which take almost
 * twice the time: a longer strip may be cut at a record's border and converted in parts. */
uint32_t ropeinstant_aces_to_pixel(const uint8_t *in, size_t in_len, uint8_t *out, size_t out_len, uint64_t *at);

/* The tolerant way back: ACES records (28 bytes) to the pixel records (10 bytes) whose ACES numbers are within 5 units of these in every channel.
 * A strip that ropeinstant_aces_to_pixel converts becomes the same pixels. Refuses by 1 to 5 and 12, and by 10 where no pixel is within 5 units
 * in every channel.
 * Its passes are those of ropeinstant_aces_to_pixel. */
uint32_t ropeinstant_aces_to_pixel_tolerant(const uint8_t *in, size_t in_len, uint8_t *out, size_t out_len, uint64_t *at);

/* ACES records (28 bytes) to half records (10 bytes), each number to the nearest finite half, of two the one with the even fraction; a number
 * beyond 65504 or -65504 gives that end. Different pixels may share a half record: what this writes is no master. Refuses by 1 to 5 and 12. */
uint32_t ropeinstant_aces_to_half(const uint8_t *in, size_t in_len, uint8_t *out, size_t out_len, uint64_t *at);

/* Half records (10 bytes) to ACES records (28 bytes), exactly; both zeros give 0. Written again they are the same bits, save that minus zero
 * becomes plus zero. Refuses by 1 to 5, 12 and 8. */
uint32_t ropeinstant_half_to_aces(const uint8_t *in, size_t in_len, uint8_t *out, size_t out_len, uint64_t *at);

/* The graded road: graded ACES records (28 bytes) to pixel records (10 bytes). It is ropeinstant_graded_to_scene followed by
 * ropeinstant_scene_to_pixel: the code nearest to each scene number, of two the lower, and so the first or the top code where that is out of the
 * camera's range. A strip that ropeinstant_aces_to_pixel converts becomes the same pixels. Refuses by 1 to 5, 12 and 14. */
uint32_t ropeinstant_graded_to_pixel(const uint8_t *in, size_t in_len, uint8_t *out, size_t out_len, uint64_t *at);

/* The same ACES records to scene records (28 bytes). The published matrix, rounded once, takes the three scene numbers to ACES numbers that
 * differ from those given by at most 1 unit in each channel. Each scene number is from -2^40 to 2^40. Refuses by 1 to 5, 12 and 14. */
uint32_t ropeinstant_graded_to_scene(const uint8_t *in, size_t in_len, uint8_t *out, size_t out_len, uint64_t *at);

/* Float pixels, one at a time. Both return 0, or the number of the refusal, and then nothing that was lent has changed. This is proved, for
 * any numbers.
 *
 * Decoding: the three codes' scene numbers as floats, exactly: a scene number over 2^24. Refuses by 3 to 6, 11 and 13. */
uint32_t ropeinstant_codes_to_floats(uint8_t curve, uint8_t width, uint16_t ei, uint16_t red, uint16_t green, uint16_t blue, double floats[3]);

/* Encoding: each float, taken to the nearest unit, to the nearest code; a float pixel that was decoded gives its codes again. Refuses by
 * 3 to 5, 8 and 9. */
uint32_t ropeinstant_floats_to_codes(uint8_t curve, uint8_t width, uint16_t ei, double red, double green, double blue, uint16_t codes[3]);

/* A reel: pixel records, at most ROPEINSTANT_REEL_RECORDS of them, with the three sums of their scene numbers, so that an exposure meter need not
 * add up the whole reel for every display. The caller has all of it: the strip reel[0 .. reel_len), *count, how many records stand in it from
 * reel[0] on, and sums, in units of 2^-24, of red, green and blue. An empty reel is a count of 0 and sums of 0, over any bytes:
 *
 *   uint8_t reel[ROPEINSTANT_REEL_BYTES];
 *   uint64_t count = 0;
 *   int64_t sums[3] = {0, 0, 0};
 *
 * Each call returns 0, or the number of the refusal, and then nothing that was lent has changed. After any list of calls from an empty reel
 * the sums are those of the records that it holds. This is proved, and so is what a call does with any other bytes, count and sums. (The mean
 * scene value of red is sums[0] over the count and over 2^24.) A call reads no record of the strip but the one that is replaced or dropped, and takes
 * as long however many there are. Records of several settings may share a reel, but none of curve 2, which is refused by 12, since sensor values
 * and scene values cannot be added.
 *
 * An index is held where it is below the count, and below ROPEINSTANT_REEL_RECORDS and the number of whole records in the strip: a shorter strip is
 * full sooner, and of a longer one the rest is never used. For a record in the strip that appending would refuse, since something else wrote
 * there, nothing is taken off. A sum that leaves 64 bits wraps around; from an empty reel none goes beyond 2^45.
 *
 * Appending: the record is written behind the last, *count rises by one, and its scene numbers are added. Refuses by 15 where the reel is
 * full, whatever the record; then by 3 to 6 and 11 to 13, as ropeinstant_pixel_to_aces does. */
uint32_t ropeinstant_reel_append(uint8_t *reel, size_t reel_len, uint64_t *count, int64_t sums[3], const uint8_t record[10]);

/* Replacing the record at an index, which counts from 0: its scene numbers are taken off, those of the new record are added, and this is written
 * in its place. Refuses by 16 where the index is not held, whatever the record; then by 3 to 6 and 11 to 13. */
uint32_t ropeinstant_reel_replace(uint8_t *reel, size_t reel_len, uint64_t count, int64_t sums[3], uint64_t index, const uint8_t record[10]);

/* Dropping the last record: its scene numbers are taken off, and *count falls by one; its bytes stay where they are, and are no longer of the
 * reel. Refuses by 16 where the reel is empty (or the count is more than the strip has room for). */
uint32_t ropeinstant_reel_drop(const uint8_t *reel, size_t reel_len, uint64_t *count, int64_t sums[3]);

/* The top code of a width of 1 to 16 bits at full range: two to the width, less one. 0 for any other number, 140 among them, whose codes end
 * at 3760. (The codes of curve 4, width 16, end at 16 times the top code of 12 bits.) It does not say that a curve has the width: a conversion
 * refuses by 4 where it has not. This is proved, for every width. */
uint16_t ropeinstant_top_code(uint8_t width);

#ifdef __cplusplus
}
#endif

#endif
