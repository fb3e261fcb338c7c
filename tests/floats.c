/* The program `floats` (crates/test_floats) in C, over the library: standard input holds records of 29 bytes, what is asked (0 decoding, else
 * encoding), a setting, and for each channel eight bytes, a code or the bits of a float. A line is printed for each: the bits of the three
 * floats, or the three codes, or `refused` and the number. What a refused call was lent must be as it was. */
#include <inttypes.h>
#include <stdio.h>
#include <string.h>

#include "ropeinstant.h"

static const uint64_t KEPT = 0x0123456789abcdef;

static void print(uint32_t number, uint64_t a, uint64_t b, uint64_t c)
{
    if (number)
        printf("refused %" PRIu32 "\n", number);
    else
        printf("%" PRIu64 " %" PRIu64 " %" PRIu64 "\n", a, b, c);
}

static int decode(const uint8_t *setting, const uint64_t *channels)
{
    uint64_t bits[3] = {KEPT, KEPT, KEPT};
    double floats[3];
    uint32_t number;
    memcpy(floats, bits, sizeof bits);
    number = ropeinstant_codes_to_floats(setting[0], setting[1], setting[2] | setting[3] << 8, channels[0], channels[1], channels[2], floats);
    memcpy(bits, floats, sizeof bits);
    print(number, bits[0], bits[1], bits[2]);
    return number && (bits[0] != KEPT || bits[1] != KEPT || bits[2] != KEPT);
}

static int encode(const uint8_t *setting, const uint64_t *channels)
{
    double floats[3];
    uint16_t codes[3] = {7, 8, 9};
    uint32_t number;
    memcpy(floats, channels, sizeof floats);
    number = ropeinstant_floats_to_codes(setting[0], setting[1], setting[2] | setting[3] << 8, floats[0], floats[1], floats[2], codes);
    print(number, codes[0], codes[1], codes[2]);
    return number && (codes[0] != 7 || codes[1] != 8 || codes[2] != 9);
}

int main(void)
{
    uint8_t record[29];
    int wrong = 0;
    while (fread(record, sizeof record, 1, stdin) == 1) {
        uint64_t channels[3];
        memcpy(channels, record + 5, sizeof channels);
        wrong |= record[0] == 0 ? decode(record + 1, channels) : encode(record + 1, channels);
    }
    return wrong;
}
