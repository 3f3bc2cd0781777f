/* Drives the two calls for alpha identifiers and the independent C of alpha.c over random values and texts, on any machine:
 * texts [SEED [CALLS]]. Each call is made with room enough, with just enough and with one too little; what it reports has to
 * be written, and nothing else touched. */
#pragma push_macro("main")
#undef main
#define main alpha_main
#include "../alpha.c"
#pragma pop_macro("main")

#include "../../include/pomerassol.h"

enum { VALUE = 720, UNITS = 320, UNTOUCHED = 0x5A };

static unsigned seed, made;
static uint32_t sum; /* over what every call returned and wrote */

/* Reports the first difference and ends. */
static void differ(const char *what)
{
    printf("DIFFERENCE: %s\nseed %u, call %u\n", what, seed, made);
    exit(1);
}

/* Adds bytes to the sum. */
static void add_to_sum(const void *from, size_t n)
{
    for (const uint8_t *bytes = from; n > 0; n--)
        sum = (sum ^ *bytes++) * 16777619u;
}

/* Makes a value: of some text, or of a head with any bytes behind it; then padded, damaged or cut. */
static int some_value(unsigned char *value)
{
    int units[UNITS], n = some_units(units), size = 4;
    if (below(4) != 0) {
        size = write_units(units, n, value);
    } else {
        n = (int)below(10);
        value[0] = (unsigned char)(0x80 + below(4));
        value[1] = below(12) ? (unsigned char)n : (unsigned char)below(12);
        for (int i = 2; i < 4; i++)
            value[i] = (unsigned char)below(256);
        for (; size < 4 + n; size++)
            value[size] = below(20) ? (unsigned char)below(256) : 0x1B;
    }
    for (int i = below(4) ? 0 : (int)below(3); i > 0; i--)
        value[size++] = below(5) ? 0xFF : (unsigned char)below(256);
    if (size > 0 && below(4) == 0) {
        int at = (int)below((unsigned)size);
        value[at] = below(3) ? (unsigned char)below(256) : 0x1B;
    }
    return size > 0 && below(8) == 0 ? size - 1 : size;
}

/* Holds what the library returned and left in a buffer of so many bytes to what was asked: a number, and the bytes. */
static void expect(const char *what, uint64_t said, uint64_t asked, const void *buffer, const void *bytes, size_t n, size_t size)
{
    if (said != asked || memcmp(buffer, bytes, n) != 0)
        differ(what);
    for (size_t i = n; i < size; i++)
        if (((const uint8_t *)buffer)[i] != UNTOUCHED)
            differ("bytes are touched that are not reported");
    add_to_sum(&said, sizeof said);
    add_to_sum(buffer, n);
}

/* Reads a value on both sides. */
static void compare_read(void)
{
    static unsigned char value[VALUE];
    static int units[VALUE];
    static uint16_t asked[VALUE], out[VALUE];
    int size = some_value(value), n = read_value(value, size, units);
    for (int i = 0; i < n; i++)
        asked[i] = (uint16_t)units[i];
    for (int room = VALUE; room >= 0; room = room == VALUE && n > 0 ? n : room == n && n > 0 ? n - 1 : -1) {
        uint64_t refused = POMERASSOL_TEXT_REFUSED + (n < 0 ? 13u : 14u);
        size_t wrote = n < 0 || n > room ? 0 : (size_t)n;
        memset(out, UNTOUCHED, sizeof out);
        uint64_t said = pomerassol_alpha_read(value, (uint64_t)size, out, (uint64_t)room);
        expect("reading", said, n < 0 || n > room ? refused : (uint64_t)n, out, asked, 2 * wrote, sizeof out);
    }
}

/* Writes a text on both sides. */
static void compare_write(void)
{
    static int units[UNITS];
    static uint16_t given[UNITS];
    static unsigned char asked[VALUE], out[VALUE];
    int count = some_units(units), n = write_units(units, count, asked);
    for (int i = 0; i < count; i++)
        given[i] = (uint16_t)units[i];
    for (int room = VALUE; room >= 0; room = room == VALUE && n > 0 ? n : room == n && n > 0 ? n - 1 : -1) {
        memset(out, UNTOUCHED, sizeof out);
        uint64_t said = pomerassol_alpha_write(given, (uint64_t)count, out, (uint64_t)room);
        expect("writing", said, n > room ? POMERASSOL_R14_SHORT_TEXT : (uint64_t)n, out, asked, n > room ? 0 : (size_t)n, sizeof out);
    }
}

int main(int words, char **word)
{
    seed = words > 1 ? (unsigned)strtoull(word[1], NULL, 10) : 1;
    unsigned calls = words > 2 ? (unsigned)strtoull(word[2], NULL, 10) : 20000;
    state = 88172645463325252u + 977 * (uint64_t)seed;
    for (made = 1; made <= calls; made++) {
        compare_read();
        compare_write();
    }
    printf("seed %u: %u values read and %u texts written, no difference; sum %08X\n", seed, calls, calls, (unsigned)sum);
    return 0;
}
