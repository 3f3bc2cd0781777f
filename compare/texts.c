/* The two calls from C for alpha identifiers, over the lines of the tools alpha-read and alpha-write.
 *
 *   texts read  < LINES     what alpha-read prints
 *   texts write < LINES     what alpha-write prints
 *
 * Each call is made with room enough, with just enough and with one too little. It ends with status 1 where a refusal writes,
 * where an answer touches more than it reports, or where a buffer that is too short is not R14.
 */
#include <stdint.h>
#include <stdio.h>
#include <string.h>

#include "../include/pomerassol.h"

#define MOST 1600
#define ROOM 4000
#define UNTOUCHED 0x5A

static char line[8 * MOST];
static uint8_t bytes[ROOM];
static uint16_t units[ROOM];
static long wrong;

static int digit(char c)
{
    if (c >= '0' && c <= '9')
        return c - '0';
    if (c >= 'A' && c <= 'F')
        return c - 'A' + 10;
    if (c >= 'a' && c <= 'f')
        return c - 'a' + 10;
    return -1;
}

/* The number of so many digits, or -1. */
static long number_at(const char *s, size_t count)
{
    long n = 0;
    for (size_t i = 0; i < count; i++) {
        if (digit(s[i]) < 0)
            return -1;
        n = 16 * n + digit(s[i]);
    }
    return n;
}

/* The bytes of a line in hex, or -1. */
static long read_bytes(size_t length)
{
    if (length % 2 || length > 2 * MOST)
        return -1;
    for (size_t i = 0; i < length / 2; i++) {
        long n = number_at(line + 2 * i, 2);
        if (n < 0)
            return -1;
        bytes[i] = (uint8_t)n;
    }
    return (long)(length / 2);
}

/* The units of a line with a blank between, or -1. */
static long read_units(size_t length)
{
    if (length == 0 || strcmp(line, "--") == 0)
        return 0;
    if (length % 5 != 4 || length > 5 * MOST - 1)
        return -1;
    for (size_t i = 0; i <= length / 5; i++) {
        long n = number_at(line + 5 * i, 4);
        if (n < 0 || (line[5 * i + 4] != ' ' && line[5 * i + 4] != '\0'))
            return -1;
        units[i] = (uint16_t)n;
    }
    return (long)(length / 5 + 1);
}

/* Notes where a buffer of bytes is touched from a place on. */
static void expect_untouched(const void *buffer, size_t from, size_t size)
{
    for (size_t i = from; i < size; i++)
        wrong += ((const uint8_t *)buffer)[i] != UNTOUCHED;
}

/* One call, into a buffer with that room. */
static uint64_t call(int writing, size_t count, size_t room)
{
    if (writing) {
        memset(bytes, UNTOUCHED, sizeof bytes);
        uint64_t said = pomerassol_alpha_write(units, count, bytes, room);
        expect_untouched(bytes, said < POMERASSOL_TEXT_REFUSED ? said : 0, sizeof bytes);
        return said;
    }
    memset(units, UNTOUCHED, sizeof units);
    uint64_t said = pomerassol_alpha_read(bytes, count, units, room);
    expect_untouched(units, said < POMERASSOL_TEXT_REFUSED ? 2 * said : 0, sizeof units);
    return said;
}

static void print(int writing, uint64_t count)
{
    if (count == 0)
        printf("--");
    for (uint64_t i = 0; i < count; i++) {
        if (writing)
            printf("%02X", bytes[i]);
        else
            printf(i ? " %04X" : "%04X", units[i]);
    }
    printf("\n");
}

/* The calls of one line. */
static void answer(int writing)
{
    long count = writing ? read_units(strlen(line)) : read_bytes(strlen(line));
    if (count < 0) {
        printf("R9\n");
        return;
    }
    uint64_t said = call(writing, (size_t)count, ROOM);
    if (said >= POMERASSOL_TEXT_REFUSED) {
        printf("R%d\n", (int)(said - POMERASSOL_TEXT_REFUSED));
        wrong += call(writing, (size_t)count, 0) != said;
        return;
    }
    if (said > 0)
        wrong += call(writing, (size_t)count, (size_t)said - 1) != POMERASSOL_TEXT_REFUSED + 14;
    wrong += call(writing, (size_t)count, (size_t)said) != said;
    print(writing, said);
}

int main(int arguments, char **argument)
{
    int writing = arguments > 1 && strcmp(argument[1], "write") == 0;
    while (fgets(line, sizeof line, stdin)) {
        line[strcspn(line, "\n")] = '\0';
        answer(writing);
    }
    return wrong != 0;
}
