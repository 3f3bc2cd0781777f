/* The line program of the paper over reference.c: a script on standard input, its answers on standard output. With the word
 * `calls` it is the tool of that name, which has lines for seconds and envelopes beside. */
#include "reference.h"

#include <stdbool.h>
#include <stdio.h>
#include <string.h>

enum { FRAME_CAP = 1600, TAKE_CAP = 1500, ENVELOPE_SIZE = 14 };
enum { COMMAND = 0xD0, ARRIVAL = 0xA0, TAKE = 0xA1, DROP = 0xA2, SECOND = 0xA3, ENVELOPE = 0xA4 };
enum { R9 = REFERENCE_REFUSED + 9 };

static reference_session session;
static bool calls; /* whether seconds and envelopes have lines */

/* The line at hand. */
static uint8_t frame[FRAME_CAP];
static size_t digits; /* how many of its characters are in `frame`, two to a byte */
static bool other;    /* a character that is no digit, or a digit too many */

/* The value of a hexadecimal digit in either case, or -1. */
static int digit(int c)
{
    if (c >= '0' && c <= '9')
        return c - '0';
    if (c >= 'A' && c <= 'F')
        return c - 'A' + 10;
    if (c >= 'a' && c <= 'f')
        return c - 'a' + 10;
    return -1;
}

/* Takes in one character of a line. */
static void gather(int c)
{
    int value = digit(c);
    if (value < 0 || digits == 2 * FRAME_CAP) {
        other = true;
        return;
    }
    uint8_t *byte = &frame[digits / 2];
    *byte = (uint8_t)(digits % 2 == 0 ? value : *byte << 4 | value);
    digits++;
}

/* Reads a line, the last one with or without its line feed; false where there is none. */
static bool read_line(void)
{
    int c = getchar();
    digits = 0;
    other = false;
    if (c == EOF)
        return false;
    for (; c != EOF && c != '\n'; c = getchar())
        gather(c);
    return true;
}

/* Whether the line at hand is bytes in hexadecimal; a blank line is none. */
static bool readable(void)
{
    return !other && digits % 2 == 0;
}

/* A1: a channel and a count. */
static uint32_t take(const uint8_t *f, uint8_t *out)
{
    size_t count = (size_t)(f[2] << 8 | f[3]);
    if (count > TAKE_CAP)
        return R9;
    return reference_take(&session, f[1], out, count);
}

/* A3: one second, or as many as two bytes count. */
static uint32_t seconds(const uint8_t *f, size_t n)
{
    for (uint32_t left = n == 1 ? 1 : (uint32_t)(f[1] << 8 | f[2]); left > 0; left--)
        reference_second(&session);
    return 0;
}

/* The call that the line at hand asks for. */
static uint32_t perform(uint8_t *out)
{
    const uint8_t *f = frame;
    size_t n = digits / 2;
    if (!readable() || n == 0)
        return R9;
    if (f[0] == COMMAND)
        return reference_command(&session, f, n, out, TAKE_CAP);
    if (f[0] == ARRIVAL && n >= 2)
        return reference_arrival(&session, f[1], f + 2, n - 2, out, TAKE_CAP);
    if (f[0] == TAKE && n == 4)
        return take(f, out);
    if (f[0] == DROP && n == 2)
        return reference_drop(&session, f[1], out, TAKE_CAP);
    if (calls && f[0] == SECOND && (n == 1 || n == 3))
        return seconds(f, n);
    if (calls && f[0] == ENVELOPE && n <= 2)
        return reference_envelope(&session, out, n == 1 ? ENVELOPE_SIZE : f[1]);
    return R9;
}

/* Prints how a call ended. */
static void print(uint32_t returned, const uint8_t *out)
{
    if (returned >= REFERENCE_REFUSED) {
        printf("R%u\n", (unsigned)(returned - REFERENCE_REFUSED));
        return;
    }
    for (uint32_t i = 0; i < returned; i++)
        printf("%02X", out[i]);
    printf(returned == 0 ? "--\n" : "\n");
}

/* Line 1 is the profile; an unreadable one counts as blank. */
static void begin(void)
{
    if (!readable())
        print(R9, NULL);
    reference_start(&session, frame, readable() ? digits / 2 : 0);
}

int main(int argc, char **argv)
{
    uint8_t out[TAKE_CAP];
    calls = argc > 1 && strcmp(argv[1], "calls") == 0;
    if (read_line())
        begin();
    while (read_line())
        print(perform(out), out);
    return 0;
}
