/* The fake card driver, the fake radio and the fake clock. */
#include "fakes.h"

#include "board.h"

#include <string.h>

static uint8_t line[LINE_CAP];
static size_t size, sent; /* of the card's command: its bytes, and how many of them were delivered */

/* The value of a hexadecimal digit, or -1. */
static int digit(int c)
{
    if (c >= '0' && c <= '9')
        return c - '0';
    if (c >= 'A' && c <= 'F')
        return c - 'A' + 10;
    return -1;
}

/* Reads a line of digits into bytes; false where nothing more will come. */
static bool read_line(void)
{
    int c = board_get(), high = -1;
    size = 0;
    if (c < 0)
        return false;
    for (; c >= 0 && c != '\n'; c = board_get()) {
        if (digit(c) < 0)
            continue;
        if (high < 0) {
            high = digit(c);
        } else if (size < LINE_CAP) {
            line[size++] = (uint8_t)(high << 4 | digit(c));
            high = -1;
        }
    }
    return true;
}

size_t fake_profile(uint8_t *profile)
{
    read_line();
    memcpy(profile, line, size);
    return size;
}

/* The next burst of the card's command: one byte, then two, then three, and so on. */
static happening next_burst(void)
{
    static size_t length;
    bool first = sent == 0;
    length = first ? 1 : length < BURST_CAP ? length + 1 : BURST_CAP;
    size_t n = size - sent < length ? size - sent : length;
    happening burst = {CARD_BURST, first, 0, line + sent, n};
    sent += n;
    return burst;
}

happening fake_wait(void)
{
    if (sent < size && line[0] == 0xD0)
        return next_burst();
    do
        if (!read_line())
            return (happening){NOTHING_MORE, false, 0, line, 0};
    while (size == 0);
    sent = 0;
    if (line[0] == 0xA0 && size > 1)
        return (happening){RADIO_BROUGHT, false, line[1], line + 2, size - 2};
    if (line[0] == 0xA2 && size > 1)
        return (happening){RADIO_DROPPED, false, line[1], line, 0};
    if (line[0] == 0xA3)
        return (happening){SECOND_PASSED, false, 0, line, 0};
    return next_burst();
}
