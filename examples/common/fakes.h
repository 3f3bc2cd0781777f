/* A card, a radio and a clock that are none: they play a script that comes over the serial line, a line for each thing that
 * happens, in hexadecimal digits. The first line is the card's profile. Then D0.. is a command of the card, A0 CHANNEL DATA
 * bytes that the radio brings, A2 CHANNEL a link that it drops, and A3 a second. */
#ifndef FAKES_H
#define FAKES_H

#include <stdbool.h>
#include <stddef.h>
#include <stdint.h>

enum { LINE_CAP = 1600, BURST_CAP = 16 };

/* Something that happened; `bytes` hold until the next one is asked for. */
typedef struct {
    enum { CARD_BURST, RADIO_BROUGHT, RADIO_DROPPED, SECOND_PASSED, NOTHING_MORE } kind;
    bool first; /* of a burst: whether it begins what the card answers to a FETCH */
    uint8_t channel;
    const uint8_t *bytes;
    size_t n;
} happening;

/* Reads the profile; returns its size. */
size_t fake_profile(uint8_t *profile);

/* Waits for what happens next. */
happening fake_wait(void);

#endif
