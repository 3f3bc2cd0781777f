/* The modem of "Data channels: the rules" with timers (request M-102), datagram channels (M-104) and the fetch (M-109),
 * written a second time straight from the paper. */
#ifndef REFERENCE_H
#define REFERENCE_H

#include <stddef.h>
#include <stdint.h>

enum {
    REFERENCE_CHANNELS = 7,       /* channel numbers 1 to 7 */
    REFERENCE_TIMERS = 8,         /* timer numbers 1 to 8 */
    REFERENCE_PROFILE = 13,       /* profile bytes that are looked at */
    REFERENCE_RING = 2048,        /* bytes of a queue: a power of two above the largest grant */
    REFERENCE_DATAGRAMS = 16,     /* datagrams held each way at most */
    REFERENCE_COMMAND = 256,      /* bytes of the longest command */
    REFERENCE_REFUSED = 0x1000000 /* a refusal returns this plus its number */
};

/* Where the link of a channel stands. */
typedef enum {
    REFERENCE_UNOPENED,
    REFERENCE_NOT_YET,
    REFERENCE_ESTABLISHED,
    REFERENCE_DROPPED
} reference_link;

/* What a channel carries. */
typedef enum { REFERENCE_STREAM, REFERENCE_DATAGRAM } reference_kind;

/* Bytes held in the order they came, in a ring; of a datagram channel also where they end, in a ring too. */
typedef struct {
    uint32_t first; /* place of the oldest byte */
    uint32_t held;
    uint32_t oldest;    /* place of the first datagram's length */
    uint32_t datagrams; /* how many are held, the unfinished one included; 0 in a stream */
    uint16_t length[REFERENCE_DATAGRAMS];
    uint8_t bytes[REFERENCE_RING];
} reference_queue;

/* One channel: its grant holds for each of the two ways. */
typedef struct {
    reference_link link;
    reference_kind kind;
    uint32_t grant;
    uint32_t ready; /* how many of the oldest bytes of `send` takes may hand out; those behind them are unfinished */
    reference_queue receive;
    reference_queue send;
} reference_channel;

/* One timer: the seconds left, and those it was started with. It waits where only the first are 0, and neither runs nor
 * waits where both are. */
typedef struct {
    uint32_t left;
    uint32_t started;
} reference_timer;

/* One session; channel number 1 and timer number 1 stand first. */
typedef struct {
    uint8_t profile[REFERENCE_PROFILE];
    uint8_t listed;    /* events: bit 0 for 09, bit 1 for 0A */
    uint32_t promised; /* cells of the pool promised to the open channels */
    reference_timer timer[REFERENCE_TIMERS];
    reference_channel channel[REFERENCE_CHANNELS];
} reference_session;

/* What was gathered of a command so far, in the order it came; the bytes behind the count mean nothing. */
typedef struct {
    uint32_t count;
    uint8_t bytes[REFERENCE_COMMAND];
} reference_gathered;

/* Each call returns the count of bytes written to `out`, or REFERENCE_REFUSED plus the refusal. */
void reference_start(reference_session *s, const uint8_t *profile, size_t n);
uint32_t reference_command(reference_session *s, const uint8_t *command, size_t n, uint8_t *out, size_t size);
uint32_t reference_arrival(reference_session *s, uint8_t channel, const uint8_t *bytes, size_t n, uint8_t *out, size_t size);
uint32_t reference_take(reference_session *s, uint8_t channel, uint8_t *out, size_t size);
uint32_t reference_drop(reference_session *s, uint8_t channel, uint8_t *out, size_t size);

/* A second passes; and the envelope of the lowest timer that waits. */
void reference_second(reference_session *s);
uint32_t reference_envelope(reference_session *s, uint8_t *out, size_t size);

/* What command is at hand: number, type and qualifier in one number, or REFERENCE_REFUSED plus 2. */
uint32_t reference_details(const uint8_t *command, size_t n);

/* A burst off the line: the bytes left in the upper half, FFFFFFFF for that many and more, and in the lower half what the
 * other calls return, 0 where more is to come. */
void reference_fetch_start(reference_gathered *g);
uint64_t reference_fetch(reference_session *s, reference_gathered *g, const uint8_t *bytes, size_t n,
                         uint8_t *out, size_t size);

#endif
