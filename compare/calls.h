/* One call of a history, and how each side runs it. */
#ifndef CALLS_H
#define CALLS_H

#include "../include/pomerassol.h"
#include "reference.h"

typedef enum { NOTHING, START, FETCH_START, COMMAND, ARRIVAL, TAKE, DROP, SECOND, ENVELOPE, FETCH, DETAILS } call_kind;

/* What is lent to a call: the bytes in, and the size of the buffer for the answer. */
typedef struct {
    call_kind kind;
    uint8_t channel;
    const uint8_t *bytes;
    size_t n;
    size_t size;
} call;

/* The record of the named side, a session and what is gathered beside it, and how one call is run on it: the bytes left of
 * a burst are in the upper half of what is returned. */
#define RUN(side)                                                                   \
    typedef struct {                                                                \
        side##_session session;                                                     \
        side##_gathered gathered;                                                   \
    } side##_record;                                                                \
                                                                                    \
    static uint64_t side##_run(void *record, const call *c, uint8_t *out)           \
    {                                                                               \
        side##_record *r = record;                                                  \
        side##_session *s = &r->session;                                            \
        switch (c->kind) {                                                          \
        case START:                                                                 \
            side##_start(s, c->bytes, c->n);                                        \
            return 0;                                                               \
        case FETCH_START:                                                           \
            side##_fetch_start(&r->gathered);                                       \
            return 0;                                                               \
        case COMMAND:                                                               \
            return side##_command(s, c->bytes, c->n, out, c->size);                 \
        case ARRIVAL:                                                               \
            return side##_arrival(s, c->channel, c->bytes, c->n, out, c->size);     \
        case TAKE:                                                                  \
            return side##_take(s, c->channel, out, c->size);                        \
        case DROP:                                                                  \
            return side##_drop(s, c->channel, out, c->size);                        \
        case SECOND:                                                                \
            side##_second(s);                                                       \
            return 0;                                                               \
        case ENVELOPE:                                                              \
            return side##_envelope(s, out, c->size);                                \
        case FETCH:                                                                 \
            return side##_fetch(s, &r->gathered, c->bytes, c->n, out, c->size);     \
        case DETAILS:                                                               \
            return side##_details(c->bytes, c->n);                                  \
        default:                                                                    \
            return 0;                                                               \
        }                                                                           \
    }

RUN(reference)
RUN(pomerassol)

#endif
