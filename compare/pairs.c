/* Pairs of histories that differ in the data of one channel, held to what may differ in how they end (request M-110).
 *
 *   pairs SEED CALLS           both histories, call by call; a difference that may not be ends with status 1
 *   pairs SEED CALLS SIDE      one of them alone, 0 or 1, to be counted
 *
 * Each call is made of two records. The calls are equal, but for the bytes that arrive on one channel and those of the first
 * object 36 of a SEND DATA to it, which have other values, as many. Then the numbers that the calls return are equal, and so
 * is every byte of the buffers, but for the data of a RECEIVE DATA and of a take on that channel; the two ledgers are equal,
 * the pools are equal outside that channel's cells, and everywhere where it is not open; as many bytes are gathered.
 */
#include "../include/pomerassol.h"

#include <stdbool.h>
#include <stdio.h>
#include <stdlib.h>
#include <string.h>

#ifndef FAULT
#define FAULT 0
#endif

enum { CHANNELS = 7, TIMERS = 8, CELL = 32, RESPONSE = 255, EVENT = 16, ENVELOPE = 14, LARGEST = 1500, FRAME = 256, LINE = 1024, SIDES = 2 };

typedef enum { START, COMMAND, ARRIVAL, TAKE, DROP, SECOND, ENVELOPE_CALL, DETAILS, FETCH_START, FETCH, KINDS } kind;

static const char *const kind_names[KINDS] = {
    "start", "command", "arrival", "take", "drop", "second", "envelope", "what is at hand", "fetch start", "burst",
};

/* Bytes of both sides, as many in each. */
typedef struct {
    size_t n;
    uint8_t of[SIDES][LINE];
} bytes;

/* A call of both sides. */
typedef struct {
    kind kind;
    uint8_t channel;
    size_t size;
    const bytes *in;
} call;

static pomerassol_session session[SIDES];
static pomerassol_gathered gathered[SIDES];
static uint8_t out[SIDES][LARGEST + 1];
static uint8_t secret; /* the channel whose data differs */
static bytes line;     /* what is on the line and not taken yet */
static bytes taken;    /* what was taken since the last answer */
static int one_side = -1;
static uint64_t seed, calls, made, count_of[KINDS], others[2], told_errors, bursts_over;

/* ---- Random numbers ---- */

static uint64_t random_state;

/* The next 64 random bits (splitmix). */
static uint64_t next_random(void)
{
    uint64_t z = random_state += 0x9E3779B97F4A7C15u;
    z = (z ^ z >> 30) * 0xBF58476D1CE4E5B9u;
    z = (z ^ z >> 27) * 0x94D049BB133111EBu;
    return z ^ z >> 31;
}

/* A random number below n. */
static uint32_t below(uint32_t n)
{
    return (uint32_t)(((next_random() >> 32) * n) >> 32);
}

/* True so many times in a hundred. */
static bool chance(uint32_t percent)
{
    return below(100) < percent;
}

/* ---- Bytes of both sides ---- */

/* One byte more, the same in both. */
static void put(bytes *b, uint8_t byte)
{
    b->of[0][b->n] = b->of[1][b->n] = byte;
    b->n++;
}

/* So many random bytes more: the same in both, or others in each. */
static void put_data(bytes *b, size_t n, bool differ)
{
    for (size_t i = 0; i < n; i++) {
        uint64_t bits = next_random();
        b->of[0][b->n] = (uint8_t)bits;
        b->of[1][b->n] = (uint8_t)(differ ? bits >> 8 : bits);
        b->n++;
    }
}

/* Bytes of one behind those of the other. */
static void join(bytes *b, const bytes *more, size_t from, size_t n)
{
    for (int side = 0; side < SIDES; side++)
        memcpy(b->of[side] + b->n, more->of[side] + from, n);
    b->n += n;
}

/* The first n bytes go. */
static void take_off(bytes *b, size_t n)
{
    b->n -= n;
    for (int side = 0; side < SIDES; side++)
        memmove(b->of[side], b->of[side] + n, b->n);
}

/* ---- What the ledger tells, to steer by; it is the same on both sides ---- */

/* A number of a channel, which is 1 to 7. */
static uint32_t grant(uint8_t channel)
{
    return session[0].ledger[POMERASSOL_GRANT(channel)];
}

static bool is_open(uint8_t channel)
{
    return grant(channel) != 0;
}

/* The first byte of a channel's cells, and how many bytes they are. */
static size_t first_byte(uint8_t channel)
{
    size_t at = 0;
    for (uint8_t i = 1; i < channel; i++)
        at += 2 * CELL * ((grant(i) + CELL - 1) / CELL);
    return at;
}

static size_t cells_size(uint8_t channel)
{
    return 2 * CELL * ((grant(channel) + CELL - 1) / CELL);
}

/* A channel for the next call: mostly the one whose data differs or an open one, else any number from 0 to 8. */
static uint8_t pick_channel(void)
{
    if (chance(45))
        return secret;
    uint8_t channel = (uint8_t)(1 + below(CHANNELS));
    for (int i = 0; i < CHANNELS && chance(95); i++, channel = (uint8_t)(1 + channel % CHANNELS))
        if (is_open(channel))
            return channel;
    return (uint8_t)below(CHANNELS + 2);
}

/* ---- Commands ---- */

/* A length in its one form. */
static void put_length(bytes *b, size_t n)
{
    if (n >= 0x80)
        put(b, 0x81);
    put(b, (uint8_t)n);
}

/* An object with some value that is the same on both sides; seldom its tag has three bytes. */
static void put_object(bytes *b, uint8_t tag, const uint8_t *value, size_t n)
{
    if (chance(5)) {
        put(b, 0x7F);
        put(b, tag & 0x80);
        put(b, tag & 0x7F);
    } else {
        put(b, tag);
    }
    put_length(b, n);
    for (size_t i = 0; i < n; i++)
        put(b, value[i]);
}

/* An object 36 with data; where a SEND DATA is to the secret channel it has other values on each side. */
static void put_send(bytes *b, size_t n, bool differ)
{
    put(b, chance(50) ? 0xB6 : 0x36);
    put_length(b, n);
    put_data(b, n, differ);
}

/* The objects of a command in a right frame. */
static void frame(bytes *to, const bytes *objects)
{
    to->n = 0;
    put(to, 0xD0);
    put_length(to, objects->n);
    join(to, objects, 0, objects->n);
}

/* How many bytes a SEND DATA has: small, about the room, or any. */
static size_t send_size(uint8_t channel)
{
    if (channel < 1 || channel > CHANNELS || chance(70))
        return below(40);
    uint32_t room = grant(channel) - session[0].ledger[POMERASSOL_TX(channel)];
    return chance(60) && room + 1 < 200 ? room + below(2) : below(200);
}

/* A SEND DATA: often with something behind or before its data that makes it an error, or with a second 36. */
static void write_send(bytes *b, uint8_t channel)
{
    uint8_t source = chance(95) ? 0x81 : 0x82;
    const uint8_t details[3] = {1, 0x43, (uint8_t)below(2)}, devices[2] = {source, (uint8_t)(0x20 + channel)}, wrong[2] = {0x81, 0x22};
    size_t n = send_size(channel);
    bool before = chance(10);
    put_object(b, 0x81, details, 3);
    if (before)
        put_send(b, n, channel == secret);
    put_object(b, 0x82, devices, 2);
    if (!before)
        put_send(b, n, channel == secret);
    if (chance(5))
        put_object(b, 0x82, wrong, 2);
    if (chance(5))
        put_send(b, below(10), false);
    if (chance(4))
        put_object(b, chance(50) ? 0xFC : 0x7C, wrong, 1);
    if (chance(3))
        put(b, 0x00);
    if (chance(3))
        put(b, 0x36), put(b, 0x05), put(b, 0x01);
}

/* Any other command: of each type, with a channel, a timer or a size. */
static void write_other(bytes *b, uint8_t channel)
{
    static const uint8_t types[] = {0x02, 0x05, 0x27, 0x40, 0x41, 0x42, 0x42, 0x42, 0x44, 0x44, 0x50};
    uint8_t type = types[below(sizeof types)];
    if (type == 0x41 && chance(70))
        type = 0x42;
    bool to_channel = type == 0x41 || type == 0x42;
    const uint8_t details[3] = {(uint8_t)below(4), type, (uint8_t)below(4)};
    const uint8_t devices[2] = {0x81, to_channel ? (uint8_t)(0x20 + channel) : 0x82};
    put_object(b, 0x81, details, 3);
    put_object(b, 0x82, devices, 2);
    const uint8_t events[2] = {0x09, 0x0A}, bearer[1] = {0x03}, transport[3] = {(uint8_t)(1 + below(2)), 0x1F, 0x90};
    const uint8_t timer[1] = {(uint8_t)(1 + below(TIMERS))}, time[3] = {0x00, 0x00, (uint8_t)(0x10 * (1 + below(5)))};
    uint32_t asked = chance(70) ? 20 + below(120) : below(2000);
    const uint8_t size[2] = {(uint8_t)(asked >> 8), (uint8_t)asked}, request[1] = {(uint8_t)below(256)};
    switch (type) {
    case 0x05:
        put_object(b, 0x99, events, below(3));
        break;
    case 0x27:
        put_object(b, 0xA4, timer, 1);
        if (details[2] == 0)
            put_object(b, 0xA5, time, 3);
        break;
    case 0x40:
        put_object(b, 0xB5, bearer, 1);
        put_object(b, 0xB9, size, 2);
        put_object(b, 0x3C, transport, 3);
        break;
    case 0x42:
        put_object(b, 0xB7, request, 1);
        break;
    default:
        break;
    }
    if (chance(2))
        put(b, 0x00);
}

/* A command in a right frame; seldom with a head that is wrong. */
static void write_command(bytes *to)
{
    static bytes objects;
    uint8_t channel = pick_channel();
    objects.n = 0;
    if (chance(40))
        write_send(&objects, channel);
    else
        write_other(&objects, channel);
    frame(to, &objects);
    if (chance(1)) {
        to->of[0][0] = 0xD1;
        memcpy(to->of[1], to->of[0], to->n);
    }
}

/* ---- Calls ---- */

/* What a call of one side returns: the bytes left of a burst in the upper half. */
static uint64_t perform(const call *c, int side)
{
    pomerassol_session *s = &session[side];
    const uint8_t *in = c->in == NULL ? NULL : c->in->of[side];
    size_t n = c->in == NULL ? 0 : c->in->n;
    switch (c->kind) {
    case START:
        pomerassol_start(s, in, n);
        return 0;
    case COMMAND:
        return pomerassol_command(s, in, n, out[side], c->size);
    case ARRIVAL:
        return pomerassol_arrival(s, c->channel, in, n, out[side], c->size);
    case TAKE:
        return pomerassol_take(s, c->channel, out[side], c->size);
    case DROP:
        return pomerassol_drop(s, c->channel, out[side], c->size);
    case SECOND:
        pomerassol_second(s);
        return 0;
    case ENVELOPE_CALL:
        return pomerassol_envelope(s, out[side], c->size);
    case DETAILS:
        return pomerassol_details(in, n);
    case FETCH_START:
        pomerassol_fetch_start(&gathered[side]);
        return 0;
    default:
        return pomerassol_fetch(s, &gathered[side], in, n, out[side], c->size);
    }
}

#if FAULT == 4
/* A branch on a data byte, inside what is counted. */
__attribute__((noinline)) void pomerassol_peek(const pomerassol_session *s, size_t at)
{
    static volatile uint32_t seen;
    if (s->pool[at] & 1)
        seen += 3;
}
#endif

/* A planted leak, behind a call of one side. */
static uint64_t leak(const call *c, int side, const uint8_t *before, uint64_t number)
{
    (void)c, (void)side, (void)before;
#if FAULT == 1
    /* the status by the first byte held */
    if (c->kind == COMMAND && out[side][3] == 0x44 && (uint32_t)number == 16 && session[side].ledger[POMERASSOL_RX(secret)] != 0)
        out[side][15] ^= session[side].pool[first_byte(secret)] & 1;
#elif FAULT == 2
    /* the bytes left of a burst by the last byte gathered */
    if (c->kind == FETCH && gathered[side].count > 15)
        number += (uint64_t)(gathered[side].bytes[gathered[side].count - 1] & 1) << 32;
#elif FAULT == 3
    /* freed cells not cleared */
    if (c->kind == COMMAND && before != NULL && !is_open(secret))
        memcpy(session[side].pool + sizeof session[side].pool - CELL, before, CELL);
#elif FAULT == 4
    pomerassol_peek(&session[side], first_byte(secret));
#endif
    return number;
}

/* ---- What may differ ---- */

/* Whether the frame at the front of some bytes is of a type and to a channel, by the first 01 and the first 02 in it. */
static bool asks(const bytes *b, uint8_t type, uint8_t channel)
{
    const uint8_t *frame = b->of[0];
    uint8_t kind = 0, to = 0;
    size_t n = b->n, at = n > 1 && frame[1] == 0x81 ? 3 : 2;
    bool first[2] = {true, true};
    if (n < at)
        return false;
    if (at + frame[at - 1] < n)
        n = at + frame[at - 1];
    while (at + 2 <= n) {
        bool long_tag = frame[at] == 0x7F;
        uint32_t number = long_tag ? (at + 4 <= n ? (uint32_t)(frame[at + 1] & 0x7F) << 8 | frame[at + 2] : 0) : frame[at] & 0x7Fu;
        at += long_tag ? 3 : 1;
        if (number == 0 || at >= n)
            break;
        size_t size = frame[at++];
        if (size == 0x81 && at < n)
            size = frame[at++];
        if (at + size > n)
            break;
        if (number == 0x01 && first[0] && size == 3)
            kind = frame[at + 1], first[0] = false;
        if (number == 0x02 && first[1] && size == 2)
            to = frame[at + 1], first[1] = false;
        at += size;
    }
    return kind == type && to == 0x20 + channel;
}

/* The part of an answer that may differ: the data of a RECEIVE DATA, or all that a take handed out, on the secret channel. */
static void may_differ(const call *c, const bytes *command, uint32_t number, size_t *from, size_t *upto)
{
    *from = *upto = 0;
    if (number >= POMERASSOL_REFUSED)
        return;
    if (c->kind == TAKE && c->channel == secret)
        *upto = number;
    if (command == NULL || number < 17 || out[0][12] != 0x36 || !asks(command, 0x42, secret))
        return;
    *from = out[0][13] == 0x81 ? 15 : 14;
    *upto = *from + out[0][*from - 1];
}

/* Says what differs, and ends. */
static void differ(const char *what, const call *c, uint64_t left, uint64_t right)
{
    printf("DIFFERENCE: seed %llu, channel %u, call %llu\n", (unsigned long long)seed, secret, (unsigned long long)made);
    printf("%s: %s; %llX and %llX\n", kind_names[c->kind], what, (unsigned long long)left, (unsigned long long)right);
    exit(1);
}

/* The records behind a call. */
static void compare_records(const call *c)
{
    size_t from = first_byte(secret), upto = from + cells_size(secret);
    if (memcmp(session[0].ledger, session[1].ledger, sizeof session[0].ledger) != 0)
        differ("the ledgers", c, 0, 0);
    if (memcmp(session[0].pool, session[1].pool, from) != 0 || memcmp(session[0].pool + upto, session[1].pool + upto, sizeof session[0].pool - upto) != 0)
        differ("the pools outside the channel's cells", c, from, upto);
    if (gathered[0].count != gathered[1].count)
        differ("how many bytes are gathered", c, gathered[0].count, gathered[1].count);
    if (gathered[0].count == 0 && memcmp(&gathered[0], &gathered[1], sizeof gathered[0]) != 0)
        differ("the gathered record where nothing is gathered", c, 0, 0);
}

/* Whether an answer of so many bytes tells an error or a problem. */
static bool is_error(uint32_t number)
{
    return number >= 12 && number < POMERASSOL_REFUSED && out[0][11] >= 0x20;
}

/* The two answers; `command` is the command that was answered, if one was. */
static void compare_answers(const call *c, const bytes *command, const uint64_t *number)
{
    size_t from, upto;
    if (number[0] != number[1])
        differ("the numbers", c, number[0], number[1]);
    may_differ(c, command, (uint32_t)number[0], &from, &upto);
    for (size_t i = 0; i < sizeof out[0]; i++)
        if (out[0][i] != out[1][i] && (i < from || i >= upto))
            differ("a byte of the answer, at", c, i, i);
    others[c->kind == TAKE] += upto > from && memcmp(out[0] + from, out[1] + from, upto - from) != 0;
    told_errors += command != NULL && c->kind != DETAILS && is_error((uint32_t)number[0]) && asks(command, 0x43, secret);
}

/* Makes a call of both sides, or of one; returns what it returned. `command` has the bytes that it may answer. */
static uint64_t make(const call *c, const bytes *command)
{
    uint64_t number[SIDES] = {0, 0};
    static uint8_t kept[CELL];
    made++;
    count_of[c->kind]++;
    for (int side = 0; side < SIDES; side++) {
        if (one_side >= 0 && side != 0)
            break;
        bool stood = is_open(secret);
        memcpy(kept, session[side].pool + first_byte(secret), CELL);
        memset(out[side], 0xAA, sizeof out[side]);
        number[side] = perform(c, side);
        number[side] = leak(c, side, stood ? kept : NULL, number[side]);
    }
    if (one_side < 0) {
        compare_answers(c, command, number);
        compare_records(c);
    }
    return number[0];
}

/* Both sides of what a call is given are those of the one side that is counted. */
static void choose_side(bytes *b)
{
    if (one_side >= 0)
        memcpy(b->of[0], b->of[one_side], b->n);
}

static void make_start(void)
{
    static bytes profile;
    static const uint8_t allowed[13] = {0, 0, 0x08, 0, 0x01, 0x0C, 0, 0x03, 0, 0, 0, 0x1F, 0xE2};
    profile.n = 0;
    for (size_t i = 0; i < sizeof allowed; i++)
        put(&profile, allowed[i]);
    make(&(call){START, 0, 0, &profile}, NULL);
}

/* A buffer, seldom too short. */
static size_t buffer(size_t least)
{
    return chance(97) ? least + below(20) : below((uint32_t)least);
}

static void make_command(void)
{
    static bytes command;
    write_command(&command);
    choose_side(&command);
    make(&(call){chance(97) ? COMMAND : DETAILS, 0, buffer(RESPONSE), &command}, &command);
}

static void make_arrival(void)
{
    static bytes data;
    uint8_t channel = pick_channel();
    data.n = 0;
    put_data(&data, chance(80) ? below(60) : below(LINE), channel == secret);
    choose_side(&data);
    make(&(call){ARRIVAL, channel, buffer(EVENT), &data}, NULL);
}

/* Whether bytes are a right frame, as long as their outer length says. */
static bool is_frame(const bytes *b)
{
    size_t head = b->n > 1 && b->of[0][1] == 0x81 ? 3 : 2;
    return b->n >= head && b->of[0][0] == 0xD0 && b->n == head + b->of[0][head - 1];
}

/* A burst of what is on the line: a byte, some, or past the end of a command. Behind a head that can never be right, or that
 * calls for too many bytes, the line is cleared: what is left there is no frame. */
static void make_burst(void)
{
    static bytes burst, more;
    if (line.n < 300) {
        write_command(&more);
        if (more.n > FRAME)
            memcpy(more.of[1], more.of[0], more.n);
        choose_side(&more);
        join(&line, &more, 0, more.n);
    }
    size_t n = chance(20) ? 1 : chance(50) ? below(20) : below((uint32_t)line.n + 1);
    burst.n = 0;
    join(&burst, &line, 0, n);
    static bytes command;
    command = taken;
    join(&command, &burst, 0, n < FRAME ? n : FRAME);
    uint64_t number = make(&(call){FETCH, 0, buffer(RESPONSE), &burst}, &command);
    size_t left = POMERASSOL_LEFT(number);
    bool answered = POMERASSOL_ENDED(number) != 0;
    bursts_over += answered && left != 0;
    if (POMERASSOL_ENDED(number) == POMERASSOL_REFUSED + 1)
        return;
    take_off(&line, n - left);
    command.n = taken.n + n - left;
    if (answered && !is_frame(&command))
        line.n = 0;
    taken = command;
    if (answered)
        taken.n = 0;
}

/* The gathered bytes and those of the line go, on both sides. */
static void make_fetch_start(void)
{
    line.n = taken.n = 0;
    make(&(call){FETCH_START, 0, 0, NULL}, NULL);
}

/* One call more. */
static void make_next(void)
{
    uint32_t r = below(1000);
    if (r < 2)
        make_start();
    else if (r < 400)
        make_command();
    else if (r < 600)
        make_arrival();
    else if (r < 700)
        make(&(call){TAKE, pick_channel(), below(80), NULL}, NULL);
    else if (r < 705)
        make(&(call){DROP, pick_channel(), buffer(EVENT), NULL}, NULL);
    else if (r < 720)
        make(&(call){SECOND, 0, 0, NULL}, NULL);
    else if (r < 735)
        make(&(call){ENVELOPE_CALL, 0, buffer(ENVELOPE), NULL}, NULL);
    else if (r < 740)
        make_fetch_start();
    else
        make_burst();
}

int main(int n, char **words)
{
    if (n < 3)
        return 2;
    seed = strtoull(words[1], NULL, 10);
    calls = strtoull(words[2], NULL, 10);
    if (n > 3)
        one_side = words[3][0] - '0';
    random_state = seed;
    secret = (uint8_t)(1 + seed % CHANNELS);
    make_start();
    make_fetch_start();
    while (made < calls)
        make_next();
    printf("seed %llu, channel %u: %llu calls%s\n", (unsigned long long)seed, secret, (unsigned long long)made, one_side < 0 ? ", the two alike" : "");
    if (one_side >= 0)
        return 0;
    printf("RECEIVE DATA that handed out other bytes %llu, takes %llu; SEND DATA with other data that were told an error %llu; bursts past the end of a command %llu\n",
           (unsigned long long)others[0], (unsigned long long)others[1], (unsigned long long)told_errors, (unsigned long long)bursts_over);
    for (kind k = 0; k < KINDS; k++)
        printf("%s %llu%s", kind_names[k], (unsigned long long)count_of[k], k + 1 < KINDS ? ", " : "\n");
    return 0;
}
