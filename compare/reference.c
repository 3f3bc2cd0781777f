/* The modem of "Data channels: the rules", section by section, with the timers of request M-102, the datagram channels of
 * M-104 and the fetch of M-109. */
#include "reference.h"

#include <stdbool.h>
#include <string.h>

/* A planted fault: 1 the count left by its low byte, 2 arrivals cut to the room, 3 the highest unused number,
 * 4 RECEIVE DATA past the end of a datagram, 5 a take of two datagrams, 6 event 09 at every arrival, 7 the number of a long
 * tag by its low byte, 8 the highest waiting timer first, 9 a stop that clears the mark of a waiting timer, 10 a byte lost
 * between bursts, 11 the bytes left of a burst off by one. */
#ifndef FAULT
#define FAULT 0
#endif

enum { CELLS = 256, CELL = 32, GRANT_CAP = 1500, DATA_CAP = 237 };
enum { COMMAND_CAP = REFERENCE_COMMAND, RESPONSE_SPACE = 255, EVENT_SPACE = 16, ENVELOPE_SPACE = 14 };
enum { EVENT_ARRIVAL = 0x09, EVENT_DROP = 0x0A };
enum { BEARER_02 = 0x02, BEARER_03 = 0x03, UDP = 0x01, TCP = 0x02, IMMEDIATELY = 0x01 };
enum { CARD = 0x81, TERMINAL = 0x82, FIRST_CHANNEL = 0x21, LAST_CHANNEL = 0x27 };

/* The refusals. */
enum { R1 = REFERENCE_REFUSED + 1, R2, R3, R4, R5, R6, R10 = REFERENCE_REFUSED + 10, R11, R12 };

/* The results. */
enum {
    DONE = 0x00,
    PARTLY_READ = 0x01,
    FEWER = 0x02,
    LESS_GRANTED = 0x07,
    NOT_RUNNING = 0x24,
    BEYOND = 0x30,
    UNKNOWN_TYPE = 0x31,
    BAD_DATA = 0x32,
    VALUES_MISSING = 0x36,
    CHANNEL_PROBLEM = 0x3A
};

/* The causes of result 3A. */
enum { NO_CHANNEL = 1, LINK_DROPPED = 2, UNOPENED = 3, NO_ROOM = 4, NO_TRANSPORT = 6 };

/* The eight types. */
enum { MORE_TIME = 0x02, EVENT_LIST = 0x05, TIMER = 0x27, OPEN = 0x40, CLOSE, RECEIVE, SEND, STATUS };

/* What a timer command asks for, by the two low bits of its qualifier. */
enum { START, STOP, ASK, NONE, ACTIONS };

/* A place for each tag number that some command may carry. */
enum {
    NOWHERE,
    P_01,
    P_02,
    P_04,
    P_05,
    P_0D,
    P_19,
    P_1E,
    P_24,
    P_25,
    P_35,
    P_36,
    P_37,
    P_39,
    P_3C,
    P_3E,
    P_47,
    PLACES
};

#define B(place) (1u << (place))

/* The place of each tag number. */
static const uint8_t place_of[128] = {
    [0x01] = P_01, [0x02] = P_02, [0x04] = P_04, [0x05] = P_05, [0x0D] = P_0D, [0x19] = P_19, [0x1E] = P_1E,
    [0x24] = P_24, [0x25] = P_25, [0x35] = P_35, [0x36] = P_36, [0x37] = P_37, [0x39] = P_39, [0x3C] = P_3C, [0x3E] = P_3E,
    [0x47] = P_47,
};

/* The length that each object must have; 0 where it may have any (35 has a rule of its own). */
static const uint8_t length_of[PLACES] = {
    [P_01] = 3, [P_02] = 2, [P_04] = 2, [P_1E] = 2, [P_24] = 1, [P_25] = 3, [P_37] = 1, [P_39] = 2, [P_3C] = 3,
};

/* What a type needs: its place in the profile, and the objects it carries. */
typedef struct {
    uint8_t byte, bit;  /* both numbered from 1 */
    uint32_t required;
    uint32_t may;       /* the required ones too */
    uint32_t twice;
} rule;

#define ALWAYS (B(P_01) | B(P_02))
#define SHOWN (B(P_05) | B(P_1E))
#define TWICE (B(P_04) | B(P_0D) | B(P_3E))
#define OPENING (ALWAYS | B(P_35) | B(P_39))
#define TIMED (ALWAYS | B(P_24))

static const rule rule_more_time = {3, 4, ALWAYS, ALWAYS, 0};
static const rule rule_event_list = {5, 1, ALWAYS | B(P_19), ALWAYS | B(P_19), 0};
static const rule rule_timer[ACTIONS] = {
    {8, 1, TIMED | B(P_25), TIMED | B(P_25), 0},
    {8, 1, TIMED, TIMED, 0},
    {8, 2, TIMED, TIMED, 0},
    {8, 1, TIMED, TIMED, 0},
};
static const rule rule_channel[5] = {
    {12, 1, OPENING, OPENING | SHOWN | B(P_3C) | B(P_47) | TWICE, TWICE},
    {12, 2, ALWAYS, ALWAYS | SHOWN, 0},
    {12, 3, ALWAYS | B(P_37), ALWAYS | B(P_37) | SHOWN, 0},
    {12, 4, ALWAYS | B(P_36), ALWAYS | B(P_36) | SHOWN, 0},
    {12, 5, ALWAYS, ALWAYS, 0},
};
static const rule rule_other = {0, 0, 0, 0, 0};

/* An object as it stands in the command. */
typedef struct {
    uint16_t number;
    bool flag;
    uint8_t length;
    const uint8_t *value;
} object;

/* A command as the walk leaves it. */
typedef struct {
    const uint8_t *details;
    const rule *rule;
    uint32_t once, again; /* places of the objects that count: the first, and the second of a pair */
    bool flagged;         /* an unexpected object had its flag set */
    bool ignored;         /* an unexpected object had its flag clear */
    bool misfit;          /* an object that counts has a wrong length */
    object at[PLACES];    /* the first object of each place in `once` */
} asked;

static const uint8_t no_details[3] = {0, 0, 0};

/* The lesser of two counts. */
static uint32_t lesser(uint32_t a, uint32_t b)
{
    return a < b ? a : b;
}

/* A count in one byte, at most FF. */
static uint8_t capped(uint32_t count)
{
    return (uint8_t)lesser(count, 0xFF);
}

/* The count of bytes still held after RECEIVE DATA. */
static uint8_t count_left(uint32_t held)
{
    return FAULT == 1 ? (uint8_t)held : capped(held);
}

/* ---- Queues ---- */

/* Copies few bytes one by one and many at once. */
static inline void copy(uint8_t *to, const uint8_t *from, uint32_t n)
{
    if (n == 1) {
        *to = *from;
        return;
    }
    memcpy(to, from, n);
}

/* Adds n bytes behind those held. */
static void put(reference_queue *q, const uint8_t *bytes, uint32_t n)
{
    uint32_t place = (q->first + q->held) & (REFERENCE_RING - 1);
    uint32_t straight = lesser(n, REFERENCE_RING - place);
    q->held += n;
    copy(q->bytes + place, bytes, straight);
    if (straight < n)
        copy(q->bytes, bytes + straight, n - straight);
}

/* Hands out the n oldest bytes. */
static void hand_out(reference_queue *q, uint8_t *out, uint32_t n)
{
    uint32_t straight = lesser(n, REFERENCE_RING - q->first);
    copy(out, q->bytes + q->first, straight);
    if (straight < n)
        copy(out + straight, q->bytes, n - straight);
    q->first = (q->first + n) & (REFERENCE_RING - 1);
    q->held -= n;
}

/* Forgets all bytes held. */
static void clear(reference_queue *q)
{
    q->first = 0;
    q->held = 0;
    q->oldest = 0;
    q->datagrams = 0;
}

/* ---- Datagrams of a queue ---- */

/* The length of a datagram held; the first one is number 0. */
static uint16_t *length_at(reference_queue *q, uint32_t number)
{
    return &q->length[(q->oldest + number) % REFERENCE_DATAGRAMS];
}

/* Whether all places for datagrams are taken. */
static bool places_taken(const reference_queue *q)
{
    return q->datagrams == REFERENCE_DATAGRAMS;
}

/* Begins a datagram of n bytes behind those held. */
static void begin(reference_queue *q, uint32_t n)
{
    *length_at(q, q->datagrams) = (uint16_t)n;
    q->datagrams++;
}

/* Makes the last datagram longer by n bytes. */
static void join(reference_queue *q, uint32_t n)
{
    *length_at(q, q->datagrams - 1) += (uint16_t)n;
}

/* Hands out the n oldest bytes; datagrams of which nothing is left give up their places. */
static void hand_out_datagrams(reference_queue *q, uint8_t *out, uint32_t n)
{
    hand_out(q, out, n);
    while (n > 0) {
        uint16_t *length = length_at(q, 0);
        uint32_t part = lesser(n, *length);
        *length -= (uint16_t)part;
        n -= part;
        if (*length != 0)
            return;
        q->oldest++;
        q->datagrams--;
    }
}

/* Hands out the n oldest bytes of a channel's way. */
static void hand_out_of(const reference_channel *c, reference_queue *q, uint8_t *out, uint32_t n)
{
    if (c->kind == REFERENCE_STREAM)
        hand_out(q, out, n);
    else
        hand_out_datagrams(q, out, n);
}

/* ---- Profile ---- */

/* Whether a bit of the profile is set; byte and bit are numbered from 1. */
static bool allowed(const reference_session *s, uint8_t byte, uint8_t bit)
{
    return (s->profile[byte - 1] >> (bit - 1)) & 1;
}

/* The number N of channels: byte 13, bits 6 to 8. */
static uint32_t channels_allowed(const reference_session *s)
{
    return s->profile[12] >> 5;
}

/* The bit of an event in the list, or 0 where it is unknown or not allowed. */
static uint8_t event_bit(const reference_session *s, uint8_t event)
{
    if (event == EVENT_ARRIVAL && allowed(s, 6, 3))
        return 1;
    if (event == EVENT_DROP && allowed(s, 6, 4))
        return 2;
    return 0;
}

/* A fresh session over a profile of any length. */
void reference_start(reference_session *s, const uint8_t *profile, size_t n)
{
    for (size_t i = 0; i < REFERENCE_PROFILE; i++)
        s->profile[i] = i < n ? profile[i] : 0;
    s->listed = 0;
    s->promised = 0;
    memset(s->timer, 0, sizeof s->timer);
    for (size_t i = 0; i < REFERENCE_CHANNELS; i++)
        s->channel[i].link = REFERENCE_UNOPENED;
}

/* ---- Pool and grants ---- */

/* The cells for g bytes of one way. */
static uint32_t cells(uint32_t g)
{
    return (g + CELL - 1) / CELL;
}

/* The grant for a request, with at least two cells unpromised. */
static uint32_t grant_for(uint32_t request, uint32_t unpromised)
{
    uint32_t w = lesser(request, GRANT_CAP);
    if (2 * cells(w) <= unpromised)
        return w;
    return CELL * (unpromised / 2);
}

/* ---- Bytes the modem writes ---- */

/* The first nine bytes of a response: details and devices. */
static uint8_t *write_head(uint8_t *out, const uint8_t *details)
{
    out[0] = 0x81;
    out[1] = 0x03;
    out[2] = details[0];
    out[3] = details[1];
    out[4] = details[2];
    out[5] = 0x82;
    out[6] = 0x02;
    out[7] = TERMINAL;
    out[8] = CARD;
    return out + 9;
}

/* A response up to its result. */
static uint8_t *write_result(uint8_t *out, const uint8_t *details, uint8_t result)
{
    uint8_t *at = write_head(out, details);
    at[0] = 0x83;
    at[1] = 0x01;
    at[2] = result;
    return at + 3;
}

/* A response that ends with its result. */
static uint32_t answer(uint8_t *out, const uint8_t *details, uint8_t result)
{
    return (uint32_t)(write_result(out, details, result) - out);
}

/* A response with result 3A and a cause. */
static uint32_t problem(uint8_t *out, const uint8_t *details, uint8_t cause)
{
    uint8_t *at = write_head(out, details);
    at[0] = 0x83;
    at[1] = 0x02;
    at[2] = CHANNEL_PROBLEM;
    at[3] = cause;
    return (uint32_t)(at + 4 - out);
}

/* Object 37: a count. */
static uint8_t *write_count(uint8_t *at, uint8_t count)
{
    at[0] = 0x37;
    at[1] = 0x01;
    at[2] = count;
    return at + 3;
}

/* Object 38: the status of channel `number`. */
static uint8_t *write_status(uint8_t *at, const reference_channel *c, uint32_t number)
{
    at[0] = 0x38;
    at[1] = 0x02;
    at[2] = (uint8_t)(number + (c->link == REFERENCE_ESTABLISHED ? 0x80 : 0));
    at[3] = c->link == REFERENCE_DROPPED ? 0x05 : 0x00;
    return at + 4;
}

/* The tag and the shortest length of object 36. */
static uint8_t *write_data_head(uint8_t *at, uint32_t n)
{
    *at++ = 0x36;
    if (n >= 0x80)
        *at++ = 0x81;
    *at++ = (uint8_t)n;
    return at;
}

/* Object 24: a timer. */
static uint8_t *write_timer(uint8_t *at, uint32_t number)
{
    at[0] = 0x24;
    at[1] = 0x01;
    at[2] = (uint8_t)number;
    return at + 3;
}

/* The two decimal digits of a number, the last one first. */
static uint8_t swapped(uint32_t number)
{
    return (uint8_t)(number / 10 | number % 10 << 4);
}

/* Object 25: a time. */
static uint8_t *write_time(uint8_t *at, uint32_t seconds)
{
    at[0] = 0x25;
    at[1] = 0x03;
    at[2] = swapped(seconds / 3600);
    at[3] = swapped(seconds / 60 % 60);
    at[4] = swapped(seconds % 60);
    return at + 5;
}

/* The result where nothing was cut: 01 if an unexpected object was ignored, else 00. */
static uint8_t whole(const asked *a)
{
    return a->ignored ? PARTLY_READ : DONE;
}

/* ---- Frames and objects ---- */

/* Reads a length at p; the place behind it, or NULL for any form but the two. */
static inline const uint8_t *read_length(const uint8_t *p, const uint8_t *end, uint8_t *length)
{
    if (p == end)
        return NULL;
    if (*p < 0x80) {
        *length = *p;
        return p + 1;
    }
    if (*p != 0x81 || p + 1 == end || p[1] < 0x80)
        return NULL;
    *length = p[1];
    return p + 2;
}

/* Reads the tag of three bytes at p, which has 7F; the place behind it, or NULL where it is cut or has number 0. */
static const uint8_t *read_long_tag(const uint8_t *p, const uint8_t *end, object *o)
{
    if (end - p < 3)
        return NULL;
    o->number = (uint16_t)((FAULT == 7 ? 0 : (p[1] & 0x7F) << 8) | p[2]);
    o->flag = p[1] >= 0x80;
    return o->number == 0 ? NULL : p + 3;
}

/* Reads the tag at p; the place behind it, or NULL where there is none. */
static inline const uint8_t *read_tag(const uint8_t *p, const uint8_t *end, object *o)
{
    if (*p == 0x7F)
        return read_long_tag(p, end, o);
    o->number = *p & 0x7F;
    o->flag = *p >= 0x80;
    return o->number == 0 || o->number == 0x7F ? NULL : p + 1;
}

/* Reads the object at p; the place behind it, or NULL at a fault. */
static inline const uint8_t *read_object(const uint8_t *p, const uint8_t *end, object *o)
{
    p = read_tag(p, end, o);
    if (p == NULL)
        return NULL;
    o->value = read_length(p, end, &o->length);
    if (o->value == NULL || end - o->value < o->length)
        return NULL;
    return o->value + o->length;
}

/* Opens the outer frame: D0, a length, and exactly as many bytes; the place of its objects, or NULL. */
static const uint8_t *open_frame(const uint8_t *command, const uint8_t *end)
{
    uint8_t length;
    if (command[0] != 0xD0)
        return NULL;
    const uint8_t *objects = read_length(command + 1, end, &length);
    if (objects == NULL || end - objects != length)
        return NULL;
    return objects;
}

/* What the qualifier of a timer command asks for. */
static uint8_t action_of(const uint8_t *details)
{
    return details[2] & 3;
}

/* The rule of a type, and of a timer command by its qualifier. */
static const rule *rule_of(const uint8_t *details)
{
    uint8_t type = details[1];
    if (type == MORE_TIME)
        return &rule_more_time;
    if (type == EVENT_LIST)
        return &rule_event_list;
    if (type == TIMER)
        return &rule_timer[action_of(details)];
    if (type >= OPEN && type <= STATUS)
        return &rule_channel[type - OPEN];
    return &rule_other;
}

/* Whether the length of an object 35 fits its bearer type. */
static bool bearer_fits(const object *o)
{
    if (o->length == 0)
        return false;
    if (o->value[0] == BEARER_02)
        return o->length == 7;
    if (o->value[0] == BEARER_03)
        return o->length == 1;
    return true;
}

/* Whether an object that counts has a length it may have. */
static bool length_fits(const object *o, uint8_t place)
{
    if (place == P_35)
        return bearer_fits(o);
    return length_of[place] == 0 || length_of[place] == o->length;
}

/* Notes an object that does not count. */
static void note_unexpected(asked *a, const object *o)
{
    if (o->flag)
        a->flagged = true;
    else
        a->ignored = true;
}

/* Sorts an object of the walk into those that count and the unexpected. */
static void sort(asked *a, const object *o)
{
    uint8_t place = o->number < 128 ? place_of[o->number] : NOWHERE;
    uint32_t bit = B(place);
    if (!(a->rule->may & bit)) {
        note_unexpected(a, o);
        return;
    }
    if (!(a->once & bit)) {
        a->once |= bit;
        a->at[place] = *o;
        a->misfit |= !length_fits(o, place);
        return;
    }
    if (!(a->rule->twice & bit) || (a->again & bit)) {
        note_unexpected(a, o);
        return;
    }
    a->again |= bit;
    a->misfit |= !length_fits(o, place);
}

/* Walks the objects behind the first; false at the first fault. */
static bool walk(asked *a, const uint8_t *at, const uint8_t *end)
{
    object o;
    while (at != end) {
        at = read_object(at, end, &o);
        if (at == NULL)
            return false;
        sort(a, &o);
    }
    return true;
}

/* ---- Order of checks on a command ---- */

/* Step 8: whether source and destination fit the type. */
static bool devices_fit(const asked *a)
{
    const uint8_t *devices = a->at[P_02].value;
    uint8_t type = a->details[1];
    if (devices[0] != CARD)
        return false;
    if (type == CLOSE || type == RECEIVE || type == SEND)
        return devices[1] >= FIRST_CHANNEL && devices[1] <= LAST_CHANNEL;
    return devices[1] == TERMINAL;
}

/* Steps 5 to 8: the result that ends the command, or DONE. */
static uint8_t judge(const reference_session *s, const asked *a)
{
    if (a->rule == &rule_other)
        return UNKNOWN_TYPE;
    if (!allowed(s, a->rule->byte, a->rule->bit))
        return BEYOND;
    if (a->flagged)
        return BAD_DATA;
    if ((a->once & a->rule->required) != a->rule->required)
        return VALUES_MISSING;
    if (a->misfit)
        return BAD_DATA;
    if (!devices_fit(a))
        return BAD_DATA;
    return DONE;
}

/* The channel number that the destination names. */
static uint32_t number_named(const asked *a)
{
    return a->at[P_02].value[1] - 0x20u;
}

/* ---- Own checks ---- */

/* 05: all values allowed, or the list stays. */
static uint32_t set_event_list(reference_session *s, const asked *a, uint8_t *out)
{
    const object *list = &a->at[P_19];
    uint8_t listed = 0;
    for (uint32_t i = 0; i < list->length; i++) {
        uint8_t bit = event_bit(s, list->value[i]);
        if (bit == 0)
            return answer(out, a->details, BEYOND);
        listed |= bit;
    }
    s->listed = listed;
    return answer(out, a->details, whole(a));
}

/* Whether a channel may be opened over this bearer type. */
static bool bearer_allowed(const reference_session *s, uint8_t type)
{
    if (type == BEARER_03)
        return true;
    return type == BEARER_02 && allowed(s, 13, 2);
}

/* The lowest number from 1 to N that is unused, or 0. */
static uint32_t unused_number(const reference_session *s)
{
    uint32_t n = channels_allowed(s);
    uint32_t found = 0;
    for (uint32_t number = 1; number <= n; number++) {
        if (s->channel[number - 1].link != REFERENCE_UNOPENED)
            continue;
        if (FAULT != 3)
            return number;
        found = number;
    }
    return found;
}

/* The first byte of 3C; where it is absent, that of a stream. */
static uint8_t transport(const asked *a)
{
    return a->once & B(P_3C) ? a->at[P_3C].value[0] : TCP;
}

/* Opens a channel with its grant. */
static reference_channel *open_with(reference_session *s, uint32_t number, uint32_t grant, const asked *a)
{
    reference_channel *c = &s->channel[number - 1];
    c->link = a->details[2] & IMMEDIATELY ? REFERENCE_ESTABLISHED : REFERENCE_NOT_YET;
    c->kind = transport(a) == UDP ? REFERENCE_DATAGRAM : REFERENCE_STREAM;
    c->grant = grant;
    c->ready = 0;
    clear(&c->receive);
    clear(&c->send);
    s->promised += 2 * cells(grant);
    return c;
}

/* The response to an OPEN CHANNEL that opened. */
static uint32_t tell_opened(const reference_channel *c, uint32_t number, const asked *a, uint8_t result, uint8_t *out)
{
    const object *bearer = &a->at[P_35];
    uint8_t *at = write_result(out, a->details, result);
    at = write_status(at, c, number);
    *at++ = 0x35;
    *at++ = bearer->length;
    memcpy(at, bearer->value, bearer->length);
    at += bearer->length;
    at[0] = 0x39;
    at[1] = 0x02;
    at[2] = (uint8_t)(c->grant >> 8);
    at[3] = (uint8_t)c->grant;
    return (uint32_t)(at + 4 - out);
}

/* 40: bearer, transport, size, number, cells; then the lowest unused number is opened. */
static uint32_t open_channel(reference_session *s, const asked *a, uint8_t *out)
{
    const uint8_t *size = a->at[P_39].value;
    uint32_t request = (uint32_t)(size[0] << 8 | size[1]);
    uint32_t unpromised = CELLS - s->promised;
    uint32_t number = unused_number(s);
    if (!bearer_allowed(s, a->at[P_35].value[0]))
        return answer(out, a->details, BEYOND);
    if (transport(a) != TCP && transport(a) != UDP)
        return problem(out, a->details, NO_TRANSPORT);
    if (request == 0)
        return problem(out, a->details, NO_ROOM);
    if (number == 0)
        return problem(out, a->details, NO_CHANNEL);
    if (unpromised < 2)
        return problem(out, a->details, NO_ROOM);
    uint32_t grant = grant_for(request, unpromised);
    reference_channel *c = open_with(s, number, grant, a);
    return tell_opened(c, number, a, grant < request ? LESS_GRANTED : whole(a), out);
}

/* 41: the channel ends and its cells are free. */
static uint32_t close_channel(reference_session *s, reference_channel *c, const asked *a, uint8_t *out)
{
    c->link = REFERENCE_UNOPENED;
    s->promised -= 2 * cells(c->grant);
    return answer(out, a->details, whole(a));
}

/* The bytes that one RECEIVE DATA may reach: all of a stream, what is left of the first datagram. */
static uint32_t within_reach(reference_channel *c)
{
    if (c->kind == REFERENCE_STREAM || c->receive.datagrams == 0 || FAULT == 4)
        return c->receive.held;
    return *length_at(&c->receive, 0);
}

/* 42: the least of the request, the bytes within reach and 237. */
static uint32_t receive_data(reference_channel *c, const asked *a, uint8_t *out)
{
    uint32_t request = a->at[P_37].value[0];
    uint32_t n = lesser(lesser(request, within_reach(c)), DATA_CAP);
    uint8_t *at = write_result(out, a->details, n < request ? FEWER : whole(a));
    at = write_data_head(at, n);
    hand_out_of(c, &c->receive, at, n);
    at = write_count(at + n, count_left(c->receive.held));
    return (uint32_t)(at - out);
}

/* Marks all bytes held as ready, which ends the unfinished datagram, and establishes the link. */
static void send_now(reference_channel *c)
{
    c->ready = c->send.held;
    c->link = REFERENCE_ESTABLISHED;
}

/* Whether so many bytes to send begin a datagram: there are some, and none is unfinished. */
static bool begins(const reference_channel *c, uint32_t n)
{
    return c->kind == REFERENCE_DATAGRAM && n != 0 && c->ready == c->send.held;
}

/* Stores bytes to send; in a datagram channel they begin a datagram or join the unfinished one. */
static void store(reference_channel *c, const object *data)
{
    if (begins(c, data->length))
        begin(&c->send, data->length);
    else if (c->kind == REFERENCE_DATAGRAM && data->length != 0)
        join(&c->send, data->length);
    put(&c->send, data->value, data->length);
}

/* 43: stores, and with bit 1 marks as ready. */
static uint32_t send_data(reference_channel *c, const asked *a, uint8_t *out)
{
    const object *data = &a->at[P_36];
    if (c->link == REFERENCE_DROPPED)
        return problem(out, a->details, LINK_DROPPED);
    if (data->length > c->grant - c->send.held)
        return problem(out, a->details, NO_ROOM);
    if (begins(c, data->length) && places_taken(&c->send))
        return problem(out, a->details, NO_ROOM);
    store(c, data);
    if (a->details[2] & IMMEDIATELY)
        send_now(c);
    uint8_t *at = write_result(out, a->details, whole(a));
    at = write_count(at, capped(c->grant - c->send.held));
    return (uint32_t)(at - out);
}

/* 44: the status of each open channel, or 00 00. */
static uint32_t channel_status(const reference_session *s, const asked *a, uint8_t *out)
{
    static const uint8_t none[4] = {0x38, 0x02, 0x00, 0x00};
    uint8_t *first = write_result(out, a->details, whole(a));
    uint8_t *at = first;
    for (uint32_t number = 1; number <= REFERENCE_CHANNELS; number++)
        if (s->channel[number - 1].link != REFERENCE_UNOPENED)
            at = write_status(at, &s->channel[number - 1], number);
    if (at == first) {
        memcpy(at, none, sizeof none);
        at += sizeof none;
    }
    return (uint32_t)(at - out);
}

/* The number in a byte of swapped digits; one over all bounds where a digit is over 9. */
static uint32_t number_in(uint8_t byte)
{
    uint32_t tens = byte & 15, ones = byte >> 4;
    return tens > 9 || ones > 9 ? 100 : 10 * tens + ones;
}

/* The seconds of a time in swapped digits, or 0 where it is none. */
static uint32_t seconds_in(const uint8_t *time)
{
    uint32_t hours = number_in(time[0]), minutes = number_in(time[1]), seconds = number_in(time[2]);
    return hours > 23 || minutes > 59 || seconds > 59 ? 0 : 3600 * hours + 60 * minutes + seconds;
}

/* 27, start: the timer runs with that time, whatever it did. */
static uint32_t start_timer(reference_timer *t, uint32_t number, const asked *a, uint8_t *out)
{
    uint32_t seconds = seconds_in(a->at[P_25].value);
    if (seconds == 0)
        return answer(out, a->details, BAD_DATA);
    t->left = t->started = seconds;
    return (uint32_t)(write_timer(write_result(out, a->details, whole(a)), number) - out);
}

/* 27, stop and ask: the time left of a timer that runs; with a stop it runs no more. */
static uint32_t tell_timer(reference_timer *t, uint32_t number, const asked *a, uint8_t *out)
{
    uint32_t left = t->left;
    bool stop = action_of(a->details) == STOP;
    if (stop && (left != 0 || FAULT == 9))
        t->left = t->started = 0;
    if (left == 0)
        return answer(out, a->details, NOT_RUNNING);
    return (uint32_t)(write_time(write_timer(write_result(out, a->details, whole(a)), number), left) - out);
}

/* 27: value 3, the timer, then what is asked for. */
static uint32_t timer_management(reference_session *s, const asked *a, uint8_t *out)
{
    uint32_t number = a->at[P_24].value[0];
    uint8_t action = action_of(a->details);
    if (action == NONE || number < 1 || number > REFERENCE_TIMERS)
        return answer(out, a->details, BAD_DATA);
    reference_timer *t = &s->timer[number - 1];
    return action == START ? start_timer(t, number, a, out) : tell_timer(t, number, a, out);
}

/* 41, 42 and 43: an unopened channel is 3A 03. */
static uint32_t on_channel(reference_session *s, const asked *a, uint8_t *out)
{
    reference_channel *c = &s->channel[number_named(a) - 1];
    if (c->link == REFERENCE_UNOPENED)
        return problem(out, a->details, UNOPENED);
    if (a->details[1] == CLOSE)
        return close_channel(s, c, a, out);
    if (a->details[1] == RECEIVE)
        return receive_data(c, a, out);
    return send_data(c, a, out);
}

/* Step 9. */
static uint32_t own(reference_session *s, const asked *a, uint8_t *out)
{
    switch (a->details[1]) {
    case MORE_TIME:
        return answer(out, a->details, whole(a));
    case EVENT_LIST:
        return set_event_list(s, a, out);
    case TIMER:
        return timer_management(s, a, out);
    case OPEN:
        return open_channel(s, a, out);
    case STATUS:
        return channel_status(s, a, out);
    default:
        return on_channel(s, a, out);
    }
}

/* Steps 3 to 9, over the objects of a frame that is right. */
static uint32_t read_objects(reference_session *s, const uint8_t *at, const uint8_t *end, uint8_t *out)
{
    object first;
    asked a;
    if (at == end)
        return answer(out, no_details, VALUES_MISSING);
    at = read_object(at, end, &first);
    if (at == NULL)
        return answer(out, no_details, BAD_DATA);
    if (first.number != 0x01 || first.length != 3)
        return answer(out, no_details, VALUES_MISSING);
    a.details = first.value;
    a.rule = rule_of(first.value);
    a.once = B(P_01);
    a.again = 0;
    a.flagged = a.ignored = a.misfit = false;
    if (!walk(&a, at, end))
        return answer(out, a.details, BAD_DATA);
    uint8_t result = judge(s, &a);
    if (result != DONE)
        return answer(out, a.details, result);
    return own(s, &a, out);
}

/* A command from the card: R1, R2, the frame, the objects. */
uint32_t reference_command(reference_session *s, const uint8_t *command, size_t n, uint8_t *out, size_t size)
{
    if (size < RESPONSE_SPACE)
        return R1;
    if (n == 0 || n > COMMAND_CAP)
        return R2;
    const uint8_t *objects = open_frame(command, command + n);
    if (objects == NULL)
        return answer(out, no_details, BAD_DATA);
    return read_objects(s, objects, command + n, out);
}

/* ---- Calls from the radio and the bench ---- */

/* R3 to R5: the refusal, or 0 where the link of the channel is established. */
static uint32_t refusal(const reference_session *s, uint8_t channel)
{
    if (channel < 1 || channel > REFERENCE_CHANNELS)
        return R3;
    if (s->channel[channel - 1].link == REFERENCE_UNOPENED)
        return R4;
    if (s->channel[channel - 1].link != REFERENCE_ESTABLISHED)
        return R5;
    return 0;
}

/* The first bytes of an event: frame, event list, devices, status. */
static uint8_t *write_event(uint8_t *at, uint8_t length, uint8_t event, const reference_channel *c, uint8_t channel)
{
    at[0] = 0xD6;
    at[1] = length;
    at[2] = 0x19;
    at[3] = 0x01;
    at[4] = event;
    at[5] = 0x82;
    at[6] = 0x02;
    at[7] = TERMINAL;
    at[8] = CARD;
    return write_status(at + 9, c, channel);
}

/* Bytes from the network, of a datagram channel one datagram: stored whole, and told if none were held and 09 is listed. */
uint32_t reference_arrival(reference_session *s, uint8_t channel, const uint8_t *bytes, size_t n, uint8_t *out, size_t size)
{
    if (size < EVENT_SPACE)
        return R1;
    uint32_t refused = refusal(s, channel);
    if (refused)
        return refused;
    reference_channel *c = &s->channel[channel - 1];
    uint32_t room = c->grant - c->receive.held;
    if (FAULT == 2 && n > room)
        n = room;
    if (n > room)
        return R6;
    if (n == 0)
        return 0;
    if (places_taken(&c->receive))
        return R11;
    int first = c->receive.held == 0;
    if (c->kind == REFERENCE_DATAGRAM)
        begin(&c->receive, (uint32_t)n);
    put(&c->receive, bytes, (uint32_t)n);
    if (!(s->listed & 1) || (!first && FAULT != 6))
        return 0;
    uint8_t *at = write_event(out, 0x0E, EVENT_ARRIVAL, c, channel);
    at = write_count(at, capped(c->receive.held));
    return (uint32_t)(at - out);
}

/* The bytes of the datagram that a take hands over, with one finished. */
static uint32_t next_datagram(reference_channel *c, size_t size)
{
    uint32_t one = *length_at(&c->send, 0);
    if (FAULT == 5 && c->ready > one && one + *length_at(&c->send, 1) <= size)
        return one + *length_at(&c->send, 1);
    return one;
}

/* The radio takes as many ready bytes as fit, or one finished datagram whole. */
uint32_t reference_take(reference_session *s, uint8_t channel, uint8_t *out, size_t size)
{
    uint32_t refused = refusal(s, channel);
    if (refused)
        return refused;
    reference_channel *c = &s->channel[channel - 1];
    if (c->ready == 0)
        return 0;
    uint32_t n = c->kind == REFERENCE_DATAGRAM ? next_datagram(c, size) : (uint32_t)(c->ready <= size ? c->ready : size);
    if (n > size)
        return R12;
    hand_out_of(c, &c->send, out, n);
    c->ready -= n;
    return n;
}

/* The network drops the link; what is held stays. */
uint32_t reference_drop(reference_session *s, uint8_t channel, uint8_t *out, size_t size)
{
    if (size < EVENT_SPACE)
        return R1;
    uint32_t refused = refusal(s, channel);
    if (refused)
        return refused;
    reference_channel *c = &s->channel[channel - 1];
    c->link = REFERENCE_DROPPED;
    if (!(s->listed & 2))
        return 0;
    return (uint32_t)(write_event(out, 0x0B, EVENT_DROP, c, channel) - out);
}

/* ---- Calls of the clock ---- */

/* Every timer that runs loses a second; one without any left waits. */
void reference_second(reference_session *s)
{
    for (size_t i = 0; i < REFERENCE_TIMERS; i++)
        if (s->timer[i].left != 0)
            s->timer[i].left--;
}

/* The lowest timer that waits, or 0. */
static uint32_t lowest_waiting(const reference_session *s)
{
    uint32_t found = 0;
    for (uint32_t number = 1; number <= REFERENCE_TIMERS; number++) {
        const reference_timer *t = &s->timer[number - 1];
        if (t->left == 0 && t->started != 0 && (found == 0 || FAULT == 8))
            found = number;
    }
    return found;
}

/* The envelope of the lowest timer that waits, with the time it was started with; its mark is cleared. */
uint32_t reference_envelope(reference_session *s, uint8_t *out, size_t size)
{
    static const uint8_t head[6] = {0xD7, 0x0C, 0x82, 0x02, TERMINAL, CARD};
    if (size < ENVELOPE_SPACE)
        return R1;
    uint32_t number = lowest_waiting(s);
    if (number == 0)
        return R10;
    reference_timer *t = &s->timer[number - 1];
    memcpy(out, head, sizeof head);
    uint8_t *at = write_time(write_timer(out + sizeof head, number), t->started);
    t->started = 0;
    return (uint32_t)(at - out);
}

/* ---- What is at hand ---- */

/* What command is at hand: the details in the first object; 0 where the frame or that object is none. */
uint32_t reference_details(const uint8_t *command, size_t n)
{
    object first;
    if (n == 0 || n > COMMAND_CAP)
        return R2;
    const uint8_t *end = command + n, *at = open_frame(command, end);
    if (at == NULL || at == end || read_object(at, end, &first) == NULL)
        return 0;
    if (first.number != 0x01 || first.length != 3)
        return 0;
    return (uint32_t)(first.value[0] << 16 | first.value[1] << 8 | first.value[2]);
}

/* ---- Bytes as they come off the line ---- */

/* What gathered bytes may still be. */
typedef enum { UNFINISHED, WHOLE, NEVER_RIGHT, TOO_LONG } standing;

/* Where the gathered bytes of a frame of `all` bytes stand. */
static standing stands_of(const reference_gathered *g, uint32_t all)
{
    if (all > COMMAND_CAP)
        return TOO_LONG;
    return g->count == all ? WHOLE : UNFINISHED;
}

/* Where the gathered bytes stand, at least one of them, by the outer head. */
static standing stands(const reference_gathered *g)
{
    if (g->bytes[0] != 0xD0)
        return NEVER_RIGHT;
    if (g->count == 1)
        return UNFINISHED;
    if (g->bytes[1] < 0x80)
        return stands_of(g, 2u + g->bytes[1]);
    if (g->bytes[1] != 0x81)
        return NEVER_RIGHT;
    if (g->count == 2)
        return UNFINISHED;
    if (g->bytes[2] < 0x80)
        return NEVER_RIGHT;
    return stands_of(g, 3u + g->bytes[2]);
}

/* The two halves of what a fetch returns. */
static uint64_t with_left(size_t left, uint32_t ended)
{
    return (uint64_t)(left < 0xFFFFFFFF ? left : 0xFFFFFFFF) << 32 | ended;
}

/* Nothing is gathered. */
void reference_fetch_start(reference_gathered *g)
{
    g->count = 0;
}

/* Gives up the gathered bytes: R2, or what the command call answers to them. */
static uint32_t give_up(reference_session *s, reference_gathered *g, standing found, uint8_t *out, size_t size)
{
    uint32_t n = g->count;
    g->count = 0;
    return found == TOO_LONG ? R2 : reference_command(s, g->bytes, n, out, size);
}

/* A burst of the card's bytes: taken one by one until those gathered are answered or refused, or all are taken. */
uint64_t reference_fetch(reference_session *s, reference_gathered *g, const uint8_t *bytes, size_t n,
                         uint8_t *out, size_t size)
{
    if (size < RESPONSE_SPACE)
        return with_left(n, R1);
    for (size_t i = FAULT == 10 && g->count != 0 ? 1 : 0; i < n; i++) {
        g->bytes[g->count++] = bytes[i];
        standing found = stands(g);
        if (found != UNFINISHED)
            return with_left(n - i - (FAULT == 11 ? 0 : 1), give_up(s, g, found, out, size));
    }
    return with_left(0, 0);
}
