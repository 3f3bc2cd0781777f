/* Runs one kind of call many times on a prepared record.
 *
 *   bench                                  lists the lines: number, name, bytes moved, calls
 *   bench SIDE LINE TIMES RESTORES [time]  SIDE is reference or pomerassol
 *   bench SIDE LINE TIMES RESTORES DATA    the same with other data bytes, by a number
 *
 * The prepared record is restored RESTORES times by a copy, and after the first TIMES of them the line's
 * calls are made; after the others the same loop makes none. Two runs that differ in TIMES alone differ by
 * the calls alone: the difference of their instructions, divided by the difference of TIMES, is the cost of
 * the line. With `time` it prints the nanoseconds for each restore, the copying left out; without it the
 * clock is not read and nothing is printed, so that runs differ by nothing else. Buffers are not cleared.
 */
#define _POSIX_C_SOURCE 199309L
#include "calls.h"

#include <stdio.h>
#include <stdlib.h>
#include <string.h>
#include <time.h>

enum { MIXED = 1000, FRAME_CAP = 256, SPACE = 2048, BATCH = 8, ALIGNED = 64, GRANT = 1500 };

/* One side: the size of its record, and how it runs a call. */
typedef struct {
    const char *name;
    size_t size;
    uint64_t (*run)(void *record, const call *c, uint8_t *out);
} side;

static const side reference_side = {"reference", sizeof(reference_record), reference_run};
static const side pomerassol_side = {"pomerassol", sizeof(pomerassol_record), pomerassol_run};

static uint8_t data[GRANT];
static uint32_t data_by = 7; /* the number by which the data bytes are made */
static uint8_t out[SPACE];
static uint8_t frames[MIXED][FRAME_CAP];
static call list[MIXED];  /* the calls of a line */
static call empty[MIXED]; /* as many calls of nothing */
static uint32_t listed;

/* ---- Calls ---- */

/* Writes a command with one object behind the devices, or none where `tag` is 0. */
static call write_command(uint8_t *frame, uint8_t type, uint8_t qualifier, uint8_t destination,
                          uint8_t tag, const uint8_t *value, uint32_t n)
{
    const uint8_t head[9] = {0x81, 0x03, 0x01, type, qualifier, 0x82, 0x02, 0x81, destination};
    uint32_t object = tag == 0 ? 0 : n < 0x80 ? 2 + n : 3 + n;
    uint8_t *to = frame;
    *to++ = 0xD0;
    if (9 + object >= 0x80)
        *to++ = 0x81;
    *to++ = (uint8_t)(9 + object);
    memcpy(to, head, 9);
    to += 9;
    if (tag != 0) {
        *to++ = tag;
        if (n >= 0x80)
            *to++ = 0x81;
        *to++ = (uint8_t)n;
        memcpy(to, value, n);
        to += n;
    }
    return (call){COMMAND, 0, frame, (size_t)(to - frame), 255};
}

/* An OPEN CHANNEL for a stream, over bearer 03. */
static call open_call(uint8_t *frame, uint32_t size)
{
    const uint8_t command[] = {0xD0, 0x10, 0x81, 0x03, 0x01, 0x40, 0x01, 0x82, 0x02, 0x81, 0x82, 0xB5, 0x01, 0x03,
                               0xB9, 0x02, (uint8_t)(size >> 8), (uint8_t)size};
    memcpy(frame, command, sizeof command);
    return (call){COMMAND, 0, frame, sizeof command, 255};
}

/* An OPEN CHANNEL for datagrams, over bearer 03. */
static call open_datagrams_call(uint8_t *frame, uint32_t size)
{
    const uint8_t command[] = {0xD0, 0x15, 0x81, 0x03, 0x01, 0x40, 0x01, 0x82, 0x02, 0x81, 0x82, 0xB5, 0x01, 0x03,
                               0xB9, 0x02, (uint8_t)(size >> 8), (uint8_t)size, 0x3C, 0x03, 0x01, 0x1F, 0x90};
    memcpy(frame, command, sizeof command);
    return (call){COMMAND, 0, frame, sizeof command, 255};
}

/* A CLOSE CHANNEL. */
static call close_call(uint8_t *frame, uint8_t channel)
{
    return write_command(frame, 0x41, 0, 0x20 + channel, 0, NULL, 0);
}

/* A RECEIVE DATA of n bytes. */
static call receive_call(uint8_t *frame, uint8_t channel, uint32_t n)
{
    uint8_t request = (uint8_t)n;
    return write_command(frame, 0x42, 0, 0x20 + channel, 0xB7, &request, 1);
}

/* A SEND DATA that only stores. */
static call store_call(uint8_t *frame, uint8_t channel, uint32_t n)
{
    return write_command(frame, 0x43, 0, 0x20 + channel, 0xB6, data, n);
}

/* A SEND DATA that marks all bytes held as ready. */
static call send_call(uint8_t *frame, uint8_t channel, uint32_t n)
{
    return write_command(frame, 0x43, 1, 0x20 + channel, 0xB6, data, n);
}

/* A start of a timer with three bytes of time. */
static call timer_call(uint8_t *frame, uint8_t timer, const uint8_t *time)
{
    const uint8_t command[] = {0xD0, 0x11, 0x81, 0x03, 0x01, 0x27, 0x00, 0x82, 0x02, 0x81, 0x82, 0xA4, 0x01, timer,
                               0xA5, 0x03, time[0], time[1], time[2]};
    memcpy(frame, command, sizeof command);
    return (call){COMMAND, 0, frame, sizeof command, 255};
}

/* A second. */
static call second_call(void)
{
    return (call){SECOND, 0, data, 0, 0};
}

/* An arrival of n bytes. */
static call arrival_call(uint8_t channel, uint32_t n)
{
    return (call){ARRIVAL, channel, data, n, 16};
}

/* A take into a buffer of n bytes. */
static call take_call(uint8_t channel, uint32_t n)
{
    return (call){TAKE, channel, data, 0, n};
}

/* ---- The calls of each line ---- */

/* Adds a call to the line. */
static void add(call c)
{
    list[listed++] = c;
}

/* A frame whose length has a form that is not read. */
static void list_refused(uint32_t n)
{
    (void)n;
    static const uint8_t command[] = {0xD0, 0x81, 0x09, 0x81, 0x03, 0x01, 0x02, 0x00, 0x82, 0x02, 0x81, 0x82};
    add((call){COMMAND, 0, command, sizeof command, 255});
}

/* MORE TIME. */
static void list_more_time(uint32_t n)
{
    (void)n;
    add(write_command(frames[0], 0x02, 0, 0x82, 0, NULL, 0));
}

/* The details of a command: MORE TIME, with an object 05 of n bytes behind it where that is not 0. */
static void list_details(uint32_t n)
{
    call c = write_command(frames[0], 0x02, 0, 0x82, n == 0 ? 0 : 0x05, data, n);
    add((call){DETAILS, 0, c.bytes, c.n, 0});
}

/* Adds the fetches that bring a command in bursts of n bytes. */
static void add_bursts(call c, size_t n)
{
    for (size_t at = 0; at < c.n; at += n)
        add((call){FETCH, 0, c.bytes + at, c.n - at < n ? c.n - at : n, 255});
}

/* MORE TIME in bursts of n bytes. */
static void list_fetch(uint32_t n)
{
    add_bursts(write_command(frames[0], 0x02, 0, 0x82, 0, NULL, 0), n);
}

/* MORE TIME with an unexpected object 05 of n bytes behind it, in one burst. */
static void list_fetch_padded(uint32_t n)
{
    add_bursts(write_command(frames[0], 0x02, 0, 0x82, 0x05, data, n), FRAME_CAP);
}

/* OPEN CHANNEL of n bytes. */
static void list_open(uint32_t n)
{
    add(open_call(frames[0], n));
}

/* OPEN CHANNEL of n bytes and CLOSE CHANNEL: together they leave the record as it was. */
static void list_open_and_close(uint32_t n)
{
    add(open_call(frames[0], n));
    add(close_call(frames[1], 1));
}

/* SEND DATA of n bytes. */
static void list_send(uint32_t n)
{
    add(send_call(frames[0], 1, n));
}

/* RECEIVE DATA of n bytes. */
static void list_receive(uint32_t n)
{
    add(receive_call(frames[0], 1, n));
}

/* An arrival of n bytes. */
static void list_arrival(uint32_t n)
{
    add(arrival_call(1, n));
}

/* A take of n bytes. */
static void list_take(uint32_t n)
{
    add(take_call(1, n));
}

/* GET CHANNEL STATUS. */
static void list_status(uint32_t n)
{
    (void)n;
    add(write_command(frames[0], 0x44, 0, 0x82, 0, NULL, 0));
}

static const uint8_t an_hour[3] = {0x10, 0x00, 0x00}, a_second[3] = {0x00, 0x00, 0x10};

/* A start of timer n. */
static void list_timer(uint32_t n)
{
    add(timer_call(frames[0], (uint8_t)n, an_hour));
}

/* A second. */
static void list_second(uint32_t n)
{
    (void)n;
    add(second_call());
}

/* An envelope. */
static void list_envelope(uint32_t n)
{
    (void)n;
    add((call){ENVELOPE, 0, data, 0, 14});
}

static uint32_t random_state;

/* A random number below n, the same in every run. */
static uint32_t below(uint32_t n)
{
    random_state = random_state * 1664525u + 1013904223u;
    return (uint32_t)(((uint64_t)random_state * n) >> 32);
}

/* One call of the mixed history: mostly data both ways, seldom all else. */
static call mixed_call(uint8_t *frame)
{
    uint8_t channel = (uint8_t)(1 + below(4));
    uint32_t kind = below(1000);
    if (kind < 250)
        return arrival_call(channel, 1 + below(400));
    if (kind < 500)
        return receive_call(frame, channel, 255);
    if (kind < 720)
        return send_call(frame, channel, 1 + below(200));
    if (kind < 910)
        return take_call(channel, GRANT);
    if (kind < 930)
        return write_command(frame, 0x44, 0, 0x82, 0, NULL, 0);
    if (kind < 950)
        return write_command(frame, 0x02, 0, 0x82, 0, NULL, 0);
    if (kind < 960)
        return write_command(frame, 0x02, 0, 0x82, 0x85, data, 4);
    if (kind < 963)
        return (call){DROP, channel, data, 0, 16};
    if (kind < 975)
        return close_call(frame, channel);
    return open_call(frame, 1 + below(GRANT));
}

/* A mixed history of n calls. */
static void list_mixed(uint32_t n)
{
    random_state = 1;
    for (uint32_t i = 0; i < n; i++)
        add(mixed_call(frames[i]));
}

/* ---- The lines ---- */

/* A line: what stands before its calls, and the calls. */
typedef struct {
    const char *name;
    uint32_t moved;     /* bytes of data that the calls move */
    uint32_t open;      /* channels open before */
    uint32_t size;      /* the grant of each */
    uint32_t datagrams; /* in how many equal datagrams the bytes of channel 1 stand; 0 where it is a stream */
    uint32_t arrived;   /* bytes that arrived on channel 1 before */
    uint32_t sent;      /* bytes ready on channel 1 before */
    uint32_t waiting;   /* timers that wait before */
    uint32_t running;   /* timers that run before, with an hour each, the highest ones */
    void (*calls)(uint32_t n);
    uint32_t n;
} line;

static const line lines[] = {
    {"refused frame (length 81 09)", 0, 1, GRANT, 0, 0, 0, 0, 0, list_refused, 0},
    {"MORE TIME", 0, 1, GRANT, 0, 0, 0, 0, 0, list_more_time, 0},
    {"details of MORE TIME, 11 bytes", 0, 0, 0, 0, 0, 0, 0, 0, list_details, 0},
    {"details of MORE TIME, 256 bytes", 0, 0, 0, 0, 0, 0, 0, 0, list_details, 241},
    {"fetch of MORE TIME, one burst", 0, 1, GRANT, 0, 0, 0, 0, 0, list_fetch, 11},
    {"fetch of MORE TIME, 11 bursts of a byte", 0, 1, GRANT, 0, 0, 0, 0, 0, list_fetch, 1},
    {"fetch of 256 bytes, one burst", 0, 1, GRANT, 0, 0, 0, 0, 0, list_fetch_padded, 241},
    {"OPEN of 32, none open", 0, 0, 0, 0, 0, 0, 0, 0, list_open, 32},
    {"OPEN of 32, six open", 0, 6, 32, 0, 0, 0, 0, 0, list_open, 32},
    {"OPEN of 1500 and CLOSE, the pair", 0, 0, 0, 0, 0, 0, 0, 0, list_open_and_close, GRANT},
    {"SEND DATA of 1", 1, 1, GRANT, 0, 0, 0, 0, 0, list_send, 1},
    {"SEND DATA of 200", 200, 1, GRANT, 0, 0, 0, 0, 0, list_send, 200},
    {"RECEIVE DATA of 1, 237 held", 1, 1, GRANT, 0, 237, 0, 0, 0, list_receive, 1},
    {"RECEIVE DATA of 1, 1500 held", 1, 1, GRANT, 0, 1500, 0, 0, 0, list_receive, 1},
    {"RECEIVE DATA of 237, 237 held", 237, 1, GRANT, 0, 237, 0, 0, 0, list_receive, 237},
    {"RECEIVE DATA of 237, 1500 held", 237, 1, GRANT, 0, 1500, 0, 0, 0, list_receive, 237},
    {"arrival of 1", 1, 1, GRANT, 0, 0, 0, 0, 0, list_arrival, 1},
    {"arrival of 1500", 1500, 1, GRANT, 0, 0, 0, 0, 0, list_arrival, 1500},
    {"take of 1, 1500 ready", 1, 1, GRANT, 0, 0, 1500, 0, 0, list_take, 1},
    {"take of 1500, 1500 ready", 1500, 1, GRANT, 0, 0, 1500, 0, 0, list_take, 1500},
    {"GET CHANNEL STATUS, seven open", 0, 7, 500, 0, 0, 0, 0, 0, list_status, 0},
    {"start of a timer", 0, 1, GRANT, 0, 0, 0, 0, 0, list_timer, 8},
    {"second, no timer running", 0, 1, GRANT, 0, 0, 0, 0, 0, list_second, 0},
    {"second, one running", 0, 1, GRANT, 0, 0, 0, 0, 1, list_second, 0},
    {"second, eight running", 0, 1, GRANT, 0, 0, 0, 0, 8, list_second, 0},
    {"envelope, eight waiting", 0, 1, GRANT, 0, 0, 0, 8, 0, list_envelope, 0},
    {"envelope, timer 1 waiting, seven running", 0, 1, GRANT, 0, 0, 0, 1, 7, list_envelope, 0},
    {"datagrams: SEND DATA of 1", 1, 1, GRANT, 1, 0, 0, 0, 0, list_send, 1},
    {"datagrams: SEND DATA of 200, 15 ready", 200, 1, GRANT, 15, 0, 15, 0, 0, list_send, 200},
    {"datagrams: RECEIVE DATA of 1, one of 1500 held", 1, 1, GRANT, 1, 1500, 0, 0, 0, list_receive, 1},
    {"datagrams: RECEIVE DATA of 237, one of 1500 held", 237, 1, GRANT, 1, 1500, 0, 0, 0, list_receive, 237},
    {"datagrams: RECEIVE DATA of 90, 16 of 90 held", 90, 1, GRANT, 16, 1440, 0, 0, 0, list_receive, 90},
    {"datagrams: arrival of 1", 1, 1, GRANT, 1, 0, 0, 0, 0, list_arrival, 1},
    {"datagrams: arrival of 1, 15 held", 1, 1, GRANT, 15, 15, 0, 0, 0, list_arrival, 1},
    {"datagrams: arrival of 1500", 1500, 1, GRANT, 1, 0, 0, 0, 0, list_arrival, 1500},
    {"datagrams: take of 90, 16 of 90 ready", 90, 1, GRANT, 16, 0, 1440, 0, 0, list_take, 90},
    {"datagrams: take of 1500, one of 1500 ready", 1500, 1, GRANT, 1, 0, 1500, 0, 0, list_take, 1500},
    {"mixed history, each of its 1000 calls", 0, 4, 700, 0, 0, 0, 0, 0, list_mixed, MIXED},
};

enum { LINES = sizeof lines / sizeof lines[0] };

/* Makes a call that must not be refused. */
static void must(const side *who, void *record, call c)
{
    if (who->run(record, &c, out) < REFERENCE_REFUSED)
        return;
    fprintf(stderr, "bench: %s refuses a call that prepares the record\n", who->name);
    exit(1);
}

/* Sends n bytes on channel 1, in pieces that a command can bring; the last one marks them as ready. */
static void send_all(const side *who, void *record, uint32_t n)
{
    uint8_t frame[FRAME_CAP];
    for (; n > 200; n -= 200)
        must(who, record, store_call(frame, 1, 200));
    must(who, record, send_call(frame, 1, n));
}

/* Starts the timers of a line: those that wait have a second, which passes, and then the others have an hour. */
static void start_timers(const side *who, void *record, const line *l)
{
    uint8_t frame[FRAME_CAP];
    for (uint32_t i = 0; i < l->waiting; i++)
        must(who, record, timer_call(frame, (uint8_t)(1 + i), a_second));
    must(who, record, second_call());
    for (uint32_t i = 0; i < l->running; i++)
        must(who, record, timer_call(frame, (uint8_t)(8 - i), an_hour));
}

/* Makes the record that a line begins with; event 09 is listed, nothing is gathered. */
static void prepare(const side *who, void *record, const line *l)
{
    static const uint8_t profile[13] = {0, 0, 8, 0, 1, 0x0C, 0, 3, 0, 0, 0, 0x1F, 0xE2};
    static const uint8_t event = 0x09;
    uint8_t frame[FRAME_CAP];
    uint32_t parts = l->datagrams == 0 ? 1 : l->datagrams;
    must(who, record, (call){START, 0, profile, sizeof profile, 0});
    must(who, record, (call){FETCH_START, 0, data, 0, 0});
    must(who, record, write_command(frame, 0x05, 0, 0x82, 0x99, &event, 1));
    for (uint32_t i = 0; i < l->open; i++)
        must(who, record, l->datagrams == 0 ? open_call(frame, l->size) : open_datagrams_call(frame, l->size));
    for (uint32_t i = 0; i < parts && l->arrived != 0; i++)
        must(who, record, arrival_call(1, l->arrived / parts));
    for (uint32_t i = 0; i < parts && l->sent != 0; i++)
        send_all(who, record, l->sent / parts);
    start_timers(who, record, l);
}

/* Lists the calls of a line. */
static void list_line(const line *l)
{
    listed = 0;
    l->calls(l->n);
}

/* Makes all calls of a list; returns the sum of what they returned. */
static uint64_t run_list(const side *who, void *record, const call *calls)
{
    uint64_t sum = 0;
    for (uint32_t i = 0; i < listed; i++)
        sum += who->run(record, &calls[i], out);
    return sum;
}

/* A record of a side, at an address that suits copying. */
static void *new_record(const side *who)
{
    void *record = aligned_alloc(ALIGNED, (who->size + ALIGNED - 1) / ALIGNED * ALIGNED);
    if (record != NULL)
        return record;
    fprintf(stderr, "bench: no memory\n");
    exit(1);
}

/* What a side returns to a line's calls, in sum. */
static uint64_t returned(const side *who, const line *l)
{
    void *record = new_record(who);
    prepare(who, record, l);
    uint64_t sum = run_list(who, record, list);
    free(record);
    return sum;
}

/* ---- Bytes moved by the mixed history ---- */

/* The bytes held by all channels of the reference. */
static int64_t held(const reference_session *s)
{
    int64_t sum = 0;
    for (int i = 0; i < REFERENCE_CHANNELS; i++)
        if (s->channel[i].link != REFERENCE_UNOPENED)
            sum += s->channel[i].receive.held + s->channel[i].send.held;
    return sum;
}

/* The bytes that a line's calls store and hand out; what a CLOSE discards does not move. */
static uint64_t count_moved(const line *l)
{
    reference_record *r = new_record(&reference_side);
    uint64_t moved = 0;
    prepare(&reference_side, r, l);
    for (uint32_t i = 0; i < listed; i++) {
        int64_t before = held(&r->session);
        reference_run(r, &list[i], out);
        if (list[i].kind != COMMAND || list[i].bytes[5] != 0x41)
            moved += (uint64_t)llabs(held(&r->session) - before);
    }
    free(r);
    return moved;
}

/* Prints number, name, bytes moved by each call and calls of each line. */
static void print_lines(void)
{
    for (uint32_t i = 0; i < LINES; i++) {
        const line *l = &lines[i];
        list_line(l);
        uint64_t moved = listed == MIXED ? count_moved(l) / MIXED : l->moved;
        printf("%u\t%s\t%llu\t%u\n", i, l->name, (unsigned long long)moved, listed == MIXED ? MIXED : 1);
    }
}

/* ---- Measuring ---- */

static int timed;

/* The time in nanoseconds; 0 where it was not asked for. */
static double now(void)
{
    struct timespec t;
    if (!timed)
        return 0;
    clock_gettime(CLOCK_MONOTONIC, &t);
    return (double)t.tv_sec * 1e9 + (double)t.tv_nsec;
}

/* Restores and runs; returns the nanoseconds spent outside the copying. */
static double measure(const side *who, const line *l, uint32_t times, uint32_t restores)
{
    void *prepared = new_record(who), *records[BATCH];
    double spent = 0;
    prepare(who, prepared, l);
    for (int i = 0; i < BATCH; i++)
        records[i] = new_record(who);
    for (uint32_t done = 0; done < restores; done += BATCH) {
        uint32_t batch = restores - done < BATCH ? restores - done : BATCH;
        for (uint32_t i = 0; i < batch; i++)
            memcpy(records[i], prepared, who->size);
        double from = now();
        for (uint32_t i = 0; i < batch; i++)
            run_list(who, records[i], done + i < times ? list : empty);
        spent += now() - from;
    }
    return spent;
}

/* The side of that name. */
static const side *side_named(const char *name)
{
    if (strcmp(name, reference_side.name) == 0)
        return &reference_side;
    if (strcmp(name, pomerassol_side.name) == 0)
        return &pomerassol_side;
    fprintf(stderr, "bench: the side is reference or pomerassol\n");
    exit(2);
}

/* The line of that number. */
static const line *line_numbered(const char *number)
{
    unsigned long i = strtoul(number, NULL, 10);
    if (i < LINES)
        return &lines[i];
    fprintf(stderr, "bench: there is no line %s\n", number);
    exit(2);
}

/* Lists the lines, or runs one of them. */
int main(int argc, char **argv)
{
    timed = argc == 6 && strcmp(argv[5], "time") == 0;
    if (argc == 6 && !timed)
        data_by = (uint32_t)strtoul(argv[5], NULL, 10);
    for (uint32_t i = 0; i < GRANT; i++)
        data[i] = (uint8_t)(i * data_by + (i >> 8));
    if (argc != 5 && argc != 6) {
        print_lines();
        return argc == 1 ? 0 : 2;
    }
    const side *who = side_named(argv[1]);
    const line *l = line_numbered(argv[2]);
    uint32_t times = (uint32_t)strtoul(argv[3], NULL, 10), restores = (uint32_t)strtoul(argv[4], NULL, 10);
    list_line(l);
    if (returned(&reference_side, l) != returned(&pomerassol_side, l)) {
        fprintf(stderr, "bench: the two sides answer differently\n");
        return 1;
    }
    double spent = measure(who, l, times, restores);
    if (timed)
        printf("%.2f\n", spent / restores);
    return 0;
}
