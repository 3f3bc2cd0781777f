/* The calls of the modem over a session record that the host keeps and lends.
 *
 * Every function here is proved to meet its contract in crates/host/src/lib.rt, over the definitions of crates/rules.
 * A count that is handed in has 64 bits on every machine, also where size_t has 32. The record has one layout on all of them.
 * The host owes what a C compiler cannot check:
 *   - a pointer is not null, also where its size is 0, and leads to as many bytes as its size says;
 *   - the record, the bytes handed in and the buffer lent do not overlap, and nobody else touches them during a call;
 *   - a record that is handed to a call came from pomerassol_start and the calls below, and from nothing else; the gathered
 *     bytes came from pomerassol_fetch_start and pomerassol_fetch.
 * Then every call ends with an answer or with a numbered refusal. A refusal changes neither the record nor a byte of the
 * buffer. An answer writes the front of the buffer, as many bytes as it reports, and leaves the bytes behind them.
 */
#ifndef POMERASSOL_H
#define POMERASSOL_H

#include <stddef.h>
#include <stdint.h>

#ifdef __cplusplus
#define POMERASSOL_ASSERT static_assert
#define POMERASSOL_ALIGNMENT alignof
extern "C" {
#else
#define POMERASSOL_ASSERT _Static_assert
#define POMERASSOL_ALIGNMENT _Alignof
#endif

/* The version of these calls, and the number of the record's layout: a record that another layout wrote is none of ours. */
#define POMERASSOL_VERSION "0.9.0"
#define POMERASSOL_LAYOUT 1

/* What the library was compiled for: a little-endian machine with bytes of 8 bits and pointers of 64 bits at most. */
#if defined(__BYTE_ORDER__) && __BYTE_ORDER__ != __ORDER_LITTLE_ENDIAN__
#error "the library is for little-endian machines"
#endif
POMERASSOL_ASSERT(sizeof(uint64_t) == 8 && (unsigned char)-1 == 255, "bytes of 8 bits");
POMERASSOL_ASSERT(sizeof(void *) <= sizeof(uint64_t), "pointers");

/* A count that is handed in: size_t where that has 64 bits, and else a number of 64 bits. */
#if defined(__SIZEOF_SIZE_T__) && __SIZEOF_SIZE_T__ == 8
typedef size_t pomerassol_size;
#else
typedef uint64_t pomerassol_size;
#endif
POMERASSOL_ASSERT(sizeof(pomerassol_size) == 8, "counts");

/* A number that a call returns is the count of bytes written, at most 1500, or this flag plus the refusal's number: 1 to 12. */
#define POMERASSOL_REFUSED UINT32_C(0x1000000)

/* The refusals, as they are returned. */
#define POMERASSOL_R1_SHORT_BUFFER (POMERASSOL_REFUSED + 1)  /* the buffer is shorter than the least for this call */
#define POMERASSOL_R2_COMMAND_SIZE (POMERASSOL_REFUSED + 2)  /* a command of no byte, or of more than 256 */
#define POMERASSOL_R3_NO_CHANNEL (POMERASSOL_REFUSED + 3)    /* a channel number that is not 1 to 7 */
#define POMERASSOL_R4_UNOPENED (POMERASSOL_REFUSED + 4)      /* the channel is not open */
#define POMERASSOL_R5_UNLINKED (POMERASSOL_REFUSED + 5)      /* the channel's link is not established */
#define POMERASSOL_R6_OVERFULL (POMERASSOL_REFUSED + 6)      /* an arrival of more bytes than there is room for */
#define POMERASSOL_R10_NONE_WAITS (POMERASSOL_REFUSED + 10)  /* no timer waits */
#define POMERASSOL_R11_NO_PLACE (POMERASSOL_REFUSED + 11)    /* 16 datagrams are held already */
#define POMERASSOL_R12_UNDERSIZED (POMERASSOL_REFUSED + 12)  /* the buffer is shorter than the datagram to be taken */
#define POMERASSOL_R13_MALFORMED (POMERASSOL_TEXT_REFUSED + 13)  /* the value of object 05 is malformed */
#define POMERASSOL_R14_SHORT_TEXT (POMERASSOL_TEXT_REFUSED + 14) /* the buffer is shorter than the text */

/* The least buffers: of a command and a fetch, of an arrival and a drop, and of an envelope. A take has none. */
#define POMERASSOL_RESPONSE_BUFFER 255
#define POMERASSOL_EVENT_BUFFER 16
#define POMERASSOL_ENVELOPE_BUFFER 14

/* The greatest counts: the bytes of a command, those that a response has, those that a channel is granted each way, which
 * is also the most that a take hands out; and the channels and timers of a card. */
#define POMERASSOL_COMMAND_MOST 256
#define POMERASSOL_RESPONSE_MOST 255
#define POMERASSOL_GRANT_MOST 1500
#define POMERASSOL_CHANNELS 7
#define POMERASSOL_TIMERS 8

/* The link of a channel, by its number. */
#define POMERASSOL_NOT_YET 0
#define POMERASSOL_ESTABLISHED 1
#define POMERASSOL_DROPPED 2

/* What a channel carries, by its number. */
#define POMERASSOL_STREAM 0
#define POMERASSOL_DATAGRAMS 1

/* The ledger is 330 numbers. Here is the place of each:
 *   - from 0 to 12 the kept bytes of the profile, each at most 255;
 *   - 13 and 14 the event list: whether 09, data available, and 0A, channel status, are listed. Each is 0 or 1;
 *   - 15 the cells that are promised to no channel, 256 at the start;
 *   - from 16 on 6 numbers for each of the timers 1 to 8: hours, minutes and seconds that are left, and those that it was
 *     started with. All are 0 where it neither runs nor waits, and the first three where it waits;
 *   - from 64 on 38 numbers for each of the channels 1 to 7, in this order: its grant (0 where it is not open), its link,
 *     the bytes held for receive, the bytes held for send, how many of those to send are ready, and what it carries; then
 *     16 lengths of the datagrams held for receive, and 16 of the finished ones held for send, oldest first, 0 where there
 *     is none. The bytes to send that are not ready are those of the unfinished datagram. */
#define POMERASSOL_PROFILE 0
#define POMERASSOL_PROFILE_SIZE 13
#define POMERASSOL_EVENT_AVAILABLE 13
#define POMERASSOL_EVENT_STATUS 14
#define POMERASSOL_FREE_CELLS 15
#define POMERASSOL_PLACES 16
#define POMERASSOL_TIMER(n) (16 + 6 * ((n) - 1))
#define POMERASSOL_TIME_LEFT(n) (POMERASSOL_TIMER(n) + 0)
#define POMERASSOL_TIME_STARTED(n) (POMERASSOL_TIMER(n) + 3)
#define POMERASSOL_CHANNEL(n) (64 + 38 * ((n) - 1))
#define POMERASSOL_GRANT(n) (POMERASSOL_CHANNEL(n) + 0)
#define POMERASSOL_LINK(n) (POMERASSOL_CHANNEL(n) + 1)
#define POMERASSOL_RX(n) (POMERASSOL_CHANNEL(n) + 2)
#define POMERASSOL_TX(n) (POMERASSOL_CHANNEL(n) + 3)
#define POMERASSOL_READY(n) (POMERASSOL_CHANNEL(n) + 4)
#define POMERASSOL_CARRIES(n) (POMERASSOL_CHANNEL(n) + 5)
#define POMERASSOL_RX_LENGTHS(n) (POMERASSOL_CHANNEL(n) + 6)
#define POMERASSOL_TX_LENGTHS(n) (POMERASSOL_RX_LENGTHS(n) + POMERASSOL_PLACES)

/* Where a channel's bytes lie in the pool: the open channels stand one after the other in the order of their numbers, from
 * place 0 on, each with two parts of POMERASSOL_PART bytes of its grant, the cells of 32 bytes that the grant takes. The
 * first part holds what is to be received, the second what is to be sent, each from its front on, oldest first; every other
 * byte of the pool is 0. Of a channel that is not open the grant is 0, and so are its parts: an opening and a closing move
 * the parts of the channels with higher numbers. */
#define POMERASSOL_CELL 32
#define POMERASSOL_PART(grant) (((grant) + POMERASSOL_CELL - 1) / POMERASSOL_CELL * POMERASSOL_CELL)

/* What a host keeps for a card. Every held byte lies in the pool; a host reads the record if it likes, and never writes it. */
typedef struct {
    uint16_t ledger[330];
    uint8_t pool[8192];
} pomerassol_session;

POMERASSOL_ASSERT(sizeof(pomerassol_session) == 8852, "session");
POMERASSOL_ASSERT(POMERASSOL_ALIGNMENT(pomerassol_session) == 2, "alignment");
POMERASSOL_ASSERT(offsetof(pomerassol_session, ledger) == 0, "ledger");
POMERASSOL_ASSERT(offsetof(pomerassol_session, pool) == 660, "pool");
POMERASSOL_ASSERT(POMERASSOL_TX_LENGTHS(7) + POMERASSOL_PLACES == 330, "lengths");
POMERASSOL_ASSERT(POMERASSOL_TIME_STARTED(8) + 3 == POMERASSOL_CHANNEL(1), "timers");

/* What was gathered of a command so far: its bytes, 0 behind them, and their count. A host reads it if it likes, and never
 * writes it. */
typedef struct {
    uint8_t bytes[256];
    uint8_t count;
} pomerassol_gathered;

POMERASSOL_ASSERT(sizeof(pomerassol_gathered) == 257, "gathered");
POMERASSOL_ASSERT(POMERASSOL_ALIGNMENT(pomerassol_gathered) == 1, "alignment");
POMERASSOL_ASSERT(offsetof(pomerassol_gathered, count) == 256, "count");

/* A fresh session from profile bytes of any length; at a card's reset, anew. The record may hold anything, as memory that is
 * all 0. Afterwards it shows `start` of the profile: no channel, no event, no timer, an empty pool, every cell unpromised. */
void pomerassol_start(pomerassol_session *s, const uint8_t *profile, pomerassol_size profile_size);

/* The card sends a command. The answer is `command` of the session, the buffer's size and the bytes: the response that the
 * modem writes, at most 255 bytes, and the session behind it. R1 where the buffer has fewer than 255 bytes, then R2. */
uint32_t pomerassol_command(pomerassol_session *s, const uint8_t *bytes, pomerassol_size bytes_size, uint8_t *out, pomerassol_size out_size);

/* The radio brings bytes for a channel. The answer is `arrival`: the bytes are stored whole, and event 09, 16 bytes, tells
 * of them where it is listed and nothing was held to be received; else no byte is written. On a datagram channel they are
 * one datagram; R11 where it would be the seventeenth held. R1 where the buffer has fewer than 16 bytes, then R3 to R6,
 * then R11. */
uint32_t pomerassol_arrival(pomerassol_session *s, uint8_t channel, const uint8_t *bytes, pomerassol_size bytes_size, uint8_t *out, pomerassol_size out_size);

/* The radio takes the bytes of a channel that are ready. The answer is `taking`: as many of them as fit the buffer, in
 * order, and they are held no longer. Of a datagram channel it is the oldest finished datagram, whole; R12 where the buffer
 * is shorter. R3 to R5, then R12. */
uint32_t pomerassol_take(pomerassol_session *s, uint8_t channel, uint8_t *out, pomerassol_size out_size);

/* The radio tells that the link of a channel was dropped. The answer is `dropping`: the link is dropped, what is held stays,
 * and event 0A, 13 bytes, tells of it where it is listed. R1 where the buffer has fewer than 16 bytes, then R3 to R5. */
uint32_t pomerassol_drop(pomerassol_session *s, uint8_t channel, uint8_t *out, pomerassol_size out_size);

/* A second has passed. The session is that of `passing`: every timer that runs loses a second, and one that comes to zero
 * stops and waits. Nothing is written and nothing is refused. */
void pomerassol_second(pomerassol_session *s);

/* The envelope of the lowest timer that waits, 14 bytes with the time that it was started with; then it waits no more. The
 * answer is `enveloping`. R1 where the buffer has fewer than 14 bytes, then R10 where no timer waits. */
uint32_t pomerassol_envelope(pomerassol_session *s, uint8_t *out, pomerassol_size out_size);

/* What command is at hand, from its outer head and its first object alone: number times 10000 plus type times 100 plus
 * qualifier, all hexadecimal, which are the details that the answer to the same bytes has; 0 where the outer frame is wrong,
 * or the first object is none, faulty or not 01 with length 3. `POMERASSOL_REFUSED` plus 2 where there is no byte, or more
 * than 256. The answer is `at_hand`. It needs no record. */
uint32_t pomerassol_details(const uint8_t *bytes, pomerassol_size bytes_size);

/* The text of an alpha identifier, the value of object 05, as 16-bit units: the default alphabet of TS 23.038, or the codings
 * 80, 81 and 82 of TS 102 221 annex A. The answer is `reads`; the number is the count of units, which stand at the front of
 * `out`, whose size is counted in units. R13 where the value is malformed, then R14 where `out` has fewer units than the
 * text; then no unit is written. It needs no record. With as many units in `out` as the value has bytes it is never R14. */
uint64_t pomerassol_alpha_read(const uint8_t *value, pomerassol_size value_size, uint16_t *out, pomerassol_size out_size);

/* The alpha identifier of a text: the shortest coding, on a tie the first of default, 80, 81 and 82. The answer is `writes`;
 * the number is the count of bytes. R14 where `out` has fewer, which is then as it was; there is no other refusal. 1 byte and
 * 2 for each unit are always enough. */
uint64_t pomerassol_alpha_write(const uint16_t *units, pomerassol_size units_size, uint8_t *out, pomerassol_size out_size);

/* The number of these two is a count, which is below this flag, or the flag plus the refusal's number, 13 or 14. */
#define POMERASSOL_TEXT_REFUSED UINT64_C(0x8000000000000000)

/* Nothing is gathered; at a card's reset, anew. The memory may hold anything. */
void pomerassol_fetch_start(pomerassol_gathered *gathered);

/* The card's bytes, as they come off the line: a burst of them, none among them. The answer is `fetch`. Bytes are taken one
 * after the other until those gathered are a command, which is answered as pomerassol_command answers it; or can never be
 * one, by the outer head, which is answered at the byte that shows it; or call for more than 256 bytes, which is R2. Then
 * nothing is gathered, and the bytes behind are left. Else all are taken, and nothing is written: more is to come.
 * R1 where the buffer has fewer than 255 bytes, before everything: the burst is not taken, and what was gathered stays. */
uint64_t pomerassol_fetch(pomerassol_session *s, pomerassol_gathered *gathered, const uint8_t *bytes, pomerassol_size bytes_size, uint8_t *out, pomerassol_size out_size);

/* What that number says: how many of the burst's bytes are left, FFFFFFFF for that many and more; and how the call ended, as
 * in the other calls, 0 being that more is to come. */
#define POMERASSOL_LEFT(number) ((uint32_t)((number) >> 32))
#define POMERASSOL_ENDED(number) ((uint32_t)(number))

#ifdef __cplusplus
}
#endif

#endif
