/* The main loop of a modem's firmware over the proved calls: it hands on what the card, the radio and the clock bring, and
 * tells the card and the radio what comes of it. On the serial line each answer is a line. */
#include "board.h"
#include "fakes.h"
#include "pomerassol.h"

static pomerassol_session session;
static pomerassol_gathered gathered;

/* Prints a text. */
static void print(const char *text)
{
    for (; *text != 0; text++)
        board_put(*text);
}

/* Prints bytes as a line of digits. */
static void print_bytes(const uint8_t *bytes, uint32_t n)
{
    for (uint32_t i = 0; i < n; i++) {
        board_put("0123456789ABCDEF"[bytes[i] >> 4]);
        board_put("0123456789ABCDEF"[bytes[i] & 0xF]);
    }
    board_put('\n');
}

/* Prints a refusal's number. */
static void print_refusal(uint32_t ended)
{
    uint32_t number = ended - POMERASSOL_REFUSED;
    board_put('R');
    if (number >= 10)
        board_put('1');
    board_put((char)('0' + number % 10));
    board_put('\n');
}

/* The answer to a command goes to the card as the data of a TERMINAL RESPONSE, 80 14 00 00. */
static void terminal_response(const uint8_t *bytes, uint32_t n)
{
    print_bytes(bytes, n);
}

/* Event 09 or 0A, and a timer's end, go to the card as the data of an ENVELOPE, 80 C2 00 00. */
static void envelope(const uint8_t *bytes, uint32_t n)
{
    print_bytes(bytes, n);
}

/* Bytes for the network go to the radio; the listing has none. */
static void transmit(uint8_t channel, const uint8_t *bytes, uint32_t n)
{
    board_put('>');
    board_put((char)('0' + channel));
    board_put(' ');
    print_bytes(bytes, n);
}

/* Takes what is ready on each channel; on a datagram channel one datagram a turn. */
static void take_ready(void)
{
    static uint8_t out[POMERASSOL_GRANT_MOST];
    for (uint8_t channel = 1; channel <= POMERASSOL_CHANNELS; channel++)
        while (session.ledger[POMERASSOL_LINK(channel)] == POMERASSOL_ESTABLISHED && session.ledger[POMERASSOL_READY(channel)] != 0)
            transmit(channel, out, pomerassol_take(&session, channel, out, sizeof out));
}

/* Whether a response tells that no command was made out: result 32 and details of 0. Then the line has lost its place. */
static bool no_command(const uint8_t *out)
{
    return out[2] == 0 && out[3] == 0 && out[4] == 0 && out[11] == 0x32;
}

/* A burst of the card came: each command in it is answered. With the first burst of a FETCH nothing may be gathered, and
 * behind bytes that are no command the rest of the burst is dropped. */
static void on_burst(bool first, const uint8_t *bytes, size_t n)
{
    uint8_t out[POMERASSOL_RESPONSE_BUFFER];
    if (first)
        pomerassol_fetch_start(&gathered);
    while (n != 0) {
        uint64_t number = pomerassol_fetch(&session, &gathered, bytes, n, out, sizeof out);
        uint32_t ended = POMERASSOL_ENDED(number), left = POMERASSOL_LEFT(number);
        if (ended >= POMERASSOL_REFUSED)
            print_refusal(ended);
        else if (ended != 0)
            terminal_response(out, ended);
        if (ended >= POMERASSOL_REFUSED || (ended != 0 && no_command(out)))
            return;
        bytes += n - left;
        n = left;
    }
}

/* The radio brought bytes, or lost a link: the card is told where it asked for it. */
static void on_radio(const happening *h)
{
    uint8_t out[POMERASSOL_EVENT_BUFFER];
    uint32_t ended = h->kind == RADIO_BROUGHT
                         ? pomerassol_arrival(&session, h->channel, h->bytes, h->n, out, sizeof out)
                         : pomerassol_drop(&session, h->channel, out, sizeof out);
    if (ended >= POMERASSOL_REFUSED)
        print_refusal(ended);
    else if (ended != 0)
        envelope(out, ended);
    else
        print("--\n");
}

/* A second passed: the timers that came to zero are told, the lowest first. */
static void on_second(void)
{
    uint8_t out[POMERASSOL_ENVELOPE_BUFFER];
    uint32_t ended;
    pomerassol_second(&session);
    while ((ended = pomerassol_envelope(&session, out, sizeof out)) < POMERASSOL_REFUSED)
        envelope(out, ended);
}

int main(void)
{
    static uint8_t profile[LINE_CAP];
    size_t n = fake_profile(profile);
    pomerassol_start(&session, profile, n);
    pomerassol_fetch_start(&gathered);
    for (;;) {
        happening h = fake_wait();
        switch (h.kind) {
        case CARD_BURST:
            on_burst(h.first, h.bytes, h.n);
            break;
        case RADIO_BROUGHT:
        case RADIO_DROPPED:
            on_radio(&h);
            break;
        case SECOND_PASSED:
            on_second();
            break;
        case NOTHING_MORE:
            return 0;
        }
        take_ready();
    }
}
