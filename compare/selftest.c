/* Holds reference.c to the listing and the twelve numbers of the paper and to the examples of request M-102, written down
 * by hand. */
#include "reference.h"

#include <stdio.h>
#include <stdlib.h>
#include <string.h>

enum { SPACE = 2048 };

static reference_session session;
static unsigned steps, wrong;
static const char *part;

/* The value of a hexadecimal digit. */
static unsigned digit(char c)
{
    return c <= '9' ? (unsigned)(c - '0') : (unsigned)(c - 'A' + 10);
}

/* Bytes from hexadecimal; blanks may stand between them. */
static size_t unhex(const char *text, uint8_t *bytes)
{
    size_t n = 0;
    for (; *text; text++) {
        if (*text == ' ')
            continue;
        bytes[n++] = (uint8_t)(digit(text[0]) << 4 | digit(text[1]));
        text++;
    }
    return n;
}

/* Prints an answer as the line program does. */
static void print_answer(const char *who, uint32_t returned, const uint8_t *bytes)
{
    printf("  %s: ", who);
    if (returned >= REFERENCE_REFUSED)
        printf("R%u", (unsigned)(returned - REFERENCE_REFUSED));
    for (uint32_t i = 0; returned < REFERENCE_REFUSED && i < returned; i++)
        printf("%02X", bytes[i]);
    printf(returned == 0 ? "--\n" : "\n");
}

/* What a line of the paper's output says: a number as the calls return it, and the bytes. */
static uint32_t meaning(const char *line, uint8_t *bytes)
{
    if (line[0] == 'R')
        return REFERENCE_REFUSED + (uint32_t)strtoul(line + 1, NULL, 10);
    if (line[0] == '-')
        return 0;
    return (uint32_t)unhex(line, bytes);
}

/* Holds one answer to the line that the paper asks for, with every byte behind it untouched. */
static void hold(const char *in, uint32_t returned, const uint8_t *out, const char *line)
{
    uint8_t expected[SPACE];
    memset(expected, 0x5A, SPACE);
    uint32_t asked = meaning(line, expected);
    steps++;
    if (returned == asked && memcmp(out, expected, SPACE) == 0)
        return;
    wrong++;
    printf("%s: %.60s\n", part, in);
    print_answer("the paper", asked, expected);
    print_answer("reference", returned, out);
}

/* Starts a session over a profile. */
static void start(const char *name, const char *profile)
{
    uint8_t bytes[SPACE];
    part = name;
    reference_start(&session, bytes, unhex(profile, bytes));
}

/* One frame of the line program, an arrival or a command, and its line. */
static void says(const char *in, const char *line)
{
    uint8_t frame[SPACE], out[SPACE];
    size_t n = unhex(in, frame);
    memset(out, 0x5A, SPACE);
    if (frame[0] == 0xA0)
        hold(in, reference_arrival(&session, frame[1], frame + 2, n - 2, out, SPACE), out, line);
    else
        hold(in, reference_command(&session, frame, n, out, SPACE), out, line);
}

/* A line: a beginning, then n bytes counted up from `from`, then an end. */
static const char *counted(char *to, const char *beginning, unsigned from, unsigned n, const char *end)
{
    char *at = to + sprintf(to, "%s", beginning);
    for (unsigned i = 0; i < n; i++)
        at += sprintf(at, "%02X", (from + i) & 0xFF);
    sprintf(at, "%s", end);
    return to;
}

/* An envelope into a buffer of so many bytes, and its line. */
static void envelope(size_t size, const char *line)
{
    uint8_t out[SPACE];
    memset(out, 0x5A, SPACE);
    hold("envelope", reference_envelope(&session, out, size), out, line);
}

static char one[8192], two[8192];

#define FULL "00000800010C00000000001F82"
#define TIMERS "0000000000000003"
#define OPEN_1500 "D015810301400182028182350103390205DC3C03021F90"
#define OPENED_1500 "81030140018202828183010038028100350103390205DC"
#define LIST_09 "D00C810301050082028182190109"
#define LISTED "810301050082028281830100"

/* An arrival of n bytes counted up from `from`, told with its status and the count held. */
static void arrives(unsigned from, unsigned n, const char *line)
{
    says(counted(one, "A001", from, n, ""), line);
}

/* The listing of "The line program", which is numbers 1 to 5. */
static void listing(void)
{
    start("the listing", FULL);
    says(OPEN_1500, OPENED_1500);
    says(LIST_09, LISTED);
    says("A001414243", "D60E1901098202828138028100370103");
    says("D00C810301420082028121370105", "8103014200820282818301023603414243370100");
    says("A00200", "R4");
}

/* Numbers 6 and 7: the third OPEN of 1500, and the fourth. */
static void third_and_fourth(void)
{
    start("numbers 6 and 7", FULL);
    says(OPEN_1500, OPENED_1500);
    says(OPEN_1500, "81030140018202828183010038028200350103390205DC");
    says(OPEN_1500, "8103014001820282818301073802830035010339020440");
    says(OPEN_1500, "81030140018202828183023A04");
}

/* Number 8: request 255 of 300 held is 237, 02, 3F left, 255 bytes in all. */
static void number_8(void)
{
    start("number 8", FULL);
    says(OPEN_1500, OPENED_1500);
    arrives(0, 300, "--");
    says("D00C8103014200820281213701FF", counted(two, "8103014200820282818301023681ED", 0, 237, "37013F"));
    says("D00C8103014200820281213701FF", counted(two, "810301420082028281830102363F", 237, 63, "370100"));
}

/* Numbers 9 and 10: request 237 of 492 and of 493 held leaves FF. */
static void numbers_9_and_10(void)
{
    start("number 9", FULL);
    says(OPEN_1500, OPENED_1500);
    arrives(0, 492, "--");
    says("D00C8103014200820281213701ED", counted(two, "8103014200820282818301003681ED", 0, 237, "3701FF"));
    start("number 10", FULL);
    says(OPEN_1500, OPENED_1500);
    arrives(0, 493, "--");
    says("D00C8103014200820281213701ED", counted(two, "8103014200820282818301003681ED", 0, 237, "3701FF"));
    says("D00C8103014200820281213701ED", counted(two, "8103014200820282818301003681ED", 237, 237, "370113"));
}

/* Numbers 11 and 12: an unexpected object, its flag clear and set. */
static void numbers_11_and_12(void)
{
    start("numbers 11 and 12", FULL);
    says("D00C810301020082028182050141", "810301020082028281830101");
    says("D00C810301020082028182850141", "810301020082028281830132");
}

/* The examples of M-102: a timer that is asked and stopped. */
static void one_timer(void)
{
    start("a timer", TIMERS);
    says("D0118103012700820281822401012503005000", "810301270082028281830100240101");
    says("D00C810301270282028182240101", "8103012702820282818301002401012503005000");
    reference_second(&session);
    says("D00C810301270282028182240101", "8103012702820282818301002401012503004095");
    says("D00C810301270182028182A40101", "8103012701820282818301002401012503004095");
    says("D00C810301270182028182A40101", "810301270182028281830124");
}

/* Two timers that come to zero in one second. */
static void two_timers(void)
{
    start("two timers", TIMERS);
    says("D0118103012700820281822401082503000010", "810301270082028281830100240108");
    says("D0118103012700820281822401022503000010", "810301270082028281830100240102");
    reference_second(&session);
    envelope(13, "R1");
    envelope(14, "D70C820282812401022503000010");
    envelope(14, "D70C820282812401082503000010");
    envelope(14, "R10");
}

/* Object 25 where it is unexpected and where it is absent, and value 3. */
static void timer_objects(void)
{
    start("a timer's objects", TIMERS);
    says("D0118103012700820281822401032503323595", "810301270082028281830100240103");
    says("D0118103012702820281822401032503FFFFFF", "8103012702820282818301012401032503323595");
    says("D011810301270282028182240103A503FFFFFF", "810301270282028281830132");
    says("D00C810301270082028182240103", "810301270082028281830136");
    says("D009810301270382028182", "810301270382028281830136");
    says("D00C810301270382028182240103", "810301270382028281830132");
}

/* Runs every part and counts what is wrong. */
int main(void)
{
    listing();
    third_and_fourth();
    number_8();
    numbers_9_and_10();
    numbers_11_and_12();
    one_timer();
    two_timers();
    timer_objects();
    printf("selftest: %u answers held to the paper, %u wrong\n", steps, wrong);
    return wrong != 0;
}
