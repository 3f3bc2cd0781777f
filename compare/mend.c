/* M-112 by itself, from the words of the request: lines on standard input, mended lines on standard output.
 * FAULT plants one fault: 1 S of a removed object, 2 places of the output, 3 a command of 257 bytes, 4 the form of the outer length untold. */
#include <stdbool.h>
#include <stdint.h>
#include <stdio.h>

#ifndef FAULT
#define FAULT 0
#endif

enum { FRAME_CAP = 1600, COMMAND_CAP = FAULT == 3 ? 257 : 256 };
enum { COMMAND = 0xD0, LONG_TAG = 0x7F, LONG_LENGTH = 0x81, SHORT = 0x80 };

/* The line at hand: its bytes, how many characters it has, and whether one of them is no digit. */
static uint8_t in[FRAME_CAP];
static size_t count, characters;
static bool other;

/* What comes out: room for the head in front, then objects; and the changes. */
static uint8_t out[3 + FRAME_CAP];
static size_t end;
static struct { char letter; size_t place; } changes[FRAME_CAP];
static size_t changed;

static void change(char letter, size_t place)
{
    changes[changed].letter = letter;
    changes[changed++].place = place;
}

/* How many bytes the tag at a place has; 0 for none. */
static size_t tag_size(size_t at)
{
    if (in[at] != LONG_TAG)
        return (in[at] & 0x7F) != 0 && (in[at] & 0x7F) != 0x7F;
    return at + 2 < count && ((in[at + 1] & 0x7F) | in[at + 2]) ? 3 : 0;
}

/* How many bytes the length at a place has; 0 for none. Its last byte says how much follows. */
static size_t length_size(size_t at)
{
    if (at < count && in[at] < SHORT)
        return 1;
    return at + 1 < count && in[at] == LONG_LENGTH ? 2 : 0;
}

/* Takes the object at a place over; the place behind it, or 0 for a fault. */
static size_t object(size_t at)
{
    size_t tag = tag_size(at), sized = at + tag, length = tag ? length_size(sized) : 0;
    if (length == 0)
        return 0;
    size_t said = in[sized + length - 1], behind = sized + length + said;
    bool shortened = length == 2 && said < SHORT;
    if (FAULT == 1 && shortened && behind > count)
        change('S', sized);
    if (behind > count)
        return 0;
    if (shortened)
        change('S', FAULT == 2 ? end - 1 + tag : sized);
    for (size_t from = at; from < behind; from++)
        if (!(shortened && from == sized))
            out[end++] = in[from];
    return behind;
}

/* Takes over the objects behind the outer length, of so many bytes, up to the first fault. */
static void objects(size_t length)
{
    end = 3;
    changed = 0;
    for (size_t at = 1 + length, behind; at < count; at = behind) {
        behind = object(at);
        if (behind == 0) {
            change('T', at);
            return;
        }
    }
}

/* Writes the head in front of the objects; the place where it begins. */
static size_t head(void)
{
    size_t size = end - 3, from = size < SHORT;
    out[2] = (uint8_t)size;
    if (!from)
        out[1] = LONG_LENGTH;
    out[from] = COMMAND;
    return from;
}

/* Whether the outer length, of so many bytes, comes out as it stood. */
static bool outer_stays(size_t from, size_t length)
{
    bool same = FAULT == 4 || length == 2 - from;
    return same && in[length] == out[2];
}

static void answer(void)
{
    if (other || characters == 0 || characters % 2 != 0 || characters > 2 * FRAME_CAP) {
        puts("R9");
        return;
    }
    count = characters / 2;
    size_t length = length_size(1);
    if (in[0] == COMMAND && length != 0)
        objects(length);
    if (in[0] != COMMAND || length == 0 || end == 3 || end - 3 + 2 + (end - 3 >= SHORT) > COMMAND_CAP) {
        puts("R16");
        return;
    }
    size_t from = head();
    for (size_t at = from; at < end; at++)
        printf("%02X", out[at]);
    if (!outer_stays(from, length))
        printf(" L1");
    for (size_t k = 0; k < changed; k++)
        printf(" %c%zu", changes[k].letter, changes[k].place);
    putchar('\n');
}

/* The value of a hexadecimal digit in either case, or -1. */
static int digit(int c)
{
    if (c >= '0' && c <= '9')
        return c - '0';
    if (c >= 'A' && c <= 'F')
        return c - 'A' + 10;
    return c >= 'a' && c <= 'f' ? c - 'a' + 10 : -1;
}

int main(void)
{
    for (int c; (c = getchar()) != EOF;) {
        if (c == '\n') {
            answer();
            characters = 0;
            other = false;
            continue;
        }
        int value = digit(c);
        if (value < 0)
            other = true;
        else if (characters < 2 * FRAME_CAP)
            in[characters / 2] = (uint8_t)(characters % 2 ? in[characters / 2] << 4 | value : value);
        characters++;
    }
    return 0;
}
