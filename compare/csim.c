/* Exchange with +CSIM logs, written a second time from the request: a filter for each way, and a maker of random lines.
 *
 *     csim import < LINES           csim export < LINES
 *     csim lines import SEED COUNT  csim lines export SEED COUNT
 */
#include <stdint.h>
#include <stdio.h>
#include <stdlib.h>
#include <string.h>

enum { LINE_CAP = 3200, KINDS = 3, DATA_CAP = 255 };

static const struct {
    const char *word;
    uint8_t instruction;
} kinds[KINDS] = {{"profile", 0x10}, {"response", 0x14}, {"envelope", 0xC2}};

/* The next character that is no blank, as a capital; -1 at the end. */
static int next(const uint8_t *line, size_t size, size_t *at)
{
    while (*at < size && line[*at] == ' ')
        ++*at;
    if (*at == size)
        return -1;
    int c = line[(*at)++];
    return c >= 'a' && c <= 'z' ? c - 'a' + 'A' : c;
}

/* The value of a digit in capitals; -1 for any other character. */
static int digit(int c)
{
    if (c >= '0' && c <= '9')
        return c - '0';
    return c >= 'A' && c <= 'F' ? c - 'A' + 10 : -1;
}

static void read_log(const uint8_t *line, size_t size)
{
    static uint8_t bytes[LINE_CAP];
    size_t at = 0, digits = 0, count = 0, figures = 0;
    int c, padded = 0;
    if (size > LINE_CAP)
        goto none;
    for (const char *p = "AT+CSIM="; *p; p++)
        if (next(line, size, &at) != *p)
            goto none;
    while ((c = next(line, size, &at)) >= '0' && c <= '9') {
        padded |= figures++ == 1 && count == 0;
        count = count > LINE_CAP ? count : 10 * count + (size_t)(c - '0');
    }
    if (figures == 0 || padded || c != ',' || next(line, size, &at) != '"')
        goto none;
    for (; (c = digit(next(line, size, &at))) >= 0; digits++)
        bytes[digits / 2] = (uint8_t)(digits % 2 ? bytes[digits / 2] << 4 | c : c);
    /* the character that ended the digits is the last quote, and stands last */
    while (at > 0 && line[at - 1] == ' ')
        at--;
    if (at == 0 || line[at - 1] != '"' || digits % 2 || digits < 12)
        goto none;
    if (next(line, size, &at) != -1)
        goto none;
    for (int k = 0; k < KINDS; k++) {
        const uint8_t header[4] = {0x80, kinds[k].instruction, 0, 0};
        if (memcmp(bytes, header, sizeof header))
            continue;
        if (count != digits || bytes[4] != digits / 2 - 5) {
            puts("R18");
            return;
        }
        printf("%s ", kinds[k].word);
        for (size_t i = 5; i < digits / 2; i++)
            printf("%02X", bytes[i]);
        putchar('\n');
        return;
    }
none:
    puts("R17");
}

static void write_log(const uint8_t *line, size_t size)
{
    for (int k = 0; size <= LINE_CAP && k < KINDS; k++) {
        size_t word = strlen(kinds[k].word), digits = size - word - 1;
        if (size <= word + 1 || memcmp(line, kinds[k].word, word) || line[word] != ' ' || digits % 2 || digits / 2 > DATA_CAP)
            continue;
        const uint8_t *data = line + word + 1;
        size_t i = 0, at = 0;
        while (i < digits && data[i] != ' ' && (at = i, digit(next(data, digits, &at)) >= 0))
            i++;
        if (i < digits)
            continue;
        printf("AT+CSIM=%zu,\"80%02X0000%02zX", 10 + digits, kinds[k].instruction, digits / 2);
        for (at = 0; at < digits;)
            putchar(next(data, digits, &at));
        puts("\"");
        return;
    }
    puts("R17");
}

static uint64_t state;

static unsigned below(unsigned n)
{
    state ^= state << 13, state ^= state >> 7, state ^= state << 17;
    return (unsigned)(state >> 33) % n;
}

/* A character in place of another: of those that a line may have, or any but a line feed. */
static int another(void)
{
    static const char usual[] = " \t\r\",=+0123456789ABCDEFabcdefGgATCSIMatcsim";
    int c = below(8) ? usual[below(sizeof usual - 1)] : (int)below(256);
    return c == '\n' ? ' ' : c;
}

/* A line that is right, or nearly so. */
static void make(int importing)
{
    static char line[4 * DATA_CAP];
    unsigned size = below(6) ? 1 + below(12) : below(258);
    unsigned k = below(KINDS), length = 0;
    unsigned p3 = below(12) ? size : below(256), count = below(12) ? 10 + 2 * size : below(600);
    if (importing)
        length += (unsigned)sprintf(line, "AT+CSIM=%s%u,\"80%02X0000%02X", below(20) ? "" : "0", count, kinds[k].instruction, p3 & 255);
    else
        length += (unsigned)sprintf(line, "%s ", kinds[k].word);
    for (unsigned i = 0; i < size; i++)
        length += (unsigned)sprintf(line + length, below(4) ? "%02X" : "%02x", below(256));
    if (importing)
        line[length++] = '"';
    unsigned damaged = below(3) ? ~0u : below(length), how = below(3), blanks = importing && !below(3);
    for (unsigned i = 0; i < length; i++) {
        if (blanks && !below(4))
            putchar(' ');
        if (i == damaged && how > 0)
            putchar(another());
        if (i != damaged || how < 2)
            putchar(importing && !below(9) && line[i] >= 'A' && line[i] <= 'Z' ? line[i] - 'A' + 'a' : line[i]);
    }
    putchar('\n');
}

int main(int count, char **words)
{
    if (count == 5 && !strcmp(words[1], "lines")) {
        state = strtoull(words[3], NULL, 10) * 0x9E3779B97F4A7C15u + 1;
        for (long n = strtol(words[4], NULL, 10); n > 0; n--)
            make(!strcmp(words[2], "import"));
        return 0;
    }
    if (count != 2)
        return 2;
    static uint8_t line[1 << 16];
    size_t size = 0;
    for (int c; (c = getchar()) != EOF;) {
        if (c != '\n') {
            if (size < sizeof line)
                line[size++] = (uint8_t)c;
            continue;
        }
        (strcmp(words[1], "import") ? write_log : read_log)(line, size);
        size = 0;
    }
    return 0;
}
