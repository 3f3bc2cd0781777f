/* Alpha identifiers, written a second time from the request, and lines for it at random.
 *
 *   alpha read  < LINES     what alpha-read prints
 *   alpha write < LINES     what alpha-write prints
 *   alpha lines read|write SEED COUNT
 *
 * FAULT plants one of the wrong versions that the request names: 1 the escape read in 81, 2 a dangling escape accepted, 3 the
 * base of 81 by its low bits, 4 a count that need not fit, 5 FF in the middle read on, 6 82 chosen on a tie with 80, 7 the base
 * one too high, 8 code 09 as 00E7, 9 any byte as padding of 80.
 */
#include <stdint.h>
#include <stdio.h>
#include <stdlib.h>
#include <string.h>

#ifndef FAULT
#define FAULT 0
#endif

#define MOST 1600

/* The base table by ranges and exceptions: what is no ASCII at its own code. */
static int unit_of(int code) {
    static const struct { unsigned char code; unsigned short unit; } odd[] = {
        {0x00, 0x40}, {0x01, 0xA3}, {0x02, 0x24}, {0x03, 0xA5}, {0x04, 0xE8}, {0x05, 0xE9}, {0x06, 0xF9}, {0x07, 0xEC}, {0x08, 0xF2},
        {0x09, FAULT == 8 ? 0xE7 : 0xC7}, {0x0B, 0xD8}, {0x0C, 0xF8}, {0x0E, 0xC5}, {0x0F, 0xE5}, {0x10, 0x394}, {0x11, 0x5F}, {0x12, 0x3A6},
        {0x13, 0x393}, {0x14, 0x39B}, {0x15, 0x3A9}, {0x16, 0x3A0}, {0x17, 0x3A8}, {0x18, 0x3A3}, {0x19, 0x398}, {0x1A, 0x39E}, {0x1C, 0xC6},
        {0x1D, 0xE6}, {0x1E, 0xDF}, {0x1F, 0xC9}, {0x24, 0xA4}, {0x40, 0xA1}, {0x5B, 0xC4}, {0x5C, 0xD6}, {0x5D, 0xD1}, {0x5E, 0xDC},
        {0x5F, 0xA7}, {0x60, 0xBF}, {0x7B, 0xE4}, {0x7C, 0xF6}, {0x7D, 0xF1}, {0x7E, 0xFC}, {0x7F, 0xE0}};
    for (size_t k = 0; k < sizeof odd / sizeof *odd; k++)
        if (odd[k].code == code)
            return odd[k].unit;
    return code;
}

static int extension_of(int code) {
    switch (code) {
    case 0x0A: return 0x0C;
    case 0x14: return '^';
    case 0x28: return '{';
    case 0x29: return '}';
    case 0x2F: return '\\';
    case 0x3C: return '[';
    case 0x3D: return '~';
    case 0x3E: return ']';
    case 0x40: return '|';
    case 0x65: return 0x20AC;
    }
    return -1;
}

/* The code of a unit by a search: 0 to 127 of the base table, 256 plus the code of the extension table, or -1. */
static int code_of(int unit) {
    for (int code = 0; code < 128; code++)
        if (code != 0x1B && unit_of(code) == unit)
            return code;
    for (int code = 0; code < 128; code++)
        if (extension_of(code) == unit)
            return 256 + code;
    return -1;
}

static int read_based(const unsigned char *s, int n, int count, int pointer, int *out) {
    if (n < count && FAULT != 4)
        return -1;
    if (n < count)
        count = n;
    for (int k = count; k < n; k++)
        if (s[k] != 0xFF)
            return -1;
    for (int k = 0; k < count; k++) {
        if (s[k] == 0x1B && FAULT != 1)
            return -1;
        out[k] = s[k] < 0x80 ? unit_of(s[k]) : pointer + (s[k] & 0x7F);
        if (out[k] > 0xFFFF)
            return -1;
    }
    return count;
}

/* The count of units, or -1 where the value is malformed. */
static int read_value(const unsigned char *s, int n, int *out) {
    int made = 0;
    if (n == 0)
        return 0;
    if (s[0] == 0x80) {
        int k = 1;
        for (; k + 1 < n; k += 2)
            out[made++] = 256 * s[k] + s[k + 1];
        return k < n && s[k] != 0xFF && FAULT != 9 ? -1 : made;
    }
    if (s[0] == 0x81)
        return n < 3 ? -1 : read_based(s + 3, n - 3, s[1], FAULT == 3 ? s[2] : 128 * s[2], out);
    if (s[0] == 0x82)
        return n < 4 ? -1 : read_based(s + 4, n - 4, s[1], 256 * s[2] + s[3], out);
    for (int k = 0; k < n; k++) {
        if (s[k] == 0xFF && FAULT == 5)
            continue;
        if (s[k] == 0xFF)
            return made;
        if (s[k] >= 0x80)
            return -1;
        if (s[k] != 0x1B) {
            out[made++] = unit_of(s[k]);
            continue;
        }
        if (++k == n && FAULT == 2)
            return made;
        if (k == n || extension_of(s[k]) < 0)
            return -1;
        out[made++] = extension_of(s[k]);
    }
    return made;
}

static int write_based(const int *units, int n, int pointer, unsigned char *out) {
    for (int k = 0; k < n; k++) {
        int code = code_of(units[k]);
        out[k] = code >= 0 && code < 128 ? code : 0x80 + units[k] - pointer;
    }
    return n;
}

/* The count of bytes of the shortest coding. */
static int write_units(const int *units, int n, unsigned char *out) {
    int plain = 0, low = -1, high = -1, best, form;
    for (int k = 0; k < n; k++) {
        int code = code_of(units[k]);
        plain = plain < 0 || code < 0 ? -1 : plain + (code < 128 ? 1 : 2);
        if (code >= 0 && code < 128)
            continue;
        if (low < 0 || units[k] < low)
            low = units[k];
        if (units[k] > high)
            high = units[k];
    }
    int base = high < 0x7F ? 0 : high - 0x7F;
    form = plain >= 0 && plain <= 1 + 2 * n ? 0 : 1;
    best = form == 0 ? plain : 1 + 2 * n;
    if (n <= 255 && high < 0x8000 && (high < 0 || low / 128 == high / 128) && 3 + n < best)
        form = 2, best = 3 + n;
    if (n <= 255 && (high < 0 || low >= base) && 4 + n < best + (FAULT == 6 && form == 1))
        form = 3, best = 4 + n;
    if (form == 0) {
        for (int k = 0, at = 0; k < n; k++) {
            int code = code_of(units[k]);
            if (code >= 256)
                out[at++] = 0x1B;
            out[at++] = code & 0xFF;
        }
    } else if (form == 1) {
        *out++ = 0x80;
        for (int k = 0; k < n; k++)
            out[2 * k] = units[k] / 256, out[2 * k + 1] = units[k] % 256;
    } else if (form == 2) {
        int block = high < 0 ? 0 : high / 128;
        out[0] = 0x81, out[1] = n, out[2] = block;
        write_based(units, n, 128 * block, out + 3);
    } else {
        if (FAULT == 7 && low > base)
            base++;
        out[0] = 0x82, out[1] = n, out[2] = base / 256, out[3] = base % 256;
        write_based(units, n, base, out + 4);
    }
    return best;
}

static int digit(int c) {
    if (c >= '0' && c <= '9')
        return c - '0';
    if (c >= 'A' && c <= 'F')
        return c - 'A' + 10;
    return c >= 'a' && c <= 'f' ? c - 'a' + 10 : -1;
}

static void tell_read(const char *line, size_t size) {
    static unsigned char value[MOST];
    static int units[MOST];
    int good = size % 2 == 0 && size <= 2 * MOST;
    for (size_t k = 0; good && k < size; k += 2) {
        int high = digit((unsigned char)line[k]), low = digit((unsigned char)line[k + 1]);
        if (high < 0 || low < 0)
            good = 0;
        else
            value[k / 2] = 16 * high + low;
    }
    if (!good) {
        puts("R9");
        return;
    }
    int n = read_value(value, (int)(size / 2), units);
    if (n < 0)
        puts("R13");
    else if (n == 0)
        puts("--");
    for (int k = 0; k < n; k++)
        printf("%04X%c", units[k], k + 1 < n ? ' ' : '\n');
}

static void tell_write(const char *line, size_t size) {
    static int units[MOST];
    static unsigned char out[2 * MOST + 1];
    int n = 0, good = 1;
    if (size == 2 && line[0] == '-' && line[1] == '-')
        size = 0;
    if (size > 0 && (size % 5 != 4 || size > 5 * MOST - 1))
        good = 0;
    for (size_t k = 0; good && k < size; k += 5) {
        int unit = 0;
        for (int j = 0; j < 4; j++) {
            int d = digit((unsigned char)line[k + j]);
            if (d < 0)
                good = 0;
            unit = 16 * unit + d;
        }
        if (k + 4 < size && line[k + 4] != ' ')
            good = 0;
        units[n++] = unit;
    }
    if (!good) {
        puts("R9");
        return;
    }
    int count = write_units(units, n, out);
    if (count == 0)
        printf("--");
    for (int k = 0; k < count; k++)
        printf("%02X", out[k]);
    putchar('\n');
}

static uint64_t state;

static unsigned below(unsigned n) {
    state ^= state << 13, state ^= state >> 7, state ^= state << 17;
    return (unsigned)((state >> 11) % n);
}

/* Units from one to three ranges, so that every coding has its turn. */
static int some_units(int *units) {
    static const int from[] = {0x20, 0x5B, 0x41, 0x400, 0x3F0, 0x7F80, 0x8000, 0xFF80, 0, 0x20AC, 0xE0, 0x393};
    static const int span[] = {0x5F, 4, 26, 128, 128, 160, 128, 128, 256, 1, 0x20, 0x17};
    int kinds[3], many = 1 + below(3), n = below(20) ? below(14) : below(300);
    for (int k = 0; k < many; k++)
        kinds[k] = below(sizeof from / sizeof *from);
    for (int k = 0; k < n; k++) {
        int kind = kinds[below(many)];
        units[k] = from[kind] + below(span[kind]);
    }
    return n;
}

static void make_write(void) {
    int units[300], n = some_units(units), damaged = below(8) == 0;
    int at = damaged ? (int)below(5 * n + 2) : -1, place = 0;
    char line[1600];
    for (int k = 0; k < n; k++)
        place += sprintf(line + place, below(4) ? "%04X" : "%04x", units[k]), line[place++] = ' ';
    if (n > 0)
        place--;
    if (at >= 0 && at < place)
        line[at] = "0 G-a,"[below(6)];
    printf("%.*s%s\n", place, line, damaged && at >= place ? " " : "");
}

static void make_read(void) {
    int units[300], n = some_units(units), size;
    unsigned char value[700];
    if (below(4) == 0) {
        int base = below(65536);
        n = below(10);
        value[0] = 0x80 + below(4), value[1] = below(12) ? (unsigned)n : below(12), value[2] = base / 256, value[3] = base % 256;
        for (int k = 0; k < n; k++)
            value[4 + k] = below(20) ? below(256) : 0x1B;
        size = 4 + n;
    } else
        size = write_units(units, n, value);
    for (int k = below(4) ? 0 : below(3); k > 0; k--)
        value[size++] = below(5) ? 0xFF : below(256);
    if (size > 0 && below(4) == 0)
        value[below(size)] = below(3) ? below(256) : 0x1B;
    if (size > 0 && below(8) == 0)
        size--;
    for (int k = 0; k < size; k++)
        printf(below(4) ? "%02X" : "%02x", value[k]);
    puts(below(50) ? "" : "0");
}

int main(int words, char **word) {
    static char line[9000];
    if (words == 5 && strcmp(word[1], "lines") == 0) {
        state = 88172645463325252u + 977 * strtoull(word[3], NULL, 10);
        for (long k = strtol(word[4], NULL, 10); k > 0; k--)
            strcmp(word[2], "read") == 0 ? make_read() : make_write();
        return 0;
    }
    if (words != 2)
        return 2;
    while (fgets(line, sizeof line, stdin)) {
        size_t size = strcspn(line, "\n");
        strcmp(word[1], "read") == 0 ? tell_read(line, size) : tell_write(line, size);
    }
    return 0;
}
