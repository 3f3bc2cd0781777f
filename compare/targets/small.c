/* The few functions of the C library that the driver needs, where there is none. */
#include "small.h"

#include <stdarg.h>
#include <stdint.h>
#include <stdio.h>
#include <stdlib.h>
#include <string.h>

/* A word at an address that is a multiple of 4, and one at any. */
typedef uint32_t __attribute__((may_alias)) word;
typedef struct {
    uint32_t word;
} __attribute__((packed, may_alias)) anywhere;

/* Copies forwards: sixteen bytes a turn, as a C library does. */
void *memcpy(void *to, const void *from, size_t n)
{
    uint8_t *t = to;
    const uint8_t *f = from;
    for (; n > 0 && (uintptr_t)t % 4 != 0; n--)
        *t++ = *f++;
    for (; n >= 16; n -= 16, t += 16, f += 16) {
        ((word *)t)[0] = ((const anywhere *)f)[0].word;
        ((word *)t)[1] = ((const anywhere *)f)[1].word;
        ((word *)t)[2] = ((const anywhere *)f)[2].word;
        ((word *)t)[3] = ((const anywhere *)f)[3].word;
    }
    for (; n >= 4; n -= 4, t += 4, f += 4)
        *(word *)t = ((const anywhere *)f)->word;
    for (; n > 0; n--)
        *t++ = *f++;
    return to;
}

void *memmove(void *to, const void *from, size_t n)
{
    uint8_t *t = to;
    const uint8_t *f = from;
    if ((uintptr_t)to <= (uintptr_t)from)
        return memcpy(to, from, n);
    for (; n > 0; n--)
        t[n - 1] = f[n - 1];
    return to;
}

/* Fills: sixteen bytes a turn, as a C library does. */
void *memset(void *to, int byte, size_t n)
{
    uint8_t *t = to;
    uint32_t four = 0x01010101u * (uint8_t)byte;
    for (; n > 0 && (uintptr_t)t % 4 != 0; n--)
        *t++ = (uint8_t)byte;
    for (; n >= 16; n -= 16, t += 16)
        ((word *)t)[0] = ((word *)t)[1] = ((word *)t)[2] = ((word *)t)[3] = four;
    for (; n >= 4; n -= 4, t += 4)
        *(word *)t = four;
    for (; n > 0; n--)
        *t++ = (uint8_t)byte;
    return to;
}

int memcmp(const void *a, const void *b, size_t n)
{
    const uint8_t *x = a, *y = b;
    for (; n > 0; n--, x++, y++)
        if (*x != *y)
            return *x < *y ? -1 : 1;
    return 0;
}

int strcmp(const char *a, const char *b)
{
    for (; *a != 0 && *a == *b; a++)
        b++;
    return (uint8_t)*a - (uint8_t)*b;
}

#ifdef __arm__
/* The names by which a compiler for bare Arm calls the same. */
void __aeabi_memcpy(void *to, const void *from, size_t n) { memcpy(to, from, n); }
void __aeabi_memcpy4(void *to, const void *from, size_t n) { memcpy(to, from, n); }
void __aeabi_memclr(void *to, size_t n) { memset(to, 0, n); }
void __aeabi_memclr4(void *to, size_t n) { memset(to, 0, n); }
void __aeabi_memclr8(void *to, size_t n) { memset(to, 0, n); }
#endif

unsigned long long strtoull(const char *digits, char **end, int base)
{
    unsigned long long n = 0;
    (void)end, (void)base;
    for (; *digits >= '0' && *digits <= '9'; digits++)
        n = 10 * n + (unsigned)(*digits - '0');
    return n;
}

long strtol(const char *digits, char **end, int base)
{
    return (long)strtoull(digits, end, base);
}

/* The characters in front of the first one that is among the ends. */
size_t strcspn(const char *text, const char *ends)
{
    size_t n = 0;
    for (; text[n] != 0; n++)
        for (const char *end = ends; *end != 0; end++)
            if (text[n] == *end)
                return n;
    return n;
}

unsigned long strtoul(const char *digits, char **end, int base)
{
    return (unsigned long)strtoull(digits, end, base);
}

long long llabs(long long n)
{
    return n < 0 ? -n : n;
}

/* Memory that is never given back: as much as the bench asks for. */
void *aligned_alloc(size_t alignment, size_t n)
{
    static uint8_t arena[640 * 1024];
    static size_t used;
    size_t from = ((uintptr_t)arena + used + alignment - 1) / alignment * alignment - (uintptr_t)arena;
    if (n > sizeof arena || from > sizeof arena - n)
        return NULL;
    used = from + n;
    return arena + from;
}

void free(void *memory)
{
    (void)memory;
}

/* ---- Printing ---- */

/* Where characters go: to a place with room for some, or to the machine. */
typedef struct {
    char *to;
    size_t room;
    int count;
} sink;

static char kept[256];
static size_t kept_count;

void flush(void)
{
    put_bytes(kept, kept_count);
    kept_count = 0;
}

/* One character. */
static void put(sink *s, char c)
{
    s->count++;
    if (s->to == NULL) {
        kept[kept_count++] = c;
        if (kept_count == sizeof kept)
            flush();
    } else if (s->room > 1) {
        *s->to++ = c;
        s->room--;
    }
}

/* A text in a field: blanks or zeros in front, or blanks behind. */
static void put_field(sink *s, const char *text, size_t n, int width, char filler, int left)
{
    for (int i = (int)n; !left && i < width; i++)
        put(s, filler);
    for (size_t i = 0; i < n; i++)
        put(s, text[i]);
    for (int i = (int)n; left && i < width; i++)
        put(s, ' ');
}

/* Writes a number's digits before `end`; returns where they begin. */
static char *digits_of(char *end, unsigned long long n, unsigned base)
{
    do
        *--end = "0123456789ABCDEF"[n % base];
    while ((n /= base) != 0);
    return end;
}

/* A number with two digits behind the point. */
static void put_fraction(sink *s, double n)
{
    char space[24], *end = space + sizeof space;
    unsigned long long hundredths = (unsigned long long)((n < 0 ? -n : n) * 100 + 0.5);
    char *from = digits_of(end, hundredths / 100, 10);
    if (n < 0)
        put(s, '-');
    put_field(s, from, (size_t)(end - from), 0, ' ', 0);
    put(s, '.');
    from = digits_of(end, hundredths % 100, 10);
    put_field(s, from, (size_t)(end - from), 2, '0', 0);
}

/* Prints by a form: %s, %u, %X, %zu, %llu and %.2f, with -, 0 and a width. */
static void print(sink *s, const char *form, va_list list)
{
    char space[24], *end = space + sizeof space;
    for (; *form != 0; form++) {
        int left = 0, width = 0, wide = 0;
        char filler = ' ';
        if (*form != '%') {
            put(s, *form);
            continue;
        }
        for (form++; *form == '-' || *form == '0'; form++)
            *form == '-' ? (left = 1) : (filler = '0');
        if (*form == '*') {
            width = va_arg(list, int);
            form++;
        }
        for (; *form >= '0' && *form <= '9'; form++)
            width = 10 * width + (*form - '0');
        for (; *form == 'l' || *form == 'z'; form++)
            wide += *form == 'l';
        if (*form == 's') {
            const char *text = va_arg(list, const char *);
            size_t n = 0;
            while (text[n] != 0)
                n++;
            put_field(s, text, n, width, filler, left);
        } else if (*form == '.') {
            form += 2;
            put_fraction(s, va_arg(list, double));
        } else {
            unsigned long long n = wide == 2 ? va_arg(list, unsigned long long) : va_arg(list, unsigned);
            char *from = digits_of(end, n, *form == 'X' ? 16 : 10);
            put_field(s, from, (size_t)(end - from), width, filler, left);
        }
    }
}

int printf(const char *form, ...)
{
    sink s = {NULL, 0, 0};
    va_list list;
    va_start(list, form);
    print(&s, form, list);
    va_end(list);
    return s.count;
}

int fprintf(FILE *file, const char *form, ...)
{
    sink s = {NULL, 0, 0};
    va_list list;
    (void)file;
    va_start(list, form);
    print(&s, form, list);
    va_end(list);
    return s.count;
}

int snprintf(char *to, size_t size, const char *form, ...)
{
    sink s = {to, size, 0};
    va_list list;
    va_start(list, form);
    print(&s, form, list);
    va_end(list);
    if (size > 0)
        *s.to = 0;
    return s.count;
}

int sprintf(char *to, const char *form, ...)
{
    sink s = {to, (size_t)-1, 0};
    va_list list;
    va_start(list, form);
    print(&s, form, list);
    va_end(list);
    *s.to = 0;
    return s.count;
}

int putchar(int c)
{
    sink s = {NULL, 0, 0};
    put(&s, (char)c);
    return c;
}

int puts(const char *text)
{
    return printf("%s\n", text);
}

/* Nothing is read here. */
char *fgets(char *to, int size, FILE *file)
{
    (void)to, (void)size, (void)file;
    return NULL;
}

/* ---- Beginning and end ---- */

void exit(int status)
{
    flush();
    leave(status);
}

void run_over(char *words)
{
    char *argv[8];
    int argc = 0;
    while (*words != 0 && argc < 7) {
        for (; *words == ' '; words++)
            *words = 0;
        if (*words != 0)
            argv[argc++] = words;
        while (*words != 0 && *words != ' ')
            words++;
    }
    argv[argc] = NULL;
    exit(program(argc, argv));
}
