/* The part of C's stdio.h that the programs in examples/ use. */
#include <stdio.h>

#include "host.h"

enum { MOST_FILES = 2, MOST_DIGITS = 20 };

struct FILE {
    int number;
};

static size_t length(const char *text)
{
    size_t n = 0;
    while (text[n] != 0)
        n++;
    return n;
}

static void print_number(size_t value, size_t base)
{
    char digits[MOST_DIGITS];
    size_t first = MOST_DIGITS;
    do {
        digits[--first] = "0123456789abcdef"[value % base];
        value /= base;
    } while (value != 0);
    host_write(digits + first, MOST_DIGITS - first);
}

static void print_signed(int value)
{
    if (value < 0)
        host_write("-", 1);
    print_number(value < 0 ? 0u - (unsigned)value : (unsigned)value, 10);
}

/* Prints an argument as the conversion asks, and gives the conversion's length. */
static size_t convert(const char *conversion, __builtin_va_list *rest)
{
    size_t wide = conversion[0] == 'l' || conversion[0] == 'z';
    switch (conversion[wide]) {
    case 'u':
    case 'x': {
        size_t value = conversion[0] == 'l'   ? __builtin_va_arg(*rest, unsigned long)
                       : conversion[0] == 'z' ? __builtin_va_arg(*rest, size_t)
                                              : __builtin_va_arg(*rest, unsigned);
        print_number(value, conversion[wide] == 'x' ? 16 : 10);
        break;
    }
    case 'd': print_signed(__builtin_va_arg(*rest, int)); break;
    case 's': {
        const char *text = __builtin_va_arg(*rest, const char *);
        host_write(text, length(text));
        break;
    }
    case '%': host_write("%", 1); break;
    default:
        puts("printf: this conversion is not known");
        host_exit(1);
    }
    return wide + 1;
}

int printf(const char *format, ...)
{
    __builtin_va_list rest;
    __builtin_va_start(rest, format);
    while (*format != 0) {
        size_t plain = 0;
        while (format[plain] != 0 && format[plain] != '%')
            plain++;
        host_write(format, plain);
        format += plain;
        if (*format == '%')
            format += 1 + convert(format + 1, &rest);
    }
    __builtin_va_end(rest);
    return 0;
}

int puts(const char *line)
{
    host_write(line, length(line));
    host_write("\n", 1);
    return 0;
}

FILE *fopen(const char *name, const char *mode)
{
    static FILE files[MOST_FILES];
    static size_t open;
    if (open == MOST_FILES || mode[0] != 'r')
        return NULL;
    files[open].number = host_open(name);
    return files[open].number < 0 ? NULL : &files[open++];
}

size_t fread(void *to, size_t size, size_t count, FILE *from)
{
    return host_read(from->number, to, size * count) / size;
}
