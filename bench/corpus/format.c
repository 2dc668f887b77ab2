/* Formatting as printf does it without floats, into a buffer, and reading the numbers of it back. */
#include "program.h"

static char out[4096];
static u32 size;

static void put(char c) { out[size++] = c; }

static void pad(u32 count, char c) {
    while (count-- > 0) put(c);
}

typedef struct { u32 width, precision; int is_left, is_zero, is_signed, has_precision; } Spec;

static void number(u64 value, int negative, u32 base, const Spec *spec) {
    char digits[24];
    u32 count = 0, least = spec->has_precision ? spec->precision : 1;
    while (value || count < least) {
        digits[count++] = "0123456789abcdef"[value % base];
        value /= base;
    }
    u32 used = count + (negative || spec->is_signed), room = spec->width > used ? spec->width - used : 0;
    if (!spec->is_left && !spec->is_zero) pad(room, ' ');
    if (negative || spec->is_signed) put(negative ? '-' : '+');
    if (!spec->is_left && spec->is_zero) pad(room, '0');
    while (count > 0) put(digits[--count]);
    if (spec->is_left) pad(room, ' ');
}

static void string(const char *text, const Spec *spec) {
    u32 length = 0;
    while (text[length] && (!spec->has_precision || length < spec->precision)) length++;
    u32 room = spec->width > length ? spec->width - length : 0;
    if (!spec->is_left) pad(room, ' ');
    for (u32 i = 0; i < length; i++) put(text[i]);
    if (spec->is_left) pad(room, ' ');
}

static u32 digits_of(const char **at) {
    u32 value = 0;
    for (; **at >= '0' && **at <= '9'; ++*at) value = value * 10 + (u32)(**at - '0');
    return value;
}

static void print(const char *format, ...) {
    __builtin_va_list list;
    __builtin_va_start(list, format);
    for (; *format; format++) {
        Spec spec;
        if (*format != '%') {
            put(*format);
            continue;
        }
        for (spec.is_left = spec.is_zero = spec.is_signed = 0, format++;; format++) {
            if (*format == '-') spec.is_left = 1;
            else if (*format == '0') spec.is_zero = 1;
            else if (*format == '+') spec.is_signed = 1;
            else break;
        }
        spec.width = digits_of(&format);
        spec.has_precision = *format == '.' ? format++, 1 : 0;
        spec.precision = digits_of(&format);
        int is_long = *format == 'l' ? format++, 1 : 0;
        if (*format == 'd') {
            long long value = is_long ? __builtin_va_arg(list, long long) : __builtin_va_arg(list, int);
            number(value < 0 ? -(u64)value : (u64)value, value < 0, 10, &spec);
        } else if (*format == 's') string(__builtin_va_arg(list, const char *), &spec);
        else if (*format == 'c') put((char)__builtin_va_arg(list, int));
        else if (*format == '%') put('%');
        else number(is_long ? __builtin_va_arg(list, u64) : __builtin_va_arg(list, u32), 0, *format == 'x' ? 16 : 10, &spec);
    }
    __builtin_va_end(list);
}

static u32 run(u32 rounds) {
    static const char *const words[] = {"alpha", "beta", "a longer word", ""};
    u32 sum = 0;
    for (u32 round = 0; round < rounds; round++) {
        size = 0;
        u64 wide = round * 0x9E3779B97F4A7C15ull;
        print("%5d|%-8u|%08x|%+d%%\n", (int)(round * 77) - 5000, round, round * 2654435761u, (int)round % 100);
        print("%s: %-12s|%10.3s|%c %ld %lu %lx\n", words[round & 3], words[(round + 1) & 3], words[(round + 2) & 3],
              'a' + (int)round % 26, (long long)wide, wide >> 7, wide);
        for (u32 i = 0; i < size; i++) sum = (sum << 5 | sum >> 27) ^ (u8)out[i];
        for (const char *at = out; *at != '\n'; at++) sum += *at >= '0' && *at <= '9' ? digits_of(&at) : 1;
    }
    return sum;
}

PROGRAM(run(9000))
