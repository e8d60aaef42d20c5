/* What the examples print of a row: its units as UTF-8. */
#ifndef TEXT_H
#define TEXT_H

#include <stddef.h>
#include <stdint.h>
#include <stdio.h>

/* One character as UTF-8. */
static inline void print_character(uint32_t c)
{
    if (c < 0x80) {
        putchar((int)c);
    } else if (c < 0x800) {
        putchar((int)(0xC0 | (c >> 6)));
    } else if (c < 0x10000) {
        putchar((int)(0xE0 | (c >> 12)));
        putchar((int)(0x80 | ((c >> 6) & 0x3F)));
    } else {
        putchar((int)(0xF0 | (c >> 18)));
        putchar((int)(0x80 | ((c >> 12) & 0x3F)));
        putchar((int)(0x80 | ((c >> 6) & 0x3F)));
    }
    if (c >= 0x80) {
        putchar((int)(0x80 | (c & 0x3F)));
    }
}

static inline uint32_t unit_at(const uint8_t *text, size_t at)
{
    return (uint32_t)text[at] * 256 + text[at + 1];
}

/* Units as UTF-8. The library keeps any units but 0, so a half of a pair can stand alone. */
static inline void print_text(const uint8_t *text, size_t length)
{
    size_t at = 0;
    while (at < length) {
        uint32_t unit = unit_at(text, at);
        uint32_t next = at + 2 < length ? unit_at(text, at + 2) : 0;
        int pair = unit >= 0xD800 && unit < 0xDC00 && next >= 0xDC00 && next < 0xE000;
        int half = !pair && unit >= 0xD800 && unit < 0xE000;
        print_character(pair ? 0x10000 + ((unit - 0xD800) << 10) + (next - 0xDC00) : half ? 0xFFFD : unit);
        at += pair ? 4 : 2;
    }
}

#endif
