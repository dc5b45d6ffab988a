/*
 * Texts and numbers: what plain_read.c and plain_uri.c take a request apart with. Inline, as calls from file to
 * file would make the plain box, which tests/bench sets the archive beside, dearer by up to a fifth.
 */
#ifndef PLAIN_SCAN_H
#define PLAIN_SCAN_H

#include <string.h>
#include "plain_parts.h"

static inline bool is_digit(uint8_t byte)
{
    return byte >= '0' && byte <= '9';
}

static inline bool is_letter(uint8_t byte)
{
    return (byte >= 'A' && byte <= 'Z') || (byte >= 'a' && byte <= 'z');
}

/* Is it a header name or a host: letters, digits, hyphens and dots, at least one? */
static inline bool is_name(struct text text)
{
    for (size_t i = 0; i < text.length; i++) {
        uint8_t byte = text.bytes[i];
        if (!is_letter(byte) && !is_digit(byte) && byte != '-' && byte != '.')
            return false;
    }
    return text.length > 0;
}

static inline bool same(struct text text, const char *string)
{
    return text.length == strlen(string) && memcmp(text.bytes, string, text.length) == 0;
}

/* The same, where the name's letters may be of either case; `lower` has no capitals. */
static inline bool same_name(struct text name, const char *lower)
{
    if (name.length != strlen(lower))
        return false;
    for (size_t i = 0; i < name.length; i++) {
        int byte = name.bytes[i];
        if (byte >= 'A' && byte <= 'Z')
            byte += 'a' - 'A';
        if (byte != lower[i])
            return false;
    }
    return true;
}

/* Takes `prefix` off the front of the text; false if it does not stand there. */
static inline bool take_prefix(struct text *text, const char *prefix)
{
    size_t length = strlen(prefix);
    if (text->length < length || memcmp(text->bytes, prefix, length) != 0)
        return false;
    text->bytes += length;
    text->length -= length;
    return true;
}

/* Cuts a text at the first mark. Without one all of it is before, nothing after, and the result is false. */
static inline bool split(struct text whole, uint8_t mark, struct text *before, struct text *after)
{
    size_t length = 0;
    while (length < whole.length && whole.bytes[length] != mark)
        length++;
    *before = (struct text){whole.bytes, length};
    *after = (struct text){NULL, 0};
    if (length == whole.length)
        return false;
    *after = (struct text){whole.bytes + length + 1, whole.length - length - 1};
    return true;
}

/* Reads 1 to `digits` decimal digits, at most 10, of a value from `low` to `high`; else changes nothing. */
static inline bool read_number(struct text text, size_t digits, uint32_t low, uint32_t high, uint32_t *number)
{
    uint64_t value = 0;
    if (text.length < 1 || text.length > digits)
        return false;
    for (size_t i = 0; i < text.length; i++) {
        if (!is_digit(text.bytes[i]))
            return false;
        value = 10 * value + (uint64_t)(text.bytes[i] - '0');
    }
    if (value < low || value > high)
        return false;
    *number = (uint32_t)value;
    return true;
}

/* The same for 1 to 5 digits without leading zero. */
static inline bool read_strict_number(struct text text, uint32_t low, uint32_t high, uint32_t *number)
{
    return text.length > 0 && text.bytes[0] != '0' && read_number(text, 5, low, high, number);
}

#endif
