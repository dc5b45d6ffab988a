/*
 * Cuts requests out of a connection's bytes. A request ends with its first empty line (CR LF CR LF); that a body follows is said by
 * Content-Length alone. The box itself knows no bodies and skips that header.
 */
#include "host_cut.h"

#include <string.h>

static const char content_length[] = "content-length:";

size_t cut_request(const uint8_t *bytes, size_t have)
{
    const size_t limit = have < SATBOX_REQUEST_MAX ? have : SATBOX_REQUEST_MAX;
    size_t end;

    for (end = 4; end <= limit; end++)
        if (memcmp(bytes + end - 4, "\r\n\r\n", 4) == 0)
            return end;
    return have < CUT_ROOM ? 0 : CUT_ROOM;
}

static uint8_t lower(uint8_t byte)
{
    return byte >= 'A' && byte <= 'Z' ? (uint8_t)(byte - 'A' + 'a') : byte;
}

static bool is_content_length(const uint8_t *line, size_t length)
{
    size_t i;

    if (length < sizeof content_length - 1)
        return false;
    for (i = 0; i < sizeof content_length - 1; i++)
        if (lower(line[i]) != (uint8_t)content_length[i])
            return false;
    return true;
}

static bool read_number(const uint8_t *text, size_t length, size_t *number)
{
    size_t i, digits = 0;

    *number = 0;
    while (length > 0 && text[length - 1] == ' ')
        length--;
    for (i = 0; i < length && text[i] == ' '; i++)
        ;
    for (; i < length && text[i] >= '0' && text[i] <= '9' && *number <= CUT_BODY_MAX; i++, digits++)
        *number = *number * 10 + (size_t)(text[i] - '0');
    return digits > 0 && i == length && *number <= CUT_BODY_MAX;
}

bool cut_body(const uint8_t *request, size_t length, size_t *body)
{
    size_t start = 0, end, count = 0;

    *body = 0;
    for (end = 0; end + 1 < length; end++) {
        if (request[end] != '\r' || request[end + 1] != '\n')
            continue;
        if (is_content_length(request + start, end - start)) {
            const size_t name = sizeof content_length - 1;

            if (++count > 1 || !read_number(request + start + name, end - start - name, body))
                return false;
        }
        start = end + 2;
    }
    return true;
}
