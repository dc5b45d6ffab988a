/*
 * The host's box: the proved box with everything that it is lent, the file of its records, its orders, and the file in which it outlives a
 * stop. A function that returns false has met a fault, and has said so; then the host stops.
 */
#ifndef HOST_BOX_H
#define HOST_BOX_H

#include "satbox.h"

#include <stdbool.h>

struct host_box {
    struct satbox_settings made;        /* F, C and the sets of the frontends */
    const char *records;                /* the file that collected records are appended to */
    const char *kept;                   /* the file of a kept box; NULL: each start makes a fresh one */
};

/* Takes up the kept box, or makes a fresh one. The clock goes on from *clock. */
bool host_box_begin(const struct host_box *settings, uint32_t *clock);

/* The answer's length, 1 to SATBOX_ANSWER_MIN; 0 at a fault. */
size_t host_box_request(const uint8_t *request, size_t length, uint32_t clock, uint32_t address, uint8_t *answer);

bool host_box_tick(uint32_t clock);

/* Stores every record, and keeps the box if that was asked for. */
bool host_box_end(uint32_t clock);

#endif
