/*
 * Cuts requests out of a connection's bytes, as they came so far: where the first request ends, and how many bytes of a body follow it.
 */
#ifndef HOST_CUT_H
#define HOST_CUT_H

#include "satbox.h"

#include <stdbool.h>

#define CUT_ROOM (SATBOX_REQUEST_MAX + 1u)  /* bytes of a connection to keep: with so many there is always a request to hand over */
#define CUT_BODY_MAX 65536u                 /* bytes of a body that are skipped, at most */

/* The first request's length with its empty line; CUT_ROOM where it is too long, which the box answers 400; 0 where it is not whole yet. */
size_t cut_request(const uint8_t *bytes, size_t have);

/* The length of the body that a whole request announces. False where that cannot be told: then nobody knows where the next one starts. */
bool cut_body(const uint8_t *request, size_t length, size_t *body);

#endif
