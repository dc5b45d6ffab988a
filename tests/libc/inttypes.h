/* What the programs here use of inttypes.h. */
#ifndef LIBC_INTTYPES_H
#define LIBC_INTTYPES_H
#include <stdint.h>
#define PRIu64 __UINT64_FMTu__
#endif
