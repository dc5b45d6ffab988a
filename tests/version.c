/*
 * Prints the version that the header has and the one that the archive returns.
 */
#include "satbox.h"

#include <stdio.h>

int main(void)
{
    printf("%08X %08X\n", (unsigned)SATBOX_VERSION, (unsigned)satbox_version());
    return 0;
}
