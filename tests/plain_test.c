/*
 * Tests of the plain box: document 01's example and P1 to P11, EDGES.md section by section (reading A), orders 1 to
 * 3 of document 02, every status, refusals 1 to 8 with all that stays, and a long evening of chance requests. Runs
 * the tests of the other files in turn and counts their checks. Ends with 1 and the lines if a check fails.
 */
#include "plain_test.h"

#include <stdio.h>
#include <stdlib.h>

static unsigned long checks, failures;
/* The test under way. */
static const char *test_file = __FILE__;
static int test_line;

void under_way(const char *file, int line)
{
    test_file = file;
    test_line = line;
}

void check(bool holds, const char *claim)
{
    checks++;
    if (holds)
        return;
    failures++;
    fprintf(stderr, "%s:%d: %s\n", test_file, test_line, claim);
}

int main(void)
{
    test_paper();
    test_table();
    test_reading();
    test_query();
    test_steps();
    test_reach();
    test_cseq_comes_back();
    test_keep();
    test_sweep();
    test_texts();
    test_refusals();
    test_evening();
    printf("plain_test: %lu checks, %lu failed\n", checks, failures);
    return failures == 0 ? EXIT_SUCCESS : EXIT_FAILURE;
}
