/*
 * Compares the archive with the plain box: `compare SEED CALLS` makes that many calls of chance on both, in
 * sequences that each start with a fresh box, and compares everything after each. A difference ends the run; its
 * sequence is made as short as it can be and printed, and `compare --play FILE` makes the calls of such a text
 * again. At the end it says what was reached. Ends with 1 on a difference, and with 2 if 100,000 calls or more
 * left out a status, a refusal or anything else that is counted.
 */
#include "compare.h"

#include <inttypes.h>
#include <stdio.h>
#include <stdlib.h>
#include <string.h>

/* The calls since the last fresh box. */
static struct call calls[SEQUENCE];
static size_t count;

/* The text of a call: its kind, its numbers, and its bytes in quotes. */

static void print_bytes(const struct call *call)
{
    printf(" \"");
    for (size_t i = 0; i < call->length; i++) {
        uint8_t byte = call->bytes[i];
        if (byte == '\r')
            printf("\\r");
        else if (byte == '\n')
            printf("\\n");
        else if (byte < 32 || byte > 126 || byte == '"' || byte == '\\')
            printf("\\x%02X", byte);
        else
            putchar(byte);
    }
    putchar('"');
}

static void print_call(const struct call *call)
{
    printf("%s", kind_names[call->kind]);
    for (size_t i = 0; i < kind_numbers[call->kind]; i++)
        printf(" %" PRIu64, call->numbers[i]);
    if (call->kind == MAKE || call->kind == REQUEST || call->kind == LOOK || call->kind == POKE)
        print_bytes(call);
    putchar('\n');
}

/* Reads the bytes in quotes, written as print_bytes does. */
static bool read_bytes(const char *text, struct call *call)
{
    call->length = 0;
    while (*text != '"') {
        unsigned byte = (unsigned char)*text++;
        if (byte == '\0' || call->length == CALL_BYTES)
            return false;
        if (byte == '\\') {
            char escape = *text++;
            if (escape == 'x' && sscanf(text, "%2x", &byte) == 1)
                text += 2;
            else if (escape == 'r' || escape == 'n')
                byte = escape == 'r' ? '\r' : '\n';
            else
                return false;
        }
        call->bytes[call->length++] = (uint8_t)byte;
    }
    return true;
}

/* Does the call stay within the room there is, and has it all its bytes? Only a text written by hand may not. */
static bool fits(const struct call *call)
{
    const uint64_t *n = call->numbers;
    switch (call->kind) {
    case MAKE: return call->length == PLAIN_FRONTENDS;
    case REQUEST: return n[3] <= ANSWER_ROOM && n[4] <= JOURNAL_ROOM;
    case TICK: return n[1] <= JOURNAL_ROOM;
    case COLLECT: return n[0] <= JOURNAL_ROOM && n[1] <= JOURNAL_ROOM;
    case READ: return n[0] <= JOURNAL_ROOM;
    case POKE: return n[0] <= sizeof(struct plain_box) && call->length <= sizeof(struct plain_box) - n[0];
    default: return true;
    }
}

static bool read_call(const char *line, struct call *call)
{
    size_t kind = 0, name = strcspn(line, " \n");
    const char *quote = strchr(line, '"');
    char *end = (char *)(uintptr_t)(line + name);
    while (kind < KINDS && (strlen(kind_names[kind]) != name || strncmp(kind_names[kind], line, name) != 0))
        kind++;
    if (kind == KINDS)
        return false;
    call->kind = (enum kind)kind;
    call->length = 0;
    for (size_t i = 0; i < kind_numbers[kind]; i++)
        call->numbers[i] = strtoull(end, &end, 10);
    return (quote == NULL || read_bytes(quote + 1, call)) && fits(call);
}

/* Running a sequence again, and making it short. */

/* Makes the calls from the start; true if a difference is met, and then the calls after it are dropped. */
static bool differs(bool tell)
{
    start_both();
    for (size_t i = 0; i < count; i++)
        if (!call_both(&calls[i], tell)) {
            count = i + 1;
            return true;
        }
    return false;
}

/* Drops `length` calls at a place if a difference stays without them; the first call, the making, stays. */
static bool drop(size_t place, size_t length)
{
    static struct call before[SEQUENCE];
    size_t old = count;
    memcpy(before, calls, old * sizeof *calls);
    memmove(calls + place, calls + place + length, (old - place - length) * sizeof *calls);
    count = old - length;
    if (differs(false))
        return true;
    memcpy(calls, before, old * sizeof *calls);
    count = old;
    return false;
}

static void shrink(void)
{
    bool shorter = true;
    while (shorter) {
        shorter = false;
        for (size_t length = count / 2; length > 0; length /= 2)
            for (size_t place = 1; place + length <= count;)
                if (drop(place, length))
                    shorter = true;
                else
                    place += length;
    }
}

/* Says the difference that the calls so far end in. */
static int report(uint64_t seed, unsigned long made)
{
    printf("seed %" PRIu64 ", call %lu:\n", seed, made);
    differs(true);
    shrink();
    printf("made short, the table and the calls are (play again: compare --play FILE):\n");
    for (size_t i = 0; i < count; i++)
        print_call(&calls[i]);
    differs(true);
    return 1;
}

/* What was reached. */

static const unsigned statuses[] = {200, 400, 403, 404, 405, 414, 454, 455, 461, 501, 503, 505, 551};

/* The refusals of document 01's table, a bit for each, by kind of call; the first bit is "done". */
static const unsigned refusals[KINDS] = {
    [MAKE] = 0x41, [REQUEST] = 0x0F, [TICK] = 0x07, [COLLECT] = 0x17, [ORDER] = 0x23, [READ] = 0x181, [LOOK] = 0x181,
    [WRITE] = 0x101
};

static bool print_statuses(void)
{
    bool all = reached.unnumbered > 0;
    printf("%-8s %10s %10s %10s %10s %10s %10s\n", "status", "OPTIONS", "SETUP", "PLAY", "TEARDOWN", "other",
           "CSeq: 0..");
    for (size_t i = 0; i < sizeof statuses / sizeof *statuses; i++) {
        unsigned long sum = 0, zeros = reached.cseq.zeros[statuses[i]];
        printf("%-8u", statuses[i]);
        for (size_t method = 0; method < METHODS; method++) {
            printf(" %10lu", reached.statuses[statuses[i]][method]);
            sum += reached.statuses[statuses[i]][method];
        }
        printf(" %10lu%s\n", zeros, sum == 0 || zeros == 0 ? "  NOT REACHED" : "");
        all &= sum > 0 && zeros > 0;
    }
    printf("400 without CSeq: %lu\n", reached.unnumbered);
    return all;
}

static bool print_refusals(void)
{
    bool all = true;
    printf("%-8s %9s", "call", "done");
    for (int refusal = 1; refusal < REFUSALS; refusal++)
        printf(" %8d", refusal);
    putchar('\n');
    for (size_t kind = 0; kind < SAVE; kind++) {
        bool whole = true;
        printf("%-8s %9lu", kind_names[kind], reached.calls[kind][0]);
        for (size_t refusal = 1; refusal < REFUSALS; refusal++)
            printf(" %8lu", reached.calls[kind][refusal]);
        for (size_t refusal = 0; refusal < REFUSALS; refusal++)
            whole &= (refusals[kind] >> refusal & 1) == (reached.calls[kind][refusal] > 0);
        printf("%s\n", whole ? "" : "  NOT AS IN THE PAPER");
        all &= whole;
    }
    return all;
}

struct row {
    const char *name;
    unsigned long times;
};

static bool print_rows(const struct row *rows, size_t length)
{
    bool all = true;
    for (size_t i = 0; i < length; i++) {
        printf("%-42s %10lu%s\n", rows[i].name, rows[i].times, rows[i].times == 0 ? "  NOT REACHED" : "");
        all &= rows[i].times > 0;
    }
    return all;
}

static bool print_sets(void)
{
    const struct reached_sets *sets = &reached.sets;
    const struct row rows[] = {
        {"makings refused for an empty set", sets->empty}, {"for a fifth source", sets->beyond},
        {"boxes made with sets that are not full", sets->made}, {"tables refused for a set up to F", sets->bad_set},
        {"for a set above F", sets->bad_above}, {"for a stream's src", sets->bad_src},
        {"new streams past a free frontend", sets->past_free},
        {"past one that reaches the src too", sets->past_reaching},
        {"503 for a later src in PLAY", sets->play}, {"in SETUP", sets->setup},
        {"503 where no free frontend reaches the src", sets->none}, {"where the named one does not", sets->named},
        {"later srcs taken by a set not full", sets->changed}
    };
    return print_rows(rows, sizeof rows / sizeof *rows);
}

static bool print_cseq(void)
{
    const struct reached_cseq *cseq = &reached.cseq;
    const struct row rows[] = {
        {"CSeq of ten digits, the first of them 0", cseq->ten}, {"with more spaces around it", cseq->spaced},
        {"past the request's first 1,024 bytes", cseq->far}, {"400 for a CSeq of more than ten digits", cseq->longer},
        {"for ten past 4294967295", cseq->large}
    };
    return print_rows(rows, sizeof rows / sizeof *rows);
}

/* One line of the table of last times, by method but the last, "other"; `methods` are those it has, a bit for each. */
static bool print_methods(const char *name, const unsigned long *times, unsigned methods)
{
    bool whole = true;
    printf("%-19s", name);
    for (size_t method = 0; method < METHODS - 1; method++) {
        printf(" %10lu", times[method]);
        whole &= (methods >> method & 1) == (times[method] > 0);
    }
    printf("%s\n", whole ? "" : "  NOT AS IN THE PAPER");
    return whole;
}

/* Which requests set the last time of the session that they name, and which refusals leave it. */
static bool print_keeping(void)
{
    const struct reached_keeping *keeping = &reached.keeping;
    const struct row rows[] = {
        {"last times left by 501", keeping->left[501][METHODS - 1]},
        {"set by 455 for another's stream", keeping->another}, {"for no stream", keeping->none},
        {"for a SETUP while it plays", keeping->plays}, {"for another frontend", keeping->fe},
        {"set by 503 for PIDs", keeping->pids}, {"for a src", keeping->src},
        {"set to the stored clock", keeping->stored}, {"set in a call that closed another", keeping->closing},
        {"set at the age of 59", keeping->last_second}, {"454 at the age of 60", keeping->too_late},
        {"454 for a joiner whose owner was swept", keeping->orphaned},
        {"joiners kept and closed with their owner", keeping->with_owner},
        {"PLAY where OPTIONS alone had not kept it", keeping->play}, {"refusals where it had not", keeping->refused}
    };
    bool all = true;
    printf("%-19s %10s %10s %10s %10s\n", "last times", "OPTIONS", "SETUP", "PLAY", "TEARDOWN");
    all &= print_methods("set by 200", keeping->set[200], 0x7);
    all &= print_methods("by 404", keeping->set[404], 0xE);
    all &= print_methods("by 455", keeping->set[455], 0xE);
    all &= print_methods("by 403 of step 14", keeping->joiners, 0x6);
    all &= print_methods("by 461", keeping->set[461], 0x2);
    all &= print_methods("by 403 of step 16", keeping->set[403], 0x6);
    all &= print_methods("by 503 of step 17", keeping->set[503], 0x6);
    all &= print_methods("left by 400", keeping->left[400], 0xF);
    all &= print_methods("by 505", keeping->left[505], 0xF);
    all &= print_methods("by 551", keeping->left[551], 0xF);
    all &= print_methods("by 414", keeping->left[414], 0xF);
    all &= print_methods("by 403 of step 9", keeping->left[403], 0x6);
    all &= print_methods("by 405", keeping->left[405], 0xE);
    return print_rows(rows, sizeof rows / sizeof *rows) && all;
}

static bool print_rest(void)
{
    const struct row rows[] = {
        {"opened as owner", reached.opened}, {"joined", reached.joined}, {"closed by teardown", reached.closed[1]},
        {"closed by time-out", reached.closed[2]}, {"closed with the owner", reached.closed[3]},
        {"calls with a cascade", reached.cascades}, {"journals filled to the last byte", reached.full_journals},
        {"503 with no room in the journal", reached.no_room}, {"503 with 32 sessions", reached.no_place},
        {"openings past a number taken or 0", reached.number_taken}, {"orders on", reached.orders_on},
        {"tables changed by hand and taken", reached.tables_good}, {"and refused", reached.tables_bad}
    };
    return print_rows(rows, sizeof rows / sizeof *rows);
}

static bool print_reached(void)
{
    bool all = print_statuses();
    all &= print_refusals();
    all &= print_rest();
    all &= print_sets();
    all &= print_cseq();
    all &= print_keeping();
    return all;
}

/* The two ways to run. */

/* How many calls a sequence has, by its first one: few if no box was made. */
static size_t sequence_length(void)
{
    if (plain.outcome.refusal != PLAIN_DONE)
        return 1 + below(8);
    return 1 + below(once_in(2) ? 64 : SEQUENCE);
}

static int compare(uint64_t seed, unsigned long wanted)
{
    size_t length = 0;
    seed_chance(seed);
    count = 0;
    for (unsigned long made = 0; made < wanted; made += calls[count - 1].kind < SAVE) {
        if (count == length) {
            start_both();
            count = 0;
            first_call(&calls[0]);
        } else {
            next_call(&calls[count], &plain.box);
        }
        count++;
        if (!call_both(&calls[count - 1], false))
            return report(seed, made + 1);
        count_reached(&calls[count - 1]);
        if (count == 1)
            length = sequence_length();
    }
    bool all = print_reached();
    printf("seed %" PRIu64 ": %lu calls, no difference\n", seed, wanted);
    if (!all && wanted >= 100000)
        printf("but not all was reached\n");
    return all || wanted < 100000 ? 0 : 2;
}

static int play(const char *name)
{
    static char line[5 * CALL_BYTES];
    FILE *file = fopen(name, "r");
    if (file == NULL) {
        perror(name);
        return 2;
    }
    start_both();
    for (int number = 1; fgets(line, sizeof line, file) != NULL; number++) {
        if (!read_call(line, &calls[0])) {
            printf("%s:%d: no call\n", name, number);
            return 2;
        }
        bool same = call_both(&calls[0], true);
        printf("%d %s: refusal %lu, count %lu", number, kind_names[calls[0].kind],
               (unsigned long)plain.outcome.refusal, (unsigned long)plain.outcome.count);
        if (calls[0].kind == REQUEST && plain.outcome.refusal == PLAIN_DONE)
            printf(", %.12s", (const char *)plain.answer);
        printf("\n");
        if (!same)
            return 1;
    }
    fclose(file);
    printf("no difference\n");
    return 0;
}

int main(int argc, char **argv)
{
    if (argc == 3 && strcmp(argv[1], "--play") == 0)
        return play(argv[2]);
    if (argc == 3)
        return compare(strtoull(argv[1], NULL, 10), strtoul(argv[2], NULL, 10));
    fprintf(stderr, "usage: compare SEED CALLS\n       compare --play FILE\n");
    return 2;
}
