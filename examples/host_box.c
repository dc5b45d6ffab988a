/*
 * The host's box. Records are written to their file first and collected then, so that the file or the journal has them at any moment;
 * where the file cannot be written they stay in the journal, which may fill: then openings are answered 503 and closings pass. They are
 * collected once a minute, and sooner where half of the room that 32 open sessions leave is in use.
 * A kept box is written with its journal, its settings, its clock and a check sum, and is taken up once: after a power cut the host starts
 * with a fresh box, not with an old one.
 */
#define _POSIX_C_SOURCE 200809L

#include "host_box.h"

#include <errno.h>
#include <fcntl.h>
#include <stdio.h>
#include <string.h>
#include <sys/stat.h>
#include <unistd.h>

#define CLOSINGS (SATBOX_SESSIONS * SATBOX_RECORD)
#define COLLECT_EVERY 60u

struct head {
    char mark[8];
    struct satbox_settings made;
    uint32_t clock;
    uint32_t box;
};

#define KEPT_MAX (sizeof(struct head) + sizeof(struct satbox) + SATBOX_JOURNAL_MAX + sizeof(uint64_t))

static const char mark[8] = { 's', 'a', 't', 'b', 'o', 'x', '-', '2' };
static struct host_box settings;
static struct satbox box;
static uint8_t journal[SATBOX_JOURNAL_MAX];
static uint8_t collected[SATBOX_JOURNAL_MAX];
static uint8_t kept[KEPT_MAX];
static struct satbox_ordered orders[SATBOX_FRONTENDS_MAX];
static int records = -1;
static int random_numbers = -1;
static off_t stored;
static uint32_t collected_at;
static bool failing;

static bool fault(const char *what)
{
    fprintf(stderr, "host: %s: %s\n", what, strerror(errno));
    return false;
}

static bool wrong(const char *what, const char *why)
{
    fprintf(stderr, "host: %s: %s\n", what, why);
    return false;
}

static bool done(const char *call, uint32_t refusal)
{
    if (refusal != SATBOX_DONE)
        fprintf(stderr, "host: %s: refused, %u\n", call, (unsigned)refusal);
    return refusal == SATBOX_DONE;
}

static void print_word(const char *name, const char *const *words, uint32_t code)
{
    if (code != SATBOX_MISSING)
        printf(" %s=%s", name, words[code]);
}

static void print_stream(const struct satbox_stream *s)
{
    static const char *const pol[] = { "", "h", "v", "l", "r" };
    static const char *const msys[] = { "", "dvbs", "dvbs2" };
    static const char *const mtype[] = { "", "qpsk", "8psk" };
    static const char *const plts[] = { "", "on", "off" };
    static const char *const ro[] = { "", "0.35", "0.25", "0.20" };
    static const char *const fec[] = { "", "12", "23", "34", "56", "78", "89", "35", "45", "910" };
    uint16_t i;

    printf(" src=%u freq=%u.%02u", (unsigned)s->src, (unsigned)(s->freq / 100u), (unsigned)(s->freq % 100u));
    print_word("pol", pol, s->pol);
    print_word("msys", msys, s->msys);
    print_word("mtype", mtype, s->mtype);
    print_word("plts", plts, s->plts);
    print_word("ro", ro, s->ro);
    printf(" sr=%u", (unsigned)s->sr);
    print_word("fec", fec, s->fec);
    printf(" pids=%s", s->all != 0 ? "all" : s->count == 0 ? "none" : "");
    for (i = 0; i < s->count; i++)
        printf("%s%u", i == 0 ? "" : ",", (unsigned)s->pids[i]);
}

/* Here a firmware sets its tuners. */
static bool set_frontends(void)
{
    uint32_t i;

    for (i = 0; i < settings.made.frontends; i++) {
        const struct satbox_ordered order = satbox_order(&box, i + 1u);

        if (!done("satbox_order", order.refusal))
            return false;
        if (memcmp(&order, &orders[i], sizeof order) == 0)
            continue;
        orders[i] = order;
        printf("frontend %u:", (unsigned)(i + 1u));
        if (order.on == 0)
            printf(" off");
        else
            print_stream(&order.stream);
        putchar('\n');
    }
    return true;
}

static bool write_at(int file, const uint8_t *bytes, size_t length, off_t at)
{
    while (length > 0) {
        const ssize_t n = pwrite(file, bytes, length, at);

        if (n < 0 && errno == EINTR)
            continue;
        if (n <= 0)
            return false;
        bytes += n;
        at += n;
        length -= (size_t)n;
    }
    return fsync(file) == 0 || errno == EINVAL;
}

static bool collect(uint32_t clock)
{
    const uint32_t held = box.held;

    collected_at = clock;
    if (!write_at(records, journal, held, stored)) {
        if (!failing)
            fault(settings.records);
        failing = true;
        return true;
    }
    failing = false;
    stored += (off_t)held;
    return done("satbox_collect", satbox_collect(&box, journal, settings.made.size, collected, settings.made.size).refusal);
}

static bool after_call(uint32_t clock, bool tick)
{
    const bool full = box.held >= (settings.made.size - CLOSINGS) / 2u;
    const bool due = failing || clock - collected_at >= COLLECT_EVERY;

    if (!set_frontends())
        return false;
    if (box.held == 0 || !((full && !failing) || (tick && due)))
        return true;
    return collect(clock);
}

size_t host_box_request(const uint8_t *request, size_t length, uint32_t clock, uint32_t address, uint8_t *answer)
{
    struct satbox_reply reply;
    uint32_t draw;

    if (read(random_numbers, &draw, sizeof draw) != (ssize_t)sizeof draw) {
        fault("random numbers");
        return 0;
    }
    reply = satbox_request(&box, request, length, clock, address, draw, answer, SATBOX_ANSWER_MIN, journal, settings.made.size);
    if (!done("satbox_request", reply.refusal) || !after_call(clock, false))
        return 0;
    return reply.count;
}

bool host_box_tick(uint32_t clock)
{
    return done("satbox_tick", satbox_tick(&box, clock, journal, settings.made.size)) && after_call(clock, true);
}

/* Opens the file of records at its end. What a power cut left of half a record is overwritten by the next; no other file is touched. */
static bool open_records(void)
{
    uint8_t last[SATBOX_RECORD];
    struct stat state;

    records = open(settings.records, O_RDWR | O_CREAT | O_CLOEXEC, 0644);
    if (records < 0 || fstat(records, &state) != 0)
        return fault(settings.records);
    stored = state.st_size / (off_t)SATBOX_RECORD * (off_t)SATBOX_RECORD;
    if (stored != state.st_size)
        fprintf(stderr, "host: %s: its last %u bytes are half a record\n", settings.records, (unsigned)(state.st_size - stored));
    if (stored == 0)
        return state.st_size == 0 || wrong(settings.records, "no file of records");
    if (pread(records, last, sizeof last, stored - (off_t)sizeof last) != (ssize_t)sizeof last)
        return fault(settings.records);
    return satbox_read_record(last, sizeof last, 0).refusal == SATBOX_DONE || wrong(settings.records, "no file of records");
}

static uint64_t sum_of(const uint8_t *bytes, size_t length)
{
    uint64_t sum = 14695981039346656037u;
    size_t i;

    for (i = 0; i < length; i++)
        sum = (sum ^ bytes[i]) * 1099511628211u;
    return sum;
}

static struct head head_of(uint32_t clock)
{
    struct head head = { { 0 }, settings.made, clock, (uint32_t)sizeof box };

    memcpy(head.mark, mark, sizeof mark);
    return head;
}

static size_t pack(uint32_t clock)
{
    const struct head head = head_of(clock);
    size_t length = sizeof head + sizeof box + settings.made.size;
    uint64_t sum;

    memcpy(kept, &head, sizeof head);
    memcpy(kept + sizeof head, &box, sizeof box);
    memcpy(kept + sizeof head + sizeof box, journal, settings.made.size);
    sum = sum_of(kept, length);
    memcpy(kept + length, &sum, sizeof sum);
    return length + sizeof sum;
}

static bool unpack(size_t length, uint32_t *clock)
{
    const size_t expected = sizeof(struct head) + sizeof box + settings.made.size;
    struct head head, here;
    uint64_t sum;

    memcpy(&head, kept, sizeof head);
    here = head_of(head.clock);
    if (length < sizeof head || memcmp(&head, &here, sizeof head) != 0)
        return wrong(settings.kept, "kept with other settings, or no kept box");
    memcpy(&sum, kept + expected, sizeof sum);
    if (length != expected + sizeof sum || sum != sum_of(kept, expected))
        return wrong(settings.kept, "the kept box is damaged");
    memcpy(&box, kept + sizeof head, sizeof box);
    memcpy(journal, kept + sizeof head + sizeof box, settings.made.size);
    *clock = head.clock;
    return true;
}

static bool keep(uint32_t clock)
{
    const size_t length = pack(clock);
    char name[4096];
    bool written;
    int file;

    if (snprintf(name, sizeof name, "%s.new", settings.kept) >= (int)sizeof name)
        return wrong(settings.kept, "the name is too long");
    file = open(name, O_WRONLY | O_CREAT | O_TRUNC | O_CLOEXEC, 0600);
    if (file < 0)
        return fault(name);
    written = write_at(file, kept, length, 0);
    if (close(file) != 0 || !written || rename(name, settings.kept) != 0)
        return fault(settings.kept);
    return true;
}

/* Takes up the kept box where there is one; else the box stays as it is. */
static bool take_up(uint32_t *clock)
{
    const int file = open(settings.kept, O_RDONLY | O_CLOEXEC);
    ssize_t length;

    if (file < 0)
        return errno == ENOENT || fault(settings.kept);
    length = read(file, kept, sizeof kept);
    close(file);
    if (length < 0)
        return fault(settings.kept);
    if (!unpack((size_t)length, clock) || !done(settings.kept, satbox_tick(&box, *clock, journal, settings.made.size)))
        return false;
    return unlink(settings.kept) == 0 || fault(settings.kept);
}

bool host_box_begin(const struct host_box *given, uint32_t *clock)
{
    settings = *given;
    if (satbox_version() != SATBOX_VERSION)
        return wrong("the archive", "not that of satbox.h");
    random_numbers = open("/dev/urandom", O_RDONLY | O_CLOEXEC);
    if (random_numbers < 0)
        return fault("/dev/urandom");
    if (!done("satbox_make", satbox_make(&box, settings.made)) || !open_records())
        return false;
    *clock = 0;
    if (settings.kept != NULL && !take_up(clock))
        return false;
    collected_at = *clock;
    return set_frontends();
}

bool host_box_end(uint32_t clock)
{
    if (box.held > 0 && !collect(clock))
        return false;
    if (settings.kept != NULL && !keep(clock))
        return false;
    if (box.held > 0 && settings.kept == NULL)
        return wrong(settings.records, "the last records are lost");
    return close(records) == 0 || fault(settings.records);
}
