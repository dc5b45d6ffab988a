/*
 * EDGES.md section 9: reading and writing records, collecting the journal, and refusals 2 to 8 with all that
 * stays.
 */
#include "plain_test.h"

#include <string.h>

static const struct plain_record good_record = {3, 2, 0x01020304, 0x05060708, 8, 1, 0x090A};
static const uint8_t good_bytes[16] = {0x53, 0x4A, 3, 2, 1, 2, 3, 4, 5, 6, 7, 8, 8, 1, 9, 10};

static bool same_record(const struct plain_record *a, const struct plain_record *b)
{
    return a->kind == b->kind && a->cause == b->cause && a->clock == b->clock && a->session == b->session
        && a->stream == b->stream && a->frontend == b->frontend && a->sequence == b->sequence;
}

/* Refusal 7, and 7 before 8. */
static void test_record_places(void)
{
    static const struct plain_record none;
    struct plain_record record = good_record;
    uint8_t bytes[48] = {0};
    CHECK(plain_read_record(NULL, 0, 0, &record) == 7 && same_record(&record, &none));
    memcpy(bytes + 16, good_bytes, 16);
    CHECK(plain_read_record(bytes, 48, 1, &record) == 0 && same_record(&record, &good_record));
    CHECK(plain_read_record(bytes, 48, 0, &record) == 8 && same_record(&record, &none));
    CHECK(plain_read_record(bytes, 48, 2, &record) == 8);
    CHECK(plain_read_record(bytes, 48, 3, &record) == 7);
    CHECK(plain_read_record(bytes, 47, 1, &record) == 7);
    CHECK(plain_read_record(bytes, 47, 0, &record) == 7);
    CHECK(plain_read_record(bytes, 17, 0, &record) == 7);
    CHECK(plain_read_record(bytes, 32, 1, &record) == 0);
    CHECK(plain_read_record(bytes, 32, 2, &record) == 7);
    CHECK(plain_read_record(bytes, 48, SIZE_MAX, &record) == 7);
    CHECK(plain_read_record(bytes, 48, SIZE_MAX / 16 + 2, &record) == 7);
}

/* Refusal 8 over every kind, cause, stream and frontend, in reading and in writing. */
static void check_record(struct plain_record record, bool good)
{
    uint8_t bytes[16], want[16] = {0x53, 0x4A, record.kind, record.cause};
    struct plain_record read;
    for (int i = 0; i < 4; i++) {
        want[4 + i] = (uint8_t)(record.clock >> (24 - 8 * i));
        want[8 + i] = (uint8_t)(record.session >> (24 - 8 * i));
    }
    want[12] = record.stream;
    want[13] = record.frontend;
    want[14] = (uint8_t)(record.sequence >> 8);
    want[15] = (uint8_t)(record.sequence & 255);
    memset(bytes, FILL, sizeof bytes);
    check(plain_write_record(&record, bytes) == (good ? 0 : 8), "writing");
    check(good ? memcmp(bytes, want, 16) == 0 : is_zero(bytes, 16), "the bytes written");
    check(plain_read_record(want, 16, 0, &read) == (good ? 0 : 8), "reading");
    check(!good || same_record(&read, &record), "the fields read");
}

static void test_records(void)
{
    struct plain_record record = good_record;
    uint8_t bytes[16];
    HERE;
    for (int kind = 0; kind < 256; kind++)
        for (int cause = 0; cause < 6; cause++) {
            record.kind = (uint8_t)kind;
            record.cause = (uint8_t)(cause < 5 ? cause : 255);
            check_record(record, ((kind == 1 || kind == 2) && cause == 0)
                                     || (kind == 3 && cause >= 1 && cause <= 3));
        }
    for (int number = 0; number < 256; number++) {
        record = good_record;
        record.stream = (uint8_t)number;
        check_record(record, number >= 1 && number <= 8);
        record = good_record;
        record.frontend = (uint8_t)number;
        check_record(record, number >= 1 && number <= 8);
    }
    record = good_record;
    record.session = 0;
    check_record(record, false);
    record = (struct plain_record){1, 0, 0, UINT32_MAX, 1, 8, 65535};
    check_record(record, true);
    memcpy(bytes, good_bytes, 16);
    bytes[0] = 0x4A;
    CHECK(plain_read_record(bytes, 16, 0, &record) == 8);
    memcpy(bytes, good_bytes, 16);
    bytes[1] = 0x53;
    CHECK(plain_read_record(bytes, 16, 0, &record) == 8);
}

/* Refusal 6, and what a fresh box is. */
static void test_making(void)
{
    struct plain_box made, before;
    memset(&before, FILL, sizeof before);
    for (uint16_t frontends = 0; frontends <= 10; frontends++)
        for (uint32_t size = 1000; size <= 1060; size++) {
            bool good = frontends >= 1 && frontends <= 8 && size >= 1024 && size % 16 == 0;
            made = before;
            CHECK(plain_make(&made, all_reaching(frontends, size)) == (good ? 0 : 6));
            if (!good) {
                CHECK(memcmp(&made, &before, sizeof made) == 0);
                continue;
            }
            CHECK(made.settings.frontends == frontends && made.settings.size == size);
            memset(&made.settings, 0, sizeof made.settings);
            CHECK(is_zero(&made, sizeof made));
        }
    CHECK(plain_make(&made, all_reaching(8, 65536)) == 0);
    CHECK(plain_make(&made, all_reaching(8, 65552)) == 6);
    CHECK(plain_make(&made, all_reaching(8, 65535)) == 6);
    CHECK(plain_make(&made, all_reaching(8, 0)) == 6);
    CHECK(plain_make(&made, all_reaching(257, 1024)) == 6);
    CHECK(plain_make(&made, all_reaching(UINT16_MAX, 1024)) == 6);
    CHECK(plain_make(&made, all_reaching(1, UINT32_MAX - 15)) == 6);
}

/* Refusals 2 and 3 in number order; everything stays. */
static void test_lent_lengths(void)
{
    static const size_t wrong[] = {0, 1023, 1025, 1040, 65536};
    const uint8_t *request = (const uint8_t *)example;
    const size_t length = strlen(example);
    struct plain_box before;
    uint32_t count;
    base();
    before = box;
    memset(answer, FILL, sizeof answer);
    for (size_t i = 0; i < sizeof wrong / sizeof *wrong; i++) {
        CHECK(plain_request(&box, request, length, 9999, 0, 0, answer, 4096, &answer_count, journal_room,
                            wrong[i]) == 2);
        CHECK(plain_request(&box, request, length, 9999, 0, 0, NULL, 0, &answer_count, NULL, wrong[i]) == 2);
        CHECK(plain_tick(&box, 9999, journal_room, wrong[i]) == 2);
        CHECK(plain_collect(&box, journal_room, wrong[i], NULL, 0, &count) == 2 && count == 0);
    }
    answer_count = 1;
    CHECK(plain_request(&box, request, length, 9999, 0, 0, answer, 4095, &answer_count, journal(), 1024) == 3);
    CHECK(answer_count == 0);
    CHECK(plain_request(&box, request, 0, 9999, 0, 0, NULL, 0, &answer_count, journal(), 1024) == 3);
    CHECK(memcmp(&box, &before, sizeof box) == 0 && filled(answer, sizeof answer));
    CHECK(filled(journal_room, sizeof journal_room));
    box.settings.frontends = 0;
    CHECK(plain_request(&box, request, 0, 0, 0, 0, NULL, 0, &answer_count, NULL, 0) == 1);
    CHECK(plain_tick(&box, 0, NULL, 0) == 1);
    CHECK(plain_collect(&box, NULL, 0, NULL, 0, &count) == 1);
}

/* Refusal 4 and collecting. */
static void test_collect(void)
{
    uint8_t buffer[64], kept[1024];
    struct plain_box before;
    uint32_t count = 9;
    fresh(2, 1024);
    CHECK(plain_collect(&box, journal(), 1024, NULL, 0, &count) == 0 && count == 0);
    GIVES(200, raw(example));
    GIVES(200, in(1, "TEARDOWN", "/stream=1"));
    before = box;
    memcpy(kept, journal(), 1024);
    memset(buffer, FILL, sizeof buffer);
    count = 9;
    CHECK(plain_collect(&box, journal(), 1024, buffer, 31, &count) == 4 && count == 0);
    CHECK(memcmp(&box, &before, sizeof box) == 0 && filled(buffer, sizeof buffer));
    CHECK(plain_collect(&box, journal(), 1024, buffer, 32, &count) == 0 && count == 32);
    CHECK(memcmp(buffer, kept, 32) == 0 && filled(buffer + 32, 32) && memcmp(journal(), kept, 1024) == 0);
    before.held = 0;
    CHECK(memcmp(&box, &before, sizeof box) == 0 && box.sequence == 2 && well_formed());
    CHECK(plain_collect(&box, journal(), 1024, NULL, 0, &count) == 0 && count == 0);
    GIVES(200, raw(example));
    CHECK(box.held == 16 && journal()[15] == 2 && memcmp(journal() + 16, kept + 16, 1008) == 0);
    now = 1000;
    CHECK(plain_collect(&box, journal(), 1024, buffer, sizeof buffer, &count) == 0 && count == 16);
    CHECK(count_open(&box) == 1 && box.clock == 0 && filled(buffer + 32, 32) && buffer[31] == kept[31]);
}

/* Refusal 5, which comes after 1 and does not know 2. */
static void test_order_refusals(void)
{
    struct plain_stream order;
    int on = 1;
    fresh(2, 1024);
    memset(&order, FILL, sizeof order);
    CHECK(plain_order(&box, 0, &order, &on) == 5 && on == 0 && is_zero(&order, sizeof order));
    CHECK(plain_order(&box, 3, &order, &on) == 5);
    CHECK(plain_order(&box, 8, &order, &on) == 5);
    CHECK(plain_order(&box, 257, &order, &on) == 5);
    CHECK(plain_order(&box, UINT32_MAX, &order, &on) == 5);
    CHECK(plain_order(&box, 1, &order, &on) == 0 && plain_order(&box, 2, &order, &on) == 0);
    box.held = 8;
    CHECK(plain_order(&box, 0, &order, &on) == 1);
}

void test_refusals(void)
{
    test_record_places();
    test_records();
    test_making();
    test_lent_lengths();
    test_collect();
    test_order_refusals();
}
