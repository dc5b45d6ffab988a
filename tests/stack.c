/*
 * What stack the archive's calls take: `stack [SEED [CALLS]]` makes calls of chance as the comparison does, on the archive alone, and looks at
 * the stack pointer after each instruction. Prints the deepest of each call, with its return address and its arguments on the stack, and
 * fails where that is more than satbox.h says, or where a call was never done.
 */
#include "compare.h"
#include "satbox.h"
#include "steps.h"

#include <stdio.h>
#include <stdlib.h>
#include <string.h>

enum { SEED = 13, CALLS = 360, IN_A_ROW = 120 };

/* Each of the archive's functions: its name, its arguments that go over the stack, what the header says, and what was seen. */
static struct watch {
    const char *name;
    void (*entry)(void);
    size_t arguments, said, deepest;
} watches[] = {
    {"satbox_make", (void (*)(void))satbox_make, 0, SATBOX_STACK_MAKE, 0},
    {"satbox_request", (void (*)(void))satbox_request, 4 * sizeof(uint64_t), SATBOX_STACK_REQUEST, 0},
    {"satbox_tick", (void (*)(void))satbox_tick, 0, SATBOX_STACK_TICK, 0},
    {"satbox_collect", (void (*)(void))satbox_collect, 0, SATBOX_STACK_COLLECT, 0},
    {"satbox_order", (void (*)(void))satbox_order, 0, SATBOX_STACK_ORDER, 0},
    {"satbox_read_record", (void (*)(void))satbox_read_record, 0, SATBOX_STACK_READ_RECORD, 0},
    {"satbox_write_record", (void (*)(void))satbox_write_record, (sizeof(struct satbox_record) + 7) / 8 * 8, SATBOX_STACK_WRITE_RECORD, 0}
};

/* The box, the one put aside, and all that is lent. */
static union {
    struct plain_box plain;
    struct satbox satbox;
} box, saved;
static uint8_t journal[JOURNAL_ROOM], answer[ANSWER_ROOM], buffer[JOURNAL_ROOM];

/* The function that a call goes to; the changes of a table by hand go to none. */
static struct watch *watch_of(enum kind kind)
{
    static const unsigned char place[KINDS] = {[MAKE] = 0, [REQUEST] = 1, [TICK] = 2, [COLLECT] = 3, [ORDER] = 4, [READ] = 5, [LOOK] = 5,
                                               [WRITE] = 6};
    return &watches[place[kind]];
}

static void change(const struct call *call)
{
    if (call->kind == SAVE)
        saved = box;
    else if (call->kind == RESTORE)
        box = saved;
    else
        memcpy((uint8_t *)&box + call->numbers[0], call->bytes, call->length);
}

static void make_box(const struct call *call)
{
    const struct plain_settings given = settings_of(call);
    struct satbox_settings settings;
    memcpy(&settings, &given, sizeof settings);
    satbox_make(&box.satbox, settings);
}

static void make_call(const struct call *call)
{
    const uint64_t *n = call->numbers;
    const struct satbox_record record = {(uint8_t)n[0], (uint8_t)n[1], (uint32_t)n[2], (uint32_t)n[3], (uint8_t)n[4], (uint8_t)n[5],
                                         (uint16_t)n[6]};
    struct watch *watch = watch_of(call->kind);
    steps_watch(watch->entry);
    steps_start();
    switch (call->kind) {
    case MAKE: make_box(call); break;
    case REQUEST:
        satbox_request(&box.satbox, call->bytes, call->length, (uint32_t)n[0], (uint32_t)n[1], (uint32_t)n[2], answer, n[3], journal, n[4]);
        break;
    case TICK: satbox_tick(&box.satbox, (uint32_t)n[0], journal, n[1]); break;
    case COLLECT: satbox_collect(&box.satbox, journal, n[0], buffer, n[1]); break;
    case ORDER: satbox_order(&box.satbox, (uint32_t)n[0]); break;
    case READ: satbox_read_record(journal, n[0], n[1]); break;
    case LOOK: satbox_read_record(call->bytes, call->length, n[0]); break;
    default: satbox_write_record(record);
    }
    steps_stop();
    const size_t depth = steps_depth() + watch->arguments;
    if (steps_depth() != 0 && depth > watch->deepest)
        watch->deepest = depth;
}

int main(int count, char **words)
{
    const unsigned long calls = count > 2 ? strtoul(words[2], NULL, 10) : CALLS;
    static struct call call;
    bool good = true;
    if (!steps_prepare()) {
        printf("stack: this machine hands on no trap after an instruction: nothing is measured\n");
        return 0;
    }
    seed_chance(count > 1 ? strtoul(words[1], NULL, 10) : SEED);
    for (unsigned long made = 0; made < calls; made++) {
        if (made % IN_A_ROW == 0)
            first_call(&call);
        else
            next_call(&call, &box.plain);
        if (call.kind >= SAVE)
            change(&call);
        else
            make_call(&call);
    }
    printf("%-20s %8s %8s\n", "call", "deepest", "said");
    for (size_t i = 0; i < sizeof watches / sizeof *watches; i++) {
        const bool fits = watches[i].deepest != 0 && watches[i].deepest <= watches[i].said;
        printf("%-20s %8zu %8zu%s\n", watches[i].name, watches[i].deepest, watches[i].said, fits ? "" : "  NOT AS THE HEADER SAYS");
        good = good && fits;
    }
    return good ? 0 : 1;
}
