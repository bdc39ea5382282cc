/* What the header says of steps: the bytes that it writes, and each kind and number by its name in what the library answers. */
#include <stdio.h>
#include <string.h>

#include "show_store.h"

enum { CARDS = 1, GRANULES = 64 * CARDS, FULL = GRANULES - 1 };

/* One step on a store of one card: what it is, and the answer that it must get. */
struct line {
    enum show_step kind;
    uint16_t who, a, b, c;
    enum show_number number;
    uint16_t value;
};

/* Two objects fill the store: one of one granule and one link, in r0, and one of the rest and no link, in r1. The scan marks the first,
 * so that the first finish keeps both, though all registers are dropped by then; the next one frees them. The card is wiped before the
 * scan, when nothing on it is marked, and not after it. Then a run of 8 granules is left, which due counts, and then one of 7, which
 * it does not. At last there are runs of 4 and of 2: a new of 2 takes the second, and the first stays for one of 4. */
static const struct line lines[] = {
    {SHOW_STEP_NEW, 0, 0, 1, 1, SHOW_NUMBER_ACCEPTED, 1},
    {SHOW_STEP_NEW, 0, 1, FULL - 1, 0, SHOW_NUMBER_ACCEPTED, 2},
    {SHOW_STEP_NEW, 0, 2, 1, 3, SHOW_NUMBER_BAD_SIZE, 0},
    {SHOW_STEP_NEW, 0, 2, 1, 2, SHOW_NUMBER_NO_ROOM, 0},
    {SHOW_STEP_DUE, 0, 1, 0, 0, SHOW_NUMBER_ACCEPTED, 1},
    {SHOW_STEP_LOAD, 0, 2, 0, 0, SHOW_NUMBER_ACCEPTED, 0},
    {SHOW_STEP_LOAD, 0, 2, 0, 1, SHOW_NUMBER_PAST_THE_END, 0},
    {SHOW_STEP_LOAD, 0, 2, 3, 0, SHOW_NUMBER_NO_OBJECT, 0},
    {SHOW_STEP_STORE, 0, 0, 0, 1, SHOW_NUMBER_ACCEPTED, 0},
    {SHOW_STEP_DROP, 0, 1, 0, 0, SHOW_NUMBER_OWING, 0},
    {SHOW_STEP_BARRIER, 0, 0, 0, 0, SHOW_NUMBER_ACCEPTED, 0},
    {SHOW_STEP_BARRIER, 0, 0, 0, 0, SHOW_NUMBER_NOTHING_TO_DO, 0},
    {SHOW_STEP_LOAD, 0, 2, 0, 0, SHOW_NUMBER_ACCEPTED, 2},
    {SHOW_STEP_HAND, 0, 0, 15, 15, SHOW_NUMBER_ACCEPTED, 0},
    {SHOW_STEP_HAND, 0, 0, 16, 15, SHOW_NUMBER_OFF_THE_DESK, 0},
    {SHOW_STEP_WRITE, 0, 1, 200, 0xabcd, SHOW_NUMBER_ACCEPTED, 0},
    {SHOW_STEP_READ, 0, 1, 200, 0, SHOW_NUMBER_ACCEPTED, 0xabcd},
    {SHOW_STEP_READ, 0, 1, 200, 1, SHOW_NUMBER_UNKNOWN, 0},
    {SHOW_STEP_FINISH, 0, 0, 0, 0, SHOW_NUMBER_WRONG_PHASE, 0},
    {SHOW_STEP_UNDIRTY, 0, CARDS - 1, 0, 0, SHOW_NUMBER_WRONG_PHASE, 0},
    {SHOW_STEP_UNDIRTY, 0, CARDS, 0, 0, SHOW_NUMBER_OFF_THE_DESK, 0},
    {SHOW_STEP_BEGIN, 0, 0, 0, 0, SHOW_NUMBER_ACCEPTED, 0},
    {SHOW_STEP_UNDIRTY, 0, 0, 0, 0, SHOW_NUMBER_NOTHING_TO_DO, 0},
    {SHOW_STEP_STORE, 0, 0, 0, 1, SHOW_NUMBER_ACCEPTED, 0},
    {SHOW_STEP_BARRIER, 0, 0, 0, 0, SHOW_NUMBER_ACCEPTED, 0},
    {SHOW_STEP_UNDIRTY, 1, 0, 0, 0, SHOW_NUMBER_UNKNOWN, 0},
    {SHOW_STEP_UNDIRTY, 0, 0, 0, 0, SHOW_NUMBER_ACCEPTED, 0},
    {SHOW_STEP_SCAN, 7, 15, 0, 0, SHOW_NUMBER_ACCEPTED, 0},
    {SHOW_STEP_TRACE, 7, 0, 0, 0, SHOW_NUMBER_ACCEPTED, 0},
    {SHOW_STEP_CLEAN, 7, 0, 0, 0, SHOW_NUMBER_NOTHING_TO_DO, 0},
    {SHOW_STEP_STORE, 0, 0, 0, 1, SHOW_NUMBER_ACCEPTED, 0},
    {SHOW_STEP_BARRIER, 0, 0, 0, 0, SHOW_NUMBER_ACCEPTED, 0},
    {SHOW_STEP_UNDIRTY, 0, 0, 0, 0, SHOW_NUMBER_NOTHING_TO_DO, 0},
    {SHOW_STEP_CLEAN, 7, 0, 0, 0, SHOW_NUMBER_ACCEPTED, 0},
    {SHOW_STEP_DROP, 0, 0, 0, 0, SHOW_NUMBER_ACCEPTED, 0},
    {SHOW_STEP_DROP, 0, 1, 0, 0, SHOW_NUMBER_ACCEPTED, 0},
    {SHOW_STEP_DROP, 0, 2, 0, 0, SHOW_NUMBER_ACCEPTED, 0},
    {SHOW_STEP_DROP, 15, 15, 0, 0, SHOW_NUMBER_ACCEPTED, 0},
    {SHOW_STEP_FINISH, 0, 0, 0, 0, SHOW_NUMBER_ACCEPTED, 0},
    {SHOW_STEP_BEGIN, 0, 0, 0, 0, SHOW_NUMBER_ACCEPTED, 0},
    {SHOW_STEP_FINISH, 0, 0, 0, 0, SHOW_NUMBER_ACCEPTED, FULL},
    {SHOW_STEP_DUE, 0, FULL, 0, 0, SHOW_NUMBER_ACCEPTED, 0},
    {SHOW_STEP_DUE, 0, GRANULES, 0, 0, SHOW_NUMBER_ACCEPTED, 1},
    {SHOW_STEP_NEW, 0, 0, FULL - 8, 0, SHOW_NUMBER_ACCEPTED, 1},
    {SHOW_STEP_DUE, 0, 8, 0, 0, SHOW_NUMBER_ACCEPTED, 0},
    {SHOW_STEP_DUE, 0, 9, 0, 0, SHOW_NUMBER_ACCEPTED, 1},
    {SHOW_STEP_NEW, 0, 1, 1, 0, SHOW_NUMBER_ACCEPTED, FULL - 7},
    {SHOW_STEP_DUE, 0, 1, 0, 0, SHOW_NUMBER_ACCEPTED, 1},
    {SHOW_STEP_DUE, 0, 0, 0, 0, SHOW_NUMBER_ACCEPTED, 0},
    {SHOW_STEP_NEW, 0, 2, 4, 0, SHOW_NUMBER_ACCEPTED, FULL - 6},
    {SHOW_STEP_NEW, 0, 3, 1, 0, SHOW_NUMBER_ACCEPTED, FULL - 2},
    {SHOW_STEP_DROP, 0, 2, 0, 0, SHOW_NUMBER_ACCEPTED, 0},
    {SHOW_STEP_BEGIN, 0, 0, 0, 0, SHOW_NUMBER_ACCEPTED, 0},
    {SHOW_STEP_FINISH, 0, 0, 0, 0, SHOW_NUMBER_ACCEPTED, 4},
    {SHOW_STEP_NEW, 0, 2, 2, 0, SHOW_NUMBER_ACCEPTED, FULL - 1},
    {SHOW_STEP_NEW, 0, 4, 4, 0, SHOW_NUMBER_ACCEPTED, FULL - 6},
    {SHOW_STEP_NEW, 0, 5, 1, 0, SHOW_NUMBER_NO_ROOM, 0},
};
enum { LINES = sizeof lines / sizeof *lines };

static int failures = 0;

static void expect(const char *what, unsigned long place, unsigned long got, unsigned long wanted)
{
    if (got != wanted) {
        printf("%s, %lu: %lu, not %lu\n", what, place, got, wanted);
        failures++;
    }
}

/* "kind, player or tracer, then a, b, c, 16 bits each, low byte first" */
static void bytes_of_a_record(void)
{
    static const uint8_t wanted[SHOW_STORE_RECORD_BYTES] = {8, 15, 0x02, 0x01, 0xfe, 0xff, 0x34, 0x12};
    uint8_t record[SHOW_STORE_RECORD_BYTES + 1];

    memset(record, 0x5a, sizeof record);
    show_store_record(record, SHOW_STEP_WRITE, 15, 0x0102, 0xfffe, 0x1234);
    for (size_t i = 0; i < SHOW_STORE_RECORD_BYTES; i++)
        expect("byte of a record", i, record[i], wanted[i]);
    expect("byte past a record", SHOW_STORE_RECORD_BYTES, record[SHOW_STORE_RECORD_BYTES], 0x5a);
}

static void steps_by_name(void)
{
    static uint16_t image[SHOW_STORE_WORDS(CARDS)];
    static uint8_t steps[SHOW_STORE_RECORD_BYTES * LINES];
    static uint16_t answers[SHOW_STORE_ANSWER_WORDS * LINES];

    for (size_t i = 0; i < LINES; i++)
        show_store_record(steps + SHOW_STORE_RECORD_BYTES * i, lines[i].kind, (uint8_t)lines[i].who, lines[i].a, lines[i].b, lines[i].c);
    expect("fresh", 0, fresh(image, SHOW_STORE_WORDS(CARDS)), SHOW_STORE_OK);
    expect("batch", 0, batch(image, SHOW_STORE_WORDS(CARDS), steps, sizeof steps, answers, SHOW_STORE_ANSWER_WORDS * LINES), SHOW_STORE_OK);
    for (size_t i = 0; i < LINES; i++) {
        expect("number of step", i, answers[SHOW_STORE_ANSWER_WORDS * i], lines[i].number);
        expect("value of step", i, answers[SHOW_STORE_ANSWER_WORDS * i + 1], lines[i].value);
    }
    expect("judge", 0, judge(image, SHOW_STORE_WORDS(CARDS)), SHOW_STORE_OK);
}

/* The table above has every kind and every number. */
static void every_kind_and_number(void)
{
    unsigned kinds = 0, numbers = 0;

    for (size_t i = 0; i < LINES; i++) {
        kinds |= 1u << lines[i].kind;
        numbers |= 1u << lines[i].number;
    }
    expect("kinds shown", 0, kinds, 0xfffe);
    expect("numbers shown", 0, numbers, 0xff9);
}

int main(void)
{
    bytes_of_a_record();
    steps_by_name();
    every_kind_and_number();
    if (failures == 0)
        puts("steps.c: ok");
    return failures != 0;
}
