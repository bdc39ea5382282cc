/* Calls the wide store from C: fresh, judge and batch on good, damaged and misfitting slices, with records whose fields need 32 bits. Run under
 * valgrind: slices are exact allocations, so that a word read or written past them is reported. */
#include <stdio.h>
#include <stdlib.h>

#include "expect.h"
#include "show_store.h"

enum { FULL = SHOW_STORE_CARD_GRANULES - 1 };
static const uint32_t UNTOUCHED = 0x5aa55aa5, HIGH = 65536;

/* One step on a store of one card: what it is, its two zero bytes, and the answer that it must get. */
struct line {
    enum show_step kind;
    unsigned who, zeros;
    uint32_t a, b, c;
    enum show_number number;
    uint32_t value;
};

/* An object of one granule and one link in r0 and one of the rest in r1; each kind of field above 65,535 and each zero byte set; and a cycle in
 * which the second object is linked from the first, traced, and freed in the next cycle. */
static const struct line lines[] = {
    {SHOW_STEP_NEW, 0, 0, 0, 1, 1, SHOW_NUMBER_ACCEPTED, 1},
    {SHOW_STEP_NEW, 0, 0, 1, 65537, 0, SHOW_NUMBER_BAD_SIZE, 0},
    {SHOW_STEP_NEW, 0, 0, 1, 1, 65536, SHOW_NUMBER_BAD_SIZE, 0},
    {SHOW_STEP_NEW, 0, 0, 65536, 1, 0, SHOW_NUMBER_OFF_THE_DESK, 0},
    {SHOW_STEP_NEW, 0, 1, 1, 1, 0, SHOW_NUMBER_UNKNOWN, 0},
    {SHOW_STEP_NEW, 0, 0x100, 1, 1, 0, SHOW_NUMBER_UNKNOWN, 0},
    {SHOW_STEP_NEW, 0, 0, 1, FULL - 1, 0, SHOW_NUMBER_ACCEPTED, 2},
    {SHOW_STEP_NEW, 0, 0, 2, 1, 0, SHOW_NUMBER_NO_ROOM, 0},
    {SHOW_STEP_LOAD, 0, 0, 2, 0, 65536, SHOW_NUMBER_PAST_THE_END, 0},
    {SHOW_STEP_LOAD, 0, 0, 2, 3, 0, SHOW_NUMBER_NO_OBJECT, 0},
    {SHOW_STEP_WRITE, 0, 0, 1, 7, 0xfedcba98, SHOW_NUMBER_ACCEPTED, 0},
    {SHOW_STEP_READ, 0, 0, 1, 7, 0, SHOW_NUMBER_ACCEPTED, 0xfedcba98},
    {SHOW_STEP_READ, 0, 0, 1, 7, 65536, SHOW_NUMBER_UNKNOWN, 0},
    {SHOW_STEP_DUE, 0, 0, 65536, 0, 0, SHOW_NUMBER_ACCEPTED, 1},
    {SHOW_STEP_DUE, 0, 0, 0, 0, 0, SHOW_NUMBER_ACCEPTED, 0},
    {SHOW_STEP_UNDIRTY, 0, 0, 65536, 0, 0, SHOW_NUMBER_OFF_THE_DESK, 0},
    {SHOW_STEP_BEGIN, 0, 0x8000, 0, 0, 0, SHOW_NUMBER_UNKNOWN, 0},
    {SHOW_STEP_FINISH, 0, 0, 0, 0, 0, SHOW_NUMBER_WRONG_PHASE, 0},
    {SHOW_STEP_BEGIN, 0, 0, 0, 0, 0, SHOW_NUMBER_ACCEPTED, 0},
    {SHOW_STEP_STORE, 0, 0, 0, 0, 1, SHOW_NUMBER_ACCEPTED, 0},
    {SHOW_STEP_DROP, 0, 0, 1, 0, 0, SHOW_NUMBER_OWING, 0},
    {SHOW_STEP_BARRIER, 0, 0, 0, 0, 0, SHOW_NUMBER_ACCEPTED, 0},
    {SHOW_STEP_UNDIRTY, 0, 0, 0, 0, 0, SHOW_NUMBER_ACCEPTED, 0},
    {SHOW_STEP_HAND, 0, 0, 0, 15, 15, SHOW_NUMBER_ACCEPTED, 0},
    {SHOW_STEP_SCAN, 7, 0, 65536, 0, 0, SHOW_NUMBER_OFF_THE_DESK, 0},
    {SHOW_STEP_SCAN, 7, 0, 15, 0, 0, SHOW_NUMBER_ACCEPTED, 0},
    {SHOW_STEP_TRACE, 7, 0, 0, 0, 0, SHOW_NUMBER_ACCEPTED, 0},
    {SHOW_STEP_CLEAN, 7, 0, 0, 0, 0, SHOW_NUMBER_NOTHING_TO_DO, 0},
    {SHOW_STEP_DROP, 0, 0, 0, 0, 0, SHOW_NUMBER_ACCEPTED, 0},
    {SHOW_STEP_DROP, 0, 0, 1, 0, 0, SHOW_NUMBER_ACCEPTED, 0},
    {SHOW_STEP_DROP, 15, 0, 15, 0, 0, SHOW_NUMBER_ACCEPTED, 0},
    {SHOW_STEP_FINISH, 0, 0, 0, 0, 0, SHOW_NUMBER_ACCEPTED, 0},
    {SHOW_STEP_BEGIN, 0, 0, 0, 0, 0, SHOW_NUMBER_ACCEPTED, 0},
    {SHOW_STEP_FINISH, 0, 0, 0, 0, 0, SHOW_NUMBER_ACCEPTED, FULL},
};
enum { LINES = sizeof lines / sizeof *lines };

static void *lent(size_t items, size_t size)
{
    void *memory = malloc(items * size);
    if (items != 0 && memory == NULL)
        exit(2);
    return memory;
}

static uint32_t *words_of(size_t n)
{
    uint32_t *words = (uint32_t *)lent(n, sizeof *words);
    for (size_t i = 0; i < n; i++)
        words[i] = UNTOUCHED;
    return words;
}

/* The header's record, with the line's zero bytes. */
static void record_of(uint8_t *record, const struct line *line)
{
    show_store_wide_record(record, line->kind, (uint8_t)line->who, line->a, line->b, line->c);
    record[2] = (uint8_t)(line->zeros & 0xff);
    record[3] = (uint8_t)(line->zeros >> 8);
}

static void steps_on_one_card(void)
{
    size_t n = SHOW_STORE_WIDE_WORDS(1);
    uint32_t *image = words_of(n), *answers = words_of(SHOW_STORE_ANSWER_WORDS * LINES);
    uint8_t *steps = (uint8_t *)lent(LINES, SHOW_STORE_WIDE_RECORD_BYTES);
    size_t bytes = SHOW_STORE_WIDE_RECORD_BYTES * (size_t)LINES, answer_words = SHOW_STORE_ANSWER_WORDS * (size_t)LINES;

    for (size_t i = 0; i < LINES; i++)
        record_of(steps + SHOW_STORE_WIDE_RECORD_BYTES * i, &lines[i]);
    expect("batch on unmade words", wide_batch(image, n, steps, bytes, answers, answer_words), SHOW_STORE_DAMAGED);
    expect("fresh", wide_fresh(image, n), SHOW_STORE_OK);
    expect("batch with a part record", wide_batch(image, n, steps, bytes - 8, answers, answer_words), SHOW_STORE_MISFIT);
    expect("batch with few answers", wide_batch(image, n, steps, bytes, answers, answer_words - 1), SHOW_STORE_MISFIT);
    for (size_t i = 0; i < answer_words; i++)
        expect("answer word of a refused batch", answers[i], UNTOUCHED);
    expect("batch", wide_batch(image, n, steps, bytes, answers, answer_words), SHOW_STORE_OK);
    for (size_t i = 0; i < LINES; i++) {
        if (answers[SHOW_STORE_ANSWER_WORDS * i] != lines[i].number || answers[SHOW_STORE_ANSWER_WORDS * i + 1] != lines[i].value)
            printf("step %lu:\n", (unsigned long)i);
        expect("number of a step", answers[SHOW_STORE_ANSWER_WORDS * i], lines[i].number);
        expect("value of a step", answers[SHOW_STORE_ANSWER_WORDS * i + 1], lines[i].value);
    }
    expect("judge", wide_judge(image, n), SHOW_STORE_OK);
    expect("the run of all granules", image[4], FULL);
    free(steps);
    free(answers);
    free(image);
}

static void stores_of(unsigned k)
{
    size_t n = SHOW_STORE_WIDE_WORDS(k);
    uint32_t *image = words_of(n);

    expect("judge of unmade words", wide_judge(image, n), SHOW_STORE_DAMAGED);
    expect("fresh", wide_fresh(image, n), SHOW_STORE_OK);
    expect("judge of a fresh store", wide_judge(image, n), SHOW_STORE_OK);
    expect("the first run's length", image[4], 64ul * k - 1);
    expect("the first run", image[n - 7], 1);
    image[n - 7] = HIGH + 1;
    expect("judge with a first run past the end", wide_judge(image, n), SHOW_STORE_DAMAGED);
    image[n - 7] = 1;
    image[n - 1384 - k] = HIGH;
    expect("judge with a wrong count", wide_judge(image, n), SHOW_STORE_DAMAGED);
    free(image);
}

/* 1,645 words and 1,650, which fit the narrow store of one card, among others. */
static void misfits(void)
{
    static const size_t lengths[] = {0, 1, 7, 1384, 1645, 1647, 1650, 1907, 1909, 135527, 135529, SHOW_STORE_WORDS(512)};

    for (size_t i = 0; i < sizeof lengths / sizeof *lengths; i++) {
        size_t n = lengths[i];
        uint32_t *image = words_of(n);
        expect("judge of a misfit", wide_judge(image, n), SHOW_STORE_MISFIT);
        expect("fresh of a misfit", wide_fresh(image, n), SHOW_STORE_MISFIT);
        expect("batch on a misfit", wide_batch(image, n, NULL, 0, NULL, 0), SHOW_STORE_MISFIT);
        for (size_t w = 0; w < n; w++)
            if (image[w] != UNTOUCHED)
                expect("a word of a misfit", image[w], UNTOUCHED);
        free(image);
    }
}

/* The largest store fits, and one of one card more does not. */
static void the_largest_store(void)
{
    size_t n = SHOW_STORE_WIDE_WORDS(SHOW_STORE_WIDE_MOST_CARDS), more = SHOW_STORE_WIDE_WORDS(SHOW_STORE_WIDE_MOST_CARDS + 1);
    uint32_t *image = (uint32_t *)lent(more, sizeof *image);

    expect("fresh of 65,537 cards", wide_fresh(image, more), SHOW_STORE_MISFIT);
    expect("judge of 65,537 cards", wide_judge(image, more), SHOW_STORE_MISFIT);
    expect("fresh of 65,536 cards", wide_fresh(image, n), SHOW_STORE_OK);
    expect("its run's length", image[4], 64ul * SHOW_STORE_WIDE_MOST_CARDS - 1);
    free(image);
}

int main(void)
{
    expect("words of one card", SHOW_STORE_WIDE_WORDS(1), 1646);
    expect("words of 65,536 cards", SHOW_STORE_WIDE_WORDS(SHOW_STORE_WIDE_MOST_CARDS), 17171816);
    steps_on_one_card();
    stores_of(1);
    stores_of(2);
    stores_of(600);
    misfits();
    the_largest_store();
    if (failures == 0)
        puts("wide.c: ok");
    return failures != 0;
}
