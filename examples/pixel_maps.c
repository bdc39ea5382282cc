/* A pixel-mapped show in a wide store: more granules than a 16-bit number holds, and levels of 32 bits. */
#include <stdio.h>
#include <stdlib.h>

#include "show_store.h"

/* 70,400 granules: 68 pixel maps of 1,024 granules, the largest object, have room in them, and a list of them. */
enum { CARDS = 1100, MAPS = 68, MAP_GRANULES = 1024, LAST_LEVEL = 4 * MAP_GRANULES - 3, LIST_GRANULES = 18, MOST = 4 * MAPS + 2 };

/* The registers of player 0, who holds the whole show. */
enum { LIST, MAP };

static uint32_t image[SHOW_STORE_WIDE_WORDS(CARDS)];
static uint8_t steps[SHOW_STORE_WIDE_RECORD_BYTES * MOST];
static uint32_t answers[SHOW_STORE_ANSWER_WORDS * MOST];
static size_t count;

static void expect(const char *what, uint32_t got, uint32_t wanted)
{
    if (got != wanted) {
        fprintf(stderr, "%s: %lu, not %lu\n", what, (unsigned long)got, (unsigned long)wanted);
        exit(1);
    }
}

/* Adds a step of player 0, of tracer 0 or of neither to the batch that is being put together; returns its place. */
static size_t add(enum show_step kind, uint32_t a, uint32_t b, uint32_t c)
{
    if (count == MOST)
        abort();
    show_store_wide_record(steps + SHOW_STORE_WIDE_RECORD_BYTES * count, kind, 0, a, b, c);
    return count++;
}

/* Runs the batch, all of whose steps must be accepted, and begins another. The answers stay until the next one. */
static void run(void)
{
    uint16_t result = wide_batch(image, SHOW_STORE_WIDE_WORDS(CARDS), steps, SHOW_STORE_WIDE_RECORD_BYTES * count, answers,
                                 SHOW_STORE_ANSWER_WORDS * count);

    expect("result of a batch", result, SHOW_STORE_OK);
    for (size_t place = 0; place < count; place++)
        expect("number of a step", answers[SHOW_STORE_ANSWER_WORDS * place], SHOW_NUMBER_ACCEPTED);
    count = 0;
}

static uint32_t value(size_t place) { return answers[SHOW_STORE_ANSWER_WORDS * place + 1]; }

/* A list of pixel maps, each without links; the last level word of each says which one it is, in its high half. Returns the granule of the last. */
static uint32_t build_show(void)
{
    size_t last = 0;

    add(SHOW_STEP_NEW, LIST, LIST_GRANULES, MAPS);
    for (uint32_t i = 0; i < MAPS; i++) {
        last = add(SHOW_STEP_NEW, MAP, MAP_GRANULES, 0);
        add(SHOW_STEP_WRITE, MAP, LAST_LEVEL, i << 16);
        add(SHOW_STEP_STORE, LIST, i, MAP);
        add(SHOW_STEP_BARRIER, 0, 0, 0);
    }
    add(SHOW_STEP_DROP, MAP, 0, 0);
    run();
    printf("%u pixel maps, the last at granule %lu\n", (unsigned)MAPS, (unsigned long)value(last));
    return value(last);
}

/* All maps but the last are taken off the list, where nil comes in their place; a cycle frees them. */
static void delete_maps(void)
{
    size_t freed;

    for (uint32_t i = 0; i + 1 < MAPS; i++) {
        add(SHOW_STEP_STORE, LIST, i, MAP);
        add(SHOW_STEP_BARRIER, 0, 0, 0);
    }
    add(SHOW_STEP_BEGIN, 0, 0, 0);
    add(SHOW_STEP_SCAN, 0, 0, 0);
    add(SHOW_STEP_TRACE, 0, 0, 0);
    freed = add(SHOW_STEP_FINISH, 0, 0, 0);
    run();
    expect("granules freed", value(freed), (MAPS - 1) * MAP_GRANULES);
    printf("%lu granules freed\n", (unsigned long)value(freed));
}

int main(void)
{
    uint32_t granule;
    size_t map, level;

    expect("fresh", wide_fresh(image, SHOW_STORE_WIDE_WORDS(CARDS)), SHOW_STORE_OK);
    granule = build_show();
    delete_maps();
    map = add(SHOW_STEP_LOAD, MAP, LIST, MAPS - 1);
    level = add(SHOW_STEP_READ, MAP, LAST_LEVEL, 0);
    run();
    expect("the last map", value(map), granule);
    expect("its level", value(level), (uint32_t)(MAPS - 1) << 16);
    printf("the last map is still at granule %lu, its level is %lu\n", (unsigned long)value(map), (unsigned long)value(level));
    expect("judge", wide_judge(image, SHOW_STORE_WIDE_WORDS(CARDS)), SHOW_STORE_OK);
    return 0;
}
