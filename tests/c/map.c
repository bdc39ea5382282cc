/* Calls service_map from C: exact lines, and every refusal. Each call is made on an output between guard bytes, and on one that is an exact
 * allocation, so that valgrind reports a byte read or written past it. */
#include <stdio.h>
#include <stdlib.h>
#include <string.h>

#include "expect.h"
#include "show_store.h"

enum { GUARDS = 16, MOST = 74 * 512, UNTOUCHED = 0xa5 };

static uint8_t *bytes_of(size_t n)
{
    uint8_t *bytes = (uint8_t *)malloc(n);

    if (n != 0 && bytes == NULL)
        exit(2);
    for (size_t i = 0; i < n; i++)
        bytes[i] = UNTOUCHED;
    return bytes;
}

/* One call on n bytes of output, between guards and alone. They must come to hold `wanted`, or stay as they were if there is none. */
static void expect_map(const char *what, const uint16_t *image, size_t words, size_t n, unsigned result, const char *wanted)
{
    static uint8_t guarded[GUARDS + MOST + GUARDS], after[GUARDS + MOST + GUARDS];
    uint8_t *exact = bytes_of(n);

    memset(guarded, UNTOUCHED, sizeof guarded);
    memset(after, UNTOUCHED, sizeof after);
    if (wanted != NULL)
        memcpy(after + GUARDS, wanted, n);
    expect(what, service_map(image, words, guarded + GUARDS, n), result);
    expect("bytes of the map and around it", memcmp(guarded, after, sizeof after) == 0, 1);
    expect(what, service_map(image, words, exact, n), result);
    expect("bytes of the map alone", memcmp(exact, after + GUARDS, n) == 0, 1);
    free(exact);
}

static uint16_t *fresh_store(unsigned k)
{
    uint16_t *image = (uint16_t *)malloc(SHOW_STORE_WORDS(k) * sizeof *image);

    if (image == NULL)
        exit(2);
    expect("fresh", fresh(image, SHOW_STORE_WORDS(k)), SHOW_STORE_OK);
    return image;
}

static void run(uint16_t *image, unsigned k, enum show_step kind, uint8_t who, uint16_t a, uint16_t b, uint16_t c)
{
    uint8_t record[SHOW_STORE_RECORD_BYTES];
    uint16_t answer[SHOW_STORE_ANSWER_WORDS];

    show_store_record(record, kind, who, a, b, c);
    expect("batch", batch(image, SHOW_STORE_WORDS(k), record, sizeof record, answer, SHOW_STORE_ANSWER_WORDS), SHOW_STORE_OK);
    expect("number of a step", answer[0], SHOW_NUMBER_ACCEPTED);
}

static void one_card(void)
{
    uint16_t *image = fresh_store(1);

    run(image, 1, SHOW_STEP_NEW, 0, 0, 5, 0);
    expect_map("one card", image, SHOW_STORE_WORDS(1), SHOW_STORE_MAP_BYTES(1), SHOW_STORE_OK,
               "0000 0 .o----.......................................................... \n");
    free(image);
}

/* An object of 2 granules, one of 60 and one of 3, which runs over the card's end; in a cycle the registers are scanned after the second is
 * dropped. */
static void lines(void)
{
    uint16_t *image = fresh_store(2);
    const size_t n = SHOW_STORE_WORDS(2);

    expect_map("a fresh store", image, n, SHOW_STORE_MAP_BYTES(2), SHOW_STORE_OK,
               "0000 0 ................................................................ \n"
               "0001 0 ................................................................ \n");
    run(image, 2, SHOW_STEP_NEW, 0, 0, 2, 1);
    run(image, 2, SHOW_STEP_NEW, 0, 1, 60, 0);
    run(image, 2, SHOW_STEP_NEW, 0, 2, 3, 0);
    expect_map("three objects", image, n, SHOW_STORE_MAP_BYTES(2), SHOW_STORE_OK,
               "0000 0 .o-o-----------------------------------------------------------o \n"
               "0001 0 --.............................................................. \n");
    run(image, 2, SHOW_STEP_DROP, 0, 1, 0, 0);
    run(image, 2, SHOW_STEP_BEGIN, 0, 0, 0, 0);
    run(image, 2, SHOW_STEP_SCAN, 0, 0, 0, 0);
    run(image, 2, SHOW_STEP_STORE, 0, 0, 0, 2);
    run(image, 2, SHOW_STEP_BARRIER, 0, 0, 0, 0);
    expect_map("in a cycle", image, n, SHOW_STORE_MAP_BYTES(2), SHOW_STORE_OK,
               "0000 1 .#-o-----------------------------------------------------------# \n"
               "0001 0 --.............................................................. \n");
    free(image);
}

/* The image's length, the output's length, and damage, which comes last. */
static void refusals(unsigned k)
{
    const size_t words = SHOW_STORE_WORDS(k), bytes = SHOW_STORE_MAP_BYTES(k);
    const size_t wrong[] = {0, 1, bytes - 1, bytes + 1, bytes - k, bytes + k, SHOW_STORE_MAP_BYTES(k - 1), SHOW_STORE_MAP_BYTES(k + 1)};
    uint16_t *image = fresh_store(k), *was = fresh_store(k);

    for (size_t i = 0; i < sizeof wrong / sizeof *wrong; i++)
        expect_map("another output", image, words, wrong[i], SHOW_STORE_MISFIT, NULL);
    expect_map("an image one word short", image, words - 1, bytes, SHOW_STORE_MISFIT, NULL);
    expect_map("no image", image, 0, bytes, SHOW_STORE_MISFIT, NULL);
    expect_map("no image and no output", image, 0, 0, SHOW_STORE_MISFIT, NULL);
    image[0] = was[0] = 1;
    expect_map("a damaged image", image, words, bytes, SHOW_STORE_DAMAGED, NULL);
    expect_map("a damaged image and another output", image, words, bytes + 1, SHOW_STORE_MISFIT, NULL);
    expect("the image stays", memcmp(image, was, words * sizeof *image) == 0, 1);
    free(image);
    free(was);
}

static void last_card(void)
{
    uint16_t *image = fresh_store(512);
    uint8_t *output = bytes_of(SHOW_STORE_MAP_BYTES(512));

    expect("the largest store", service_map(image, SHOW_STORE_WORDS(512), output, SHOW_STORE_MAP_BYTES(512)), SHOW_STORE_OK);
    expect("its last line", memcmp(output + SHOW_STORE_MAP_LINE_BYTES * 511, "0511 0 ..", 9) == 0, 1);
    expect("its line end", output[SHOW_STORE_MAP_BYTES(512) - 1], 10);
    free(image);
    free(output);
}

int main(void)
{
    expect("bytes of a line", SHOW_STORE_MAP_LINE_BYTES, 73);
    expect("bytes of the largest map", SHOW_STORE_MAP_BYTES(SHOW_STORE_MOST_CARDS), 37376);
    one_card();
    lines();
    refusals(1);
    refusals(2);
    refusals(512);
    last_card();
    if (failures == 0)
        puts("map.c: ok");
    return failures != 0;
}
