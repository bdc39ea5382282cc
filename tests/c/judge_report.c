/* Calls judge_report from C: every result by small stores made by hand, lengths, and what becomes of the scratch. Slices are exact allocations,
 * so that valgrind reports a word or a byte read or written past them, or used before it was written. */
#include <stdio.h>
#include <stdlib.h>
#include <string.h>

#include "expect.h"
#include "show_store.h"

enum { UNTOUCHED = 0x5aa5 };

struct stretch {
    uint16_t start, length;
};

static void *memory(size_t bytes)
{
    void *lent = malloc(bytes);

    if (bytes != 0 && lent == NULL)
        exit(2);
    return lent;
}

static uint16_t *words_of(size_t n, uint16_t word)
{
    uint16_t *words = (uint16_t *)memory(n * sizeof *words);

    for (size_t i = 0; i < n; i++)
        words[i] = word;
    return words;
}

static uint16_t *copy_of(const uint16_t *words, size_t n)
{
    uint16_t *copy = (uint16_t *)memory(n * sizeof *copy);

    memcpy(copy, words, n * sizeof *copy);
    return copy;
}

static void expect_words(const char *what, const uint16_t *words, size_t n, uint16_t wanted)
{
    for (size_t i = 0; i < n; i++)
        if (words[i] != wanted) {
            expect(what, words[i], wanted);
            return;
        }
}

/* One call on bytes that are a report or not, with so many words of scratch. */
static void expect_bytes(const char *what, const uint16_t *first, size_t first_words, const uint16_t *second, size_t second_words,
                         const uint8_t *report, size_t bytes, size_t scratch_words, unsigned result)
{
    uint16_t *scratch = words_of(scratch_words, UNTOUCHED);
    int is_kept = result == SHOW_STORE_MISFIT || result == SHOW_STORE_DAMAGED;

    expect(what, judge_report(first, first_words, second, second_words, report, bytes, scratch, scratch_words), result);
    expect_words("a word of the scratch", scratch, scratch_words, is_kept ? UNTOUCHED : 0);
    free(scratch);
}

/* One call on stores of one card. A stretch of start 0 and length 0 ends the list. */
static void expect_report(const char *what, const uint16_t *first, const uint16_t *second, const struct stretch *list, unsigned result)
{
    const size_t words = SHOW_STORE_WORDS(1);
    size_t n = 0;
    uint8_t *report;

    while (list[n].start != 0 || list[n].length != 0)
        n++;
    report = (uint8_t *)memory(n * SHOW_STORE_STRETCH_BYTES);
    for (size_t i = 0; i < n; i++)
        show_store_stretch(report + i * SHOW_STORE_STRETCH_BYTES, list[i].start, list[i].length);
    expect_bytes(what, first, words, second, words, report, n * SHOW_STORE_STRETCH_BYTES, SHOW_STORE_SCRATCH_WORDS(1), result);
    free(report);
}

static uint16_t *fresh_store(unsigned k)
{
    uint16_t *image = words_of(SHOW_STORE_WORDS(k), UNTOUCHED);

    expect("fresh", fresh(image, SHOW_STORE_WORDS(k)), SHOW_STORE_OK);
    return image;
}

static unsigned run(uint16_t *image, enum show_step kind, uint16_t a, uint16_t b, uint16_t c)
{
    uint8_t record[SHOW_STORE_RECORD_BYTES];
    uint16_t answer[SHOW_STORE_ANSWER_WORDS];

    show_store_record(record, kind, 0, a, b, c);
    expect("batch", batch(image, SHOW_STORE_WORDS(1), record, sizeof record, answer, SHOW_STORE_ANSWER_WORDS), SHOW_STORE_OK);
    expect("number of a step", answer[0], SHOW_NUMBER_ACCEPTED);
    return answer[1];
}

/* Register 0 holds an object of 2 granules at 1, which links to one of 1 granule at 6, which links to one of 2 at 7; nothing holds the objects
 * of 3 granules at 3 and of 1 at 9. Granules from 10 on are free. */
static uint16_t *small_store(void)
{
    uint16_t *image = fresh_store(1);
    static const uint16_t sizes[] = {2, 3, 1, 2, 1};

    for (uint16_t i = 0; i < 5; i++)
        run(image, SHOW_STEP_NEW, i, sizes[i], 1);
    run(image, SHOW_STEP_STORE, 0, 0, 2);
    run(image, SHOW_STEP_BARRIER, 0, 0, 0);
    run(image, SHOW_STEP_STORE, 2, 0, 3);
    run(image, SHOW_STEP_BARRIER, 0, 0, 0);
    for (uint16_t i = 1; i < 5; i++)
        run(image, SHOW_STEP_DROP, i, 0, 0);
    return image;
}

static void results(void)
{
    static const struct stretch right[] = {{3, 3}, {9, 1}, {0, 0}}, none[] = {{0, 0}}, half[] = {{3, 3}, {0, 0}};
    static const struct stretch held[][4] = {{{1, 2}, {3, 3}, {9, 1}}, {{3, 4}, {9, 1}}, {{3, 3}, {7, 3}}, {{7, 2}}};
    static const struct stretch bad[][4] = {
        {{9, 1}, {3, 3}}, {{3, 3}, {3, 3}}, {{3, 0}, {9, 1}}, {{4, 2}, {9, 1}},     {{3, 2}, {9, 1}}, {{3, 3}, {9, 2}},
        {{10, 54}},       {{0, 1}},         {{64, 1}},        {{3, 3}, {9, 65527}}, {{9, 65535}},     {{1, 2}, {9, 56}}};
    uint16_t *image = small_store(), *later = small_store();

    expect_report("right", image, image, right, SHOW_STORE_OK);
    expect_report("nothing freed", image, image, none, SHOW_STORE_LOST_MISSED);
    expect_report("half of it freed", image, image, half, SHOW_STORE_LOST_MISSED);
    for (size_t i = 0; i < sizeof held / sizeof *held; i++)
        expect_report("a held object freed", image, image, held[i], SHOW_STORE_HELD_FREED);
    for (size_t i = 0; i < sizeof bad / sizeof *bad; i++)
        expect_report("a bad stretch", image, image, bad[i], SHOW_STORE_BAD_STRETCH);

    run(later, SHOW_STEP_DROP, 0, 0, 0);
    {
        static const struct stretch all[] = {{1, 9}, {0, 0}}, apart[] = {{1, 2}, {3, 3}, {6, 1}, {7, 2}, {9, 1}, {0, 0}};

        expect_report("dropped since", image, later, right, SHOW_STORE_OK);
        expect_report("dropped since, all freed", image, later, all, SHOW_STORE_OK);
        expect_report("dropped before, all freed, each apart", later, later, apart, SHOW_STORE_OK);
        expect_report("dropped before, and left", later, later, right, SHOW_STORE_LOST_MISSED);
        expect_report("dropped only before", later, image, all, SHOW_STORE_HELD_FREED);
    }
    free(image);
    free(later);
}

/* Each length on its own, and damage, which comes behind them. */
static void refusals(unsigned k)
{
    const size_t words = SHOW_STORE_WORDS(k), n = SHOW_STORE_SCRATCH_WORDS(k);
    /* The last are G words, those of a scratch before. */
    const size_t wrong[] = {0, 1, n - 1, n + 1, n / 2, n / 8, 2 * n, 8 * n};
    uint16_t *image = fresh_store(k), *other = fresh_store(k == 512 ? 1 : k + 1), *damaged = copy_of(image, words), *was = copy_of(image, words);
    uint8_t *report = (uint8_t *)memory(7);

    memset(report, 0, 7);
    damaged[0] = 1;
    expect_bytes("no stretch", image, words, image, words, report, 0, n, SHOW_STORE_OK);
    expect_bytes("a stretch of no granule", image, words, image, words, report, 4, n, SHOW_STORE_BAD_STRETCH);
    for (size_t i = 0; i < sizeof wrong / sizeof *wrong; i++)
        expect_bytes("another scratch", image, words, image, words, report, 0, wrong[i], SHOW_STORE_MISFIT);
    for (size_t bytes = 1; bytes < 8; bytes++)
        if (bytes != 4)
            expect_bytes("a part record", image, words, image, words, report, bytes, n, SHOW_STORE_MISFIT);
    expect_bytes("a first image one word short", image, words - 1, image, words, report, 0, n, SHOW_STORE_MISFIT);
    expect_bytes("a second image one word short", image, words, image, words - 1, report, 0, n, SHOW_STORE_MISFIT);
    expect_bytes("both one word short", image, words - 1, image, words - 1, report, 0, n, SHOW_STORE_MISFIT);
    expect_bytes("no images", image, 0, image, 0, report, 0, 0, SHOW_STORE_MISFIT);
    expect_bytes("unequal images", image, words, other, SHOW_STORE_WORDS(k == 512 ? 1 : k + 1), report, 0, n, SHOW_STORE_MISFIT);
    expect_bytes("a damaged first image", damaged, words, image, words, report, 4, n, SHOW_STORE_DAMAGED);
    expect_bytes("a damaged second image", image, words, damaged, words, report, 0, n, SHOW_STORE_DAMAGED);
    expect_bytes("damage and a part record", damaged, words, damaged, words, report, 5, n, SHOW_STORE_MISFIT);
    expect_bytes("damage and another scratch", damaged, words, image, words, report, 0, n + 1, SHOW_STORE_MISFIT);
    expect("the image stays", memcmp(image, was, words * sizeof *image) == 0, 1);
    free(image);
    free(other);
    free(damaged);
    free(was);
    free(report);
}

/* A cycle of ours: what its finish says that it freed is what the report has. */
static void own_finish(void)
{
    static const struct stretch right[] = {{3, 3}, {9, 1}, {0, 0}};
    uint16_t *first = small_store(), *image = copy_of(first, SHOW_STORE_WORDS(1)), *second;

    run(image, SHOW_STEP_BEGIN, 0, 0, 0);
    run(image, SHOW_STEP_SCAN, 0, 0, 0);
    run(image, SHOW_STEP_TRACE, 0, 0, 0);
    second = copy_of(image, SHOW_STORE_WORDS(1));
    expect("granules freed", run(image, SHOW_STEP_FINISH, 0, 0, 0), 4);
    expect_report("our own finish", first, second, right, SHOW_STORE_OK);
    free(first);
    free(second);
    free(image);
}

int main(void)
{
    expect("bytes of a stretch", SHOW_STORE_STRETCH_BYTES, 4);
    expect("words of the largest scratch", SHOW_STORE_SCRATCH_WORDS(SHOW_STORE_MOST_CARDS), 4096);
    results();
    refusals(1);
    refusals(2);
    refusals(512);
    own_finish();
    if (failures == 0)
        puts("judge_report.c: ok");
    return failures != 0;
}
