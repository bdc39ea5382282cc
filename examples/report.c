/* The sweep report of a cycle, as a desk's engineer would write it: the images that its begin and its finish got are kept, the start bits before
 * and after the finish say what was freed, and the report is judged. Every step is a batch of its own here. */
#include <stdio.h>
#include <stdlib.h>
#include <string.h>

#include "show_store.h"

enum { CARDS = 2, GRANULES = SHOW_STORE_CARD_GRANULES * CARDS, CUES = 6 };

/* The registers of player 0, who holds the whole show. */
enum { LIST, CUE };

static uint16_t image[SHOW_STORE_WORDS(CARDS)], at_begin[SHOW_STORE_WORDS(CARDS)], before_finish[SHOW_STORE_WORDS(CARDS)];
static uint16_t scratch[SHOW_STORE_SCRATCH_WORDS(CARDS)];
static uint8_t report[GRANULES * SHOW_STORE_STRETCH_BYTES];

static void expect(const char *what, size_t got, size_t wanted)
{
    if (got != wanted) {
        fprintf(stderr, "%s: %lu, not %lu\n", what, (unsigned long)got, (unsigned long)wanted);
        exit(1);
    }
}

/* Runs one step, which must be accepted; returns its value. */
static unsigned step(enum show_step kind, unsigned a, unsigned b, unsigned c)
{
    uint8_t record[SHOW_STORE_RECORD_BYTES];
    uint16_t answer[SHOW_STORE_ANSWER_WORDS], result;

    show_store_record(record, kind, 0, (uint16_t)a, (uint16_t)b, (uint16_t)c);
    result = batch(image, SHOW_STORE_WORDS(CARDS), record, sizeof record, answer, SHOW_STORE_ANSWER_WORDS);
    expect("result of a batch", result, SHOW_STORE_OK);
    expect("number of a step", answer[0], SHOW_NUMBER_ACCEPTED);
    return answer[1];
}

/* Entry i of the list of cues gets what register CUE holds, a cue or nil. */
static void put(unsigned i)
{
    step(SHOW_STEP_STORE, LIST, i, CUE);
    step(SHOW_STEP_BARRIER, 0, 0, 0);
}

/* A cue of so many granules on entry i. */
static void put_cue(unsigned i, unsigned granules)
{
    step(SHOW_STEP_NEW, CUE, granules, 0);
    put(i);
    step(SHOW_STEP_DROP, CUE, 0, 0);
}

/* A list of cues of 3 to 8 granules, of which the second, the third and the fifth are taken off again. */
static void build_show(void)
{
    step(SHOW_STEP_NEW, LIST, 2, CUES);
    for (unsigned i = 0; i < CUES; i++)
        put_cue(i, 3 + i);
    put(1);
    put(2);
    put(4);
}

/* The work of a cycle. Tracer 0 marks the list and begins to follow it; then another cue takes the place of the last one, which was on the list
 * at the begin: a report may name it or not. */
static void work(void)
{
    step(SHOW_STEP_SCAN, 0, 0, 0);
    step(SHOW_STEP_TRACE, 0, 0, 0);
    put_cue(CUES - 1, 9);
}

/* Start bits lie behind the heap, four words a granule: bit j of word w stands for granule 16 * w + j. */
static int is_start(const uint16_t *words, unsigned granule)
{
    return words[4 * GRANULES + granule / 16] >> granule % 16 & 1;
}

/* An object's first word is its size in granules. */
static unsigned size_of(const uint16_t *words, unsigned granule)
{
    return words[4 * granule];
}

/* Fills the report with what is gone between two images, neighbours in one stretch; returns its bytes. */
static size_t fill_report(const uint16_t *before, const uint16_t *after)
{
    size_t bytes = 0;
    unsigned start = 0, end = 0;

    for (unsigned g = 1; g < GRANULES; g++) {
        if (!is_start(before, g) || is_start(after, g))
            continue;
        if (g != end) {
            bytes += SHOW_STORE_STRETCH_BYTES;
            start = g;
        }
        end = g + size_of(before, g);
        show_store_stretch(report + bytes - SHOW_STORE_STRETCH_BYTES, (uint16_t)start, (uint16_t)(end - start));
    }
    return bytes;
}

static unsigned field(size_t at)
{
    return report[at] + 256u * report[at + 1];
}

static void print_report(size_t bytes)
{
    for (size_t at = 0; at < bytes; at += SHOW_STORE_STRETCH_BYTES)
        printf("granules %u to %u\n", field(at), field(at) + field(at + 2) - 1);
}

static unsigned verdict(size_t bytes)
{
    return judge_report(at_begin, SHOW_STORE_WORDS(CARDS), before_finish, SHOW_STORE_WORDS(CARDS), report, bytes, scratch,
                        SHOW_STORE_SCRATCH_WORDS(CARDS));
}

int main(void)
{
    size_t bytes;
    unsigned freed;

    expect("fresh", fresh(image, SHOW_STORE_WORDS(CARDS)), SHOW_STORE_OK);
    build_show();
    memcpy(at_begin, image, sizeof image);
    step(SHOW_STEP_BEGIN, 0, 0, 0);
    work();
    memcpy(before_finish, image, sizeof image);
    freed = step(SHOW_STEP_FINISH, 0, 0, 0);

    bytes = fill_report(before_finish, image);
    printf("%u granules freed\n", freed);
    print_report(bytes);
    printf("verdict %u\n", verdict(bytes));

    printf("without the last stretch: verdict %u\n", verdict(bytes - SHOW_STORE_STRETCH_BYTES));
    show_store_stretch(report + bytes, (uint16_t)1, (uint16_t)size_of(before_finish, 1));
    printf("with the list of cues behind the others: verdict %u\n", verdict(bytes + SHOW_STORE_STRETCH_BYTES));
    memmove(report + SHOW_STORE_STRETCH_BYTES, report, bytes);
    show_store_stretch(report, (uint16_t)1, (uint16_t)size_of(before_finish, 1));
    printf("with the list of cues before the others: verdict %u\n", verdict(bytes + SHOW_STORE_STRETCH_BYTES));
    return 0;
}
