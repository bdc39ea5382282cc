/* The service sheet of a small show: where its objects lie in the middle of a cycle, printed for the flight case. Every step is a batch
 * of its own here. */
#include <stdio.h>
#include <stdlib.h>

#include "show_store.h"

enum { CARDS = 4, CUES = 8 };

/* The registers of player 0, who holds the whole show. */
enum { LIST, PLAYBACK, EFFECT, CHASE, ITEM };

static uint16_t image[SHOW_STORE_WORDS(CARDS)];
static uint8_t sheet[SHOW_STORE_MAP_BYTES(CARDS)];

static void expect(const char *what, size_t got, size_t wanted)
{
    if (got != wanted) {
        fprintf(stderr, "%s: %lu, not %lu\n", what, (unsigned long)got, (unsigned long)wanted);
        exit(1);
    }
}

/* Runs one step, which must be accepted; returns its value. */
static unsigned step(enum show_step kind, unsigned who, unsigned a, unsigned b, unsigned c)
{
    uint8_t record[SHOW_STORE_RECORD_BYTES];
    uint16_t answer[SHOW_STORE_ANSWER_WORDS], result;

    show_store_record(record, kind, (uint8_t)who, (uint16_t)a, (uint16_t)b, (uint16_t)c);
    result = batch(image, SHOW_STORE_WORDS(CARDS), record, sizeof record, answer, SHOW_STORE_ANSWER_WORDS);
    expect("result of a batch", result, SHOW_STORE_OK);
    expect("number of a step", answer[0], SHOW_NUMBER_ACCEPTED);
    return answer[1];
}

/* An object in a register: so many granules, so many links. Returns its card. */
static unsigned make(unsigned into, unsigned granules, unsigned links)
{
    return step(SHOW_STEP_NEW, 0, into, granules, links) / SHOW_STORE_CARD_GRANULES;
}

/* A link of one object gets another, and the barrier that is owed for it turns the card of the first one dirty. */
static void link_to(unsigned object, unsigned link, unsigned other)
{
    step(SHOW_STEP_STORE, 0, object, link, other);
    step(SHOW_STEP_BARRIER, 0, 0, 0, 0);
}

/* A list of cues of 2 to 9 granules; a playback of the last cue, an effect and a chase, each of which has a palette of one granule and runs
 * over the end of its card. */
static void build_show(void)
{
    make(LIST, 3, CUES);
    for (unsigned i = 0; i < CUES; i++) {
        make(ITEM, 2 + i, 0);
        link_to(LIST, i, ITEM);
    }
    expect("card of the playback", make(PLAYBACK, 30, 2), 0);
    link_to(PLAYBACK, 0, ITEM);
    expect("card of the effect", make(EFFECT, 60, 1), 1);
    expect("card of the chase", make(CHASE, 60, 1), 2);
    for (unsigned object = PLAYBACK; object <= CHASE; object++) {
        make(ITEM, 1, 0);
        link_to(object, object == PLAYBACK ? 1 : 0, ITEM);
    }
    step(SHOW_STEP_DROP, 0, ITEM, 0, 0);
}

/* Every other cue is taken off the list, where nil comes in its place. A cycle frees these cues, but not the last one, which the playback
 * links to. */
static void delete_cues(void)
{
    for (unsigned i = 1; i < CUES; i += 2)
        link_to(LIST, i, ITEM);
    step(SHOW_STEP_BEGIN, 0, 0, 0, 0);
    expect("granules freed", step(SHOW_STEP_FINISH, 0, 0, 0, 0), 3 + 5 + 7);
}

/* Another cycle, and not to its end. Tracer 0 marks what the registers hold and follows some of the links. The player adds a cue: cards 0 and
 * 1 turn dirty, tracers 1 and 2 take them for cleaning, and then cards 0 and 2 turn dirty. */
static void half_a_cycle(void)
{
    step(SHOW_STEP_BEGIN, 0, 0, 0, 0);
    step(SHOW_STEP_SCAN, 0, 0, 0, 0);
    for (unsigned i = 0; i < 7; i++)
        step(SHOW_STEP_TRACE, 0, 0, 0, 0);
    make(ITEM, 2, 0);
    link_to(LIST, 1, ITEM);
    link_to(EFFECT, 0, ITEM);
    step(SHOW_STEP_CLEAN, 1, 0, 0, 0);
    step(SHOW_STEP_CLEAN, 2, 0, 0, 0);
    link_to(LIST, 3, ITEM);
    link_to(CHASE, 0, ITEM);
}

int main(void)
{
    expect("fresh", fresh(image, SHOW_STORE_WORDS(CARDS)), SHOW_STORE_OK);
    build_show();
    delete_cues();
    half_a_cycle();
    expect("service_map", service_map(image, SHOW_STORE_WORDS(CARDS), sheet, sizeof sheet), SHOW_STORE_OK);
    expect("bytes printed", fwrite(sheet, 1, sizeof sheet, stdout), sizeof sheet);
    return 0;
}
