/* A playback loop over the show store, as a console's firmware might have it: every tick the players run their steps, a few tracer
 * steps run between them, and now and then a finish frees what nothing holds. In between, the order of steps in which an older
 * store freed a running cue: its last link is moved onto a list that the marker has passed. */
#include <stdio.h>
#include <stdlib.h>

#include "show_store.h"

/* A store of 16 cards; below LOW granules in runs of 8 or more the desk would call a finish due. */
enum { CARDS = 16, MOST = 64, CUES = 8, LIST_GRANULES = 3, CUE_GRANULES = 2, LOW = 950 };

static uint16_t image[SHOW_STORE_WORDS(CARDS)];
static uint8_t steps[8 * MOST];
static uint16_t answers[2 * MOST];
static size_t count;

/* Adds a step to the batch that is being put together; returns its place. */
static size_t add(enum show_step kind, unsigned who, unsigned a, unsigned b, unsigned c)
{
    if (count == MOST)
        abort();
    show_store_record(steps + SHOW_STORE_RECORD_BYTES * count, kind, (uint8_t)who, (uint16_t)a, (uint16_t)b, (uint16_t)c);
    return count++;
}

static unsigned number(size_t place) { return answers[SHOW_STORE_ANSWER_WORDS * place]; }
static unsigned value(size_t place) { return answers[SHOW_STORE_ANSWER_WORDS * place + 1]; }

static void expect(const char *what, unsigned got, unsigned wanted)
{
    if (got != wanted) {
        printf("%s: %u, not %u\n", what, got, wanted);
        exit(1);
    }
}

/* Of all steps here, only a trace, a clean or an undirty may be refused: there is nothing to do. */
static void expect_accepted(size_t place)
{
    unsigned kind = steps[SHOW_STORE_RECORD_BYTES * place];
    int may_idle = kind == SHOW_STEP_TRACE || kind == SHOW_STEP_CLEAN || kind == SHOW_STEP_UNDIRTY;

    if (!(may_idle && number(place) == SHOW_NUMBER_NOTHING_TO_DO))
        expect("number of a step", number(place), SHOW_NUMBER_ACCEPTED);
}

/* Runs the batch and begins another. The answers stay until the next one. */
static void run(void)
{
    uint16_t result = batch(image, SHOW_STORE_WORDS(CARDS), steps, SHOW_STORE_RECORD_BYTES * count, answers,
                            SHOW_STORE_ANSWER_WORDS * count);

    expect("result of a batch", result, SHOW_STORE_OK);
    for (size_t place = 0; place < count; place++)
        expect_accepted(place);
    count = 0;
}

/* Player 0 holds a cue list in r0: one object whose links are cues. A cue is two granules: no links, six level words. */
static void build_show(void)
{
    add(SHOW_STEP_NEW, 0, 0, LIST_GRANULES, CUES);
    for (unsigned i = 0; i < CUES; i++) {
        add(SHOW_STEP_NEW, 0, 1, CUE_GRANULES, 0);
        add(SHOW_STEP_WRITE, 0, 1, 0, 1000 + i);
        add(SHOW_STEP_STORE, 0, 0, i, 1);
        add(SHOW_STEP_BARRIER, 0, 0, 0, 0);
    }
    add(SHOW_STEP_DROP, 0, 1, 0, 0);
    run();
}

/* One tick: a cue is loaded and its level read, a temporary palette comes and goes, and a tracer does a little work. */
static void tick(unsigned n)
{
    size_t level;

    add(SHOW_STEP_LOAD, 0, 2, 0, n % CUES);
    level = add(SHOW_STEP_READ, 0, 2, 0, 0);
    add(SHOW_STEP_NEW, 0, 3, 1, 0);
    add(SHOW_STEP_DROP, 0, 3, 0, 0);
    add(SHOW_STEP_DROP, 0, 2, 0, 0);
    for (unsigned i = 0; i < 3; i++)
        add(SHOW_STEP_TRACE, 0, 0, 0, 0);
    add(SHOW_STEP_CLEAN, 0, 0, 0, 0);
    run();
    expect("level of the cue", value(level), 1000 + n % CUES);
}

/* A cue that is filled in the cycle, with its palette: the barrier turns its card dirty. While nothing on that card is marked there is
 * nothing to clean on it, and it is wiped; the card of the show itself is refused, since the list there is marked. */
static void fill_cue(void)
{
    unsigned card;
    size_t cue, wiped;

    cue = add(SHOW_STEP_NEW, 0, 7, 1, 1);
    add(SHOW_STEP_NEW, 0, 8, 1, 0);
    add(SHOW_STEP_STORE, 0, 7, 0, 8);
    add(SHOW_STEP_BARRIER, 0, 0, 0, 0);
    add(SHOW_STEP_DROP, 0, 8, 0, 0);
    run();
    card = value(cue) / SHOW_STORE_CARD_GRANULES;
    wiped = add(SHOW_STEP_UNDIRTY, 0, card, 0, 0);
    add(SHOW_STEP_DROP, 0, 7, 0, 0);
    run();
    expect("number of the undirty", number(wiped), card == 0 ? SHOW_NUMBER_NOTHING_TO_DO : SHOW_NUMBER_ACCEPTED);
}

/* A cycle over so many ticks. Each tick leaves one dropped palette of one granule behind, and the cue that is filled two granules: the
 * finish frees these and nothing else. What the ticks leave free is one long run. */
static void play(unsigned ticks)
{
    unsigned room = SHOW_STORE_CARD_GRANULES * CARDS - 1 - LIST_GRANULES - CUE_GRANULES * CUES - ticks - 2;
    size_t due, freed;

    add(SHOW_STEP_BEGIN, 0, 0, 0, 0);
    add(SHOW_STEP_SCAN, 0, 0, 0, 0);
    run();
    for (unsigned n = 0; n < ticks; n++)
        tick(n);
    fill_cue();
    due = add(SHOW_STEP_DUE, 0, LOW, 0, 0);
    freed = add(SHOW_STEP_FINISH, 0, 0, 0, 0);
    run();
    expect("due", value(due), room < LOW);
    expect("granules freed", value(freed), ticks + 2);
    printf("%u ticks: due %u, %u granules freed\n", ticks, value(due), value(freed));
}

/* M in r4 links to the running cue, which no register holds; O in r5 is the list it is moved onto. */
static void move_past_the_marker(void)
{
    size_t cue, loaded, freed, level;

    add(SHOW_STEP_NEW, 0, 4, 1, 1);
    add(SHOW_STEP_NEW, 0, 5, 1, 1);
    cue = add(SHOW_STEP_NEW, 0, 6, CUE_GRANULES, 0);
    add(SHOW_STEP_WRITE, 0, 6, 0, 4711);
    add(SHOW_STEP_STORE, 0, 4, 0, 6);
    add(SHOW_STEP_BARRIER, 0, 0, 0, 0);
    add(SHOW_STEP_DROP, 0, 6, 0, 0);
    run();
    unsigned granule = value(cue);

    /* The marker passes O, the last object of the scan, and not yet M. */
    add(SHOW_STEP_BEGIN, 0, 0, 0, 0);
    add(SHOW_STEP_SCAN, 0, 0, 0, 0);
    for (unsigned i = 0; i < 3; i++)
        add(SHOW_STEP_TRACE, 0, 0, 0, 0);
    loaded = add(SHOW_STEP_LOAD, 0, 6, 4, 0);
    add(SHOW_STEP_STORE, 0, 5, 0, 6);
    add(SHOW_STEP_BARRIER, 0, 0, 0, 0);
    add(SHOW_STEP_STORE, 0, 4, 0, 15);
    add(SHOW_STEP_BARRIER, 0, 0, 0, 0);
    add(SHOW_STEP_DROP, 0, 6, 0, 0);
    run();
    expect("the cue that was moved", value(loaded), granule);

    freed = add(SHOW_STEP_FINISH, 0, 0, 0, 0);
    loaded = add(SHOW_STEP_LOAD, 0, 6, 5, 0);
    level = add(SHOW_STEP_READ, 0, 6, 0, 0);
    run();
    expect("granules freed with the cue moved", value(freed), 0);
    expect("the cue after the finish", value(loaded), granule);
    expect("its level", value(level), 4711);
    printf("the moved cue stays at granule %u\n", granule);
}

int main(void)
{
    expect("fresh", fresh(image, SHOW_STORE_WORDS(CARDS)), SHOW_STORE_OK);
    build_show();
    play(20);
    play(100);
    move_past_the_marker();
    expect("judge", judge(image, SHOW_STORE_WORDS(CARDS)), SHOW_STORE_OK);
    puts("the store is undamaged");
    return 0;
}
