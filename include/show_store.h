/* The show store: a garbage-collected store of cues, palettes and playbacks in a lent slice of 16-bit words.
 *
 * A program lends a slice of words (the image), makes a fresh store in it once, and then hands over batches of steps. Players make
 * objects, link them and read and write their level words; tracers follow the links between the players' steps; a finish frees what
 * nothing holds any more. The service map shows where objects lie. The report of a sweep, an older desk's or ours, can be judged.
 * A wide store, of 32-bit words, has room for 128 times as many granules; it is made, judged and run in batches by functions of its own.
 *
 * Every function takes every slice: any length, any content, also length 0. A pointer and the length behind it name one slice;
 * the length counts words (bytes for step bytes, the map and a report). Slices of one call must not overlap, but for those that it only
 * reads. Nothing outside the lent memory is touched, and every call ends. */
#ifndef SHOW_STORE_H
#define SHOW_STORE_H

#include <stddef.h>
#include <stdint.h>

#ifdef __cplusplus
extern "C" {
#endif

/* The number of words of a store of k cards, k from 1 to SHOW_STORE_MOST_CARDS. A card is 64 granules, a granule four words. Granule 0
 * is never used, so objects have 64 * k - 1 granules between them. An object that starts at granule g is on card g / 64. */
#define SHOW_STORE_WORDS(k) (266u * (size_t)(k) + 1384u)
#define SHOW_STORE_MOST_CARDS 512
#define SHOW_STORE_CARD_GRANULES 64

/* A step is a record of so many bytes, and its answer so many words: its number, then its value. */
#define SHOW_STORE_RECORD_BYTES 8
#define SHOW_STORE_ANSWER_WORDS 2

/* The same of a wide store, in words of 32 bits. */
#define SHOW_STORE_WIDE_WORDS(k) (262u * (size_t)(k) + 1384u)
#define SHOW_STORE_WIDE_MOST_CARDS 65536
#define SHOW_STORE_WIDE_RECORD_BYTES 16

/* The service map is a line of so many bytes for each card, the line end among them: so many bytes in all for a store of k cards. */
#define SHOW_STORE_MAP_LINE_BYTES 73
#define SHOW_STORE_MAP_BYTES(k) (SHOW_STORE_MAP_LINE_BYTES * (size_t)(k))

/* A sweep report is a record of so many bytes for each stretch that was freed. So many words of scratch are lent to have one judged, for
 * stores of k cards: one for every eight granules. */
#define SHOW_STORE_STRETCH_BYTES 4
#define SHOW_STORE_SCRATCH_WORDS(k) (8u * (size_t)(k))

/* The desk: players and tracers are counted from 0, and so are a player's registers. */
#define SHOW_STORE_PLAYERS 16
#define SHOW_STORE_REGISTERS 16
#define SHOW_STORE_TRACERS 8

/* Results of a call. The last three are judge_report's. */
enum show_store_result {
    SHOW_STORE_OK = 0,            /* the call did what it should */
    SHOW_STORE_MISFIT = 1,        /* a length does not fit; nothing was written */
    SHOW_STORE_DAMAGED = 2,       /* an image is damaged; nothing was written */
    SHOW_STORE_BAD_STRETCH = 12,  /* a stretch is not made up of whole objects, or starts before the last one's end */
    SHOW_STORE_HELD_FREED = 13,   /* an object that is still held lies in a stretch */
    SHOW_STORE_LOST_MISSED = 14   /* an object that was lost already at the begin lies in no stretch */
};

/* Kinds of step, with the fields that each one names; the others must be 0. The value is 0 unless one is given. After an accepted begin and
 * up to the next accepted finish at most 768 * k trace and clean steps are accepted, of all tracers together, in a store of k cards. */
enum show_step {
    SHOW_STEP_NEW = 1,      /* player, a, b, c: register a gets an object of b granules and c links, in the tightest run; value: its granule */
    SHOW_STEP_LOAD = 2,     /* player, a, b, c: register a gets link c of the object in register b; value: that link */
    SHOW_STEP_STORE = 3,    /* player, a, b, c: link b of the object in register a gets register c; then the player owes a barrier */
    SHOW_STEP_BARRIER = 4,  /* player: pays for the store; till then the player can do nothing else */
    SHOW_STEP_HAND = 5,     /* player, a, b, c: register c of player b gets a copy of own register a */
    SHOW_STEP_DROP = 6,     /* player, a: register a becomes nil */
    SHOW_STEP_READ = 7,     /* player, a, b: value: level word b of the object in register a */
    SHOW_STEP_WRITE = 8,    /* player, a, b, c: c goes into level word b of the object in register a */
    SHOW_STEP_BEGIN = 9,    /* no field: a cycle begins */
    SHOW_STEP_SCAN = 10,    /* tracer, a: marks what the registers of player a hold; once a cycle for each player */
    SHOW_STEP_TRACE = 11,   /* tracer: a little marking */
    SHOW_STEP_CLEAN = 12,   /* tracer: a little marking on cards that barriers have turned dirty */
    SHOW_STEP_FINISH = 13,  /* no field: marks the rest, frees what nothing holds, ends the cycle; value: granules freed */
    SHOW_STEP_DUE = 14,     /* a: "only runs of 8 granules or more count"; value: "1 if the granules in such runs are fewer than a", else 0 */
    SHOW_STEP_UNDIRTY = 15  /* a: card a, if it is dirty and nothing on it is marked, turns clean, so that nobody cleans it for nothing */
};

/* Numbers of an answer: why a step was refused. The lowest that applies is given. A refused step has value 0 and alters nothing. */
enum show_number {
    SHOW_NUMBER_ACCEPTED = 0,       /* the step was done */
    SHOW_NUMBER_UNKNOWN = 3,        /* no such kind, or a field that the kind does not name is not 0; wide: or a zero byte is not */
    SHOW_NUMBER_OFF_THE_DESK = 4,   /* no such player, register, tracer or card */
    SHOW_NUMBER_OWING = 5,          /* the player owes a barrier, or the player who would be handed something does */
    SHOW_NUMBER_NO_OBJECT = 6,      /* the register of the object is nil */
    SHOW_NUMBER_PAST_THE_END = 7,   /* the object has no such link or level word */
    SHOW_NUMBER_BAD_SIZE = 8,       /* new: no granule, more than 1,024, or more links than 4 * b - 2 */
    SHOW_NUMBER_NO_ROOM = 9,        /* new: no b free granules side by side */
    SHOW_NUMBER_WRONG_PHASE = 10,   /* begin in a cycle; scan, trace, clean, finish or undirty outside one */
    SHOW_NUMBER_NOTHING_TO_DO = 11  /* no barrier owed, player scanned already, nothing left to trace or to clean; undirty: the card
                                     * is not dirty, or an object on it is marked */
};

/* Writes one step into the 8 bytes at `record`: the kind, the player or tracer, then a, b and c, low byte first. A field that the kind
 * does not name is 0. */
static inline void show_store_record(uint8_t *record, enum show_step kind, uint8_t who, uint16_t a, uint16_t b, uint16_t c)
{
    record[0] = (uint8_t)kind;
    record[1] = who;
    record[2] = (uint8_t)(a & 0xff);
    record[3] = (uint8_t)(a >> 8);
    record[4] = (uint8_t)(b & 0xff);
    record[5] = (uint8_t)(b >> 8);
    record[6] = (uint8_t)(c & 0xff);
    record[7] = (uint8_t)(c >> 8);
}

/* The same for a wide store, into the 16 bytes at `record`: the kind, the player or tracer, two zero bytes, then a, b and c of 32 bits. */
static inline void show_store_wide_record(uint8_t *record, enum show_step kind, uint8_t who, uint32_t a, uint32_t b, uint32_t c)
{
    const uint32_t fields[3] = {a, b, c};
    record[0] = (uint8_t)kind;
    record[1] = who;
    record[2] = 0;
    record[3] = 0;
    for (int i = 0; i < 12; i++)
        record[4 + i] = (uint8_t)(fields[i / 4] >> (8 * (i % 4)) & 0xff);
}

/* Writes one stretch of a sweep report into the 4 bytes at `stretch`: its first granule and its length in granules, low byte first. */
static inline void show_store_stretch(uint8_t *stretch, uint16_t start, uint16_t length)
{
    stretch[0] = (uint8_t)(start & 0xff);
    stretch[1] = (uint8_t)(start >> 8);
    stretch[2] = (uint8_t)(length & 0xff);
    stretch[3] = (uint8_t)(length >> 8);
}

/* Makes a fresh store in a slice of fitting length and returns SHOW_STORE_OK; else returns SHOW_STORE_MISFIT and writes nothing. */
uint16_t fresh(uint16_t *image, size_t words);

/* Returns SHOW_STORE_OK if the image is undamaged, SHOW_STORE_MISFIT if its length fits no store, SHOW_STORE_DAMAGED if it is damaged;
 * writes nothing. */
uint16_t judge(const uint16_t *image, size_t words);

/* Runs the step records one after the other and fills two words a step into the answer space: the step's number (enum show_number) and
 * its value. Returns SHOW_STORE_OK; or SHOW_STORE_MISFIT if a length does not fit (the image's, step bytes not a multiple of 8, answers
 * not two words a step), or SHOW_STORE_DAMAGED if the image is damaged: then nothing is written. An undamaged image is handed back
 * undamaged. A refused step does not stop the batch. */
uint16_t batch(uint16_t *image, size_t words, const uint8_t *steps, size_t bytes, uint16_t *answers, size_t answer_words);

/* Writes the service map into the output: for each card, from 0, a line of 72 characters and a line end (byte 10). A line is the card's
 * number in four digits, a space, its state digit, a space, a sign for each of its 64 granules, and one space at the end. The state is
 * 0 clean, 1 dirty, 2 clean and taken in this cycle, 3 dirty and taken. A sign is '.' for a free granule or granule 0, 'o' for the first
 * granule of an object that is not marked, '#' for that of one that is, '-' for the rest of an object. No zero byte ends the map. Returns
 * SHOW_STORE_OK; or SHOW_STORE_MISFIT if the image's length fits no store or the output has not exactly 73 bytes a card, or
 * SHOW_STORE_DAMAGED if the image is damaged: then nothing is written. The image is not altered. */
uint16_t service_map(const uint16_t *image, size_t words, uint8_t *output, size_t output_bytes);

/* Judges a sweep report: what a desk says that it freed, as stretches of granules in rising order, without a header. `first` is the image
 * that the begin of the cycle got, `second` the one that its finish got. Any two undamaged images of equal length are judged. Returns the
 * lowest that applies of
 *   SHOW_STORE_MISFIT       a length does not fit: that of an image, images of unequal length, report bytes not a multiple of 4, a scratch
 *                           of not exactly SHOW_STORE_SCRATCH_WORDS(k) words;
 *   SHOW_STORE_DAMAGED      an image is damaged;
 *   SHOW_STORE_BAD_STRETCH  a stretch has no granule, starts before the last one's end, or is not made up of whole objects of the second
 *                           image: it starts or ends inside one, has a free granule or granule 0, or goes past the store's end. Stretches may
 *                           touch, and one may have several objects;
 *   SHOW_STORE_HELD_FREED   an object lies in a stretch that registers of the second image reach, directly or by links;
 *   SHOW_STORE_LOST_MISSED  an object that no register of the first image reaches started at a granule that lies in no stretch;
 * and SHOW_STORE_OK if none does: the report is acceptable. What our own finish freed always is, an object a stretch or neighbours made one.
 * The scratch may hold anything; afterwards it is zero, but on SHOW_STORE_MISFIT and SHOW_STORE_DAMAGED it stays as it was. The images and
 * the report are not altered. */
uint16_t judge_report(const uint16_t *first, size_t first_words, const uint16_t *second, size_t second_words, const uint8_t *report,
                      size_t report_bytes, uint16_t *scratch, size_t scratch_words);

/* The wide store: a store of SHOW_STORE_WIDE_WORDS(k) words of 32 bits, for shows that need more than 512 cards. Kinds, numbers and limits are
 * those above, objects have at most 1,024 granules here too, and a, b, c and level words have 32 bits: register 65,536 is off the desk.
 * The three do what fresh, judge and batch do. wide_batch takes records of 16 bytes; one whose third or fourth byte is not 0 gets number 3. */
uint16_t wide_fresh(uint32_t *image, size_t words);
uint16_t wide_judge(const uint32_t *image, size_t words);
uint16_t wide_batch(uint32_t *image, size_t words, const uint8_t *steps, size_t bytes, uint32_t *answers, size_t answer_words);

#ifdef __cplusplus
}
#endif

#endif
