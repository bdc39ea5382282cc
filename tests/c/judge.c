/* Calls fresh and judge from C on good, damaged and misfitting slices. Run under valgrind: slices are exact allocations, so
 * that a word read or written past them is reported. */
#include <stdio.h>
#include <stdlib.h>

#include "expect.h"
#include "show_store.h"

static uint16_t *words_of(size_t n)
{
    uint16_t *words = (uint16_t *)malloc(n * sizeof *words);
    if (n != 0 && words == NULL)
        exit(2);
    for (size_t i = 0; i < n; i++)
        words[i] = 0x5aa5;
    return words;
}

/* The counts, a word a card, lie before the last 1384 words. Nothing is marked here: each must be 0. Of a large store some are tried, the
 * last one among them. */
static void counts_of(uint16_t *image, size_t n, unsigned k)
{
    for (unsigned c = 0; c < k; c += c < 16 ? 1 : 33) {
        size_t at = n - 1384 - k + c;
        image[at] = c % 2 == 0 ? 1 : 0xffff;
        expect("judge with a wrong count", judge(image, n), SHOW_STORE_DAMAGED);
        image[at] = 0;
    }
    expect("judge with all counts right", judge(image, n), SHOW_STORE_OK);
}

static void stores_of(unsigned k)
{
    size_t n = SHOW_STORE_WORDS(k);
    uint16_t *image = words_of(n);

    expect("judge of unmade words", judge(image, n), SHOW_STORE_DAMAGED);
    expect("fresh", fresh(image, n), SHOW_STORE_OK);
    expect("judge of a fresh store", judge(image, n), SHOW_STORE_OK);
    expect("the first run's length", image[4], 64ul * k - 1);
    expect("the first run", image[n - 7], 1);

    image[0] = 1;
    expect("judge with granule 0 used", judge(image, n), SHOW_STORE_DAMAGED);
    image[0] = 0;
    image[n - 8] = 2;
    expect("judge with a cycle of 2", judge(image, n), SHOW_STORE_DAMAGED);
    image[n - 8] = 1;
    expect("judge in a cycle", judge(image, n), SHOW_STORE_OK);
    counts_of(image, n, k);
    image[n - 8] = 0;
    counts_of(image, n, k);
    expect("judge one word short", judge(image, n - 1), SHOW_STORE_MISFIT);
    free(image);
}

static void misfits(void)
{
    static const size_t lengths[] = {0, 1, 7, 1384, 1648, 1649, 1651, 1914, 1915, 1917, 137064, 137575, 137577, 137842};

    for (size_t i = 0; i < sizeof lengths / sizeof *lengths; i++) {
        size_t n = lengths[i];
        uint16_t *image = words_of(n);
        expect("judge of a misfit", judge(image, n), SHOW_STORE_MISFIT);
        expect("fresh of a misfit", fresh(image, n), SHOW_STORE_MISFIT);
        for (size_t w = 0; w < n; w++)
            if (image[w] != 0x5aa5)
                expect("a word of a misfit", image[w], 0x5aa5);
        free(image);
    }
}

int main(void)
{
    stores_of(1);
    stores_of(2);
    stores_of(16);
    stores_of(512);
    misfits();
    if (failures == 0)
        puts("judge.c: ok");
    return failures != 0;
}
