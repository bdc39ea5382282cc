/* The trees of the benchmark's part `trees` under Boehm's collector, which stops the world to mark: a yardstick for the halt. Optional;
 * no test needs it. With Debian's libgc-dev: cc -std=c99 -O2 tests/bench/gc/trees.c -lgc -o trees && ./trees */
#define _POSIX_C_SOURCE 199309L
#include <gc.h>
#include <stdio.h>
#include <time.h>

enum { KEPT_DEPTH = 12, DROPPED_DEPTH = 10, DROPPED = 300, NODES_A_COLLECTION = 12400 };

struct node {
    struct node *left, *right;
};

static unsigned long nodes, collections;
static double longest, sum;

static double now(void)
{
    struct timespec t;

    clock_gettime(CLOCK_MONOTONIC, &t);
    return 1e6 * (double)t.tv_sec + 1e-3 * (double)t.tv_nsec;
}

static void collect(void)
{
    double began = now(), took;

    GC_gcollect();
    took = now() - began;
    collections++;
    sum += took;
    if (took > longest)
        longest = took;
}

/* From the leaves up, as the benchmark builds them; a collection after as many nodes as a cycle has there. */
static struct node *build(int depth)
{
    struct node *left = depth > 0 ? build(depth - 1) : NULL;
    struct node *right = depth > 0 ? build(depth - 1) : NULL;
    struct node *node = (struct node *)GC_MALLOC(sizeof *node);

    node->left = left;
    node->right = right;
    if (++nodes % NODES_A_COLLECTION == 0)
        collect();
    return node;
}

static unsigned long count(const struct node *node)
{
    return node == NULL ? 0 : 1 + count(node->left) + count(node->right);
}

int main(void)
{
    struct node *kept;
    double began;

    GC_INIT();
    /* Room for what lies between two collections, so that they come when they are asked for. */
    GC_expand_hp(4 << 20);
    began = now();
    kept = build(KEPT_DEPTH);
    for (int i = 0; i < DROPPED; i++)
        build(DROPPED_DEPTH);
    printf("trees, Boehm's collector, µs: mean halt %.1f, longest %.1f, %lu collections\n", sum / (double)collections, longest,
           collections);
    printf("  %lu nodes, %.0f ns a node\n", nodes, 1e3 * (now() - began) / (double)nodes);
    return count(kept) == (2ul << KEPT_DEPTH) - 1 ? 0 : 1;
}
