/* The place and the step as the library `places` has them, beside the 64-bit product that they stand for (document 02, W3):
 * places SEED COUNT
 *
 * Prints a line for each group: its name, how many pairs or states were compared, how many differ, and of the first that
 * differs what it was. With -DBENT=N it is built with a wrong version in the library's place, which must be told apart;
 * 0 is a right one.
 */
#include <stdint.h>
#include <stdio.h>
#include <stdlib.h>

#define LONGEST 800u /* the longest block: 4n, n at most 200 */

uint32_t draw_step(uint32_t s);
uint32_t draw_place(uint32_t s, uint16_t len);

/* ---- What is due: the whole product */

static uint32_t due_step(uint32_t s)
{
    return (uint32_t)(UINT64_C(1664525) * s + UINT64_C(1013904223));
}

static uint32_t due_place(uint32_t s, uint16_t len)
{
    return (uint32_t)((uint64_t)s * len >> 32);
}

/* ---- Comparing */

struct group {
    const char *name;
    unsigned long compared, differ;
    uint32_t s, len, given, due; /* of the first that differs */
};

static void compared(struct group *g, uint32_t s, uint32_t len, uint32_t given, uint32_t due)
{
    g->compared++;
    if (given == due)
        return;
    if (g->differ++ == 0) {
        g->s = s;
        g->len = len;
        g->given = given;
        g->due = due;
    }
}

static void place(struct group *g, uint32_t s, uint16_t len)
{
    compared(g, s, len, draw_place(s, len), due_place(s, len));
}

static void step(struct group *g, uint32_t s)
{
    compared(g, s, 0, draw_step(s), due_step(s));
}

static void told(const struct group *g)
{
    printf("%s %lu %lu", g->name, g->compared, g->differ);
    if (g->differ)
        printf(" s %08X length %u: %u, and %u is due", (unsigned)g->s, (unsigned)g->len, (unsigned)g->given, (unsigned)g->due);
    printf("\n");
}

/* ---- Random numbers: splitmix64 */

static uint64_t state;

static uint32_t any(void)
{
    uint64_t z = state += UINT64_C(0x9E3779B97F4A7C15);
    z = (z ^ z >> 30) * UINT64_C(0xBF58476D1CE4E5B9);
    z = (z ^ z >> 27) * UINT64_C(0x94D049BB133111EB);
    return (uint32_t)(z >> 32);
}

/* ---- The groups */

/* The place is 0 at state 0 and goes up by 1 at one state after the other: for each length of a block, each of these states
 * and the one before it, and the last state of all. */
static void edges(struct group *g)
{
    for (uint32_t len = 1; len <= LONGEST; len++) {
        place(g, 0, (uint16_t)len);
        for (uint64_t k = 1; k < len; k++) {
            uint32_t first = (uint32_t)(((k << 32) + len - 1) / len);
            place(g, first - 1, (uint16_t)len);
            place(g, first, (uint16_t)len);
        }
        place(g, UINT32_MAX, (uint16_t)len);
    }
}

/* Every length of 16 bits at states in which a half is at its end, or the low half carries. */
static void lengths(struct group *g)
{
    static const uint32_t at[] = { 0, 1, 0xFFFF, 0x10000, 0x10001, 0x1FFFF, 0x55555556, 0x80000000, 0xAAAAAAAB, 0xFFFF0000, 0xFFFFFFFF };
    for (uint32_t len = 0; len <= UINT16_MAX; len++)
        for (size_t k = 0; k < sizeof at / sizeof *at; k++)
            place(g, at[k], (uint16_t)len);
}

static void random_pairs(struct group *g, unsigned long count)
{
    for (unsigned long k = 0; k < count; k++) {
        uint32_t s = any();
        place(g, s, (uint16_t)any());
    }
}

static void random_blocks(struct group *g, unsigned long count)
{
    for (unsigned long k = 0; k < count; k++) {
        uint32_t s = any();
        place(g, s, (uint16_t)(2 + any() % (LONGEST - 1)));
    }
}

/* Every half with the other half 0, and with all its bits. */
static void halves(struct group *g)
{
    for (uint32_t half = 0; half <= UINT16_MAX; half++) {
        step(g, half);
        step(g, half | 0xFFFF0000);
        step(g, half << 16);
        step(g, half << 16 | 0xFFFF);
    }
}

static void random_states(struct group *g, unsigned long count)
{
    for (unsigned long k = 0; k < count; k++)
        step(g, any());
}

/* The generator from seed 0 on, each state from the one before as the library steps it. */
static void walk(struct group *g, unsigned long count)
{
    uint32_t s = 0;
    for (unsigned long k = 0; k < count; k++) {
        step(g, s);
        s = draw_step(s);
    }
}

/* ---- Wrong versions, and a right one to begin with */

#ifdef BENT

uint32_t draw_place(uint32_t s, uint16_t len)
{
    uint32_t high = (s >> 16) * len, low = (s & 0xFFFF) * len;
    switch (BENT) {
    case 1: /* nothing is carried from the low half */
        return high >> 16;
    case 2: /* the high half's product is cut to its low half */
        return ((high & 0xFFFF) + (low >> 16)) >> 16;
    case 3: /* the halves in the other order */
        return (low + (high >> 16)) >> 16;
    case 4: /* the low half's product is not brought down */
        return (high + low) >> 16;
    case 5: /* rounded to the nearest */
        return (high + (low >> 16) + 0x8000) >> 16;
    default:
        return (high + (low >> 16)) >> 16;
    }
}

uint32_t draw_step(uint32_t s)
{
    uint32_t high = s >> 16, low = s & 0xFFFF, m1 = 1664525 >> 16, m0 = 1664525 & 0xFFFF;
    uint32_t mixed = high * m0 % 65536 + low * m1 % 65536;
    switch (BENT) {
    case 6: /* one mixed product is left out */
        mixed = high * m0 % 65536;
        break;
    case 7: /* the halves in the other order */
        mixed = high * m1 % 65536 + low * m0 % 65536;
        break;
    case 8: /* the mixed products are cut once more */
        mixed %= 32768;
        break;
    case 9: /* the low halves' product is cut to its low half */
        return low * m0 % 65536 + mixed % 65536 * 65536 + 1013904223u;
    default:
        break;
    }
    return low * m0 + mixed % 65536 * 65536 + 1013904223u;
}

#endif

int main(int argc, char **argv)
{
    struct group groups[] = { { .name = "edges" }, { .name = "lengths" }, { .name = "random-pairs" }, { .name = "random-blocks" },
                              { .name = "halves" }, { .name = "random-states" }, { .name = "walk" } };
    if (argc != 3) {
        fprintf(stderr, "places: SEED and COUNT are missing\n");
        return 2;
    }
    state = strtoull(argv[1], NULL, 10);
    unsigned long count = strtoul(argv[2], NULL, 10);
    edges(&groups[0]);
    lengths(&groups[1]);
    random_pairs(&groups[2], count);
    random_blocks(&groups[3], count);
    halves(&groups[4]);
    random_states(&groups[5], count);
    walk(&groups[6], count);
    for (size_t k = 0; k < sizeof groups / sizeof *groups; k++)
        told(&groups[k]);
    return 0;
}
