/* In which block neighbouring stations first choose different places (document 02, W6), by the step and the place as the library
 * `places` has them: neighbours MOST DISTANCE L ..
 *
 * Of all pairs of station numbers from 1 to MOST that lie at most DISTANCE apart it prints, a line for each L: L; how many there are;
 * how many part in block 1, and how many by block 2; the latest block in which a pair parts, and the first pair that does.
 */
#include <stdint.h>
#include <stdio.h>
#include <stdlib.h>

#define NEVER 1000u /* a pair that has not parted by this block is counted as one that parts here */

uint32_t draw_step(uint32_t s);
uint32_t draw_place(uint32_t s, uint16_t len);

struct parting {
    unsigned long pairs, in_first, by_second;
    uint32_t latest, one, other;
};

/* The block, counted from 1, in which stations with these two seeds choose different places for the first time. */
static uint32_t parts_in(uint32_t s, uint32_t t, uint16_t len)
{
    for (uint32_t block = 1; block < NEVER; block++) {
        s = draw_step(s);
        t = draw_step(t);
        if (draw_place(s, len) != draw_place(t, len))
            return block;
    }
    return NEVER;
}

static void counted(struct parting *p, uint32_t one, uint32_t other, uint16_t len)
{
    uint32_t block = parts_in(one, other, len);
    p->pairs++;
    p->in_first += block == 1;
    p->by_second += block <= 2;
    if (block > p->latest) {
        p->latest = block;
        p->one = one;
        p->other = other;
    }
}

static void told(uint32_t most, uint32_t distance, uint16_t len)
{
    struct parting p = { 0 };
    for (uint32_t one = 1; one < most; one++)
        for (uint32_t other = one + 1; other <= most && other - one <= distance; other++)
            counted(&p, one, other, len);
    printf("%u %lu %lu %lu %u %u %u\n", (unsigned)len, p.pairs, p.in_first, p.by_second, (unsigned)p.latest, (unsigned)p.one,
           (unsigned)p.other);
}

int main(int argc, char **argv)
{
    if (argc < 4) {
        fprintf(stderr, "neighbours: MOST, DISTANCE or L is missing\n");
        return 2;
    }
    uint32_t most = (uint32_t)strtoul(argv[1], NULL, 10), distance = (uint32_t)strtoul(argv[2], NULL, 10);
    for (int k = 3; k < argc; k++)
        told(most, distance, (uint16_t)strtoul(argv[k], NULL, 10));
    return 0;
}
