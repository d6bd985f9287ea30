/* The station of document 01, with W1, W2 and W4 of document 02: a change of
   plan, a check find that leaves screened as it is, and a gap marker that tells
   how many LONG events were lost. */
#ifndef STATION_H
#define STATION_H

#include <stddef.h>
#include <stdint.h>

enum plan_type { CSP_1 = 1, CSP_2, CSP_F, CSP_T, CSP_V };
enum phase { SCREENING, SAMPLING };

enum event_kind {
    START = 1, PHASE, LONG, DEFECT, MISSED, SILENCE, CHECK, INTERRUPT, GAP,
    PLAN
};

enum refusal {
    DONE = 0,
    BAD_MEMORY = 1,
    BAD_RECORD = 2,
    BAD_PLAN = 3,
    RESULT_OWED = 4,
    NOTHING_OWED = 5,
    UNIT_NOT_ABOVE = 6,
    UNIT_OVER_LIMIT = 7,
    NOTHING_TO_RECALL = 8,
    ILL_FORMED = 9,
    NUMBERS_SPENT = 10,
    CHANGE_NOT_ALLOWED = 11
};

struct plan {
    uint32_t type, n, i, S, x, N;
};

/* All fields are 32-bit words, in the order in which the probe gives them. */
struct station {
    struct plan plan;                            /* in force */
    uint32_t room;                               /* C, entries of the queue */
    uint32_t generator;                          /* s */
    uint32_t phase;
    uint32_t need, run, screened, unrecalled;    /* screening only */
    uint32_t level, place, chosen;               /* sampling only, as are */
    uint32_t row, watch, watched;                /* these three */
    uint32_t conforming, defective, passed, missed, owed, last;
    uint32_t silent, heard;
    uint32_t told, oldest, next;                 /* d, o, e */
    uint32_t lost;                               /* LONG from d to o - 1 */
    struct plan waiting;                         /* six zeros: none waits */
};

enum { STATION_WORDS = 37 };
_Static_assert(sizeof(struct station) == STATION_WORDS * sizeof(uint32_t),
               "a record is 37 words");

/* The queue memory lent by the caller. */
struct memory {
    uint32_t *words;
    size_t length;
};

struct answer {
    uint32_t refusal, kind, number, unit, value;
};

struct answer station_open(struct station *st, struct memory mem,
                           const struct plan *plan, uint32_t seed);
struct answer station_unit(struct station *st, struct memory mem, uint32_t k);
struct answer station_result(struct station *st, struct memory mem, uint32_t r);
struct answer station_interrupt(struct station *st, struct memory mem);
struct answer station_check_find(struct station *st, struct memory mem);
struct answer station_tick(struct station *st, struct memory mem);
struct answer station_take(struct station *st, struct memory mem);
struct answer station_change(struct station *st, struct memory mem,
                             const struct plan *plan, int demand);

/* Fills in the plan of a table; 0 when there is no such entry. */
int table_plan(uint32_t type, uint32_t letter, uint32_t aql, uint32_t N,
               struct plan *plan);

#endif
