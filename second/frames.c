/* The program of "Frames": a frame a line in, an answer a line out. */
#include "jobs.h"
#include "mistake.h"
#include "station.h"
#include "wire.h"

enum {
    QUEUE_ROOM = 8,
    LINE_MAX_CHARS = 80,
    FRAME_WORDS = 7,
    STATION_NUMBER_MAX = 65535,
    ANSWER_CHARS = 33,
    CHUNK = 1 << 16
};

enum code {
    OPEN = 1, UNIT, RESULT, STOP, FIND, TICK, TAKE, OPEN_TABLE, CHANGE,
    STATION_NUMBER, CODES
};

struct frame {
    uint32_t code, count;
    uint32_t words[FRAME_WORDS];
};

struct recorder {
    struct station station;
    uint32_t queue[QUEUE_ROOM * 3];
    uint32_t station_number;    /* 0: none was given */
    int open;
};

static const uint8_t words_of[CODES] = { 0, 7, 1, 1, 0, 0, 0, 0, 5, 7, 1 };

static struct recorder recorder;
static char input[LINE_MAX_CHARS + CHUNK];
static char output[(size_t)ANSWER_CHARS * CHUNK];

/* The seed of a table open may be left off. */
static int count_fits(uint32_t code, size_t count)
{
    return count == words_of[code] || (code == OPEN_TABLE && count == 4);
}

/* A change's own checks have no 9, so its demand is a matter of form. */
static int demand_fits(const struct frame *f)
{
    return f->code != CHANGE || f->words[6] <= 1;
}

static int read_frame(const char *line, size_t length, struct frame *f)
{
    if (length < 2 || (length - 2) % 9 != 0 || !get_byte(line, &f->code))
        return 0;
    f->count = (uint32_t)((length - 2) / 9);
    if (f->code < OPEN || f->code >= CODES || !count_fits(f->code, f->count))
        return 0;
    line += 2;
    for (uint32_t j = 0; j < f->count; j++, line += 9)
        if (line[0] != ' ' || !get_word(line + 1, &f->words[j]))
            return 0;
    return demand_fits(f);
}

static struct memory queue_of(struct recorder *r)
{
    return (struct memory){ r->queue, QUEUE_ROOM * 3 };
}

static struct answer refuse(uint32_t number)
{
    return (struct answer){ .refusal = number };
}

/* Document 02, W6: a number out of range leaves the one given before. */
static struct answer give_number(struct recorder *r, uint32_t number)
{
    if (MISTAKE == 30)
        number &= 0xFFFF;
    if (number < 1 || number > STATION_NUMBER_MAX) {
        if (MISTAKE == 26)
            r->station_number = 0;
        return refuse(ILL_FORMED);
    }
    r->station_number = number;
    return (struct answer){ .refusal = DONE };
}

static struct answer open_given(struct recorder *r, const uint32_t *w)
{
    struct plan plan = { w[0], w[1], w[2], w[3], w[4], w[5] };

    return station_open(&r->station, queue_of(r), &plan, w[6]);
}

/* A 0 that is written is a seed like any other. */
static int seed_written(const struct frame *f)
{
    return f->count == 5 && (MISTAKE != 31 || f->words[4] != 0);
}

/* Document 02, W6: a seed left off is the station number. */
static uint32_t table_seed(const struct recorder *r, const struct frame *f)
{
    if (MISTAKE == 29 && r->station_number != 0)
        return r->station_number;
    return seed_written(f) ? f->words[4] : r->station_number;
}

/* Document 02, W6: 9 for neither seed nor station number comes before 3. */
static struct answer open_table(struct recorder *r, const struct frame *f)
{
    const uint32_t *w = f->words;
    struct plan plan;
    int found = table_plan(w[0], w[1], w[2], w[3], &plan);

    if (MISTAKE == 28 && !found)
        return refuse(BAD_PLAN);
    if (MISTAKE != 32 && !seed_written(f) && r->station_number == 0)
        return refuse(ILL_FORMED);
    if (!found)
        return refuse(BAD_PLAN);
    return station_open(&r->station, queue_of(r), &plan, table_seed(r, f));
}

static struct answer open_station(struct recorder *r, const struct frame *f)
{
    struct answer a = f->code == OPEN ? open_given(r, f->words)
                                      : open_table(r, f);

    r->open = a.refusal == DONE;
    if (MISTAKE == 27 && !r->open)
        r->station_number = 0;
    return a;
}

static struct answer change(struct recorder *r, const uint32_t *w)
{
    struct plan plan = { w[0], w[1], w[2], w[3], w[4], w[5] };

    return station_change(&r->station, queue_of(r), &plan, w[6] != 0);
}

static struct answer call(struct recorder *r, const struct frame *f)
{
    struct station *st = &r->station;
    struct memory mem = queue_of(r);

    switch (f->code) {
    case UNIT:   return station_unit(st, mem, f->words[0]);
    case RESULT: return station_result(st, mem, f->words[0]);
    case STOP:   return station_interrupt(st, mem);
    case FIND:   return station_check_find(st, mem);
    case TICK:   return station_tick(st, mem);
    case CHANGE: return change(r, f->words);
    default:     return station_take(st, mem);
    }
}

static struct answer answer_frame(struct recorder *r, const struct frame *f)
{
    int gives = f->code == STATION_NUMBER;
    int opens = f->code == OPEN || f->code == OPEN_TABLE;

    if ((opens || (gives && MISTAKE != 33)) && r->open)
        return refuse(ILL_FORMED);
    if (gives)
        return give_number(r, f->words[0]);
    if (opens)
        return open_station(r, f);
    return r->open ? call(r, f) : refuse(BAD_RECORD);
}

static char *print_answer(char *to, const struct answer *a)
{
    to = put_byte(to, a->refusal);
    *to++ = ' ';
    to = put_byte(to, a->kind);
    *to++ = ' ';
    to = put_word(to, a->number);
    *to++ = ' ';
    to = put_word(to, a->unit);
    *to++ = ' ';
    to = put_word(to, a->value);
    *to++ = '\n';
    return to;
}

static char *print_ill_formed(char *to)
{
    struct answer a = refuse(ILL_FORMED);

    return print_answer(to, &a);
}

static char *answer_line(const char *line, size_t length, char *to)
{
    struct frame f;
    struct answer a;

    if (length > LINE_MAX_CHARS || !read_frame(line, length, &f))
        return print_ill_formed(to);
    a = answer_frame(&recorder, &f);
    return print_answer(to, &a);
}

/* Bytes of the unfinished line: kept at the front, or lost when too many. */
struct tail {
    size_t kept;
    int lost;
};

/* Answers every whole line of the first `filled` bytes of the input. */
static char *answer_chunk(struct tail *tail, size_t filled, char *to)
{
    const char *line = input, *end = input + filled, *stop;

    while ((stop = memchr(line, '\n', (size_t)(end - line))) != NULL) {
        if (tail->lost)
            to = print_ill_formed(to);
        else
            to = answer_line(line, (size_t)(stop - line), to);
        tail->lost = 0;
        line = stop + 1;
    }
    tail->kept = (size_t)(end - line);
    if (tail->lost || tail->kept > LINE_MAX_CHARS) {
        tail->lost = 1;
        tail->kept = 0;
    }
    memmove(input, line, tail->kept);
    return to;
}

int job_frames(void)
{
    struct tail tail = { 0, 0 };
    long got;

    while ((got = read_some(input + tail.kept, CHUNK)) > 0) {
        char *to = answer_chunk(&tail, tail.kept + (size_t)got, output);

        if (!write_all(output, (size_t)(to - output)))
            return 1;
    }
    if (tail.lost || tail.kept > 0) {
        char *to = print_ill_formed(output);

        if (!write_all(output, (size_t)(to - output)))
            return 1;
    }
    return got < 0;
}
