/* Single calls on any record and queue memory: a request a line. */
#include "jobs.h"
#include "station.h"
#include "wire.h"

#include <stdio.h>

enum {
    CALLS = 8,
    ARGUMENTS = 7,
    HEAD_WORDS = 1 + ARGUMENTS + STATION_WORDS,
    QUEUE_WORDS = 12400,
    REQUEST_WORDS = HEAD_WORDS + QUEUE_WORDS,
    LINE_CHARS = REQUEST_WORDS * 9,        /* the line feed counted */
    CHUNK = 1 << 16,
    OUTPUT = 1 << 20
};

static char input[LINE_CHARS + CHUNK];
static char output[OUTPUT];
static size_t pending;
static uint32_t request[REQUEST_WORDS];

/* A line of single-spaced words; -1 when it is anything else. */
static long read_words(const char *line, size_t length)
{
    size_t count = (length + 1) / 9;

    if (length > LINE_CHARS - 1 || (length + 1) % 9 != 0)
        return -1;
    for (size_t j = 0; j < count; j++, line += 9)
        if (!get_word(line, &request[j]) || (j + 1 < count && line[8] != ' '))
            return -1;
    return (long)count;
}

static struct answer make_call(struct station *st, struct memory mem)
{
    const uint32_t *w = request + 1;
    struct plan plan = { w[0], w[1], w[2], w[3], w[4], w[5] };

    switch (request[0]) {
    case 1:  return station_open(st, mem, &plan, w[6]);
    case 2:  return station_unit(st, mem, w[0]);
    case 3:  return station_result(st, mem, w[0]);
    case 4:  return station_interrupt(st, mem);
    case 5:  return station_check_find(st, mem);
    case 6:  return station_tick(st, mem);
    case 7:  return station_take(st, mem);
    default: return station_change(st, mem, &plan, w[6] != 0);
    }
}

static char *put_words(char *to, const uint32_t *words, size_t count)
{
    for (size_t j = 0; j < count; j++) {
        to = put_word(to, words[j]);
        *to++ = ' ';
    }
    return to;
}

static int flush(void)
{
    int written = write_all(output, pending);

    pending = 0;
    return written;
}

static int print_all(const struct answer *a, const struct station *st,
                     struct memory mem)
{
    uint32_t head[5] = { a->refusal, a->kind, a->number, a->unit, a->value };
    uint32_t record[STATION_WORDS];
    char *to;

    if (sizeof output - pending < LINE_CHARS && !flush())
        return 0;
    memcpy(record, st, sizeof record);
    to = put_words(output + pending, head, 5);
    to = put_words(to, record, STATION_WORDS);
    to = put_words(to, mem.words, mem.length);
    to[-1] = '\n';
    pending = (size_t)(to - output);
    return 1;
}

static int answer_line(const char *line, size_t length)
{
    long count = read_words(line, length);
    struct memory mem = { request + HEAD_WORDS, 0 };
    struct station st;
    struct answer a;

    if (count < HEAD_WORDS || request[0] < 1 || request[0] > CALLS) {
        fputs("second: probe: not a request\n", stderr);
        return 0;
    }
    mem.length = (size_t)count - HEAD_WORDS;
    memcpy(&st, request + 1 + ARGUMENTS, sizeof st);
    a = make_call(&st, mem);
    return print_all(&a, &st, mem);
}

/* Answers whole lines and keeps the rest; 0 when a line is no request. */
static int answer_chunk(size_t *kept, size_t filled)
{
    const char *line = input, *end = input + filled, *stop;
    const char *unseen = input + *kept;

    while ((stop = memchr(unseen, '\n', (size_t)(end - unseen))) != NULL) {
        if (!answer_line(line, (size_t)(stop - line)))
            return 0;
        line = unseen = stop + 1;
    }
    *kept = (size_t)(end - line);
    memmove(input, line, *kept);
    return *kept < LINE_CHARS;
}

int job_probe(void)
{
    size_t kept = 0;
    long got;
    int good = 1;

    while (good && (got = read_some(input + kept, CHUNK)) > 0) {
        good = answer_chunk(&kept, kept + (size_t)got);
        if (!flush())
            return 1;
    }
    return !good || got < 0 || kept > 0;
}
