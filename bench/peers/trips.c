/* trips FRAMES ANSWERS PROGRAM ..

   Runs a program on two pipes and sends it one frame of the file at a time:
   the next goes out when the answer has come, which must be the next 33 bytes
   of the file of answers, and no more. Prints how many round trips were made
   and in how many nanoseconds; the first, in which the program starts, is not
   among them. The exit status is 1 where anything is not as it should be, or
   all is not done in two minutes. */
#define _POSIX_C_SOURCE 200809L
#include <errno.h>
#include <signal.h>
#include <stdio.h>
#include <stdlib.h>
#include <string.h>
#include <sys/wait.h>
#include <time.h>
#include <unistd.h>

enum { ANSWER_CHARS = 33, PATIENCE = 120 };

struct text {
    char *bytes;
    size_t length;
};

static _Noreturn void fail(const char *what, long at)
{
    fprintf(stderr, "trips: frame %ld: %s\n", at, what);
    exit(1);
}

/* An answer that does not come would be waited for without end. */
static void late(int signal)
{
    static const char said[] = "trips: the program does not answer\n";

    (void)signal;
    if (write(STDERR_FILENO, said, sizeof said - 1) < 0)
        _exit(2);
    _exit(1);
}

static struct text read_file(const char *path)
{
    struct text text = { NULL, 0 };
    FILE *file = fopen(path, "rb");
    long length;

    if (file == NULL || fseek(file, 0, SEEK_END) != 0
        || (length = ftell(file)) < 0 || fseek(file, 0, SEEK_SET) != 0)
        fail("a file cannot be read", 0);
    text.length = (size_t)length;
    text.bytes = malloc(text.length + 1);
    if (text.bytes == NULL
        || fread(text.bytes, 1, text.length, file) != text.length)
        fail("a file cannot be read", 0);
    fclose(file);
    return text;
}

/* Starts the program; `to` and `from` are the ends of its pipes here. */
static pid_t start(char **program, int *to, int *from)
{
    int in[2], out[2];
    pid_t child;

    if (pipe(in) != 0 || pipe(out) != 0 || (child = fork()) < 0)
        fail("the program cannot be started", 0);
    if (child == 0) {
        dup2(in[0], STDIN_FILENO);
        dup2(out[1], STDOUT_FILENO);
        close(in[0]);
        close(in[1]);
        close(out[0]);
        close(out[1]);
        signal(SIGPIPE, SIG_DFL);
        execvp(program[0], program);
        _exit(127);
    }
    close(in[0]);
    close(out[1]);
    *to = in[1];
    *from = out[0];
    return child;
}

static void send(int to, const char *bytes, size_t length, long at)
{
    while (length > 0) {
        ssize_t put = write(to, bytes, length);

        if (put < 0 && errno == EINTR)
            continue;
        if (put <= 0)
            fail("the program does not read it", at);
        bytes += put;
        length -= (size_t)put;
    }
}

/* Waits for one answer; more than one can hold would be seen. */
static void receive(int from, const char *due, long at)
{
    char answer[ANSWER_CHARS + 1];
    size_t length = 0;

    while (length < ANSWER_CHARS) {
        ssize_t got = read(from, answer + length, sizeof answer - length);

        if (got < 0 && errno == EINTR)
            continue;
        if (got <= 0)
            fail("the program ended before its answer", at);
        length += (size_t)got;
    }
    if (length > ANSWER_CHARS)
        fail("the answer is longer than 33 bytes", at);
    if (memcmp(answer, due, ANSWER_CHARS) != 0)
        fail("the answer is not the one that is due", at);
}

static void end(pid_t child, int to, int from, long at)
{
    char more;
    int status;

    close(to);
    if (read(from, &more, 1) != 0)
        fail("the program says more than it was asked", at);
    if (waitpid(child, &status, 0) != child || !WIFEXITED(status)
        || WEXITSTATUS(status) != 0)
        fail("the program did not end well", at);
}

static long long now(void)
{
    struct timespec time;

    clock_gettime(CLOCK_MONOTONIC, &time);
    return time.tv_sec * 1000000000LL + time.tv_nsec;
}

/* The nanoseconds of all trips but the first; their number goes to `count`. */
static long long all_trips(struct text frames, struct text answers, int to,
                           int from, long *count)
{
    const char *line = frames.bytes, *stop, *last = line + frames.length;
    long long began = 0;
    long at = 0;

    while ((stop = memchr(line, '\n', (size_t)(last - line))) != NULL) {
        if (((size_t)at + 1) * ANSWER_CHARS > answers.length)
            fail("no answer to it is given", at + 1);
        send(to, line, (size_t)(stop - line) + 1, at + 1);
        receive(from, answers.bytes + at * ANSWER_CHARS, at + 1);
        if (at++ == 0)
            began = now();
        line = stop + 1;
    }
    *count = at - 1;
    return now() - began;
}

int main(int argc, char **argv)
{
    struct text frames, answers;
    long long taken;
    long count;
    int to, from;
    pid_t child;

    if (argc < 4) {
        fputs("usage: trips FRAMES ANSWERS PROGRAM ..\n", stderr);
        return 2;
    }
    signal(SIGPIPE, SIG_IGN);
    signal(SIGALRM, late);
    alarm(PATIENCE);
    frames = read_file(argv[1]);
    answers = read_file(argv[2]);
    child = start(argv + 3, &to, &from);
    taken = all_trips(frames, answers, to, from, &count);
    if (count < 1)
        fail("there are too few frames", count + 1);
    end(child, to, from, count + 1);
    printf("%ld trips, %lld ns\n", count, taken);
    return 0;
}
