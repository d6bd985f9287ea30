/* What no recorder goes below: it reads, finds where each line ends, puts 33
   bytes for it and writes. It knows nothing of frames and of a station, and a
   last line without a line feed it does not answer. */
#include <string.h>
#include <unistd.h>

enum { CHUNK = 1 << 16, ANSWER_CHARS = 33 };

static char input[CHUNK];
static char output[(size_t)ANSWER_CHARS * CHUNK];
static const char zeros[] = "00 00 00000000 00000000 00000000\n";

/* Many lines have two characters; NULL where no line feed has come. */
static inline const char *end_of_line(const char *line, const char *end)
{
    if (end - line > 2 && line[2] == '\n' && line[1] != '\n'
        && line[0] != '\n')
        return line + 2;
    return memchr(line, '\n', (size_t)(end - line));
}

static char *answer_chunk(const char *line, const char *end, char *to)
{
    const char *stop;

    while ((stop = end_of_line(line, end)) != NULL) {
        memcpy(to, zeros, ANSWER_CHARS);
        to += ANSWER_CHARS;
        line = stop + 1;
    }
    return to;
}

int main(void)
{
    ssize_t got;

    while ((got = read(STDIN_FILENO, input, CHUNK)) > 0) {
        char *to = answer_chunk(input, input + got, output);

        for (const char *from = output; from < to;) {
            ssize_t put = write(STDOUT_FILENO, from, (size_t)(to - from));

            if (put <= 0)
                return 1;
            from += put;
        }
    }
    return got < 0;
}
