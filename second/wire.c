#define _POSIX_C_SOURCE 200809L
#include "wire.h"

#include <errno.h>
#include <unistd.h>

uint8_t hex_value[256];
char hex_pair[256][2];

void wire_start(void)
{
    static const char digits[] = "0123456789ABCDEF";

    memset(hex_value, NOT_HEX, sizeof hex_value);
    for (int j = 0; j < 16; j++)
        hex_value[(unsigned char)digits[j]] = (uint8_t)j;
    for (int j = 0; j < 256; j++) {
        hex_pair[j][0] = digits[j >> 4];
        hex_pair[j][1] = digits[j & 15];
    }
}

long read_some(char *to, size_t room)
{
    ssize_t got;

    do
        got = read(STDIN_FILENO, to, room);
    while (got < 0 && errno == EINTR);
    return (long)got;
}

int write_all(const char *from, size_t length)
{
    while (length > 0) {
        ssize_t put = write(STDOUT_FILENO, from, length);

        if (put < 0 && errno == EINTR)
            continue;
        if (put <= 0)
            return 0;
        from += put;
        length -= (size_t)put;
    }
    return 1;
}
