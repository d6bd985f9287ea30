/* Hex digits and whole reads and writes. */
#ifndef WIRE_H
#define WIRE_H

#include <stddef.h>
#include <stdint.h>
#include <string.h>

enum { NOT_HEX = 0x80 };

extern uint8_t hex_value[256];     /* 0 to 15, or NOT_HEX */
extern char hex_pair[256][2];      /* the two digits of each byte */

void wire_start(void);

/* Reads what is there; 0 at end of input, negative when reading failed. */
long read_some(char *to, size_t room);

/* Writes all of it; 0 when writing failed. */
int write_all(const char *from, size_t length);

static inline int get_byte(const char *from, uint32_t *byte)
{
    uint32_t high = hex_value[(unsigned char)from[0]];
    uint32_t low = hex_value[(unsigned char)from[1]];

    *byte = high << 4 | low;
    return (high | low) < NOT_HEX;
}

static inline int get_word(const char *from, uint32_t *word)
{
    uint32_t value = 0, seen = 0;

    for (int j = 0; j < 8; j++) {
        uint32_t digit = hex_value[(unsigned char)from[j]];
        seen |= digit;
        value = value << 4 | digit;
    }
    *word = value;
    return seen < NOT_HEX;
}

static inline char *put_byte(char *to, uint32_t byte)
{
    memcpy(to, hex_pair[byte & 0xFF], 2);
    return to + 2;
}

static inline char *put_word(char *to, uint32_t word)
{
    memcpy(to, hex_pair[word >> 24], 2);
    memcpy(to + 2, hex_pair[word >> 16 & 0xFF], 2);
    memcpy(to + 4, hex_pair[word >> 8 & 0xFF], 2);
    memcpy(to + 6, hex_pair[word & 0xFF], 2);
    return to + 8;
}

#endif
