/* A line that is put together from texts and numbers, and sent as one letter. What does not fit is left out. */
#ifndef LINE_H
#define LINE_H

#include "t32.h"

struct line {
    int size;
    char bytes[LONGEST];
};

/* A line begins by this, and not by `= { 0 }`, which would have the compiler fill all of its bytes: a thousand instructions. */
static inline void begin(struct line *line)
{
    line->size = 0;
}

static inline void put_byte(struct line *line, char byte)
{
    if (line->size < LONGEST)
        line->bytes[line->size++] = byte;
}

static inline void put_bytes(struct line *line, const char *bytes, int size)
{
    for (int i = 0; i < size; i++)
        put_byte(line, bytes[i]);
}

static inline void put_text(struct line *line, const char *text)
{
    while (*text)
        put_byte(line, *text++);
}

static inline void put_number(struct line *line, int number)
{
    unsigned left = number < 0 ? 0u - (unsigned)number : (unsigned)number;
    char reversed[10];
    int size = 0;

    if (number < 0)
        put_byte(line, '-');
    do {
        reversed[size++] = '0' + left % 10;
        left /= 10;
    } while (left);
    while (size)
        put_byte(line, reversed[--size]);
}

/* Sends what was put together, and begins the line anew. */
static inline void send(int end, struct line *line)
{
    write(end, line->bytes, line->size);
    begin(line);
}

#endif
