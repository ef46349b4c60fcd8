/* Numbers as decimal digits. */
#ifndef DECIMAL_H
#define DECIMAL_H

static inline unsigned number_of(const char *digits, int size)
{
    unsigned n = 0;
    for (int i = 0; i < size; i++)
        n = 10 * n + (digits[i] - '0');
    return n;
}

/* Puts the digits of n at `to`, and answers how many. */
static inline int decimal(char *to, unsigned n)
{
    char reversed[10];
    int size = 0;
    do {
        reversed[size++] = '0' + n % 10;
        n /= 10;
    } while (n);
    for (int i = 0; i < size; i++)
        to[i] = reversed[size - 1 - i];
    return size;
}

#endif
