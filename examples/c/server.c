/* Answers each number that a client sends with its square, until no client is left. */
#include "t32.h"
#include "decimal.h"

int main(void)
{
    char line[64];
    int end, size;

    while ((size = read_any(line, sizeof line, &end)) >= 0) {
        if (size > 0) {
            unsigned number = number_of(line, size);
            size = decimal(line, number * number);
            line[size++] = '\n';
            write(end, line, size);
        }
    }
    write(TTY, "no client is left\n", 18);
    return 0;
}
