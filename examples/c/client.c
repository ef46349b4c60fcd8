/* Asks the server for five squares. What it answers goes on to a child, which writes it to the terminal. */
#include "t32.h"
#include "decimal.h"

enum { SERVER = 1, PARENT = 1 };

static int print_all(void)
{
    char line[64];
    int size;

    while ((size = read(PARENT, line, sizeof line)) > 0)
        write(TTY, line, size);
    return 0;
}

int main(void)
{
    char line[64];
    int child, pid = fork(&child);

    if (pid < 0)
        return 1;
    if (pid == 0)
        return print_all();
    for (unsigned i = 1; i <= 5; i++) {
        write(SERVER, line, decimal(line, 11 * i));
        int size = read(SERVER, line, sizeof line);
        write(child, line, size);
    }
    return 0;
}
