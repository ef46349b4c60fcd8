/* Sends signals to a worker. A signal is a letter too, and what one process sends to another comes in order: each signal is taken before a
   letter that was sent after it is read. */
#include "t32.h"
#include "line.h"
#include "decimal.h"

enum { WORKER = 1, BELL = 10, REPORT = 12, STOP = 15, BELLS = 5 };

/* There is no clock: who wants to let time go by makes steps. */
static void idle(int rounds)
{
    for (volatile int i = 0; i < rounds; i++)
        ;
}

int main(void)
{
    char letter[LONGEST];
    struct line line;

    begin(&line);
    /* The worker says its pid, by which it can be sent signals. */
    int pid = number_of(letter, read(WORKER, letter, sizeof letter));
    for (int i = 0; i < BELLS; i++) {
        idle(200);
        kill(pid, BELL);
    }
    put_text(&line, "go on");
    send(WORKER, &line);
    read(WORKER, letter, sizeof letter);

    /* It waits in a read now. */
    kill(pid, REPORT);
    kill(pid, STOP);
    put_text(&line, "go on");
    send(WORKER, &line);
    read(WORKER, letter, sizeof letter);

    /* It has no handler now. */
    kill(pid, STOP);
    if (read(WORKER, letter, sizeof letter) == 0)
        put_text(&line, "the worker has ended\n");
    send(TTY, &line);
    return 0;
}
