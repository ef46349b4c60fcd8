/* Works, and is interrupted by signals: its handler counts them, and what was interrupted goes on as if nothing had been. */
#include "t32.h"
#include "line.h"

enum { FOREMAN = 1, BELL = 10, REPORT = 12, STOP = 15, BELOW = 500 };

/* What a handler changes while something else runs is volatile, so that the compiler reads it anew each time. */
static volatile int bells, is_stopped;

static void taken(int number)
{
    struct line line;

    begin(&line);
    if (number == BELL) {
        bells++;
    } else if (number == REPORT) {
        put_text(&line, "still here\n");
        send(TTY, &line);
    } else {
        is_stopped = 1;
    }
}

static int count_primes(int *sum)
{
    static char is_composite[BELOW];
    int count = 0;

    for (int i = 2; i < BELOW; i++) {
        if (is_composite[i])
            continue;
        count++;
        *sum += i;
        for (int j = i + i; j < BELOW; j += i)
            is_composite[j] = 1;
    }
    return count;
}

/* Waits for a letter of the foreman, whatever it says. A signal that comes meanwhile is taken, and then this waits on. */
static int wait(void)
{
    char letter[LONGEST];

    return read(FOREMAN, letter, sizeof letter);
}

int main(void)
{
    struct line line;
    int sum = 0;

    begin(&line);
    signal(taken);
    /* Only now may the foreman send a signal: before, one would have ended this process. */
    put_number(&line, getpid());
    send(FOREMAN, &line);

    int count = count_primes(&sum);
    wait();
    put_text(&line, "primes ");
    put_number(&line, count);
    put_text(&line, ", their sum ");
    put_number(&line, sum);
    put_text(&line, ", bells ");
    put_number(&line, bells);
    put_byte(&line, '\n');
    send(TTY, &line);
    put_text(&line, "done");
    send(FOREMAN, &line);

    wait();
    put_text(&line, is_stopped ? "stopped\n" : "not stopped\n");
    send(TTY, &line);

    /* From here on a signal ends it. */
    signal(0);
    put_text(&line, "no handler");
    send(FOREMAN, &line);
    wait();
    return 0;
}
