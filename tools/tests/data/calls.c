/* Makes each system call of t32.h, with each refusal that one process can have, and the four functions of mem.c, and writes what they
 * answer. What it has to write is what docs/FORMATS.md says of the calls:
 *
 * tty: getpid 16
 * tty: write 0, 3 bytes 3
 * tty: write 0, no bytes 0
 * tty: write 0, 257 bytes -22
 * tty: write 0, outside -14
 * tty: write 7 -9
 * tty: read 0 -9
 * tty: read 1, not linked -9
 * tty: read_any, none linked -9
 * tty: signal 0
 * tty: kill, no such signal -22
 * tty: kill, no such process 0
 * tty: handler 10
 * tty: kill itself 0
 * tty: fork 32, end 1
 * tty: read_any 5 at 1: child
 * tty: read the end letter 0
 * tty: read a finished end 0
 * tty: fork again -11
 * tty: close 0
 * tty: close again -9
 * tty: write to a shut end -9
 * tty: memcpy 0123456789
 * tty: memmove up 0101234789
 * tty: memmove down 3456456789
 * tty: memset ....456789
 * tty: memcmp -1 0 1
 */
#include "t32.h"
#include "mem.h"
#include "line.h"

static void tell(const char *what, int answer)
{
    struct line line;

    begin(&line);
    put_text(&line, what);
    put_byte(&line, ' ');
    put_number(&line, answer);
    put_byte(&line, '\n');
    send(TTY, &line);
}

static void taken(int number)
{
    tell("handler", number);
}

static void tell_bytes(const char *what, const char *bytes)
{
    struct line line;

    begin(&line);
    put_text(&line, what);
    put_byte(&line, ' ');
    put_bytes(&line, bytes, 10);
    put_byte(&line, '\n');
    send(TTY, &line);
}

static int sign(int number)
{
    return (number > 0) - (number < 0);
}

int main(void)
{
    char letter[LONGEST];
    struct line line;
    int end = -1, size;

    tell("getpid", getpid());
    /* Three bytes, which are the first of the next line. */
    size = write(TTY, "wri", 3);
    tell("te 0, 3 bytes", size);
    tell("write 0, no bytes", write(TTY, letter, 0));
    tell("write 0, 257 bytes", write(TTY, letter, LONGEST + 1));
    tell("write 0, outside", write(TTY, (void *)0x100, 1));
    tell("write 7", write(7, letter, 1));
    tell("read 0", read(TTY, letter, 1));
    tell("read 1, not linked", read(1, letter, 1));
    tell("read_any, none linked", read_any(letter, sizeof letter, &end));
    tell("signal", signal(taken));
    tell("kill, no such signal", kill(getpid(), 32));
    tell("kill, no such process", kill(999, 1));
    tell("kill itself", kill(getpid(), 10));

    int pid = fork(&end);
    if (pid == 0) {
        write(end, "child", 5);
        exit(42);
    }
    begin(&line);
    put_text(&line, "fork ");
    put_number(&line, pid);
    put_text(&line, ", end ");
    put_number(&line, end);
    put_byte(&line, '\n');
    send(TTY, &line);
    end = -1;
    size = read_any(letter, sizeof letter, &end);
    put_text(&line, "read_any ");
    put_number(&line, size);
    put_text(&line, " at ");
    put_number(&line, end);
    put_text(&line, ": ");
    put_bytes(&line, letter, size);
    put_byte(&line, '\n');
    send(TTY, &line);
    tell("read the end letter", read(end, letter, sizeof letter));
    tell("read a finished end", read(end, letter, sizeof letter));
    tell("fork again", fork(&end));
    tell("close", close(end));
    tell("close again", close(end));
    tell("write to a shut end", write(end, letter, 1));

    static const char digits[] = "0123456789";
    char bytes[10];
    memcpy(bytes, digits, 10);
    tell_bytes("memcpy", bytes);
    memmove(bytes + 2, bytes, 5);
    tell_bytes("memmove up", bytes);
    memcpy(bytes, digits, 10);
    memmove(bytes, bytes + 3, 4);
    tell_bytes("memmove down", bytes);
    memset(bytes, '.', 4);
    tell_bytes("memset", bytes);
    begin(&line);
    put_text(&line, "memcmp ");
    put_number(&line, sign(memcmp("a\x7f", "a\x80", 2)));
    put_byte(&line, ' ');
    put_number(&line, memcmp("ab", "ac", 1));
    put_byte(&line, ' ');
    put_number(&line, sign(memcmp("b", "a", 1)));
    put_byte(&line, '\n');
    send(TTY, &line);
    return 7;
}
