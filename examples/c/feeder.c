/* Stands in for two keyboards: it gives each calculator its lines, the next one when it has answered the last. At the end it writes how
   many lines there were, and how many of them had a value. */
#include "t32.h"
#include "line.h"

static const char *const lines[2][9] = {
    { "2 + 3 * 4", "(2 + 3) * 4", "a = 7 * (8 - 15)", "a / 2", "a % 5", "10 / (a + 49)", "a - -a", "(((((((((a)))))))))", 0 },
    { "x = 1000000", "x * x", "x * 2147 + 483647", "y = x / 7 * 7 + x % 7", "((((y))))", "2 +", "1 + 2)", "z", 0 },
};
/* Which line each of them is at. The first channel links end 1, and the second end 2. */
static int given[2];

/* Gives the next line, or says by a shut end that there is none. */
static void give(int end)
{
    const char *text = lines[end - 1][given[end - 1]++];
    struct line line;

    begin(&line);
    if (text) {
        put_text(&line, text);
        send(end, &line);
    } else {
        close(end);
    }
}

static int is_number(const char *letter)
{
    return letter[0] == '-' || (letter[0] >= '0' && letter[0] <= '9');
}

int main(void)
{
    char letter[LONGEST];
    struct line line;
    int end, count = 0, values = 0;

    begin(&line);
    give(1);
    give(2);
    while (read_any(letter, sizeof letter, &end) > 0) {
        count++;
        values += is_number(letter);
        give(end);
    }
    put_number(&line, count);
    put_text(&line, " lines, ");
    put_number(&line, values);
    put_text(&line, " with a value\n");
    send(TTY, &line);
    return 0;
}
