/* A calculator. Each letter is a line: an expression of numbers, variables a to z, + - * / % and ( ), or `a = ` and one, which is kept in
   the variable. It writes the line and its value to its terminal, and answers with the value, or with why there is none. Values have
   32 bits; a division drops the fraction, and the rest has the sign of what is divided. */
#include "t32.h"
#include "line.h"

enum { FEEDER = 1, LARGEST = 2147483647, DEEPEST = 8 };

/* All 0 at the start. */
static int variables[26];

/* What is left of a line, and the first thing that is wrong with it, or none. */
static const char *at, *end;
static const char *wrong;
/* How many parentheses and signs are open. Each takes stack, which nothing guards, so their number is bounded. */
static int depth;

static int refuse(const char *why)
{
    if (!wrong)
        wrong = why;
    return 0;
}

/* The next byte that is no space, and 0 behind the last. */
static char next(void)
{
    while (at < end && *at == ' ')
        at++;
    return at < end ? *at : 0;
}

static int is_digit(char byte)
{
    return byte >= '0' && byte <= '9';
}

static int is_letter(char byte)
{
    return byte >= 'a' && byte <= 'z';
}

static int fitting(long long value)
{
    return -LARGEST <= value && value <= LARGEST ? (int)value : refuse("too large");
}

static int sum(void);

static int factor(void);

/* A sign or a parenthesis, and what stands behind it. */
static int inner(char byte)
{
    at++;
    if (byte == '-')
        return -factor();
    int value = sum();
    if (next() != ')')
        return refuse("a ) is expected");
    at++;
    return value;
}

static int factor(void)
{
    char byte = next();
    int value = 0;

    if (is_digit(byte)) {
        while (at < end && is_digit(*at))
            value = fitting(10LL * value + (*at++ - '0'));
        return value;
    }
    if (is_letter(byte)) {
        at++;
        return variables[byte - 'a'];
    }
    if (byte != '-' && byte != '(')
        return refuse(byte ? "a value is expected" : "the line ends too early");
    if (depth == DEEPEST)
        return refuse("too deep");
    depth++;
    value = inner(byte);
    depth--;
    return value;
}

static int product(void)
{
    int value = factor();

    for (;;) {
        char byte = next();
        if (byte != '*' && byte != '/' && byte != '%')
            return value;
        at++;
        int other = factor();
        if (byte == '*')
            value = fitting((long long)value * other);
        else if (other == 0)
            value = refuse("division by zero");
        else
            value = byte == '/' ? value / other : value % other;
    }
}

static int sum(void)
{
    int value = product();

    for (;;) {
        char byte = next();
        if (byte != '+' && byte != '-')
            return value;
        at++;
        long long other = product();
        value = fitting(byte == '+' ? value + other : value - other);
    }
}

static int evaluate(const char *line, int size)
{
    at = line, end = line + size, wrong = 0;
    char name = next();
    int keeps = 0;

    if (is_letter(name)) {
        at++;
        keeps = next() == '=';
        at = keeps ? at + 1 : line;
    }
    int value = sum();
    if (next())
        refuse("more than an expression");
    if (keeps && !wrong)
        variables[name - 'a'] = value;
    return value;
}

int main(void)
{
    char letter[LONGEST];
    struct line line, answer;
    int size;

    begin(&line);
    begin(&answer);
    while ((size = read(FEEDER, letter, sizeof letter)) > 0) {
        int value = evaluate(letter, size);
        if (wrong)
            put_text(&answer, wrong);
        else
            put_number(&answer, value);
        put_bytes(&line, letter, size);
        put_text(&line, wrong ? ": " : " is ");
        put_bytes(&line, answer.bytes, answer.size);
        put_byte(&line, '\n');
        send(TTY, &line);
        send(FEEDER, &answer);
    }
    return 0;
}
