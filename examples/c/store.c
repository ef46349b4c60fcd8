/* A store of keys and values. Each request is a letter, and is answered by one:

     put KEY VALUE    the value
     get KEY          the value
     add KEY NUMBER   the value, which is the sum; a key that is not there counts as 0
     drop KEY         the value that it had

   or by `none` where the key is not there, `full` where no room is left for it, and `what` where the letter is no request. Keys and values
   are words of 11 bytes at most. Once no client is left, it writes all keys with their values, by rising key, and ends with how many. */
#include "t32.h"
#include "mem.h"
#include "line.h"
#include "decimal.h"

enum { WORD = 12, MOST = 24 };

/* Words are filled up with zero bytes, so that they are compared as a whole. */
struct entry { char key[WORD], value[WORD]; };

static struct entry entries[MOST];
static int count;

/* Takes the next word of the letter from *at on. */
static void take_word(char *word, const char **at, const char *end)
{
    int size = 0;

    memset(word, 0, WORD);
    while (*at < end && **at == ' ')
        ++*at;
    for (; *at < end && **at != ' '; ++*at)
        if (size < WORD - 1)
            word[size++] = **at;
}

static int size_of(const char *word)
{
    int size = 0;

    while (word[size])
        size++;
    return size;
}

static int is(const char *word, const char *other)
{
    return size_of(word) == size_of(other) && memcmp(word, other, size_of(word)) == 0;
}

/* The place of the first key that is not below this one: where the key is, or where it would have to be. */
static int place_of(const char *key)
{
    int low = 0, high = count;

    while (low < high) {
        int middle = (low + high) / 2;
        if (memcmp(entries[middle].key, key, WORD) < 0)
            low = middle + 1;
        else
            high = middle;
    }
    return low;
}

static void answer(struct line *line, const char *at, const char *end)
{
    struct entry asked;
    char what[WORD];

    take_word(what, &at, end);
    take_word(asked.key, &at, end);
    take_word(asked.value, &at, end);
    int place = place_of(asked.key);
    int is_there = place < count && memcmp(entries[place].key, asked.key, WORD) == 0;

    if (is(what, "add")) {
        unsigned sum = number_of(asked.value, size_of(asked.value));
        if (is_there)
            sum += number_of(entries[place].value, size_of(entries[place].value));
        memset(asked.value, 0, WORD);
        decimal(asked.value, sum);
    } else if (is(what, "get") || is(what, "drop")) {
        put_text(line, is_there ? entries[place].value : "none");
        if (is_there && is(what, "drop")) {
            count--;
            memmove(&entries[place], &entries[place + 1], (count - place) * sizeof asked);
        }
        return;
    } else if (!is(what, "put")) {
        put_text(line, "what");
        return;
    }
    if (!is_there && count == MOST) {
        put_text(line, "full");
        return;
    }
    if (!is_there) {
        memmove(&entries[place + 1], &entries[place], (count - place) * sizeof asked);
        count++;
    }
    entries[place] = asked;
    put_text(line, asked.value);
}

int main(void)
{
    struct line line;
    char letter[LONGEST];
    int end, size;

    begin(&line);
    while ((size = read_any(letter, sizeof letter, &end)) >= 0) {
        if (size == 0)
            continue;
        answer(&line, letter, letter + size);
        send(end, &line);
    }
    for (int i = 0; i < count; i++) {
        put_text(&line, entries[i].key);
        put_byte(&line, ' ');
        put_text(&line, entries[i].value);
        put_byte(&line, '\n');
        if (line.size > LONGEST - 2 * WORD || i == count - 1)
            send(TTY, &line);
    }
    return count;
}
