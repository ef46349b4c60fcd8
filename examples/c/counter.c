/* Counts the words of a text in the store. A child goes through the text and hands over one word after another; this process, its parent,
   asks the store. Two of these run, in the clusters 1 and 2, each with a text of its own; what they count together, the store has. */
#include "t32.h"
#include "line.h"

enum { STORE = 1, PARENT = 1 };

static const char *const texts[] = {
    "the server keeps a count and the backup keeps the letters",
    "the backup of the server counts as the server did",
};

/* The child's work: each word of the text is a letter. */
static int hand_over(const char *text)
{
    while (*text) {
        int size = 0;
        while (text[size] && text[size] != ' ')
            size++;
        write(PARENT, text, size);
        text += size;
        while (*text == ' ')
            text++;
    }
    return 0;
}

/* Asks the store: `WHAT KEY`, and behind it a value, where there is one. What it answers is put into the letter. */
static int ask(char *letter, const char *what, const char *key, int size, const char *value)
{
    struct line line;

    begin(&line);
    put_text(&line, what);
    put_byte(&line, ' ');
    put_bytes(&line, key, size);
    put_byte(&line, ' ');
    put_text(&line, value);
    send(STORE, &line);
    return read(STORE, letter, LONGEST);
}

/* Writes what the store answered, behind a word. */
static void tell(const char *word, const char *letter, int size)
{
    struct line line;

    begin(&line);
    put_text(&line, word);
    put_bytes(&line, letter, size);
    put_byte(&line, '\n');
    send(TTY, &line);
}

int main(void)
{
    /* A pid has in its low four bits the cluster where its process was born; it stays, wherever the process goes. */
    int born = getpid() % 16, child, size, most = 0;
    char letter[LONGEST], longest[LONGEST + 1], mine[] = "longest#";

    int pid = fork(&child);
    if (pid < 0)
        return 1;
    if (pid == 0)
        return hand_over(texts[born - 1]);

    int total = 0;
    while ((size = read(child, letter, sizeof letter)) > 0) {
        total++;
        if (size > most) {
            most = size;
            for (int i = 0; i < size; i++)
                longest[i] = letter[i];
        }
        ask(letter, "add", letter, size, "1");
    }
    longest[most] = 0;
    mine[7] = '0' + born;
    struct line words;
    begin(&words);
    put_number(&words, total);
    tell("words ", words.bytes, words.size);
    ask(letter, "put", mine, 8, longest);
    tell("longest ", letter, ask(letter, "get", mine, 8, ""));
    tell("dropped ", letter, ask(letter, "drop", mine, 8, ""));
    tell("then ", letter, ask(letter, "get", mine, 8, ""));
    return total;
}
