/* Reads a container of cases on standard input, asks both calls of the library about each, and says how many were matched. */

#include <inttypes.h>
#include <stdio.h>
#include <stdlib.h>
#include <string.h>

#include "finchbronze.h"

struct bytes {
    uint8_t *at;
    size_t length;
};

struct drawn {
    char name[64];
    int64_t number;
    struct bytes text;
    struct bytes answers;
};

static void broken(const char *what)
{
    fprintf(stderr, "match: the container is broken: %s\n", what);
    exit(2);
}

static struct bytes room(size_t length)
{
    struct bytes bytes = {malloc(length + 1), length};
    if (bytes.at == NULL)
        broken("no memory");
    return bytes;
}

static struct bytes read_bytes(size_t length)
{
    struct bytes bytes = room(length);
    if (fread(bytes.at, 1, length, stdin) != length)
        broken("too short");
    return bytes;
}

/* Whether a case was there. */
static int read_case(struct drawn *drawn)
{
    size_t text, answers;
    int items = scanf("case %63s %zu %" SCNd64 " %zu", drawn->name, &text, &drawn->number, &answers);
    if (items == EOF)
        return 0;
    if (items != 4 || getchar() != '\n')
        broken("no case line");
    drawn->text = read_bytes(text);
    drawn->answers = read_bytes(answers);
    if (getchar() != '\n')
        broken("no newline after a case");
    return 1;
}

/* What is due of a text that is too long is -22, and no byte of the buffer. */
static int replay_matches(const struct drawn *drawn)
{
    struct bytes buffer = room(replay_room(drawn->text.at, drawn->text.length));
    memset(buffer.at, 0xa5, buffer.length);
    int64_t due = drawn->text.length > FINCHBRONZE_LONGEST_TEXT ? -22 : (int64_t)drawn->answers.length;
    int64_t written = replay(drawn->text.at, drawn->text.length, buffer.at, buffer.length);
    int same = written == due && memcmp(buffer.at, drawn->answers.at, drawn->answers.length) == 0;
    for (size_t i = drawn->answers.length; i < buffer.length; i++)
        same &= buffer.at[i] == 0xa5;
    free(buffer.at);
    return same;
}

int main(void)
{
    struct drawn drawn;
    unsigned long matched = 0;
    unsigned long cases = 0;
    while (read_case(&drawn)) {
        cases++;
        int same = check(drawn.text.at, drawn.text.length) == drawn.number && replay_matches(&drawn);
        if (!same)
            fprintf(stderr, "match: case %lu, %s, differs\n", cases, drawn.name);
        matched += same;
        free(drawn.text.at);
        free(drawn.answers.at);
    }
    printf("%lu of %lu cases matched\n", matched, cases);
    return matched == cases && cases > 0 ? 0 : 1;
}
