/* Feeds both calls short, long, empty and damaged texts, and buffers with guard bytes around them. Built and run by tests/c/run, also under valgrind and with sanitizers. */

#include <inttypes.h>
#include <stdio.h>
#include <stdlib.h>
#include <string.h>

#include "finchbronze.h"

#define GUARD 64
#define MARK 0xa5

static unsigned long tried;

/* The linker hands the library's own calls of malloc and realloc to these, so that they are seen, and can be made to fail. */
static unsigned long allocations;
static int failing;

void *__real_malloc(size_t size);
void *__real_realloc(void *block, size_t size);

static int fails(void)
{
    allocations++;
    return failing;
}

void *__wrap_malloc(size_t size)
{
    return fails() ? NULL : __real_malloc(size);
}

void *__wrap_realloc(void *block, size_t size)
{
    return fails() ? NULL : __real_realloc(block, size);
}

static void want(int holds, const char *what)
{
    tried++;
    if (holds)
        return;
    fprintf(stderr, "calls: %s\n", what);
    exit(1);
}

/* A buffer between two guards, all marked. */
struct guarded {
    uint8_t *block;
    uint8_t *buffer;
    size_t room;
};

static struct guarded guarded(size_t room)
{
    struct guarded g = {__real_malloc(room + 2 * GUARD), NULL, room};
    if (g.block == NULL)
        exit(2);
    g.buffer = g.block + GUARD;
    memset(g.block, MARK, room + 2 * GUARD);
    return g;
}

/* Nothing but the first bytes of the buffer was written. */
static void want_kept(const struct guarded *g, size_t written)
{
    int kept = 1;
    for (size_t i = 0; i < GUARD; i++)
        kept &= g->block[i] == MARK;
    for (size_t i = written; i < g->room + GUARD; i++)
        kept &= g->buffer[i] == MARK;
    want(kept, "a byte was written that was not to be");
}

/* What replay answers in a buffer with exactly the room it wants, in a copy of the text that ends where the text ends. */
static int64_t replayed(const char *text, size_t length, struct guarded *g)
{
    uint8_t *copy = __real_malloc(length + 1);
    if (copy == NULL)
        exit(2);
    memcpy(copy, text, length);
    *g = guarded(replay_room(copy, length));
    int64_t answer = replay(copy, length, g->buffer, g->room);
    want(memcmp(copy, text, length) == 0, "the text was changed");
    free(copy);
    return answer;
}

/* Answers are whole lines within the room, and nothing else changes. */
static void want_lines(const char *text, size_t length)
{
    struct guarded g;
    int64_t answer = replayed(text, length, &g);
    want(answer > 0 && (size_t)answer <= g.room, "the answers do not fit their room");
    want(g.buffer[answer - 1] == '\n', "the answers do not end with a newline");
    want_kept(&g, (size_t)answer);
    free(g.block);
}

static void want_answers(const char *text, const char *answers)
{
    struct guarded g;
    int64_t answer = replayed(text, strlen(text), &g);
    want(answer == (int64_t)strlen(answers) && memcmp(g.buffer, answers, strlen(answers)) == 0, answers);
    want_kept(&g, (size_t)answer);
    free(g.block);
}

static void want_nothing(const uint8_t *text, size_t length, size_t room, int64_t number)
{
    struct guarded g = guarded(room);
    want(replay(text, length, g.buffer, g.room) == number, "another number was due");
    want_kept(&g, 0);
    free(g.block);
}

#define STREAMS "(S H (2 4) (2 6) 6)\n(S L (3 0) (6 6) 6)\n"

static const char script[] =
    STREAMS "(go 0)\n(release 1)\n(release 2)\n(turn no)\n(turn no)\n(release 2)\n(turn no)\n(turn yes)\n(calm)\n";

static const char answers[] =
    "(accepted 6 7 (normal 2 0))\n(took 1)\n(took 2)\n(ran 1 going)\n(ran 1 switch)\n(refused 16 E (8 0))\n"
    "(ran 1 going)\n(ran 1 finished)\n(calm 4)\n(total 2 1 0 1 0)\n";

static void short_texts(void)
{
    want_answers(script, answers);
    want_answers("", "(refused 1 T (1 1))\n");
    want_answers("(", "(refused 1 T (1 2))\n");
    want_answers("\n", "(refused 1 T (1 1))\n");
    want_answers("(go 0)\n", "(refused 9 D (1 0))\n");
    want_answers(STREAMS, "(refused 1 T (3 1))\n");
    want_answers(STREAMS "(go 1000000000001)\n", "(refused 12 E (3 0))\n");
    want_answers("(S H (2 4) (2 6) 6)\n(S L (5 0) (6 6) 6)\n(go 0)\n", "(refused 11 D (3 0) (normal 6 -1))\n");
}

/* Every byte of the script by itself: another one in its place, none in its place, and none after it. */
static void damaged_texts(void)
{
    static const char others[] = {'0', '9', ' ', '(', ')', '\n', '\0', 'z', '\x80', '\xff'};
    char text[sizeof script];
    size_t length = strlen(script);
    for (size_t i = 0; i < length; i++) {
        for (size_t j = 0; j < sizeof others; j++) {
            memcpy(text, script, sizeof script);
            text[i] = others[j];
            want_lines(text, length);
        }
        memcpy(text, script, i);
        memcpy(text + i, script + i + 1, length - i);
        want_lines(text, length - 1);
        want_lines(script, i);
    }
}

/* A plan and as many turns as there is room for, so that the text has exactly so many bytes. */
static uint8_t *long_text(size_t length)
{
    static const char front[] = STREAMS "(go 0)\n";
    uint8_t *text = __real_malloc(length);
    if (text == NULL)
        exit(2);
    memset(text, '\n', length);
    memcpy(text, front, strlen(front));
    for (size_t i = strlen(front); i + 10 <= length; i += 10)
        memcpy(text + i, "(turn no)\n", 10);
    return text;
}

static void long_texts(void)
{
    uint8_t *longest = long_text(FINCHBRONZE_LONGEST_TEXT);
    uint8_t *longer = long_text(FINCHBRONZE_LONGEST_TEXT + 1);
    uint8_t *newlines = __real_malloc(FINCHBRONZE_LONGEST_TEXT);
    if (newlines == NULL)
        exit(2);
    memset(newlines, '\n', FINCHBRONZE_LONGEST_TEXT);
    want_lines((const char *)longest, FINCHBRONZE_LONGEST_TEXT);
    want_lines((const char *)newlines, FINCHBRONZE_LONGEST_TEXT);
    size_t room = replay_room(longer, FINCHBRONZE_LONGEST_TEXT + 1);
    want_nothing(longer, FINCHBRONZE_LONGEST_TEXT + 1, room, -22);
    /* a text that is too long is told before a buffer that is too short */
    want_nothing(longer, FINCHBRONZE_LONGEST_TEXT + 1, 0, -22);
    free(longest);
    free(longer);
    free(newlines);
}

static void short_buffers(void)
{
    const uint8_t *text = (const uint8_t *)script;
    size_t length = strlen(script);
    size_t room = replay_room(text, length);
    want_nothing(text, length, room - 1, -21);
    want_nothing(text, length, 0, -21);
    want_nothing(text, 0, 159, -21);
    struct guarded g = guarded(room + 1000);
    want(replay(text, length, g.buffer, g.room) == (int64_t)strlen(answers), "a longer buffer changed the answer");
    want_kept(&g, strlen(answers));
    free(g.block);
}

/* With an allocator that always fails, both calls answer as ever, since they never ask it. */
static void no_memory(void)
{
    const uint8_t *text = (const uint8_t *)script;
    size_t length = strlen(script);
    struct guarded g = guarded(replay_room(text, length));
    failing = 1;
    allocations = 0;
    want(replay(text, length, g.buffer, g.room) == (int64_t)strlen(answers), "a replay without memory");
    want(check(text, strlen(STREAMS)) == 0, "a check without memory");
    want(allocations == 0, "a call allocates");
    failing = 0;
    want_kept(&g, strlen(answers));
    free(g.block);
}

static void checks(void)
{
    static const struct {
        const char *text;
        int64_t number;
    } plans[] = {
        {STREAMS, 0},
        {"", 9},
        {STREAMS "(go 0)\n", 1},
        {"(R L (1 0) (2 2) 2 0)\n(S L (1 0) (2 2) 2)\n", 3},
        {"(S L (1 0) (1 1) 0)\n", 4},
        {"(S L (1 0) (3 3) 2)\n", 5},
        {"(S L (3 0) (2 2) 2)\n", 6},
        {"(S L (1 0) (1 2) 2)\n", 7},
        {"(R L (1 0) (2 2) 2 2)\n", 8},
        {"(S L (1 0) (1 1) 1000)\n(S L (1 0) (1 1) 1001)\n", 10},
        {"(S H (2 6) (2 6) 6)\n(S L (5 0) (6 6) 6)\n", 11},
    };
    for (size_t i = 0; i < sizeof plans / sizeof plans[0]; i++)
        want(check((const uint8_t *)plans[i].text, strlen(plans[i].text)) == plans[i].number, plans[i].text);
    char many[33 * 24] = "";
    for (int i = 0; i < 33; i++)
        strcat(many, "(S L (1 0) (99 99) 99)\n");
    want(check((const uint8_t *)many, strlen(many)) == 2, "a 33rd stream");
    for (size_t i = 0; i < strlen(STREAMS); i++)
        want(check((const uint8_t *)STREAMS, i) == (i == 0 ? 9 : i == 20 ? 0 : 1), "a plan that is cut off");
}

int main(void)
{
    checks();
    short_texts();
    damaged_texts();
    long_texts();
    short_buffers();
    no_memory();
    printf("calls: %lu facts held\n", tried);
    return 0;
}
