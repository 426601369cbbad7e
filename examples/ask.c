/* Asks the library about the text in a file.
 *
 *     ask check PLAN       prints what check answers; status 0 if the plan may run, 1 if not
 *     ask replay SCRIPT    prints the answers that replay writes; status 0
 *
 * Status 2 if there was no answer. */

#include <inttypes.h>
#include <stdio.h>
#include <stdlib.h>
#include <string.h>

#include "finchbronze.h"

/* The bytes of a file, or null. The caller frees them. */
static uint8_t *read_file(const char *path, size_t *length)
{
    FILE *file = fopen(path, "rb");
    if (file == NULL)
        return NULL;
    size_t room = 4096;
    size_t used = 0;
    uint8_t *bytes = malloc(room);
    while (bytes != NULL) {
        used += fread(bytes + used, 1, room - used, file);
        if (used < room)
            break;
        room *= 2;
        uint8_t *more = realloc(bytes, room);
        if (more == NULL)
            free(bytes);
        bytes = more;
    }
    if (bytes != NULL && ferror(file)) {
        free(bytes);
        bytes = NULL;
    }
    fclose(file);
    *length = used;
    return bytes;
}

static int ask_check(const uint8_t *plan, size_t length)
{
    int64_t answer = check(plan, length);
    printf("%" PRId64 "\n", answer);
    if (answer < 0)
        return 2;
    return answer == 0 ? 0 : 1;
}

static int ask_replay(const uint8_t *script, size_t length)
{
    size_t room = replay_room(script, length);
    uint8_t *answers = malloc(room);
    if (answers == NULL) {
        perror("ask");
        return 2;
    }
    int64_t written = replay(script, length, answers, room);
    if (written >= 0)
        fwrite(answers, 1, (size_t)written, stdout);
    else
        fprintf(stderr, "ask: replay answered %" PRId64 "\n", written);
    free(answers);
    return written >= 0 ? 0 : 2;
}

int main(int argc, char **argv)
{
    int checks = argc == 3 && strcmp(argv[1], "check") == 0;
    int replays = argc == 3 && strcmp(argv[1], "replay") == 0;
    if (!checks && !replays) {
        fprintf(stderr, "usage: ask check PLAN\n       ask replay SCRIPT\n");
        return 2;
    }
    size_t length = 0;
    uint8_t *text = read_file(argv[2], &length);
    if (text == NULL) {
        perror(argv[2]);
        return 2;
    }
    int status = checks ? ask_check(text, length) : ask_replay(text, length);
    free(text);
    return status;
}
