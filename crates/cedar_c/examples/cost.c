/* Asks one question so many times, by a handle or within one run over frames in memory: `cost handle 1000`, `cost run 1000`.
   bench/measure_clients.py counts what that takes. */
#include "cedar.h"

#include <stdio.h>
#include <stdlib.h>
#include <string.h>

static const char *const begun[][2] = {
    {"put", "[{uid: User::\"alice\", parents: [Group::\"staff\"]}]"},
    {"load", "permit(principal in Group::\"staff\", action, resource) when { context.hour < 18 };"},
};
static const char question[] = "{principal: User::\"alice\", action: Action::\"view\", resource: Photo::\"1\", context: {hour: 9}}";
static const char wanted[] = "allow must=[\"policy0\"] may=[\"policy0\"] erring=[]\n";

static _Noreturn void fail(const char *what) {
    fprintf(stderr, "%s\n", what);
    exit(EXIT_FAILURE);
}

/* Gives a command, and writes its line. */
static size_t answered(cedar_session *session, const char *verb, const char *body, char *line, size_t room) {
    size_t written = 0;
    if (cedar_command(session, verb, strlen(verb), body, strlen(body)) != CEDAR_DONE ||
        cedar_answer(session, line, room, &written) != CEDAR_DONE) {
        fail("a command failed");
    }
    return written;
}

static void ask_by_handle(long count) {
    cedar_session session = CEDAR_CLOSED;
    char line[256];
    if (cedar_open(&session, CEDAR_DEPTH) != CEDAR_DONE) {
        fail("no memory");
    }
    for (size_t at = 0; at < sizeof begun / sizeof *begun; at++) {
        answered(&session, begun[at][0], begun[at][1], line, sizeof line);
    }
    for (long at = 0; at < count; at++) {
        size_t length = answered(&session, "ask", question, line, sizeof line);
        if (length != strlen(wanted) || memcmp(line, wanted, length) != 0) {
            fail("another answer");
        }
    }
    cedar_close(&session);
}

static char *add_frame(char *input, const char *verb, const char *body) {
    return input + sprintf(input, "%s %zu\n%s\n", verb, strlen(body), body);
}

static void ask_in_run(long count) {
    size_t room = 1024 + (size_t)count * 256, written = 0;
    char *input = malloc(room), *end = input;
    char *output = malloc(room);
    if (input == NULL || output == NULL) {
        fail("no memory");
    }
    for (size_t at = 0; at < sizeof begun / sizeof *begun; at++) {
        end = add_frame(end, begun[at][0], begun[at][1]);
    }
    for (long at = 0; at < count; at++) {
        end = add_frame(end, "ask", question);
    }
    if (cedar_run(input, (size_t)(end - input), output, room, &written) != CEDAR_DONE) {
        fail("a fault");
    }
    if (written < (size_t)count * strlen(wanted)) {
        fail("other answers");
    }
    free(input);
    free(output);
}

int main(int count, char **words) {
    long asks = count == 3 ? strtol(words[2], NULL, 10) : 0;
    if (asks > 0 && strcmp(words[1], "handle") == 0) {
        ask_by_handle(asks);
    } else if (asks > 0 && strcmp(words[1], "run") == 0) {
        ask_in_run(asks);
    } else {
        fail("usage: cost handle|run COUNT");
    }
    return EXIT_SUCCESS;
}
