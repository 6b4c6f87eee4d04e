/* Reads commands, a line each, a verb, a space and a body, and writes the line that answers each, by one session. */
#define _POSIX_C_SOURCE 200809L /* getline */
#include "cedar.h"

#include <stdio.h>
#include <stdlib.h>
#include <string.h>

/* Where the line of an answer is written. */
struct output {
    char *at;
    size_t room;
};

/* Makes more room, or ends the program. */
static void grow(struct output *output, size_t room) {
    char *grown = realloc(output->at, room);
    if (grown == NULL) {
        fprintf(stderr, "no memory\n");
        exit(CEDAR_NO_MEMORY);
    }
    output->at = grown;
    output->room = room;
}

/* Writes the line that answers the last command, and answers its status. */
static enum cedar_status put_answer(cedar_session *session, struct output *output) {
    size_t written = 0;
    enum cedar_status status = cedar_answer(session, output->at, output->room, &written);
    if (status == CEDAR_NO_ROOM) {
        grow(output, written);
        status = cedar_answer(session, output->at, output->room, &written);
    }
    fwrite(output->at, 1, written, stdout);
    fflush(stdout);
    return status;
}

/* Does the command of a line, and answers its status. */
static enum cedar_status do_line(cedar_session *session, const char *line, size_t length) {
    const char *space = memchr(line, ' ', length);
    size_t verb = space == NULL ? length : (size_t)(space - line);
    size_t body = space == NULL ? length : verb + 1;
    return cedar_command(session, line, verb, line + body, length - body);
}

int main(void) {
    cedar_session *session;
    enum cedar_status status = cedar_new(&session, CEDAR_DEPTH);
    struct output output = {NULL, 0};
    char *line = NULL;
    size_t room = 0;
    ssize_t count;
    while (status == CEDAR_DONE && (count = getline(&line, &room, stdin)) > 0) {
        size_t length = (size_t)count - (line[count - 1] == '\n');
        status = do_line(session, line, length);
        if (status == CEDAR_NO_VERB) {
            puts("no command");
            status = CEDAR_DONE;
        } else if (status == CEDAR_DONE) {
            status = put_answer(session, &output);
        }
    }
    if (status != CEDAR_DONE) {
        fprintf(stderr, "%s\n", cedar_status_text(status));
    }
    free(line);
    free(output.at);
    cedar_free(session);
    return status;
}
