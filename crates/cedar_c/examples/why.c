/* Reads commands, a line each, a verb, a space and a body, and writes for each why a session would refuse it: a list of JSON. Then it does the
   command. */
#define _POSIX_C_SOURCE 200809L /* getline */
#include "cedar.h"

#include <stdio.h>
#include <stdlib.h>
#include <string.h>

/* Writes the list of a command's faults, and answers its status. */
static enum cedar_status put_why(cedar_session *session, const char *line, size_t verb, const char *body, size_t body_length) {
    char front[256], *output = front;
    size_t written = 0;
    enum cedar_status status = cedar_why(session, line, verb, body, body_length, output, sizeof front, &written);
    if (status == CEDAR_NO_ROOM) {
        size_t room = written;
        output = malloc(room);
        status = output == NULL ? CEDAR_NO_MEMORY : cedar_why(session, line, verb, body, body_length, output, room, &written);
    }
    if (status == CEDAR_DONE) {
        fwrite(output, 1, written, stdout);
        putchar('\n');
    }
    if (output != front) {
        free(output);
    }
    return status;
}

/* Says why the command of a line would be refused, does it, and answers the status. */
static enum cedar_status do_line(cedar_session *session, const char *line, size_t length) {
    const char *space = memchr(line, ' ', length);
    size_t verb = space == NULL ? length : (size_t)(space - line);
    size_t body = space == NULL ? length : verb + 1;
    enum cedar_status status = put_why(session, line, verb, line + body, length - body);
    return status == CEDAR_DONE ? cedar_command(session, line, verb, line + body, length - body) : status;
}

int main(void) {
    cedar_session *session;
    enum cedar_status status = cedar_new_standard(&session, CEDAR_DEPTH);
    char *line = NULL;
    size_t room = 0;
    ssize_t count;
    while (status == CEDAR_DONE && (count = getline(&line, &room, stdin)) > 0) {
        status = do_line(session, line, (size_t)count - (line[count - 1] == '\n'));
        if (status == CEDAR_NO_VERB) {
            puts("no command");
            status = CEDAR_DONE;
        }
    }
    if (status != CEDAR_DONE) {
        fprintf(stderr, "%s\n", cedar_status_text(status));
    }
    free(line);
    cedar_free(session);
    return status;
}
