/* Reads commands, a line each, a verb, a space and JSON, or of `load` policies, and does each. Writes the line that answers it, behind that of a
   question the answer as JSON, and why JSON is none. */
#define _POSIX_C_SOURCE 200809L /* getline */
#include "cedar.h"

#include <stdio.h>
#include <stdlib.h>
#include <string.h>

/* A command: its verb, and behind the space what it is given. */
struct command {
    const char *verb, *given;
    size_t verb_length, given_length;
};

/* Each writes a text to an output. */
typedef enum cedar_status writer(cedar_session *session, const struct command *command, void *output, size_t room, size_t *written);

static enum cedar_status line(cedar_session *session, const struct command *command, void *output, size_t room, size_t *written) {
    (void)command;
    return cedar_answer(session, output, room, written);
}

static enum cedar_status answer(cedar_session *session, const struct command *command, void *output, size_t room, size_t *written) {
    (void)command;
    return cedar_answer_json(session, output, room, written);
}

static enum cedar_status why(cedar_session *session, const struct command *command, void *output, size_t room, size_t *written) {
    (void)session;
    return cedar_why_json(command->verb, command->verb_length, command->given, command->given_length, output, room, written);
}

/* Writes a text, if there is any, with a line feed where it has none. */
static enum cedar_status put(cedar_session *session, const struct command *command, writer *write) {
    char front[64], *output = front;
    size_t written = 0;
    enum cedar_status status = write(session, command, output, sizeof front, &written);
    if (status == CEDAR_NO_ROOM) {
        size_t room = written;
        output = malloc(room);
        status = output == NULL ? CEDAR_NO_MEMORY : write(session, command, output, room, &written);
    }
    if (status == CEDAR_DONE && written > 0) {
        fwrite(output, 1, written, stdout);
        if (output[written - 1] != '\n') {
            putchar('\n');
        }
    }
    if (output != front) {
        free(output);
    }
    return status;
}

/* Does a command that takes JSON, and tells what it is answered. */
static enum cedar_status do_json(cedar_session *session, const struct command *command) {
    enum cedar_status status = cedar_command_json(session, command->verb, command->verb_length, command->given, command->given_length);
    writer *writers[] = {line, answer, why};
    for (size_t at = 0; status == CEDAR_DONE && at < sizeof writers / sizeof *writers; at++) {
        status = put(session, command, writers[at]);
    }
    return status;
}

static enum cedar_status do_line(cedar_session *session, const char *text, size_t length) {
    const char *space = memchr(text, ' ', length);
    size_t verb = space == NULL ? length : (size_t)(space - text);
    size_t given = space == NULL ? length : verb + 1;
    struct command command = {text, text + given, verb, length - given};
    if (verb != strlen("load") || memcmp(text, "load", verb) != 0) {
        return do_json(session, &command);
    }
    enum cedar_status status = cedar_command(session, text, verb, command.given, command.given_length);
    return status == CEDAR_DONE ? put(session, &command, line) : status;
}

int main(void) {
    cedar_session *session;
    enum cedar_status status = cedar_new_standard(&session, CEDAR_DEPTH);
    char *text = NULL;
    size_t room = 0;
    ssize_t count;
    while (status == CEDAR_DONE && (count = getline(&text, &room, stdin)) > 0) {
        status = do_line(session, text, (size_t)count - (text[count - 1] == '\n'));
        if (status == CEDAR_NO_VERB) {
            puts("no command");
            status = CEDAR_DONE;
        }
    }
    if (status != CEDAR_DONE) {
        fprintf(stderr, "%s\n", cedar_status_text(status));
    }
    free(text);
    cedar_free(session);
    return status;
}
