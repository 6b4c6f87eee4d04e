/* Does what the program `cedar_session` does, by a handle: reads frames, and writes the line that answers each. The
   program's own sessions are tried on it, also with requests for memory refused, which it then makes again. */
#define _POSIX_C_SOURCE 200809L
#include "cedar.h"

#include <stdio.h>
#include <stdlib.h>
#include <string.h>
#include <unistd.h>

enum { HEAD_LIMIT = 32, TRIES = 8, ENDED = 0, USAGE = 1, FAULT = 2, DEVICE = 3, NO_MEMORY = 4 };

static char body[CEDAR_BODY_LIMIT + 1];
static cedar_session session = CEDAR_CLOSED;

/* Ends the program, and gives back what the session took. */
static _Noreturn void end(int status) {
    cedar_close(&session);
    exit(status);
}

/* Writes all of a text, or ends the program. */
static void put(const char *text, size_t length) {
    while (length > 0) {
        ssize_t count = write(STDOUT_FILENO, text, length);
        if (count <= 0) {
            end(DEVICE);
        }
        text += count;
        length -= (size_t)count;
    }
}

static _Noreturn void end_with(const char *line, int status) {
    put(line, strlen(line));
    end(status);
}

/* Reads so many bytes, or fewer at the end of the input. */
static size_t get(char *into, size_t length) {
    size_t used = 0;
    while (used < length) {
        ssize_t count = read(STDIN_FILENO, into + used, length - used);
        if (count < 0) {
            end(DEVICE);
        }
        if (count == 0) {
            break;
        }
        used += (size_t)count;
    }
    return used;
}

/* Reads a head into a text without its line feed, and answers its length; ends the program at the end of the input. */
static size_t get_head(char *head) {
    size_t length = 0;
    for (;;) {
        char byte;
        if (get(&byte, 1) == 0) {
            end_with(length == 0 ? "end\n" : "fault Truncated\n", length == 0 ? ENDED : FAULT);
        }
        if (byte == '\n') {
            return length;
        }
        if (length == HEAD_LIMIT) {
            end_with("fault BadHead\n", FAULT);
        }
        head[length++] = byte;
    }
}

static int is_verb(const char *word, size_t length) {
    static const char *const verbs[] = {"load", "link", "unlink", "remove-static", "remove-template", "add", "put", "remove", "ask", "tell"};
    for (size_t at = 0; at < sizeof verbs / sizeof *verbs; at++) {
        if (strlen(verbs[at]) == length && memcmp(verbs[at], word, length) == 0) {
            return 1;
        }
    }
    return 0;
}

/* The number that digits spell, or one over the limit where it is higher; ends the program where they spell none. */
static size_t number_of(const char *digits, size_t length) {
    size_t number = 0;
    if (length == 0 || (digits[0] == '0' && length > 1) || strspn(digits, "0123456789") != length) {
        end_with("fault BadHead\n", FAULT);
    }
    for (size_t at = 0; at < length && number <= CEDAR_BODY_LIMIT; at++) {
        number = number * 10 + (size_t)(digits[at] - '0');
    }
    return number;
}

/* Writes the line of the last command. */
static void put_answer(void) {
    static char *output;
    static size_t room;
    size_t written = 0;
    enum cedar_status status = CEDAR_NO_MEMORY;
    for (int tries = 0; tries < TRIES && status != CEDAR_DONE; tries++) {
        status = cedar_answer(&session, room == 0 ? body : output, room, &written);
        char *grown = status == CEDAR_NO_ROOM ? realloc(output, written) : NULL;
        if (grown != NULL) {
            output = grown;
            room = written;
        }
    }
    if (status != CEDAR_DONE) {
        end(NO_MEMORY);
    }
    put(output, written);
}

int main(int count, char **words) {
    /* (as `cedar_cli session` does, whose texts may call the functions of Cedar's extension types) */
    int standard = count == 2 && strcmp(words[1], "session") == 0;
    if (count > 1 && !standard) {
        fprintf(stderr, "usage: cedar_session\n");
        return USAGE;
    }
    if ((standard ? cedar_open_standard : cedar_open)(&session, CEDAR_DEPTH) != CEDAR_DONE) {
        return NO_MEMORY;
    }
    for (;;) {
        char head[HEAD_LIMIT + 1] = {0};
        size_t length = get_head(head);
        const char *space = memchr(head, ' ', length);
        size_t verb = space == NULL ? 0 : (size_t)(space - head);
        if (space == NULL || !is_verb(head, verb)) {
            end_with("fault BadHead\n", FAULT);
        }
        size_t number = number_of(space + 1, length - verb - 1);
        if (number > CEDAR_BODY_LIMIT) {
            end_with("fault TooLong\n", FAULT);
        }
        if (get(body, number + 1) <= number) {
            end_with("fault Truncated\n", FAULT);
        }
        if (body[number] != '\n') {
            end_with("fault NoLineFeed\n", FAULT);
        }
        if (cedar_command(&session, head, verb, body, number) != CEDAR_DONE) {
            end(FAULT);
        }
        put_answer();
    }
}
