/* Sessions of the Cedar authorizer; docs/C.md says what a caller owes, and docs/ANSWERS.md has commands and lines. */
#ifndef CEDAR_H
#define CEDAR_H

#include <stddef.h>
#include <stdint.h>

#ifdef __cplusplus
extern "C" {
#endif

/* The version of this header; cedar_version() is that of the library. While the first number is 0, those with the same
   second number have the same calls. */
#define CEDAR_VERSION "0.2.0"
#define CEDAR_VERSION_MAJOR 0
#define CEDAR_VERSION_MINOR 2

#ifdef __GNUC__
#define CEDAR_API __attribute__((visibility("default")))
#else
#define CEDAR_API
#endif

/* How many bytes a body may have. */
#define CEDAR_BODY_LIMIT 1048576

/* The limit of depth that the program has. */
#define CEDAR_DEPTH 256

/* The highest limit of depth. */
#define CEDAR_DEPTH_MAX 1024

/* How many bytes of a stack a limit of depth takes, below the call. */
#define CEDAR_STACK(depth) (40960 + (size_t)(depth) * 7680)

/* How many bytes of a stack JSON takes, below the call, however low the limit of depth is. */
#define CEDAR_JSON_STACK 131072

/* What a call answers. At any but CEDAR_DONE and CEDAR_FAULT nothing is done, and nothing is written but *written. */
enum cedar_status {
    /* It is done. Of cedar_run: the input ended behind a whole frame; the last line is `end`. */
    CEDAR_DONE = 0,
    /* Of cedar_run: a fault ended the input; the last line tells it. */
    CEDAR_FAULT = 2,
    /* There was no memory: *written is 0. */
    CEDAR_NO_MEMORY = 4,
    /* The text has no room in the output: *written says how many bytes it takes. */
    CEDAR_NO_ROOM = 5,
    /* The handle isn't open. */
    CEDAR_NOT_OPEN = 6,
    /* The handle is open already: its session stays. */
    CEDAR_IS_OPEN = 7,
    /* No verb is spelled so. */
    CEDAR_NO_VERB = 8,
    /* The body is longer than CEDAR_BODY_LIMIT. */
    CEDAR_TOO_LONG = 9,
    /* Another call has the handle: one of another thread, or the one that a signal handler interrupts. */
    CEDAR_BUSY = 10,
    /* The handle is open on another thread, where it stays. */
    CEDAR_OTHER_THREAD = 11,
    /* The limit of depth is above CEDAR_DEPTH_MAX, or this thread's stack has less than CEDAR_STACK of it, or of JSON less than
       CEDAR_JSON_STACK, left. */
    CEDAR_TOO_DEEP = 12,
    /* The text isn't UTF-8. */
    CEDAR_NOT_UTF8 = 13,
    /* No handle (null, a copy, or bytes that nobody closed or opened), no text (null, with a length), no place for
       *written, or an output that overlaps what else is given. */
    CEDAR_MISUSE = 14
};

/* What the last command decided. */
enum cedar_decided {
    /* Nothing: it was no question, it was refused, or cedar_decision itself has failed. */
    CEDAR_DECIDED_NOTHING = 0,
    CEDAR_DECIDED_ALLOW = 1,
    CEDAR_DECIDED_DENY = 2,
    CEDAR_DECIDED_OPEN = 3
};

/* A handle to a session. Either cedar_new makes one, or the caller provides it, closed at first: it stays where it is,
   and nobody else writes to it or reads it. */
typedef struct cedar_session {
    void *at;
    uintptr_t kept[4];
} cedar_session;

/* A handle that is closed: all zeros. */
#define CEDAR_CLOSED {NULL, {0, 0, 0, 0}}

/* Opens a closed handle by a new session, without policies and entities, with this limit of depth. It stays on the
   thread that calls this.
   CEDAR_DONE, CEDAR_NO_MEMORY, CEDAR_IS_OPEN, CEDAR_TOO_DEEP. */
CEDAR_API enum cedar_status cedar_open(cedar_session *session, uint32_t depth);

/* Opens a handle as cedar_open does, by a session whose texts may call the functions of Cedar's types decimal, ipaddr,
   datetime and duration. */
CEDAR_API enum cedar_status cedar_open_standard(cedar_session *session, uint32_t depth);

/* Makes a handle and opens it, as cedar_open does: *session is the handle, or null at any status but CEDAR_DONE.
   cedar_free gives it back. */
CEDAR_API enum cedar_status cedar_new(cedar_session **session, uint32_t depth);

/* Makes a handle and opens it, as cedar_open_standard does. */
CEDAR_API enum cedar_status cedar_new_standard(cedar_session **session, uint32_t depth);

/* Does the command of a verb, as `load`, and a body. What it is answered, a refusal too, stays with the handle until
   the next command: cedar_answer writes it. So no call that does a command has to be repeated, for want of room or
   of memory; one that is repeated does the command again. A body of (NULL, 0) is empty.
   CEDAR_DONE, also where the command is refused; CEDAR_NO_VERB, CEDAR_TOO_LONG, CEDAR_NOT_OPEN, CEDAR_TOO_DEEP. */
CEDAR_API enum cedar_status cedar_command(cedar_session *session, const void *verb, size_t verb_length, const void *body, size_t body_length);

/* Writes the line that answers the last command, with its line feed, to the front of the output; before the first
   command it is empty. *written says how long it is, and behind it the output stays as it was. No zero byte ends it.
   The session stays as it is: the call may be repeated.
   CEDAR_DONE, CEDAR_NO_MEMORY, CEDAR_NO_ROOM, CEDAR_NOT_OPEN. */
CEDAR_API enum cedar_status cedar_answer(cedar_session *session, void *output, size_t output_length, size_t *written);

/* What the last command decided, read off the line that answers it. Only CEDAR_DECIDED_ALLOW allows anything. */
CEDAR_API enum cedar_decided cedar_decision(cedar_session *session);

/* Writes why the session refuses the command of a verb and a body, to the front of the output: a JSON list, of each
   fault an object with `line`, `column`, `endLine` and `endColumn`, from 1, or null where no place is known, the strings
   `kind` and `message`, and `expected` and `help`, strings or null. It is empty where the command isn't refused, and where
   no place of the body shows the reason. The command isn't done, and the session stays as it is. *written says how long the
   list is; no zero byte ends it.
   CEDAR_DONE, CEDAR_NO_MEMORY, CEDAR_NO_ROOM, CEDAR_NO_VERB, CEDAR_TOO_LONG, CEDAR_NOT_OPEN, CEDAR_TOO_DEEP. */
CEDAR_API enum cedar_status cedar_why(cedar_session *session, const void *verb, size_t verb_length, const void *body, size_t body_length,
                                      void *output, size_t output_length, size_t *written);

/* Does the command of a verb of which JSON says the body (docs/JSON.md), as cedar_command does one of which a Cedar text does:
   `link`, `unlink`, `remove-static`, `remove-template`, `add`, `put`, `remove`, `ask`, `ask-partial` or `tell`. What it is answered
   stays with the handle: cedar_answer writes its line, `refused Json` where the JSON says no such body, and `refused Long` where it
   says one that is longer than CEDAR_BODY_LIMIT as a Cedar text.
   CEDAR_DONE, also where the command is refused; CEDAR_NO_VERB, CEDAR_NOT_OPEN, CEDAR_TOO_DEEP. */
CEDAR_API enum cedar_status cedar_command_json(cedar_session *session, const void *verb, size_t verb_length, const void *json, size_t json_length);

/* Writes the answer to the last command as JSON, to the front of the output, where that was a question, by text or by JSON, which
   was accepted; else nothing: `{"decision":"allow","diagnostics":{"reason":["policy0"],"errors":[]}}`, with null for a decision that is
   open. *written says how long it is; no zero byte ends it. The session stays as it is: the call may be repeated.
   CEDAR_DONE, CEDAR_NO_MEMORY, CEDAR_NO_ROOM, CEDAR_NOT_OPEN. */
CEDAR_API enum cedar_status cedar_answer_json(cedar_session *session, void *output, size_t output_length, size_t *written);

/* Writes why JSON says no body of the command of a verb, to the front of the output: a JSON list of one object, which has the first
   fault of the JSON by `line` and `column`, numbers from 1, and the strings `pointer`, `kind` and `message`. It is empty where the
   JSON says such a body, whatever a session does with it. *written says how long the list is; no zero byte ends it.
   CEDAR_DONE, CEDAR_NO_MEMORY, CEDAR_NO_ROOM, CEDAR_NO_VERB, CEDAR_TOO_DEEP. */
CEDAR_API enum cedar_status cedar_why_json(const void *verb, size_t verb_length, const void *json, size_t json_length, void *output,
                                           size_t output_length, size_t *written);

/* Closes a handle, and gives back all memory that its session took. It may be opened again.
   CEDAR_DONE, CEDAR_NOT_OPEN. */
CEDAR_API enum cedar_status cedar_close(cedar_session *session);

/* Closes a handle that cedar_new made, where it is open, and gives it back. Null is none, and done.
   CEDAR_DONE; at any other status it stays. */
CEDAR_API enum cedar_status cedar_free(cedar_session *session);

/* Answers all frames of the input by a new session, without policies and entities. The text of the answers,
   a line for each frame and a last line, stands at the front of the output, and *written says how long it is;
   behind it the output stays as it was. No zero byte ends the text.
   CEDAR_DONE, CEDAR_FAULT, CEDAR_NO_MEMORY, CEDAR_TOO_DEEP, or CEDAR_NO_ROOM: the same call with so much room then
   answers it. */
CEDAR_API enum cedar_status cedar_run(const void *input, size_t input_length, void *output, size_t output_length, size_t *written);

/* The same by a session with this limit of depth, in place of CEDAR_DEPTH. */
CEDAR_API enum cedar_status cedar_run_within(const void *input, size_t input_length, uint32_t depth, void *output, size_t output_length,
                                             size_t *written);

/* Writes the string literal of a text, with its quotes, to the front of the output: so a name that a user chose comes
   into a body. *written says how long it is; no zero byte ends it.
   CEDAR_DONE, CEDAR_NO_ROOM, CEDAR_NOT_UTF8. */
CEDAR_API enum cedar_status cedar_quote(const void *text, size_t length, void *output, size_t output_length, size_t *written);

/* A status in words, without a full stop; of any other number `no status`. */
CEDAR_API const char *cedar_status_text(int status);

/* The version of the library, as CEDAR_VERSION. */
CEDAR_API const char *cedar_version(void);

#ifdef __cplusplus
}
#endif

#endif
