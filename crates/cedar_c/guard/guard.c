/* The calls of cedar.h: each looks at what it is given, and then calls the proved function of its name. */
#define _GNU_SOURCE /* pthread_getattr_np */
#include "bytes.h"
#include "cedar.h"
#include "proved.h"

#include <pthread.h>
#include <stdlib.h>
#include <string.h>

/* The words of a handle behind its pointer. */
enum word { STATE, THREAD, STACK, DEPTH };

/* States of a handle. Zero is closed; each other is marked by the place of the handle, so that a copy, or what nobody
   wrote, is in none of them. */
enum state { CLOSED, OPEN, NEW_CLOSED, NEW_OPEN, HELD, STATES };

static const uint64_t marks[STATES] = {0, 0x7d3c1a5f9be2486d, 0xb1684e0fd2973ac5, 0x2f95c8e713ad0b6b, 0xe40b72d69f5831a7};

/* The mark of no state. */
enum { GIVEN_BACK = 1 };

static uintptr_t mark_of(const cedar_session *session, enum state state) {
    return state == CLOSED ? 0 : (uintptr_t)session ^ (uintptr_t)marks[state];
}

static enum state state_of(const cedar_session *session, uintptr_t mark) {
    enum state state = CLOSED;
    while (state < STATES && mark_of(session, state) != mark) {
        state++;
    }
    return state;
}

static int is_open(enum state state) {
    return state == OPEN || state == NEW_OPEN;
}

/* (Exchanges are seen by tools that look for races; a store isn't.) */
static void put(cedar_session *session, enum word word, uintptr_t value) {
    (void)__atomic_exchange_n(&session->kept[word], value, __ATOMIC_SEQ_CST);
}

static uintptr_t get(const cedar_session *session, enum word word) {
    return __atomic_load_n(&session->kept[word], __ATOMIC_SEQ_CST);
}

static uintptr_t this_thread(void) {
    return (uintptr_t)pthread_self();
}

/* Holds a handle, so that no other call does, and tells in which state it was. A handle is read only while it is held. */
static enum cedar_status hold(cedar_session *session, enum state *was) {
    if (session == NULL || (uintptr_t)session % _Alignof(cedar_session) != 0) {
        return CEDAR_MISUSE;
    }
    uintptr_t mark = get(session, STATE);
    *was = state_of(session, mark);
    if (*was == STATES) {
        return CEDAR_MISUSE;
    }
    if (*was == HELD) {
        return CEDAR_BUSY;
    }
    if (is_open(*was) && get(session, THREAD) != this_thread()) {
        return CEDAR_OTHER_THREAD;
    }
    if (!__atomic_compare_exchange_n(&session->kept[STATE], &mark, mark_of(session, HELD), 0, __ATOMIC_SEQ_CST, __ATOMIC_SEQ_CST)) {
        return CEDAR_BUSY;
    }
    enum cedar_status status = CEDAR_DONE;
    if (is_open(*was)) {
        status = get(session, THREAD) == this_thread() ? CEDAR_DONE : CEDAR_OTHER_THREAD;
    } else if (session->at != NULL || get(session, THREAD) != 0 || get(session, STACK) != 0 || get(session, DEPTH) != 0) {
        status = CEDAR_MISUSE;
    }
    if (status != CEDAR_DONE) {
        put(session, STATE, mark);
    }
    return status;
}

static void let_go(cedar_session *session, enum state state) {
    put(session, STATE, mark_of(session, state));
}

/* As hold, of a handle that is open. */
static enum cedar_status hold_open(cedar_session *session, enum state *was) {
    enum cedar_status status = hold(session, was);
    if (status == CEDAR_DONE && !is_open(*was)) {
        let_go(session, *was);
        return CEDAR_NOT_OPEN;
    }
    return status;
}

/* The lowest byte of this thread's stack, or 0 where the system doesn't say so. */
static uintptr_t lowest_of_stack(void) {
#ifdef __GLIBC__
    pthread_attr_t attributes;
    void *lowest = NULL;
    size_t size = 0;
    if (pthread_getattr_np(pthread_self(), &attributes) == 0) {
        int told = pthread_attr_getstack(&attributes, &lowest, &size);
        pthread_attr_destroy(&attributes);
        return told == 0 ? (uintptr_t)lowest : 0;
    }
#endif
    return 0;
}

/* Whether so many bytes of a stack are left. A call on a stack that isn't the thread's own isn't looked at. */
static int has_left(uintptr_t lowest, size_t count) {
    return lowest == 0 || (uintptr_t)__builtin_frame_address(0) - lowest >= count;
}

/* Whether a limit of depth has the stack that it takes. */
static int has_stack(uintptr_t lowest, uint32_t depth) {
    return has_left(lowest, CEDAR_STACK(depth));
}

static enum cedar_status look_at_depth(uintptr_t lowest, uint32_t depth) {
    return depth <= CEDAR_DEPTH_MAX && has_stack(lowest, depth) ? CEDAR_DONE : CEDAR_TOO_DEEP;
}

/* What is read where no bytes are given. */
static const uint8_t nothing[1];

static const uint8_t *text_at(const void *text) {
    return text == NULL ? nothing : text;
}

static int is_apart_text(const cedar_session *session, const void *text, size_t length) {
    return is_text(text, length) && are_apart(session, sizeof *session, text, length);
}

static uint8_t *output_at(void *output) {
    static uint8_t none[1];
    return output == NULL ? none : output;
}

/* The proved function that opens a handle. */
typedef uint8_t opener(void **at, uint32_t depth);

/* Opens a handle that is held. */
static enum cedar_status open_held(cedar_session *session, uint32_t depth, enum state was, opener *proved_open) {
    uintptr_t lowest = lowest_of_stack();
    enum cedar_status status = look_at_depth(lowest, depth);
    if (status == CEDAR_DONE) {
        status = (enum cedar_status)proved_open(&session->at, depth);
    }
    if (status == CEDAR_DONE) {
        put(session, THREAD, this_thread());
        put(session, STACK, lowest);
        put(session, DEPTH, depth);
        was = was == NEW_CLOSED ? NEW_OPEN : OPEN;
    }
    let_go(session, was);
    return status;
}

static enum cedar_status open_by(cedar_session *session, uint32_t depth, opener *proved_open) {
    enum state was;
    enum cedar_status status = hold(session, &was);
    if (status != CEDAR_DONE) {
        return status;
    }
    if (is_open(was)) {
        let_go(session, was);
        return CEDAR_IS_OPEN;
    }
    return open_held(session, depth, was, proved_open);
}

enum cedar_status cedar_open(cedar_session *session, uint32_t depth) {
    return open_by(session, depth, cedar_proved_open);
}

enum cedar_status cedar_open_standard(cedar_session *session, uint32_t depth) {
    return open_by(session, depth, cedar_proved_open_standard);
}

static enum cedar_status new_by(cedar_session **session, uint32_t depth, opener *proved_open) {
    if (session == NULL) {
        return CEDAR_MISUSE;
    }
    *session = NULL;
    cedar_session *made = calloc(1, sizeof *made);
    if (made == NULL) {
        return CEDAR_NO_MEMORY;
    }
    enum cedar_status status = open_held(made, depth, NEW_CLOSED, proved_open);
    if (status == CEDAR_DONE) {
        *session = made;
    } else {
        free(made);
    }
    return status;
}

enum cedar_status cedar_new(cedar_session **session, uint32_t depth) {
    return new_by(session, depth, cedar_proved_open);
}

enum cedar_status cedar_new_standard(cedar_session **session, uint32_t depth) {
    return new_by(session, depth, cedar_proved_open_standard);
}

/* Whether a handle that is held may be given these texts. */
static enum cedar_status look_at_texts(const cedar_session *session, const void *verb, size_t verb_length, const void *body, size_t body_length) {
    if (!is_apart_text(session, verb, verb_length) || !is_apart_text(session, body, body_length)) {
        return CEDAR_MISUSE;
    }
    return has_stack(get(session, STACK), (uint32_t)get(session, DEPTH)) ? CEDAR_DONE : CEDAR_TOO_DEEP;
}

/* Whether a handle that is held may be given a command. */
static enum cedar_status look_at_command(const cedar_session *session, const void *verb, size_t verb_length, const void *body, size_t body_length) {
    return body_length > CEDAR_BODY_LIMIT ? CEDAR_TOO_LONG : look_at_texts(session, verb, verb_length, body, body_length);
}

/* The status that a proved function answers to a verb and a body that isn't too long. */
static enum cedar_status of_command(uint8_t done) {
    return done == PROVED_NO_COMMAND ? CEDAR_NO_VERB : (enum cedar_status)done;
}

enum cedar_status cedar_command(cedar_session *session, const void *verb, size_t verb_length, const void *body, size_t body_length) {
    enum state was;
    enum cedar_status status = hold_open(session, &was);
    if (status != CEDAR_DONE) {
        return status;
    }
    status = look_at_command(session, verb, verb_length, body, body_length);
    if (status == CEDAR_DONE) {
        status = of_command(cedar_proved_command(&session->at, text_at(verb), verb_length, text_at(body), body_length));
    }
    let_go(session, was);
    return status;
}

enum cedar_status cedar_command_json(cedar_session *session, const void *verb, size_t verb_length, const void *json, size_t json_length) {
    enum state was;
    enum cedar_status status = hold_open(session, &was);
    if (status != CEDAR_DONE) {
        return status;
    }
    status = look_at_texts(session, verb, verb_length, json, json_length);
    if (status == CEDAR_DONE && !has_left(get(session, STACK), CEDAR_JSON_STACK)) {
        status = CEDAR_TOO_DEEP;
    }
    if (status == CEDAR_DONE) {
        status = of_command(cedar_proved_command_json(&session->at, text_at(verb), verb_length, text_at(json), json_length));
    }
    let_go(session, was);
    return status;
}

/* The proved function that writes what a handle tells. */
typedef uint8_t teller(void **at, uint8_t *output, size_t output_length, size_t *written);

static enum cedar_status answer_by(cedar_session *session, void *output, size_t output_length, size_t *written, teller *proved_answer) {
    if (!is_output(output, output_length, written) || !leaves(session, sizeof *session, output, output_length, written)) {
        return CEDAR_MISUSE;
    }
    *written = 0;
    enum state was;
    enum cedar_status status = hold_open(session, &was);
    if (status == CEDAR_DONE) {
        status = (enum cedar_status)proved_answer(&session->at, output_at(output), output_length, written);
        let_go(session, was);
    }
    return status;
}

enum cedar_status cedar_answer(cedar_session *session, void *output, size_t output_length, size_t *written) {
    return answer_by(session, output, output_length, written, cedar_proved_answer);
}

enum cedar_status cedar_answer_json(cedar_session *session, void *output, size_t output_length, size_t *written) {
    return answer_by(session, output, output_length, written, cedar_proved_answer_json);
}

enum cedar_status cedar_why_json(const void *verb, size_t verb_length, const void *json, size_t json_length, void *output,
                                 size_t output_length, size_t *written) {
    if (!is_text(verb, verb_length) || !is_text(json, json_length) || !is_output(output, output_length, written) ||
        !leaves(verb, verb_length, output, output_length, written) || !leaves(json, json_length, output, output_length, written)) {
        return CEDAR_MISUSE;
    }
    *written = 0;
    if (!has_left(lowest_of_stack(), CEDAR_JSON_STACK)) {
        return CEDAR_TOO_DEEP;
    }
    return of_command(cedar_proved_why_json(text_at(verb), verb_length, text_at(json), json_length, output_at(output), output_length, written));
}

enum cedar_status cedar_why(cedar_session *session, const void *verb, size_t verb_length, const void *body, size_t body_length,
                            void *output, size_t output_length, size_t *written) {
    if (!is_output(output, output_length, written) || !leaves(session, sizeof *session, output, output_length, written) ||
        !leaves(verb, verb_length, output, output_length, written) || !leaves(body, body_length, output, output_length, written)) {
        return CEDAR_MISUSE;
    }
    *written = 0;
    enum state was;
    enum cedar_status status = hold_open(session, &was);
    if (status != CEDAR_DONE) {
        return status;
    }
    status = look_at_command(session, verb, verb_length, body, body_length);
    if (status == CEDAR_DONE) {
        status = of_command(cedar_proved_why(&session->at, text_at(verb), verb_length, text_at(body), body_length, output_at(output),
                                             output_length, written));
    }
    let_go(session, was);
    return status;
}

/* What a line decides, by its first word. */
static enum cedar_decided decided_by(const uint8_t *line, size_t length) {
    static const struct {
        const char *word;
        enum cedar_decided decided;
    } words[] = {{"allow ", CEDAR_DECIDED_ALLOW}, {"deny ", CEDAR_DECIDED_DENY}, {"open ", CEDAR_DECIDED_OPEN}};
    for (size_t at = 0; at < sizeof words / sizeof *words; at++) {
        size_t count = strlen(words[at].word);
        if (length >= count && memcmp(line, words[at].word, count) == 0) {
            return words[at].decided;
        }
    }
    return CEDAR_DECIDED_NOTHING;
}

enum cedar_decided cedar_decision(cedar_session *session) {
    uint8_t front[256], *line = front;
    size_t written = 0;
    enum state was;
    enum cedar_decided decided = CEDAR_DECIDED_NOTHING;
    if (hold_open(session, &was) != CEDAR_DONE) {
        return decided;
    }
    uint8_t status = cedar_proved_answer(&session->at, line, sizeof front, &written);
    if (status == PROVED_NO_ROOM) {
        size_t room = written;
        line = malloc(room);
        status = line == NULL ? status : cedar_proved_answer(&session->at, line, room, &written);
    }
    if (status == PROVED_DONE) {
        decided = decided_by(line, written);
    }
    let_go(session, was);
    if (line != front) {
        free(line);
    }
    return decided;
}

/* Closes an open handle that is held. */
static void close_held(cedar_session *session) {
    (void)cedar_proved_close(&session->at);
    put(session, THREAD, 0);
    put(session, STACK, 0);
    put(session, DEPTH, 0);
}

enum cedar_status cedar_close(cedar_session *session) {
    enum state was;
    enum cedar_status status = hold_open(session, &was);
    if (status == CEDAR_DONE) {
        close_held(session);
        let_go(session, was == NEW_OPEN ? NEW_CLOSED : CLOSED);
    }
    return status;
}

enum cedar_status cedar_free(cedar_session *session) {
    if (session == NULL) {
        return CEDAR_DONE;
    }
    enum state was;
    enum cedar_status status = hold(session, &was);
    if (status != CEDAR_DONE) {
        return status;
    }
    if (was == OPEN || was == CLOSED) {
        let_go(session, was);
        return CEDAR_MISUSE;
    }
    if (was == NEW_OPEN) {
        close_held(session);
    }
    put(session, STATE, GIVEN_BACK);
    free(session);
    return CEDAR_DONE;
}

enum cedar_status cedar_run(const void *input, size_t input_length, void *output, size_t output_length, size_t *written) {
    return cedar_run_within(input, input_length, CEDAR_DEPTH, output, output_length, written);
}

enum cedar_status cedar_run_within(const void *input, size_t input_length, uint32_t depth, void *output, size_t output_length, size_t *written) {
    if (!is_text(input, input_length) || !is_output(output, output_length, written) || !leaves(input, input_length, output, output_length, written)) {
        return CEDAR_MISUSE;
    }
    *written = 0;
    enum cedar_status status = look_at_depth(lowest_of_stack(), depth);
    if (status == CEDAR_DONE) {
        status = (enum cedar_status)cedar_proved_run_within(text_at(input), input_length, depth, output_at(output), output_length, written);
    }
    return status;
}
