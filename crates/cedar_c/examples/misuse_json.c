/* What a call of JSON answers that is no right one, as misuse.c has it of the others; run as it is, and under valgrind. */
#define _POSIX_C_SOURCE 200809L
#include "cedar.h"
#include "misuse.h"

#include <pthread.h>
#include <stdint.h>
#include <stdlib.h>
#include <string.h>

/* The last command is answered by this line. */
static void want_line(int line, cedar_session *session, const char *wanted) {
    char found[256];
    size_t written = 0;
    want(line, "cedar_answer", cedar_answer(session, found, sizeof found, &written), CEDAR_DONE);
    want(line, wanted, written == strlen(wanted) && memcmp(found, wanted, written) == 0, 1);
}

/* Why JSON says no body of `tell` is this list. */
static void want_fault(int line, const char *json, size_t length, const char *wanted) {
    char list[256];
    size_t written = 0;
    want(line, "cedar_why_json", cedar_why_json("tell", 4, json, length, list, sizeof list, &written), CEDAR_DONE);
    want(line, wanted, written == strlen(wanted) && memcmp(list, wanted, written) == 0, 1);
    want(line, "cedar_why_json", cedar_why_json("tell", 4, json, length, list, written - 1, &written), CEDAR_NO_ROOM);
    want(line, wanted, written == strlen(wanted), 1);
}

static void json_commands(void) {
    cedar_session session = CEDAR_CLOSED;
    static char room[CEDAR_BODY_LIMIT + 16];
    opened(&session);
    WANT(cedar_command_json(&session, "tell", 4, NULL, 0), CEDAR_DONE);
    want_line(__LINE__, &session, "refused Json\n");
    WANT(cedar_command_json(&session, "tell", 4, "{\"a\": \"\xff\"}", 10), CEDAR_DONE);
    want_line(__LINE__, &session, "refused Json\n");
    WANT(cedar_command_json(&session, "tell", 4, "{\"a\": \"\0\"}", 10), CEDAR_DONE);
    want_line(__LINE__, &session, "refused Json\n");
    WANT(cedar_command_json(&session, "tell", 4, room, sizeof room), CEDAR_DONE);
    want_line(__LINE__, &session, "refused Json\n");
    memset(room, 'a', sizeof room);
    memcpy(room, "{\"a\":\"", 6);
    memcpy(room + sizeof room - 2, "\"}", 2);
    WANT(cedar_command_json(&session, "tell", 4, room, sizeof room), CEDAR_DONE);
    want_line(__LINE__, &session, "refused Long\n");
    WANT(give_json(&session, "tell", "{}"), CEDAR_DONE);
    want_line(__LINE__, &session, "refused NoQuestion\n");
    WANT(cedar_decision(&session), CEDAR_DECIDED_NOTHING);
    WANT(cedar_command_json(&session, NULL, 0, NULL, 0), CEDAR_NO_VERB);
    WANT(give_json(&session, "lode", "{}"), CEDAR_NO_VERB);
    WANT(give_json(&session, "load", "{}"), CEDAR_NO_VERB);
    WANT(cedar_command_json(&session, NULL, 4, "", 0), CEDAR_MISUSE);
    WANT(cedar_command_json(&session, "tell", SIZE_MAX, "", 0), CEDAR_MISUSE);
    WANT(cedar_command_json(&session, "tell", 4, NULL, 5), CEDAR_MISUSE);
    WANT(cedar_command_json(&session, "tell", 4, room, SIZE_MAX), CEDAR_MISUSE);
    WANT(cedar_command_json(&session, &session, sizeof session, "", 0), CEDAR_MISUSE);
    WANT(cedar_command_json(&session, "tell", 4, &session, sizeof session), CEDAR_MISUSE);
    want_line(__LINE__, &session, "refused NoQuestion\n");
    WANT_SESSION(&session);
    WANT(cedar_close(&session), CEDAR_DONE);
}

static void json_answers(void) {
    static const char wanted[] = "{\"decision\":\"allow\",\"diagnostics\":{\"reason\":[\"policy0\"],\"errors\":[]}}";
    cedar_session session = CEDAR_CLOSED;
    char room[256];
    size_t written = 1, *within = (size_t *)(void *)(session.kept + 1);
    opened(&session);
    WANT(cedar_answer_json(&session, NULL, 0, &written), CEDAR_DONE);
    WANT(written, 0);
    WANT_SESSION(&session);
    WANT(cedar_answer_json(&session, NULL, 0, &written), CEDAR_NO_ROOM);
    WANT(written, sizeof wanted - 1);
    memset(room, '.', sizeof room);
    WANT(cedar_answer_json(&session, room, written, &written), CEDAR_DONE);
    WANT(memcmp(room, wanted, sizeof wanted - 1) == 0 && room[sizeof wanted - 1] == '.', 1);
    WANT(cedar_answer_json(&session, NULL, 100, &written), CEDAR_MISUSE);
    WANT(cedar_answer_json(&session, room, sizeof room, NULL), CEDAR_MISUSE);
    WANT(cedar_answer_json(&session, room, SIZE_MAX, &written), CEDAR_MISUSE);
    WANT(cedar_answer_json(&session, &written, sizeof written, &written), CEDAR_MISUSE);
    WANT(cedar_answer_json(&session, &session, sizeof session, &written), CEDAR_MISUSE);
    WANT(cedar_answer_json(&session, room, sizeof room, within), CEDAR_MISUSE);
    WANT(give_json(&session, "ask", "{}"), CEDAR_DONE);
    WANT(cedar_answer_json(&session, room, sizeof room, &written), CEDAR_DONE);
    WANT(written, 0);
    WANT_SESSION(&session);
    WANT(cedar_close(&session), CEDAR_DONE);
}

static void json_faults(void) {
    char room[64];
    size_t written = 1;
    want_fault(__LINE__, "{\"a\": [1]}", 10, "[]");
    want_fault(__LINE__, NULL, 0, "[{\"line\":1,\"column\":1,\"pointer\":\"\",\"kind\":\"NotJson\",\"message\":\"no JSON here\"}]");
    want_fault(__LINE__, "\"a\xc3\"", 4, "[{\"line\":1,\"column\":3,\"pointer\":\"\",\"kind\":\"NotUtf8\",\"message\":\"the text is no UTF-8\"}]");
    want_fault(__LINE__, "\n {\"a\": null}", 13,
               "[{\"line\":2,\"column\":8,\"pointer\":\"/a\",\"kind\":\"Null\",\"message\":\"null is no value of Cedar\"}]");
    WANT(cedar_why_json("tell", 4, "{}", 2, NULL, 0, &written), CEDAR_NO_ROOM);
    WANT(written, 2);
    WANT(cedar_why_json("lode", 4, "{}", 2, room, sizeof room, &written), CEDAR_NO_VERB);
    WANT(written, 0);
    WANT(cedar_why_json(NULL, 0, NULL, 0, NULL, 0, &written), CEDAR_NO_VERB);
    WANT(cedar_why_json("load", 4, "{}", 2, room, sizeof room, &written), CEDAR_NO_VERB);
    WANT(cedar_why_json(NULL, 4, "{}", 2, room, sizeof room, &written), CEDAR_MISUSE);
    WANT(cedar_why_json("tell", SIZE_MAX, "{}", 2, room, sizeof room, &written), CEDAR_MISUSE);
    WANT(cedar_why_json("tell", 4, NULL, 2, room, sizeof room, &written), CEDAR_MISUSE);
    WANT(cedar_why_json("tell", 4, "{}", SIZE_MAX, room, sizeof room, &written), CEDAR_MISUSE);
    WANT(cedar_why_json("tell", 4, "{}", 2, NULL, 8, &written), CEDAR_MISUSE);
    WANT(cedar_why_json("tell", 4, "{}", 2, room, SIZE_MAX, &written), CEDAR_MISUSE);
    WANT(cedar_why_json("tell", 4, "{}", 2, room, sizeof room, NULL), CEDAR_MISUSE);
    WANT(cedar_why_json("tell", 4, room, 8, room + 4, 8, &written), CEDAR_MISUSE);
    WANT(cedar_why_json(room, 4, "{}", 2, room, 8, &written), CEDAR_MISUSE);
    WANT(cedar_why_json("tell", 4, &written, sizeof written, room, sizeof room, &written), CEDAR_MISUSE);
    WANT(cedar_why_json("tell", 4, "{}", 2, &written, sizeof written, &written), CEDAR_MISUSE);
}

/* A call that comes ever deeper into the stack is refused before there is none left for JSON; a text then still has it. */
static int deeper_json(cedar_session *session) {
    volatile char frame[4 * KIB];
    char list[64];
    size_t written;
    frame[0] = 0;
    enum cedar_status status = give_json(session, "ask-partial", json_question);
    if (status == CEDAR_DONE) {
        return deeper_json(session) + frame[0];
    }
    WANT(give(session, "ask", question), CEDAR_DONE);
    WANT(cedar_why_json("tell", 4, "{}", 2, list, sizeof list, &written), CEDAR_TOO_DEEP);
    WANT(written, 0);
    return (int)status;
}

static void *on_small_stack(void *unused) {
    cedar_session session = CEDAR_CLOSED;
    WANT(cedar_open(&session, 0), CEDAR_DONE);
    WANT(deeper_json(&session), CEDAR_TOO_DEEP);
    WANT(give_json(&session, "ask-partial", json_question), CEDAR_DONE);
    WANT(cedar_close(&session), CEDAR_DONE);
    return unused;
}

static void depths(void) {
    pthread_attr_t attributes;
    pthread_t thread;
    WANT(pthread_attr_init(&attributes), 0);
    WANT(pthread_attr_setstacksize(&attributes, KIB * KIB), 0);
    WANT(pthread_create(&thread, &attributes, on_small_stack, NULL), 0);
    WANT(pthread_join(thread, NULL), 0);
    pthread_attr_destroy(&attributes);
}

int main(void) {
    json_commands();
    json_answers();
    json_faults();
    depths();
    return wrong ? EXIT_FAILURE : EXIT_SUCCESS;
}
