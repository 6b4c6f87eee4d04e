/* What the programs of misuse have in common: a session that allows one question, and what its calls are wanted to answer. */
#ifndef MISUSE_H
#define MISUSE_H

#include "cedar.h"

#include <stdio.h>
#include <string.h>

enum { KIB = 1024 };

static const char alice[] = "permit(principal == User::\"alice\", action, resource);";
static const char question[] = "{principal: User::\"alice\"}";
static const char json_question[] = "{\"principal\": \"User::\\\"alice\\\"\"}";

static int wrong;

static inline void want(int line, const char *what, int found, int wanted) {
    if (found != wanted) {
        fprintf(stderr, "line %d: %s is %d (%s), and not %d\n", line, what, found, cedar_status_text(found), wanted);
        __atomic_store_n(&wrong, 1, __ATOMIC_SEQ_CST);
    }
}

#define WANT(call, wanted) want(__LINE__, #call, (int)(call), (int)(wanted))

static inline enum cedar_status give(cedar_session *session, const char *verb, const char *body) {
    return cedar_command(session, verb, strlen(verb), body, strlen(body));
}

static inline enum cedar_status give_json(cedar_session *session, const char *verb, const char *json) {
    return cedar_command_json(session, verb, strlen(verb), json, strlen(json));
}

static inline enum cedar_status answer(cedar_session *session) {
    char line[256];
    size_t written;
    return cedar_answer(session, line, sizeof line, &written);
}

static inline enum cedar_status answer_json(cedar_session *session) {
    char json[256];
    size_t written;
    return cedar_answer_json(session, json, sizeof json, &written);
}

/* The session answers as it did. */
static inline void want_session(int line, cedar_session *session) {
    want(line, "ask", give(session, "ask", question), CEDAR_DONE);
    want(line, "cedar_decision", cedar_decision(session), CEDAR_DECIDED_ALLOW);
    want(line, "ask-partial", give_json(session, "ask-partial", json_question), CEDAR_DONE);
    want(line, "cedar_decision", cedar_decision(session), CEDAR_DECIDED_ALLOW);
}

#define WANT_SESSION(session) want_session(__LINE__, session)

static inline void opened(cedar_session *session) {
    WANT(cedar_open(session, CEDAR_DEPTH), CEDAR_DONE);
    WANT(give(session, "load", alice), CEDAR_DONE);
}

#endif
