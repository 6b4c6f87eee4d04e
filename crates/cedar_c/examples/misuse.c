/* What a call answers that is no right one: no status is a crash, and the session stays. Linked with -Wl,--wrap=malloc, so that a call comes
   into the middle of another; run as it is, under valgrind, and with `threads` under helgrind. */
#define _POSIX_C_SOURCE 200809L
#include "cedar.h"
#include "misuse.h"

#include <pthread.h>
#include <stdio.h>
#include <stdlib.h>
#include <string.h>

enum { CALLS = 600 };

static const char any[] = "permit(principal, action, resource);";

/* What malloc calls before it gives anything. */
static void (*inside)(void);

void *__real_malloc(size_t size);
void *__wrap_malloc(size_t size);
void *__wrap_malloc(size_t size) {
    void (*call)(void) = inside;
    inside = NULL;
    if (call != NULL) {
        call();
    }
    return __real_malloc(size);
}

static enum cedar_status why(cedar_session *session) {
    char list[256];
    size_t written;
    return cedar_why(session, "ask", 3, "3", 1, list, sizeof list, &written);
}

/* Every call of a handle answers so. */
static void want_all(int line, cedar_session *session, enum cedar_status wanted) {
    want(line, "cedar_command", give(session, "ask", "{}"), wanted);
    want(line, "cedar_answer", answer(session), wanted);
    want(line, "cedar_why", why(session), wanted);
    want(line, "cedar_command_json", give_json(session, "ask-partial", "{}"), wanted);
    want(line, "cedar_answer_json", answer_json(session), wanted);
    want(line, "cedar_decision", cedar_decision(session), CEDAR_DECIDED_NOTHING);
    want(line, "cedar_close", cedar_close(session), wanted);
}

#define WANT_ALL(session, wanted) want_all(__LINE__, session, wanted)

static void no_handles(void) {
    cedar_session garbage;
    memset(&garbage, 0xab, sizeof garbage);
    WANT(cedar_open(&garbage, CEDAR_DEPTH), CEDAR_MISUSE);
    WANT_ALL(&garbage, CEDAR_MISUSE);
    WANT(cedar_free(&garbage), CEDAR_MISUSE);
    char *heap = malloc(64);
    cedar_session half = {heap, {0, 0, 0, 0}};
    WANT(cedar_open(&half, CEDAR_DEPTH), CEDAR_MISUSE);
    WANT_ALL(&half, CEDAR_MISUSE);
    free(heap);
    WANT(cedar_open(NULL, CEDAR_DEPTH), CEDAR_MISUSE);
    WANT_ALL(NULL, CEDAR_MISUSE);
    WANT(cedar_new(NULL, CEDAR_DEPTH), CEDAR_MISUSE);
    WANT(cedar_open_standard(&half, CEDAR_DEPTH), CEDAR_MISUSE);
    WANT(cedar_open_standard(NULL, CEDAR_DEPTH), CEDAR_MISUSE);
    WANT(cedar_new_standard(NULL, CEDAR_DEPTH), CEDAR_MISUSE);
    char bytes[sizeof(cedar_session) + 1] = {0};
    WANT(cedar_open((cedar_session *)(void *)(bytes + ((uintptr_t)bytes % 2 == 0)), CEDAR_DEPTH), CEDAR_MISUSE);
}

static void copies(void) {
    cedar_session session = CEDAR_CLOSED, copy;
    opened(&session);
    copy = session;
    WANT(cedar_open(&copy, CEDAR_DEPTH), CEDAR_MISUSE);
    WANT_ALL(&copy, CEDAR_MISUSE);
    WANT_SESSION(&session);
    WANT(cedar_close(&session), CEDAR_DONE);
    WANT_ALL(&copy, CEDAR_MISUSE);
}

static void closed_ones(void) {
    cedar_session session = CEDAR_CLOSED;
    WANT_ALL(&session, CEDAR_NOT_OPEN);
    opened(&session);
    WANT(cedar_open(&session, CEDAR_DEPTH), CEDAR_IS_OPEN);
    WANT(cedar_open_standard(&session, CEDAR_DEPTH), CEDAR_IS_OPEN);
    WANT_SESSION(&session);
    WANT(cedar_close(&session), CEDAR_DONE);
    WANT_ALL(&session, CEDAR_NOT_OPEN);
    opened(&session);
    WANT_SESSION(&session);
    WANT(cedar_free(&session), CEDAR_MISUSE);
    WANT(cedar_close(&session), CEDAR_DONE);
    WANT(cedar_free(&session), CEDAR_MISUSE);
}

static void new_ones(void) {
    cedar_session *session;
    WANT(cedar_new(&session, CEDAR_DEPTH), CEDAR_DONE);
    WANT(give(session, "load", any), CEDAR_DONE);
    WANT_SESSION(session);
    WANT(cedar_close(session), CEDAR_DONE);
    WANT_ALL(session, CEDAR_NOT_OPEN);
    WANT(cedar_open(session, CEDAR_DEPTH), CEDAR_DONE);
    WANT(cedar_free(session), CEDAR_DONE);
    WANT(cedar_new(&session, CEDAR_DEPTH), CEDAR_DONE);
    WANT(cedar_close(session), CEDAR_DONE);
    WANT(cedar_free(session), CEDAR_DONE);
    WANT(cedar_free(NULL), CEDAR_DONE);
    WANT(cedar_new(&session, CEDAR_DEPTH_MAX + 1), CEDAR_TOO_DEEP);
    WANT(session == NULL, 1);
    WANT(cedar_new_standard(&session, CEDAR_DEPTH_MAX + 1), CEDAR_TOO_DEEP);
    WANT(session == NULL, 1);
    WANT(cedar_new_standard(&session, CEDAR_DEPTH), CEDAR_DONE);
    WANT(give(session, "load", any), CEDAR_DONE);
    WANT_SESSION(session);
    WANT(cedar_close(session), CEDAR_DONE);
    WANT(cedar_open_standard(session, CEDAR_DEPTH), CEDAR_DONE);
    WANT(cedar_free(session), CEDAR_DONE);
}

static void texts(void) {
    cedar_session session = CEDAR_CLOSED;
    static char room[CEDAR_BODY_LIMIT + 1];
    size_t written = 1, *within = (size_t *)(void *)(session.kept + 1);
    opened(&session);
    WANT(cedar_command(&session, "load", 4, NULL, 0), CEDAR_DONE);
    WANT(cedar_answer(&session, room, sizeof room, &written), CEDAR_DONE);
    WANT(written == 6 && memcmp(room, "ok []\n", 6) == 0, 1);
    WANT(cedar_command(&session, NULL, 0, NULL, 0), CEDAR_NO_VERB);
    WANT(cedar_command(&session, "load", 4, NULL, 5), CEDAR_MISUSE);
    WANT(cedar_command(&session, NULL, 4, "", 0), CEDAR_MISUSE);
    WANT(cedar_command(&session, &session, sizeof session, "", 0), CEDAR_MISUSE);
    WANT(cedar_command(&session, "load", SIZE_MAX, "", 0), CEDAR_MISUSE);
    WANT(cedar_command(&session, "lode", 4, "", 0), CEDAR_NO_VERB);
    WANT(cedar_command(&session, "load", 4, room, sizeof room), CEDAR_TOO_LONG);
    WANT(cedar_command(&session, "load", 4, room, SIZE_MAX), CEDAR_TOO_LONG);
    WANT(cedar_answer(&session, NULL, 0, &written), CEDAR_NO_ROOM);
    WANT(written, 6);
    WANT(cedar_answer(&session, NULL, 100, &written), CEDAR_MISUSE);
    WANT(cedar_answer(&session, room, sizeof room, NULL), CEDAR_MISUSE);
    WANT(cedar_answer(&session, room, SIZE_MAX, &written), CEDAR_MISUSE);
    WANT(cedar_answer(&session, &written, sizeof written, &written), CEDAR_MISUSE);
    WANT(cedar_answer(&session, &session, sizeof session, &written), CEDAR_MISUSE);
    WANT(cedar_answer(&session, room, sizeof room, within), CEDAR_MISUSE);
    WANT(cedar_why(&session, "load", 4, NULL, 0, room, sizeof room, &written), CEDAR_DONE);
    WANT(written == 2 && memcmp(room, "[]", 2) == 0, 1);
    WANT(cedar_why(&session, "load", 4, NULL, 0, NULL, 0, &written), CEDAR_NO_ROOM);
    WANT(written, 2);
    WANT(cedar_why(&session, "lode", 4, "", 0, room, sizeof room, &written), CEDAR_NO_VERB);
    WANT(written, 0);
    WANT(cedar_why(&session, "load", 4, room, sizeof room, NULL, 0, &written), CEDAR_TOO_LONG);
    WANT(cedar_why(&session, "load", 4, NULL, 5, room, sizeof room, &written), CEDAR_MISUSE);
    WANT(cedar_why(&session, "load", 4, room, 8, room + 4, 8, &written), CEDAR_MISUSE);
    WANT(cedar_why(&session, room, 4, "", 0, room, 8, &written), CEDAR_MISUSE);
    WANT(cedar_why(&session, "load", 4, "", 0, room, sizeof room, within), CEDAR_MISUSE);
    WANT_SESSION(&session);
    WANT(cedar_close(&session), CEDAR_DONE);
}

static void runs(void) {
    char line[16];
    size_t written;
    WANT(cedar_run(NULL, 0, line, sizeof line, &written), CEDAR_DONE);
    WANT(written == 4 && memcmp(line, "end\n", 4) == 0, 1);
    WANT(cedar_run("ask", 3, line, sizeof line, &written), CEDAR_FAULT);
    WANT(cedar_run("ask", 3, line, sizeof line - 1, &written), CEDAR_NO_ROOM);
    WANT(written, sizeof line);
    WANT(cedar_run(NULL, 3, line, sizeof line, &written), CEDAR_MISUSE);
    WANT(cedar_run("ask", 3, NULL, 3, &written), CEDAR_MISUSE);
    WANT(cedar_run("ask", 3, line, sizeof line, NULL), CEDAR_MISUSE);
    WANT(cedar_run(line, sizeof line, line + 8, 8, &written), CEDAR_MISUSE);
    WANT(cedar_run_within("", 0, CEDAR_DEPTH_MAX, line, sizeof line, &written), CEDAR_DONE);
    WANT(cedar_run_within("", 0, CEDAR_DEPTH_MAX + 1, line, sizeof line, &written), CEDAR_TOO_DEEP);
    WANT(written, 0);
}

static cedar_session busy = CEDAR_CLOSED;
static int calls_inside;

static void call_busy(void) {
    calls_inside++;
    WANT(cedar_open(&busy, CEDAR_DEPTH), CEDAR_BUSY);
    WANT_ALL(&busy, CEDAR_BUSY);
}

static void busy_ones(void) {
    opened(&busy);
    inside = call_busy;
    WANT(give(&busy, "load", any), CEDAR_DONE);
    inside = call_busy;
    WANT(answer(&busy), CEDAR_DONE);
    inside = NULL;
    WANT(calls_inside > 0, 1);
    calls_inside = 0;
    inside = call_busy;
    WANT(give_json(&busy, "ask-partial", json_question), CEDAR_DONE);
    WANT(calls_inside, 1);
    inside = call_busy;
    WANT(answer_json(&busy), CEDAR_DONE);
    inside = NULL;
    WANT_SESSION(&busy);
    WANT(cedar_close(&busy), CEDAR_DONE);
}

/* A call that comes ever deeper into the stack is refused before there is none left. */
static int deeper(cedar_session *session) {
    volatile char frame[16 * KIB];
    frame[0] = 0;
    enum cedar_status status = give(session, "load", any);
    return status == CEDAR_DONE ? deeper(session) + frame[0] : (int)status;
}

static void *on_small_stack(void *unused) {
    cedar_session session = CEDAR_CLOSED;
    char line[16];
    size_t written;
    WANT(cedar_open(&session, CEDAR_DEPTH), CEDAR_TOO_DEEP);
    WANT(cedar_run("", 0, line, sizeof line, &written), CEDAR_TOO_DEEP);
    WANT(cedar_open(&session, 16), CEDAR_DONE);
    WANT(deeper(&session), CEDAR_TOO_DEEP);
    WANT(give(&session, "ask", question), CEDAR_DONE);
    WANT(cedar_close(&session), CEDAR_DONE);
    return unused;
}

static void depths(void) {
    cedar_session session = CEDAR_CLOSED;
    pthread_attr_t attributes;
    pthread_t thread;
    WANT(cedar_open(&session, CEDAR_DEPTH_MAX + 1), CEDAR_TOO_DEEP);
    WANT(cedar_open(&session, UINT32_MAX), CEDAR_TOO_DEEP);
    WANT_ALL(&session, CEDAR_NOT_OPEN);
    WANT(pthread_attr_init(&attributes), 0);
    WANT(pthread_attr_setstacksize(&attributes, KIB * KIB), 0);
    WANT(pthread_create(&thread, &attributes, on_small_stack, NULL), 0);
    WANT(pthread_join(thread, NULL), 0);
    pthread_attr_destroy(&attributes);
}

static cedar_session shared = CEDAR_CLOSED;

static void *elsewhere(void *unused) {
    for (int at = 0; at < CALLS; at++) {
        enum cedar_status status = give(&shared, "ask", "{principal: User::\"mallory\"}");
        WANT(status == CEDAR_OTHER_THREAD || status == CEDAR_BUSY, 1);
        status = answer(&shared);
        WANT(status == CEDAR_OTHER_THREAD || status == CEDAR_BUSY, 1);
        status = give_json(&shared, "ask-partial", "{}");
        WANT(status == CEDAR_OTHER_THREAD || status == CEDAR_BUSY, 1);
        status = answer_json(&shared);
        WANT(status == CEDAR_OTHER_THREAD || status == CEDAR_BUSY, 1);
        status = cedar_close(&shared);
        WANT(status == CEDAR_OTHER_THREAD || status == CEDAR_BUSY, 1);
        WANT(cedar_decision(&shared), CEDAR_DECIDED_NOTHING);
    }
    return unused;
}

static void threads(void) {
    pthread_t others[2];
    opened(&shared);
    for (int at = 0; at < 2; at++) {
        WANT(pthread_create(&others[at], NULL, elsewhere, NULL), 0);
    }
    for (int at = 0; at < CALLS; at++) {
        WANT_SESSION(&shared);
    }
    for (int at = 0; at < 2; at++) {
        WANT(pthread_join(others[at], NULL), 0);
    }
    WANT_SESSION(&shared);
    WANT(cedar_close(&shared), CEDAR_DONE);
}

static pthread_barrier_t both;

static void *open_once(void *count) {
    enum cedar_status status = cedar_open(&shared, CEDAR_DEPTH);
    if (status == CEDAR_DONE) {
        __atomic_add_fetch((int *)count, 1, __ATOMIC_SEQ_CST);
    } else {
        WANT(status == CEDAR_BUSY || status == CEDAR_OTHER_THREAD, 1);
    }
    pthread_barrier_wait(&both);
    if (status == CEDAR_DONE) {
        WANT(give(&shared, "load", alice), CEDAR_DONE);
        WANT_SESSION(&shared);
        WANT(cedar_close(&shared), CEDAR_DONE);
    }
    return NULL;
}

/* Of two that open a handle at once one does. */
static void races(void) {
    pthread_t others[2];
    int count = 0;
    WANT(pthread_barrier_init(&both, NULL, 2), 0);
    for (int at = 0; at < 2; at++) {
        WANT(pthread_create(&others[at], NULL, open_once, &count), 0);
    }
    for (int at = 0; at < 2; at++) {
        WANT(pthread_join(others[at], NULL), 0);
    }
    WANT(pthread_barrier_destroy(&both), 0);
    WANT(count, 1);
    WANT_ALL(&shared, CEDAR_NOT_OPEN);
}

static void decisions(void) {
    cedar_session session = CEDAR_CLOSED;
    opened(&session);
    WANT(cedar_decision(&session), CEDAR_DECIDED_NOTHING);
    WANT_SESSION(&session);
    WANT(give(&session, "ask", "{principal: User::\"mallory\"}"), CEDAR_DONE);
    WANT(cedar_decision(&session), CEDAR_DECIDED_DENY);
    WANT(give(&session, "ask", "{}"), CEDAR_DONE);
    WANT(cedar_decision(&session), CEDAR_DECIDED_OPEN);
    WANT(give(&session, "tell", "{principal: User::\"alice\"}"), CEDAR_DONE);
    WANT(cedar_decision(&session), CEDAR_DECIDED_ALLOW);
    WANT(give(&session, "ask", "{principal: }"), CEDAR_DONE);
    WANT(cedar_decision(&session), CEDAR_DECIDED_NOTHING);
    for (int at = 0; at < 100; at++) {
        WANT(give(&session, "load", any), CEDAR_DONE);
    }
    WANT_SESSION(&session);
    WANT(answer(&session), CEDAR_NO_ROOM);
    WANT(cedar_close(&session), CEDAR_DONE);
}

/* The literal of a text is this. */
static void want_literal(int line, const char *text, size_t length, const char *wanted) {
    char literal[64];
    size_t written = 0;
    want(line, "cedar_quote", cedar_quote(text, length, literal, sizeof literal, &written), CEDAR_DONE);
    want(line, text, written == strlen(wanted) && memcmp(literal, wanted, written) == 0, 1);
    want(line, "cedar_quote", cedar_quote(text, length, literal, written - 1, &written), CEDAR_NO_ROOM);
    want(line, text, written == strlen(wanted), 1);
}

static void literals(void) {
    static const char *const bad[] = {"\x80",         "a\xff",        "\xc0\x80",         "\xc3",            "\xe0\x80\x80",
                                      "\xed\xa0\x80", "\xf0\x80\x80\x80", "\xf4\x90\x80\x80", "\xf8\x88\x80\x80\x80"};
    char literal[64];
    size_t written;
    want_literal(__LINE__, "", 0, "\"\"");
    want_literal(__LINE__, NULL, 0, "\"\"");
    want_literal(__LINE__, "root\"}//", 8, "\"root\\\"}//\"");
    want_literal(__LINE__, "\\\n\r\t\0'", 6, "\"\\\\\\n\\r\\t\\0'\"");
    want_literal(__LINE__, "\xc3\xa9 \xe2\x82\xac \xf0\x9f\x8c\xb2", 11, "\"\xc3\xa9 \xe2\x82\xac \xf0\x9f\x8c\xb2\"");
    for (size_t at = 0; at < sizeof bad / sizeof *bad; at++) {
        WANT(cedar_quote(bad[at], strlen(bad[at]), literal, sizeof literal, &written), CEDAR_NOT_UTF8);
        WANT(written, 0);
    }
    WANT(cedar_quote(NULL, 1, literal, sizeof literal, &written), CEDAR_MISUSE);
    WANT(cedar_quote("a", 1, NULL, 9, &written), CEDAR_MISUSE);
    WANT(cedar_quote("a", 1, literal, sizeof literal, NULL), CEDAR_MISUSE);
    WANT(cedar_quote(literal, 4, literal, sizeof literal, &written), CEDAR_MISUSE);
}

/* What a user may have typed stays a name. */
static void names(void) {
    cedar_session session = CEDAR_CLOSED;
    uint32_t random = 1;
    WANT(cedar_open(&session, CEDAR_DEPTH), CEDAR_DONE);
    for (int at = 0; at < CALLS / 2; at++) {
        char name[8], literal[32], body[128];
        size_t written = 0;
        for (size_t byte = 0; byte < sizeof name; byte++) {
            random = random * 1664525 + 1013904223;
            name[byte] = (random >> 8) % 3 == 0 ? "\"\\\n\r\t0{}/*'u"[(random >> 16) % 13] : (char)(random >> 16 & 0x7f);
        }
        WANT(cedar_quote(name, sizeof name, literal, sizeof literal, &written), CEDAR_DONE);
        snprintf(body, sizeof body, "permit(principal == User::%.*s, action, resource);", (int)written, literal);
        WANT(give(&session, "load", body), CEDAR_DONE);
        snprintf(body, sizeof body, "{principal: User::%.*s}", (int)written, literal);
        WANT(give(&session, "ask", body), CEDAR_DONE);
        WANT(cedar_decision(&session), CEDAR_DECIDED_ALLOW);
        WANT(give(&session, "remove-static", "\"policy0\""), CEDAR_DONE);
    }
    WANT(cedar_close(&session), CEDAR_DONE);
}

static void words(void) {
    WANT(strcmp(cedar_version(), CEDAR_VERSION), 0);
    for (int status = CEDAR_DONE; status <= CEDAR_MISUSE; status++) {
        WANT(strcmp(cedar_status_text(status), "no status") == 0, status == 1 || status == 3);
    }
    WANT(strcmp(cedar_status_text(-1), "no status"), 0);
    WANT(strcmp(cedar_status_text(CEDAR_MISUSE + 1), "no status"), 0);
}

int main(int count, char **given) {
    static void (*const alone[])(void) = {no_handles, copies, closed_ones, new_ones, texts, runs, busy_ones, depths, decisions, literals, names, words};
    if (count == 2 && strcmp(given[1], "threads") == 0) {
        threads();
        races();
    } else {
        for (size_t at = 0; at < sizeof alone / sizeof *alone; at++) {
            alone[at]();
        }
    }
    return wrong ? EXIT_FAILURE : EXIT_SUCCESS;
}
