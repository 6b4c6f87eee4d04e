/* What a limit of depth takes of a thread's stack, where texts nest as deep as they may.

   `stack` prints a table, by painted stacks: of each limit the most that a policy, a body, a chain of `if` and JSON lose of the paint, and CEDAR_STACK.
   It ends with status 1 where any takes more, or JSON more than CEDAR_JSON_STACK where that is higher. `stack LIMIT` does all of them on threads that
   have as much, and what their first frames take; one that doesn't fit ends the program by a signal. */
#define _GNU_SOURCE
#include "cedar.h"

#include <pthread.h>
#include <stdio.h>
#include <stdlib.h>
#include <string.h>
#include <sys/mman.h>

enum { PAINT = 0xa5, KIB = 1024, STACK = 64 << 20, TEXT = 1 << 16, FIRST_FRAMES = 12 * KIB, JSON_DEPTH = 128 };

/* What stands round one place, and on which side. */
struct nest {
    const char *before, *behind;
};

enum kind { POLICY, BODY, JSON };

/* A column of the table: in a policy, in bodies or in JSON, several ways to nest. */
struct column {
    const char *name;
    enum kind kind;
    struct nest nests[12];
};

static const struct column columns[] = {
    {"policy",
     POLICY,
     {{"(", ")"},
      {"[", "]"},
      {"{a: ", "}"},
      {"a[", "]"},
      {"[1].contains(", ")"},
      {"!(", ")"},
      {"1 == (", ")"},
      {"1 + ", ""},
      {"true && ", ""},
      {"", ".a"},
      {NULL, NULL}}},
    {"body", BODY, {{"(", ")"}, {"[", "]"}, {"{a: ", "}"}, {NULL, NULL}}},
    {"`if`", POLICY, {{"if true then ", " else true"}, {"if true then true else ", ""}, {"if ", " then true else true"}, {NULL, NULL}}},
    {"JSON", JSON, {{"[", "]"}, {"{\"a\":", "}"}, {"{\"__extn\":{\"fn\":\"f\",\"args\":[", "]}}"}, {NULL, NULL}}},
};

/* Commands of JSON that nests, and what stands round it. */
static const struct {
    const char *verb, *front, *back;
} commands[] = {
    {"ask", "{\"principal\":\"U::\\\"a\\\"\",\"action\":\"A::\\\"a\\\"\",\"resource\":\"U::\\\"b\\\"\",\"context\":{\"a\":", "}}"},
    {"ask-partial", "{\"context\":{\"b\":{\"__extn\":{\"fn\":\"unknown\",\"arg\":\"b\"}},\"a\":", "}}"},
    {"tell", "{\"b\":", "}"},
    {"add", "[{\"uid\":{\"type\":\"U\",\"id\":\"a\"},\"attrs\":{\"a\":", "}}]"},
    {"put", "[{\"uid\":{\"type\":\"U\",\"id\":\"a\"},\"tags\":{\"a\":", "}}]"},
};

/* One way to nest, at one limit. */
struct task {
    uint32_t depth;
    enum kind kind;
    const struct nest *nest;
};

static _Noreturn void fail(const char *what) {
    fprintf(stderr, "%s\n", what);
    exit(EXIT_FAILURE);
}

static void do_or_end(cedar_session *session, const char *verb, const char *body) {
    if (cedar_command(session, verb, strlen(verb), body, strlen(body)) != CEDAR_DONE) {
        fail(verb);
    }
}

/* Writes what nests so deep, between two texts. */
static void write_nested(char *text, const char *front, const struct nest *nest, uint32_t levels, const char *back) {
    text = stpcpy(text, front);
    for (uint32_t at = 0; at < levels; at++) {
        text = stpcpy(text, nest->before);
    }
    text = stpcpy(text, "true");
    for (uint32_t at = 0; at < levels; at++) {
        text = stpcpy(text, nest->behind);
    }
    strcpy(text, back);
}

/* How many levels of JSON a text opens. */
static uint32_t levels_of(const char *text) {
    uint32_t levels = 0;
    for (; *text != '\0'; text++) {
        levels += *text == '{' || *text == '[';
        levels -= *text == '}' || *text == ']';
    }
    return levels;
}

/* Whether the JSON says a body of the command. */
static int is_said(const char *verb, const char *json) {
    char faults[KIB];
    size_t written;
    enum cedar_status status = cedar_why_json(verb, strlen(verb), json, strlen(json), faults, sizeof faults, &written);
    return status == CEDAR_DONE && written == strlen("[]");
}

/* Does each command of JSON that nests as deep as it may, and then of one that nests deeper. */
static void nested_json(cedar_session *session, const struct nest *nest) {
    static char text[TEXT];
    for (size_t at = 0; at < sizeof commands / sizeof *commands; at++) {
        uint32_t most = (JSON_DEPTH - levels_of(commands[at].front)) / levels_of(nest->before);
        for (uint32_t levels = most; levels <= most + 1; levels++) {
            write_nested(text, commands[at].front, nest, levels, commands[at].back);
            if (is_said(commands[at].verb, text) != (levels == most)) {
                fail("JSON nests to another depth");
            }
            if (cedar_command_json(session, commands[at].verb, strlen(commands[at].verb), text, strlen(text)) != CEDAR_DONE) {
                fail(commands[at].verb);
            }
        }
    }
}

/* Loads a policy, or asks and tells a body, which nests so deep, and asks twice. */
static void nested(cedar_session *session, const struct task *task, uint32_t levels) {
    static char text[TEXT];
    if (task->kind == BODY) {
        do_or_end(session, "load", "permit(principal, action, resource) when { context.a == context.b };");
        write_nested(text, "{context: {a: ", task->nest, levels > 2 ? levels - 2 : 0, ", b: unknown(\"b\")}}");
        do_or_end(session, "ask", text);
        write_nested(text, "{b: ", task->nest, levels > 1 ? levels - 1 : 0, "}");
        do_or_end(session, "tell", text);
    } else {
        write_nested(text, "permit(principal, action, resource) when { ", task->nest, levels, " == context.a };");
        do_or_end(session, "load", text);
    }
    do_or_end(session, "ask", "{principal: U::\"a\", action: A::\"a\", resource: U::\"b\", context: {a: 1}}");
    do_or_end(session, "ask", "{}");
}

/* Two levels below the limit, up to one above it; JSON has a limit of its own. */
static void *do_task(void *given) {
    const struct task *task = given;
    cedar_session session = CEDAR_CLOSED;
    enum cedar_status status = cedar_open(&session, task->depth);
    if (status != CEDAR_DONE) {
        fail(cedar_status_text(status));
    }
    if (task->kind == JSON) {
        do_or_end(&session, "load", "permit(principal, action, resource) when { context.a == context.b };");
        nested_json(&session, task->nest);
    }
    for (uint32_t levels = task->depth - 2; task->kind != JSON && levels <= task->depth + 1; levels++) {
        nested(&session, task, levels);
    }
    cedar_close(&session);
    return NULL;
}

static void on_a_thread(struct task *task, pthread_attr_t *attributes) {
    pthread_t thread;
    if (pthread_create(&thread, attributes, do_task, task) || pthread_join(thread, NULL)) {
        fail("no thread");
    }
    pthread_attr_destroy(attributes);
}

/* How many bytes of a painted stack a task uses. */
static size_t used(struct task *task, uint8_t *stack) {
    pthread_attr_t attributes;
    size_t at = 0;
    memset(stack, PAINT, STACK);
    if (pthread_attr_init(&attributes) || pthread_attr_setstack(&attributes, stack, STACK)) {
        fail("no stack");
    }
    on_a_thread(task, &attributes);
    while (at < STACK && stack[at] == PAINT) {
        at++;
    }
    return STACK - at;
}

static size_t most_used(uint32_t depth, const struct column *column, uint8_t *stack) {
    size_t most = 0;
    for (const struct nest *nest = column->nests; nest->before != NULL; nest++) {
        struct task task = {depth, column->kind, nest};
        size_t bytes = used(&task, stack);
        most = bytes > most ? bytes : most;
    }
    return most;
}

/* How many bytes a limit takes at most, of what nests so. */
static size_t told_of(uint32_t depth, enum kind kind) {
    size_t of_depth = CEDAR_STACK(depth);
    return kind == JSON && of_depth < CEDAR_JSON_STACK ? CEDAR_JSON_STACK : of_depth;
}

/* Prints the table, and answers whether each limit takes what it is told to, or less. */
static int print_table(void) {
    static const uint32_t depths[] = {8, 16, 32, 64, 128, 256, CEDAR_DEPTH_MAX};
    int is_so = 1;
    uint8_t *stack = mmap(NULL, STACK, PROT_READ | PROT_WRITE, MAP_PRIVATE | MAP_ANONYMOUS | MAP_STACK, -1, 0);
    if (stack == MAP_FAILED) {
        fail("no stack");
    }
    printf("| limit | policy | body | `if` | JSON | CEDAR_STACK |\n|---|---|---|---|---|---|\n");
    for (size_t at = 0; at < sizeof depths / sizeof *depths; at++) {
        printf("| %u |", (unsigned)depths[at]);
        for (size_t of = 0; of < sizeof columns / sizeof *columns; of++) {
            size_t most = most_used(depths[at], &columns[of], stack);
            printf(" %zu KiB |", (most + KIB - 1) / KIB);
            is_so = is_so && most <= told_of(depths[at], columns[of].kind) + FIRST_FRAMES;
        }
        printf(" %zu KiB |\n", CEDAR_STACK(depths[at]) / KIB);
    }
    printf("CEDAR_JSON_STACK: %d KiB\n", CEDAR_JSON_STACK / KIB);
    return is_so;
}

/* Does all of a limit on threads with such a stack. */
static void fit(uint32_t depth) {
    for (size_t of = 0; of < sizeof columns / sizeof *columns; of++) {
        for (const struct nest *nest = columns[of].nests; nest->before != NULL; nest++) {
            struct task task = {depth, columns[of].kind, nest};
            pthread_attr_t attributes;
            if (pthread_attr_init(&attributes) || pthread_attr_setstacksize(&attributes, told_of(depth, columns[of].kind) + FIRST_FRAMES)) {
                fail("no such stack");
            }
            on_a_thread(&task, &attributes);
        }
    }
}

int main(int count, char **words) {
    if (count == 2) {
        fit((uint32_t)strtoul(words[1], NULL, 10));
    } else if (count != 1) {
        fail("usage: stack [LIMIT]");
    } else if (!print_table()) {
        fail("a limit takes more than CEDAR_STACK, or JSON more than CEDAR_JSON_STACK");
    }
    return EXIT_SUCCESS;
}
