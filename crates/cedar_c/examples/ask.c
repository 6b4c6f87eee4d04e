/* Puts an entity, loads a policy, asks twice, and prints the answers. */
#include "cedar.h"

#include <stdio.h>
#include <stdlib.h>
#include <string.h>

/* Adds the frame of a command behind those that are there, and answers how long all are; the input has to have room. */
static size_t add_frame(char *input, size_t room, size_t used, const char *verb, const char *body) {
    int count = snprintf(input + used, room - used, "%s %zu\n%s\n", verb, strlen(body), body);
    if (count < 0 || (size_t)count >= room - used) {
        fprintf(stderr, "the frames have no room\n");
        exit(EXIT_FAILURE);
    }
    return used + (size_t)count;
}

int main(void) {
    char input[1024];
    size_t used = 0;
    used = add_frame(input, sizeof input, used, "put",
                     "[{uid: User::\"alice\", parents: [Group::\"staff\"]}]");
    used = add_frame(input, sizeof input, used, "load",
                     "permit(principal in Group::\"staff\", action, resource) when { context.hour < 18 };");
    used = add_frame(input, sizeof input, used, "ask", "{principal: User::\"alice\", context: {hour: 9}}");
    used = add_frame(input, sizeof input, used, "ask", "{principal: User::\"alice\"}");

    size_t room = 64;
    for (;;) {
        char *output = malloc(room);
        if (output == NULL) {
            fprintf(stderr, "no memory\n");
            return CEDAR_NO_MEMORY;
        }
        size_t written = 0;
        enum cedar_status status = cedar_run(input, used, output, room, &written);
        if (status == CEDAR_NO_ROOM) {
            free(output);
            room = written;
            continue;
        }
        fwrite(output, 1, written, stdout);
        free(output);
        if (status != CEDAR_DONE) {
            fprintf(stderr, "%s\n", cedar_status_text(status));
        }
        return status;
    }
}
