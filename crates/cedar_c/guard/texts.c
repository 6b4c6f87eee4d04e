/* Texts beside a session: string literals, statuses in words, the version. */
#include "bytes.h"
#include "cedar.h"

/* How many bytes the UTF-8 of a character takes at the front of these, or 0 where they begin with none. */
static size_t character(const uint8_t *at, size_t left) {
    static const struct {
        uint8_t mask, front;
        uint32_t least;
    } forms[] = {{0x80, 0x00, 0}, {0xe0, 0xc0, 0x80}, {0xf0, 0xe0, 0x800}, {0xf8, 0xf0, 0x10000}};
    for (size_t more = 0; more < sizeof forms / sizeof *forms && more < left; more++) {
        if ((at[0] & forms[more].mask) != forms[more].front) {
            continue;
        }
        uint32_t code = at[0] & (uint8_t)~forms[more].mask;
        for (size_t next = 1; next <= more; next++) {
            if ((at[next] & 0xc0) != 0x80) {
                return 0;
            }
            code = code << 6 | (at[next] & 0x3f);
        }
        return code < forms[more].least || code > 0x10ffff || (code >= 0xd800 && code < 0xe000) ? 0 : more + 1;
    }
    return 0;
}

/* What stands behind a backslash for a byte, or 0 where it stands for itself. */
static char escape_of(uint8_t byte) {
    switch (byte) {
    case '"':
    case '\\':
        return (char)byte;
    case '\n':
        return 'n';
    case '\r':
        return 'r';
    case '\t':
        return 't';
    case '\0':
        return '0';
    default:
        return 0;
    }
}

/* How long the literal of a text is, or 0 where it isn't UTF-8. */
static size_t length_of_literal(const uint8_t *text, size_t length) {
    size_t count = 2;
    for (size_t at = 0; at < length;) {
        size_t bytes = character(text + at, length - at);
        if (bytes == 0) {
            return 0;
        }
        count += bytes + (escape_of(text[at]) != 0);
        at += bytes;
    }
    return count;
}

enum cedar_status cedar_quote(const void *text, size_t length, void *output, size_t output_length, size_t *written) {
    if (!is_text(text, length) || !is_output(output, output_length, written) || !leaves(text, length, output, output_length, written)) {
        return CEDAR_MISUSE;
    }
    const uint8_t *from = text;
    size_t count = length_of_literal(from, length);
    *written = count;
    if (count == 0) {
        return CEDAR_NOT_UTF8;
    }
    if (count > output_length) {
        return CEDAR_NO_ROOM;
    }
    uint8_t *into = output;
    *into++ = '"';
    for (size_t at = 0; at < length; at++) {
        char escape = escape_of(from[at]);
        if (escape != 0) {
            *into++ = '\\';
        }
        *into++ = escape != 0 ? (uint8_t)escape : from[at];
    }
    *into = '"';
    return CEDAR_DONE;
}

const char *cedar_status_text(int status) {
    switch (status) {
    case CEDAR_DONE:
        return "done";
    case CEDAR_FAULT:
        return "a fault ended the input";
    case CEDAR_NO_MEMORY:
        return "no memory";
    case CEDAR_NO_ROOM:
        return "the text has no room in the output";
    case CEDAR_NOT_OPEN:
        return "the handle isn't open";
    case CEDAR_IS_OPEN:
        return "the handle is open already";
    case CEDAR_NO_VERB:
        return "no verb is spelled so";
    case CEDAR_TOO_LONG:
        return "the body is longer than 1,048,576 bytes";
    case CEDAR_BUSY:
        return "another call has the handle";
    case CEDAR_OTHER_THREAD:
        return "the handle is open on another thread";
    case CEDAR_TOO_DEEP:
        return "the limit of depth is above the highest, or takes more stack than this thread has left";
    case CEDAR_NOT_UTF8:
        return "the text isn't UTF-8";
    case CEDAR_MISUSE:
        return "no handle, no text or no output";
    default:
        return "no status";
    }
}

const char *cedar_version(void) {
    return CEDAR_VERSION;
}
