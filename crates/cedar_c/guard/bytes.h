/* What may be read and written. */
#ifndef CEDAR_BYTES_H
#define CEDAR_BYTES_H

#include <stddef.h>
#include <stdint.h>

/* Whether a text can be so long there. */
static inline int is_text(const void *text, size_t length) {
    return (text != NULL || length == 0) && length <= PTRDIFF_MAX;
}

/* Whether two stretches of bytes have none in common. */
static inline int are_apart(const void *one, size_t length, const void *other, size_t other_length) {
    uintptr_t at = (uintptr_t)one, other_at = (uintptr_t)other;
    return length == 0 || other_length == 0 || (at < other_at ? other_at - at >= length : at - other_at >= other_length);
}

/* Whether a text may be written there, and its length. */
static inline int is_output(const void *output, size_t length, const size_t *written) {
    return is_text(output, length) && written != NULL && (uintptr_t)written % _Alignof(size_t) == 0 &&
           are_apart(output, length, written, sizeof *written);
}

/* Whether what is written there leaves these bytes as they are. */
static inline int leaves(const void *bytes, size_t count, const void *output, size_t length, const size_t *written) {
    return are_apart(bytes, count, output, length) && are_apart(bytes, count, written, sizeof *written);
}

#endif
