/* What the guard calls: the functions that crates/cedar_c/src exports, by other names, and what each owes them.

   A handle has the one pointer, and is on the thread that opened it, with no other call inside; each pointer is to as many
   bytes as its length says, and never null; nothing that is written overlaps anything else. */
#ifndef CEDAR_PROVED_H
#define CEDAR_PROVED_H

#include <stddef.h>
#include <stdint.h>

enum { PROVED_DONE = 0, PROVED_NO_COMMAND = 2, PROVED_NO_ROOM = 5 };

uint8_t cedar_proved_open(void **at, uint32_t depth);
uint8_t cedar_proved_open_standard(void **at, uint32_t depth);
uint8_t cedar_proved_command(void **at, const uint8_t *verb, size_t verb_length, const uint8_t *body, size_t body_length);
uint8_t cedar_proved_answer(void **at, uint8_t *output, size_t output_length, size_t *written);
uint8_t cedar_proved_why(void **at, const uint8_t *verb, size_t verb_length, const uint8_t *body, size_t body_length, uint8_t *output,
                         size_t output_length, size_t *written);
uint8_t cedar_proved_command_json(void **at, const uint8_t *verb, size_t verb_length, const uint8_t *json, size_t json_length);
uint8_t cedar_proved_answer_json(void **at, uint8_t *output, size_t output_length, size_t *written);
uint8_t cedar_proved_why_json(const uint8_t *verb, size_t verb_length, const uint8_t *json, size_t json_length, uint8_t *output, size_t output_length,
                              size_t *written);
uint8_t cedar_proved_close(void **at);
uint8_t cedar_proved_run_within(const uint8_t *input, size_t input_length, uint32_t depth, uint8_t *output, size_t output_length, size_t *written);

#endif
