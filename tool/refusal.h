/* Prints refusals. */
#ifndef TOOL_REFUSAL_H
#define TOOL_REFUSAL_H

#include <stdio.h>

#include "input.h"

/* A line with the refusal, one with the bytes at its place if that is in the file, and one with the length of a file that is too short.
 * Always STATUS_NEGATIVE, so that callers can return it. */
enum status print_refusal(FILE *out, const struct input *input, uint32_t refusal, uint64_t place);

#endif
