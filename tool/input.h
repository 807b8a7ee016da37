/* A file that questions are asked about, and its workspace. */
#ifndef TOOL_INPUT_H
#define TOOL_INPUT_H

#include <stdbool.h>

#include "command.h"
#include "taplinen.h"

struct input {
    const char *name;
    uint8_t *bytes;
    size_t len;
    bool mapped; /* bytes are a mapping of the file, not allocated */
    uint8_t *workspace; /* long enough for every file of this length */
    size_t workspace_len;
};

/* Opens a file, or reads standard input if the name is "-", and allocates a workspace. If that fails it tells why and returns false. Close
 * it in either case. */
bool input_open(struct input *input, const char *name);

void input_close(struct input *input);

#endif
