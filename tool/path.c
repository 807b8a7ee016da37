/* taplinen path: the nodes that a path of names leads to. */
#include <stdio.h>
#include <stdlib.h>
#include <string.h>

#include "error.h"
#include "input.h"
#include "options.h"
#include "refusal.h"
#include "text.h"
#include "address.h"

enum { PLACE_LEN = 4 };

/* The character between names; 0 if the user was told that it is none. */
static char separator(const struct arguments *arguments)
{
    const char *value = option_value(arguments, "--separator");
    if (value == NULL)
        return '/';
    if (strlen(value) == 1 && (unsigned char)value[0] < 0x80)
        return value[0];
    wrong_use(arguments->command, "the separator must be one ASCII character");
    return 0;
}

/* Converts PATH to names that each end in a 0 character. The empty path is the root, and has no name. */
static bool append_path(struct characters *path, const char *text, char between)
{
    if (!append_text(path, text, 2))
        return false;
    for (size_t i = 0; i < path->len; i += 2)
        if (path->bytes[i] == (uint8_t)between && path->bytes[i + 1] == 0)
            path->bytes[i] = 0;
    if (path->len > 0)
        append_end(path);
    return true;
}

static enum status ask(const struct input *input, const struct characters *path)
{
    /* A node matches once at most, and the workspace has a byte for each used node: no more matches than it has bytes. */
    size_t list_len = PLACE_LEN * input->workspace_len;
    uint8_t *list = allocate(list_len);
    taplinen_answer answer = taplinen_path(input->bytes, input->len, input->workspace, input->workspace_len, path->bytes, path->len,
                                           list, list_len);
    enum status status = STATUS_ANSWERED;
    if (answer.refusal != TAPLINEN_ANSWERED) {
        status = print_refusal(stderr, input, answer.refusal, answer.value);
    } else if (answer.value == 0) {
        print_error("no match");
        status = STATUS_NEGATIVE;
    } else {
        for (size_t i = 0; i < answer.value; i++)
            print_address(taplinen_u32(list + PLACE_LEN * i));
    }
    free(list);
    return status;
}

enum status run_path(const struct arguments *arguments)
{
    char between = separator(arguments);
    if (between == 0)
        return STATUS_ERROR;
    struct characters path = characters_for(arguments->operands + 1, arguments->count - 1);
    enum status status = STATUS_ERROR;
    if (append_path(&path, arguments->count > 1 ? arguments->operands[1] : "", between)) {
        struct input input;
        if (input_open(&input, arguments->operands[0]))
            status = ask(&input, &path);
        input_close(&input);
    }
    free(path.bytes);
    return status;
}
