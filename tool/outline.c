/* taplinen outline: the tree of a file as text. */
#include <stdio.h>
#include <stdlib.h>
#include <string.h>

#include "error.h"
#include "input.h"
#include "options.h"
#include "refusal.h"
#include "text.h"

/* A backslash and four hex digits. The outline has no other backslash. */
enum { ESCAPE_LEN = 5 };

/* The character of the escape at p. */
static uint32_t escaped(const uint8_t *p)
{
    uint32_t character = 0;
    for (size_t i = 1; i < ESCAPE_LEN; i++)
        character = character << 4 | (uint32_t)(p[i] <= '9' ? p[i] - '0' : p[i] - 'a' + 10);
    return character;
}

/* The code point at p, which is an escape, or two if they are a surrogate pair. Returns how many bytes it has. A byte follows an escape,
 * since each line ends in a newline. */
static size_t unescape(const uint8_t *p, uint32_t *code)
{
    *code = escaped(p);
    const uint8_t *next = p + ESCAPE_LEN;
    if ((*code & 0xfc00) != 0xd800 || *next != '\\' || (escaped(next) & 0xfc00) != 0xdc00)
        return ESCAPE_LEN;
    *code = 0x10000 + ((*code & 0x3ff) << 10) + (escaped(next) & 0x3ff);
    return 2 * ESCAPE_LEN;
}

/* Writes an outline with its printable characters as UTF-8. All others stay escaped. */
static void write_utf8(const uint8_t *p, const uint8_t *end)
{
    while (p < end) {
        const uint8_t *escape = memchr(p, '\\', (size_t)(end - p));
        if (escape == NULL)
            escape = end;
        fwrite(p, 1, (size_t)(escape - p), stdout);
        p = escape;
        if (p < end) {
            uint32_t code;
            char utf8[4];
            size_t len = unescape(p, &code);
            if (printable(code))
                fwrite(utf8, 1, encode_utf8(code, utf8), stdout);
            else
                fwrite(p, 1, len, stdout);
            p += len;
        }
    }
}

static enum status ask(const struct input *input, bool utf8)
{
    /* Two calls: one to learn the length, one to write. The empty buffer is always too short, since the root has a line. */
    taplinen_answer answer = taplinen_outline(input->bytes, input->len, input->workspace, input->workspace_len, NULL, 0);
    if (answer.refusal != TAPLINEN_REFUSED_OUTLINE)
        return print_refusal(stderr, input, answer.refusal, answer.value);
    size_t len = (size_t)answer.value;
    uint8_t *outline = allocate(len);
    answer = taplinen_outline(input->bytes, input->len, input->workspace, input->workspace_len, outline, len);
    enum status status = STATUS_ANSWERED;
    if (answer.refusal != TAPLINEN_ANSWERED)
        status = print_refusal(stderr, input, answer.refusal, answer.value);
    else if (utf8)
        write_utf8(outline, outline + len);
    else
        fwrite(outline, 1, len, stdout);
    free(outline);
    return status;
}

enum status run_outline(const struct arguments *arguments)
{
    struct input input;
    enum status status = STATUS_ERROR;
    if (input_open(&input, arguments->operands[0]))
        status = ask(&input, option_value(arguments, "--utf8") != NULL);
    input_close(&input);
    return status;
}
