/* taplinen hash: the hashes of a text that is given in parts, for people who write builders. */
#include <stdio.h>
#include <stdlib.h>

#include "command.h"
#include "error.h"
#include "taplinen.h"
#include "text.h"

/* Appends the parts to the text, and notes where each ends. */
static bool append_parts(struct characters *text, size_t *ends, char **parts, size_t count)
{
    for (size_t i = 0; i < count; i++) {
        if (!append_text(text, parts[i], i + 1))
            return false;
        ends[i] = text->len;
    }
    return true;
}

static void print_hashes(const struct characters *text, const size_t *ends, size_t count)
{
    uint32_t hash = 0;
    size_t start = 0;
    for (size_t i = 0; i < count; i++) {
        /* Each part continues the hash of the parts before it. */
        hash = taplinen_hash(hash, text->bytes + start, ends[i] - start);
        printf("%08x after part %zu\n", hash, i + 1);
        start = ends[i];
    }
    uint32_t whole = taplinen_hash(0, text->bytes, text->len);
    uint32_t mixed = whole ^ whole >> 16;
    printf("%08x whole\n", whole);
    printf("bucket %u among values, %u among names\n", mixed % 1024, mixed % 512);
    printf("value hash %u\n", taplinen_value_hash(text->bytes, text->len));
}

enum status run_hash(const struct arguments *arguments)
{
    struct characters text = characters_for(arguments->operands, arguments->count);
    size_t *ends = allocate(arguments->count * sizeof *ends);
    bool converted = append_parts(&text, ends, arguments->operands, arguments->count);
    if (converted)
        print_hashes(&text, ends, arguments->count);
    free(ends);
    free(text.bytes);
    return converted ? STATUS_ANSWERED : STATUS_ERROR;
}
