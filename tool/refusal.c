#include "refusal.h"

enum { WORD_LEN = 4, KEY_LEN = 8, ATTRIBUTE_LEN = 12, ENTRY_LEN = 16, NODE_LEN = 24 };

/* How many bytes the thing at the place has; 0 if the place is no offset, or nothing there would help. */
static size_t thing_len(uint32_t refusal)
{
    switch (refusal) {
    case TAPLINEN_REFUSED_TRUNCATED:
    case TAPLINEN_REFUSED_VERSION:
    case TAPLINEN_REFUSED_HEADER_WORD:
    case TAPLINEN_REFUSED_COUNT:
    case TAPLINEN_REFUSED_FOOTER:
    case TAPLINEN_REFUSED_UNUSED_INDEX:
    case TAPLINEN_REFUSED_SPECIAL_NAMES: return WORD_LEN;
    case TAPLINEN_REFUSED_KEY: return KEY_LEN;
    case TAPLINEN_REFUSED_ATTRIBUTE:
    case TAPLINEN_REFUSED_ATTRIBUTE_TEXT: return ATTRIBUTE_LEN;
    case TAPLINEN_REFUSED_ENTRY_ADDRESS:
    case TAPLINEN_REFUSED_ENTRY_LENGTH:
    case TAPLINEN_REFUSED_ENTRY_HASH:
    case TAPLINEN_REFUSED_ENTRY_ORDER:
    case TAPLINEN_REFUSED_ENTRY_INDEX:
    case TAPLINEN_REFUSED_DUPLICATE_TEXT: return ENTRY_LEN;
    /* For TAPLINEN_REFUSED_NODE the place can be the node segment count. The counts of the first segment follow it, and tell why. */
    case TAPLINEN_REFUSED_NODE:
    case TAPLINEN_REFUSED_ATTRIBUTE_RANGE:
    case TAPLINEN_REFUSED_CHILD_RANGE:
    case TAPLINEN_REFUSED_SHARED_CHILD:
    case TAPLINEN_REFUSED_DEPTH: return NODE_LEN;
    default: return 0;
    }
}

static void print_place(FILE *out, uint32_t refusal, unsigned long long place)
{
    switch (refusal) {
    case TAPLINEN_REFUSED_WORKSPACE:
    case TAPLINEN_REFUSED_OUTLINE: fprintf(out, ", needs %llu bytes", place); break;
    case TAPLINEN_REFUSED_TEXT: fprintf(out, ", length %llu bytes", place); break;
    case TAPLINEN_REFUSED_PLACES: fprintf(out, ", needs room for %llu", place); break;
    default: fprintf(out, " at offset %llu", place); break;
    }
}

static void print_bytes(FILE *out, const struct input *input, size_t place, size_t len)
{
    if (len > input->len - place)
        len = input->len - place;
    fprintf(out, "  %zu:", place);
    for (size_t i = 0; i < len; i++)
        fprintf(out, " %02x", input->bytes[place + i]);
    fputc('\n', out);
}

static void print_length(FILE *out, const struct input *input)
{
    if (input->len == 0)
        fputs("  the file is empty\n", out);
    else
        fprintf(out, "  the file has %zu byte%s\n", input->len, input->len == 1 ? "" : "s");
}

enum status print_refusal(FILE *out, const struct input *input, uint32_t refusal, uint64_t place)
{
    fprintf(out, "%s: refused %u", input->name, refusal);
    print_place(out, refusal, place);
    fprintf(out, ": %s\n", taplinen_reason(refusal));
    size_t len = thing_len(refusal);
    if (len > 0 && place < input->len)
        print_bytes(out, input, (size_t)place, len);
    if (refusal == TAPLINEN_REFUSED_TRUNCATED)
        print_length(out, input);
    return STATUS_NEGATIVE;
}
