#include "text.h"

#include <string.h>

#include "error.h"

struct characters characters_for(char **texts, size_t count)
{
    /* A code point has at least as many bytes in UTF-8 as it has 16-bit characters. */
    size_t room = 0;
    for (size_t i = 0; i < count; i++)
        room += 2 * (strlen(texts[i]) + 1);
    return (struct characters){.bytes = allocate(room)};
}

static void append_character(struct characters *characters, uint32_t character)
{
    characters->bytes[characters->len++] = (uint8_t)(character & 255);
    characters->bytes[characters->len++] = (uint8_t)(character >> 8);
}

/* Decodes the code point at s, which ends in a 0 byte. Returns how many bytes it has; 0 if they are not UTF-8. */
static size_t decode_utf8(const unsigned char *s, uint32_t *code)
{
    static const uint32_t first_bits[] = {0, 0x7f, 0x1f, 0x0f, 0x07};
    static const uint32_t least[] = {0, 0, 0x80, 0x800, 0x10000};
    size_t n = s[0] < 0x80 ? 1 : s[0] < 0xc2 ? 0 : s[0] < 0xe0 ? 2 : s[0] < 0xf0 ? 3 : s[0] < 0xf5 ? 4 : 0;
    *code = s[0] & first_bits[n];
    for (size_t i = 1; i < n; i++) {
        if ((s[i] & 0xc0) != 0x80)
            return 0;
        *code = *code << 6 | (s[i] & 0x3f);
    }
    bool surrogate = *code >= 0xd800 && *code < 0xe000;
    return *code < least[n] || *code > 0x10ffff || surrogate ? 0 : n;
}

bool append_text(struct characters *characters, const char *text, size_t argument)
{
    const unsigned char *s = (const unsigned char *)text;
    size_t at = 0;
    while (s[at] != 0) {
        uint32_t code;
        size_t n = decode_utf8(s + at, &code);
        if (n == 0) {
            print_error("argument %zu is not UTF-8: malformed at byte %zu (hex %02x)", argument, at + 1, s[at]);
            return false;
        }
        if (code > 0xffff) {
            append_character(characters, 0xd800 + ((code - 0x10000) >> 10));
            code = 0xdc00 + ((code - 0x10000) & 0x3ff);
        }
        append_character(characters, code);
        at += n;
    }
    return true;
}

void append_end(struct characters *characters)
{
    append_character(characters, 0);
}

size_t encode_utf8(uint32_t code, char out[4])
{
    static const uint32_t first_byte[] = {0, 0, 0xc0, 0xe0, 0xf0};
    size_t n = code < 0x80 ? 1 : code < 0x800 ? 2 : code < 0x10000 ? 3 : 4;
    for (size_t i = n - 1; i > 0; i--) {
        out[i] = (char)(0x80 | (code & 0x3f));
        code >>= 6;
    }
    out[0] = (char)(first_byte[n] | code);
    return n;
}

bool printable(uint32_t code)
{
    /* Spaces, and what Unicode calls "default ignorable", which includes the marks that reorder text. */
    static const struct {
        uint32_t first, last;
    } hidden[] = {
        {0x0000, 0x00a0},   {0x00ad, 0x00ad},   {0x034f, 0x034f},   {0x061c, 0x061c},   {0x115f, 0x1160}, {0x1680, 0x1680},
        {0x17b4, 0x17b5},   {0x180b, 0x180f},   {0x2000, 0x200f},   {0x2028, 0x202f},   {0x205f, 0x206f}, {0x3000, 0x3000},
        {0x3164, 0x3164},   {0xd800, 0xdfff},   {0xfdd0, 0xfdef},   {0xfe00, 0xfe0f},   {0xfeff, 0xfeff}, {0xffa0, 0xffa0},
        {0xfff0, 0xfffb},   {0x1bca0, 0x1bca3}, {0x1d173, 0x1d17a}, {0xe0000, 0xe0fff},
    };
    for (size_t i = 0; i < sizeof hidden / sizeof hidden[0]; i++)
        if (code >= hidden[i].first && code <= hidden[i].last)
            return false;
    /* The last two code points of each plane are noncharacters. */
    return (code & 0xfffe) != 0xfffe;
}
