/* Texts: UTF-8 on the command line, 16-bit characters in files. A code point above ffff is a surrogate pair there. */
#ifndef TOOL_TEXT_H
#define TOOL_TEXT_H

#include <stdbool.h>
#include <stddef.h>
#include <stdint.h>

/* 16-bit characters, two bytes each, low byte first. */
struct characters {
    uint8_t *bytes;
    size_t len; /* in bytes */
};

/* No characters yet, with room for all of the texts, each followed by a 0 character. Free the bytes. */
struct characters characters_for(char **texts, size_t count);

/* Appends a text. If it is not UTF-8 the user is told, with the number of the argument, and the result is false. */
bool append_text(struct characters *characters, const char *text, size_t argument);

/* Appends a 0 character, which ends a text in a list or a name in a path. */
void append_end(struct characters *characters);

/* Writes a code point as UTF-8. Returns how many bytes it has. */
size_t encode_utf8(uint32_t code, char out[4]);

/* Whether a character that the outline escapes can be shown as it is. Controls, ASCII, spaces, surrogates, noncharacters, and characters
 * that cannot be seen or that reorder the text around them cannot. */
bool printable(uint32_t code);

#endif
