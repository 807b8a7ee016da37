/* Splits the words after a command into options and operands. */
#ifndef TOOL_OPTIONS_H
#define TOOL_OPTIONS_H

#include <stdbool.h>

#include "command.h"

enum parsed {
    PARSED_RUN,  /* run the command */
    PARSED_HELP, /* --help or -h was among the options */
    PARSED_WRONG /* the user was told what is wrong */
};

/* Whether the word is --help or -h. */
bool asks_help(const char *word);

/* Moves the operands to the front of words, which arguments keeps. Options may stand between operands; "--" ends them. */
enum parsed options_parse(struct arguments *arguments, const struct command *command, char **words, size_t count);

/* The value of an option of the command; NULL if it was not given. */
const char *option_value(const struct arguments *arguments, const char *name);

#endif
