#include "options.h"

#include <string.h>

#include "error.h"

/* Whether the word gives this option. Sets value to what follows the "=", or to NULL if there is no "=". */
static bool gives(const char *word, const char *name, const char **value)
{
    size_t len = strlen(name);
    if (strncmp(word, name, len) != 0 || (word[len] != 0 && word[len] != '='))
        return false;
    *value = word[len] == '=' ? word + len + 1 : NULL;
    return true;
}

bool asks_help(const char *word)
{
    return strcmp(word, "--help") == 0 || strcmp(word, "-h") == 0;
}

static enum parsed parse_option(struct arguments *arguments, const char *word)
{
    const struct command *command = arguments->command;
    const char *value;
    for (size_t i = 0; command->options[i].name != NULL; i++) {
        const struct option *option = &command->options[i];
        if (!gives(word, option->name, &value))
            continue;
        if (option->value != NULL && value == NULL) {
            wrong_use(command, "option %s takes a value: write %s=%s", option->name, option->name, option->value);
            return PARSED_WRONG;
        }
        if (option->value == NULL && value != NULL) {
            wrong_use(command, "option %s takes no value", option->name);
            return PARSED_WRONG;
        }
        arguments->values[i] = value != NULL ? value : "";
        return PARSED_RUN;
    }
    if (asks_help(word))
        return PARSED_HELP;
    wrong_use(command, "unknown option %s", word);
    return PARSED_WRONG;
}

static enum parsed check_count(const struct arguments *arguments)
{
    const struct command *command = arguments->command;
    if (arguments->count >= command->least && arguments->count <= command->most)
        return PARSED_RUN;
    wrong_use(command, "too %s arguments", arguments->count < command->least ? "few" : "many");
    return PARSED_WRONG;
}

enum parsed options_parse(struct arguments *arguments, const struct command *command, char **words, size_t count)
{
    *arguments = (struct arguments){.command = command, .operands = words};
    bool ended = false;
    for (size_t i = 0; i < count; i++) {
        char *word = words[i];
        /* "-" is an operand: standard input. */
        bool operand = ended || word[0] != '-' || word[1] == 0;
        if (operand) {
            words[arguments->count++] = word;
        } else if (strcmp(word, "--") == 0) {
            ended = true;
        } else {
            enum parsed parsed = parse_option(arguments, word);
            if (parsed != PARSED_RUN)
                return parsed;
        }
    }
    return check_count(arguments);
}

const char *option_value(const struct arguments *arguments, const char *name)
{
    const struct option *options = arguments->command->options;
    for (size_t i = 0; options[i].name != NULL; i++)
        if (strcmp(options[i].name, name) == 0)
            return arguments->values[i];
    return NULL;
}
