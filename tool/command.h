/* A subcommand of the tool. Adding one takes a function of type command_run and a row in the table in main.c. */
#ifndef TOOL_COMMAND_H
#define TOOL_COMMAND_H

#include <stddef.h>

/* The exit status. Where two apply, the higher one is given. */
enum status {
    STATUS_ANSWERED = 0, /* all files accepted, all texts found, a match */
    STATUS_NEGATIVE = 1, /* a file refused, a text not found, no match */
    STATUS_ERROR = 2     /* wrong use, unreadable file, text that is not UTF-8, out of memory or write error */
};

struct arguments;
typedef enum status command_run(const struct arguments *arguments);

enum { MAX_OPTIONS = 2, ANY_NUMBER = 0x7fffffff };

struct option {
    const char *name;  /* with its dashes; NULL ends the list of a command */
    const char *value; /* what the help calls the value; NULL if the option takes none */
    const char *help;
};

struct command {
    const char *name;
    command_run *run;
    const char *usage; /* the operands, as the help shows them */
    const char *help;
    size_t least, most; /* how many operands it takes */
    struct option options[MAX_OPTIONS + 1];
};

/* What the user wrote after the name of the command. */
struct arguments {
    const struct command *command;
    char **operands;
    size_t count;
    const char *values[MAX_OPTIONS]; /* parallel to the command's options: NULL if not given, "" for an option without a value */
};

/* The functions of the table, each in the file of its name; name and value in lookup.c. */
command_run run_check, run_header, run_name, run_value, run_path, run_outline, run_explain, run_hash;

#endif
