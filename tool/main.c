/* taplinen: checks data center files and answers questions about them. man page: taplinen(1). */
#include <errno.h>
#include <stdio.h>
#include <string.h>

#include "command.h"
#include "error.h"
#include "options.h"
#include "taplinen.h"

static command_run run_help;

static const struct command commands[] = {
    {"check", run_check, "FILE...", "Check whether files are accepted", 1, ANY_NUMBER, {{0}}},
    {"header", run_header, "FILE", "Print version, revision and timestamp", 1, 1, {{0}}},
    {"name", run_name, "FILE TEXT...", "Look texts up in the names table", 2, ANY_NUMBER, {{0}}},
    {"value", run_value, "FILE TEXT...", "Look texts up in the values table", 2, ANY_NUMBER, {{0}}},
    {"path", run_path, "FILE [PATH]", "List the nodes that a path of names leads to", 1, 2,
     {{"--separator", "C", "The character between the names of PATH, instead of /"}, {0}}},
    {"outline", run_outline, "FILE", "Print the tree", 1, 1,
     {{"--utf8", NULL, "Print characters beyond ASCII as UTF-8 if they are printable"}, {0}}},
    {"explain", run_explain, "[NUMBER]", "Explain a refusal, or list all refusals", 0, 1, {{0}}},
    {"hash", run_hash, "TEXT...", "Print the hashes of a text that is given in parts", 1, ANY_NUMBER, {{0}}},
    {"help", run_help, "[COMMAND]", "Print help for the tool or a command", 0, 1, {{0}}},
};

enum { COMMANDS = sizeof commands / sizeof commands[0] };

static const struct command *find(const char *name)
{
    for (size_t i = 0; i < COMMANDS; i++)
        if (strcmp(commands[i].name, name) == 0)
            return &commands[i];
    wrong_use(NULL, "unknown command %s", name);
    return NULL;
}

static enum status print_help(void)
{
    puts("Usage: taplinen COMMAND [OPTION]... [ARGUMENT]...\n"
         "Checks TERA data center files and answers questions about them.\n");
    for (size_t i = 0; i < COMMANDS; i++)
        printf("  %-8s%-14s  %s\n", commands[i].name, commands[i].usage, commands[i].help);
    puts("\n"
         "  -h, --help              Print this help; after a command, help for it\n"
         "  --version               Print the version\n"
         "\n"
         "FILE may be -, which is standard input. -- ends the options.\n"
         "Exit status: 0 if all files are accepted, all texts are found, there is a match;\n"
         "1 if a file is refused, a text is not found, there is no match; 2 for wrong use, an\n"
         "unreadable file, a text that is not UTF-8, out of memory or a write error.");
    return STATUS_ANSWERED;
}

static enum status print_command_help(const struct command *command)
{
    const char *options = command->options[0].name != NULL ? " [OPTION]..." : "";
    printf("Usage: taplinen %s%s %s\n", command->name, options, command->usage);
    printf("%s.\n", command->help);
    for (const struct option *option = command->options; option->name != NULL; option++) {
        const char *equals = option->value != NULL ? "=" : "";
        const char *value = option->value != NULL ? option->value : "";
        printf("  %s%s%s  %s\n", option->name, equals, value, option->help);
    }
    return STATUS_ANSWERED;
}

static enum status run_help(const struct arguments *arguments)
{
    if (arguments->count == 0)
        return print_help();
    const struct command *command = find(arguments->operands[0]);
    return command != NULL ? print_command_help(command) : STATUS_ERROR;
}

static enum status run_command(const struct command *command, char **words, size_t count)
{
    struct arguments arguments;
    switch (options_parse(&arguments, command, words, count)) {
    case PARSED_RUN: return command->run(&arguments);
    case PARSED_HELP: return print_command_help(command);
    default: return STATUS_ERROR;
    }
}

/* The header and the library come from two files, which can be of two versions. */
static bool same_version(void)
{
    uint32_t linked = taplinen_version();
    if (linked == TAPLINEN_VERSION_NUMBER)
        return true;
    print_error("built for version " TAPLINEN_VERSION " of the library, but linked with %u.%u.%u", linked / 1000000,
                linked / 1000 % 1000, linked % 1000);
    return false;
}

static enum status run(int argc, char **argv)
{
    if (!same_version())
        return STATUS_ERROR;
    if (argc < 2)
        return wrong_use(NULL, "no command");
    if (asks_help(argv[1]))
        return print_help();
    if (strcmp(argv[1], "--version") == 0) {
        puts("taplinen " TAPLINEN_VERSION);
        return STATUS_ANSWERED;
    }
    if (argv[1][0] == '-')
        return wrong_use(NULL, "unknown option %s", argv[1]);
    const struct command *command = find(argv[1]);
    return command != NULL ? run_command(command, argv + 2, (size_t)argc - 2) : STATUS_ERROR;
}

int main(int argc, char **argv)
{
    enum status status = run(argc, argv);
    /* An answer that did not get out is no answer. */
    if (fflush(stdout) != 0)
        status = print_error("cannot write to standard output: %s", strerror(errno));
    else if (ferror(stdout))
        status = print_error("cannot write to standard output");
    return status;
}
