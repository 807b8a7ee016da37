#include "error.h"

#include <stdarg.h>
#include <stdio.h>
#include <stdlib.h>

static void print_message(const struct command *command, const char *format, va_list values)
{
    /* Where both outputs go to one file, lines stay in order. */
    fflush(stdout);
    fputs("taplinen: ", stderr);
    if (command != NULL)
        fprintf(stderr, "%s: ", command->name);
    vfprintf(stderr, format, values);
    fputc('\n', stderr);
}

enum status print_error(const char *format, ...)
{
    va_list values;
    va_start(values, format);
    print_message(NULL, format, values);
    va_end(values);
    return STATUS_ERROR;
}

enum status wrong_use(const struct command *command, const char *format, ...)
{
    va_list values;
    va_start(values, format);
    print_message(command, format, values);
    va_end(values);
    if (command != NULL)
        fprintf(stderr, "Try 'taplinen help %s'.\n", command->name);
    else
        fputs("Try 'taplinen --help'.\n", stderr);
    return STATUS_ERROR;
}

void *reallocate(void *memory, size_t len)
{
    /* A length of 0 may give NULL without being an error. */
    void *moved = realloc(memory, len > 0 ? len : 1);
    if (moved == NULL)
        exit(print_error("out of memory: no %zu bytes", len));
    return moved;
}

void *allocate(size_t len)
{
    return reallocate(NULL, len);
}
