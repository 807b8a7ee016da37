/* Error messages, and memory that is there or ends the program. */
#ifndef TOOL_ERROR_H
#define TOOL_ERROR_H

#include <stddef.h>

#include "command.h"

/* Prints "taplinen: " and the message on standard error. Always STATUS_ERROR, so that callers can return it. */
__attribute__((format(printf, 1, 2))) enum status print_error(const char *format, ...);

/* The same with the name of the command before the message, and a line that tells how to get help. The command is NULL if it is not
 * known. */
__attribute__((format(printf, 2, 3))) enum status wrong_use(const struct command *command, const char *format, ...);

/* As malloc and realloc, but never NULL: if there is no memory, the program ends with STATUS_ERROR. */
void *allocate(size_t len);
void *reallocate(void *memory, size_t len);

#endif
