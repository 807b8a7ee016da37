#ifndef TOOL_ADDRESS_H
#define TOOL_ADDRESS_H

#include <stdint.h>

/* Prints an address as segment:element, and ends the line. */
void print_address(uint32_t address);

#endif
