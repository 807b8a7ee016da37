#include "address.h"

#include <stdio.h>

void print_address(uint32_t address)
{
    printf("%u:%u\n", address >> 16, address & 0xffff);
}
