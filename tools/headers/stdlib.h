/* The kit brings neither its C library's headers nor its compiler's. Of this one, what the C of bench/, tests/ and include/ uses. */
#ifndef STDLIB_H
#define STDLIB_H
#include <stddef.h>
void *malloc(size_t length);
void free(void *memory);
unsigned long strtoul(const char *text, char **end, int base);
_Noreturn void exit(int status);
#endif
