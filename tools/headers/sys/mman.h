/* The kit brings neither its C library's headers nor its compiler's. Of this one, what the C of bench/, tests/ and include/ uses. */
#ifndef SYS_MMAN_H
#define SYS_MMAN_H
#include <stddef.h>
void *mmap(void *at, size_t length, int protection, int flags, int file, long offset);
int mprotect(void *at, size_t length, int protection);
int munmap(void *at, size_t length);
#define PROT_NONE 0
#define PROT_READ 1
#define PROT_WRITE 2
#define MAP_PRIVATE 2
#define MAP_ANONYMOUS 32
#define MAP_NORESERVE 0x4000
#define MAP_FAILED ((void *)-1)
#endif
