/* The kit brings neither its C library's headers nor its compiler's. Of this one, what the C of bench/, tests/ and include/ uses. */
#ifndef STDIO_H
#define STDIO_H
#include <stddef.h>
typedef struct FILE FILE;
extern FILE *stdin, *stdout, *stderr;
FILE *fopen(const char *name, const char *mode);
int fclose(FILE *file);
size_t fread(void *to, size_t size, size_t count, FILE *file);
int fseek(FILE *file, long offset, int from);
long ftell(FILE *file);
int fflush(FILE *file);
int puts(const char *text);
int putchar(int byte);
int printf(const char *form, ...) __attribute__((format(printf, 1, 2)));
int fprintf(FILE *file, const char *form, ...) __attribute__((format(printf, 2, 3)));
long getline(char **line, size_t *length, FILE *file);
#define SEEK_SET 0
#define SEEK_END 2
#endif
