#include "lent.h"
#include <stdio.h>
#include <stdlib.h>
#include <string.h>
#include <sys/mman.h>

#define PAGE 65536u

int lend_file(const char *name, struct input *input)
{
    FILE *file = fopen(name, "rb");
    if (!file)
        return 0;
    long length = fseek(file, 0, SEEK_END) ? -1 : ftell(file);
    if (length < 0 || length > (long)LONGEST_FILE || fseek(file, 0, SEEK_SET)) {
        fclose(file);
        return 0;
    }
    size_t pages = ((size_t)length + PAGE - 1) / PAGE * PAGE;
    uint8_t *memory = mmap(NULL, pages + PAGE, PROT_READ | PROT_WRITE, MAP_PRIVATE | MAP_ANONYMOUS, -1, 0);
    if (memory == MAP_FAILED) {
        fclose(file);
        return 0;
    }
    uint8_t *bytes = memory + pages - length;
    int whole = fread(bytes, 1, (size_t)length, file) == (size_t)length;
    fclose(file);
    *input = (struct input){length ? bytes : NULL, (size_t)length, memory, pages + PAGE};
    if (!whole || (pages && mprotect(memory, pages, PROT_READ)) || mprotect(memory + pages, PAGE, PROT_NONE)) {
        take_back(input);
        return 0;
    }
    return 1;
}

int lend_sparse(size_t length, const uint8_t *front, size_t front_length, const uint8_t *end, size_t end_length, struct input *input)
{
    size_t pages = (length + PAGE - 1) / PAGE * PAGE;
    uint8_t *memory = mmap(NULL, pages + PAGE, PROT_READ | PROT_WRITE, MAP_PRIVATE | MAP_ANONYMOUS | MAP_NORESERVE, -1, 0);
    if (memory == MAP_FAILED)
        return 0;
    uint8_t *bytes = memory + pages - length;
    memcpy(bytes, front, front_length);
    memcpy(bytes + length - end_length, end, end_length);
    *input = (struct input){bytes, length, memory, pages + PAGE};
    if (mprotect(memory, pages, PROT_READ) || mprotect(memory + pages, PAGE, PROT_NONE)) {
        take_back(input);
        return 0;
    }
    return 1;
}

int lend_copy(const void *bytes, size_t length, struct input *input)
{
    return lend_sparse(length, bytes, length, bytes, 0, input);
}

void take_back(struct input *input)
{
    munmap(input->memory, input->memory_length);
}

void lend_output(size_t length, struct output *output)
{
    output->memory = malloc(length + 2 * GUARD);
    if (!output->memory) {
        fprintf(stderr, "no memory\n");
        exit(2);
    }
    memset(output->memory, UNTOUCHED_BYTE, length + 2 * GUARD);
    output->bytes = output->memory + GUARD;
    output->length = length;
}

void take_output_back(struct output *output)
{
    free(output->memory);
}

int lend_edge(size_t length, struct edge *edge)
{
    size_t pages = (length + PAGE - 1) / PAGE * PAGE;
    uint8_t *memory = mmap(NULL, pages + PAGE, PROT_READ | PROT_WRITE, MAP_PRIVATE | MAP_ANONYMOUS, -1, 0);
    if (memory == MAP_FAILED)
        return 0;
    memset(memory, UNTOUCHED_BYTE, pages);
    *edge = (struct edge){memory + pages - length, length, memory, pages + PAGE};
    if (mprotect(memory + pages, PAGE, PROT_NONE)) {
        take_edge_back(edge);
        return 0;
    }
    return 1;
}

void take_edge_back(struct edge *edge)
{
    munmap(edge->memory, edge->memory_length);
}

/* The first byte is, and each is the one before it: a comparison that the C library does quickly. */
static int untouched(const uint8_t *bytes, size_t length)
{
    return length == 0 || (bytes[0] == UNTOUCHED_BYTE && !memcmp(bytes, bytes + 1, length - 1));
}

int only_front_written(const struct output *output, size_t front)
{
    return front <= output->length && untouched(output->memory, GUARD) &&
           untouched(output->bytes + front, output->length - front + GUARD);
}

static int untouched_numbers(const int64_t *numbers, size_t length)
{
    for (size_t i = 0; i < length; i++)
        if (numbers[i] != UNTOUCHED_NUMBER)
            return 0;
    return 1;
}

void lend_numbers(struct numbers *numbers)
{
    for (size_t i = 0; i < GUARD; i++)
        numbers->before[i] = numbers->behind[i] = UNTOUCHED_NUMBER;
    for (size_t i = 0; i < MOST_NUMBERS; i++)
        numbers->number[i] = UNTOUCHED_NUMBER;
}

int only_front_numbers_written(const struct numbers *numbers, size_t front)
{
    return untouched_numbers(numbers->before, GUARD) && untouched_numbers(numbers->number + front, MOST_NUMBERS - front) &&
           untouched_numbers(numbers->behind, GUARD);
}
