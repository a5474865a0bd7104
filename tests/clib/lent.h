/* Memory as a careful caller lends it: an input that cannot be written and whose last byte stands before memory that cannot be
   read, so that a write to it, or a read past its end, stops the program; and an output between guards. */
#ifndef LENT_H
#define LENT_H
#include <stddef.h>
#include <stdint.h>

#define LONGEST_FILE (17u << 20)
#define UNTOUCHED_BYTE 0xA5
#define UNTOUCHED_NUMBER 0x5A5A5A5A5A5A5A5A
#define GUARD 64

struct input {
    const uint8_t *bytes;
    size_t length;
    void *memory;
    size_t memory_length;
};

/* A file, read whole; its length is 0 and its bytes NULL where it is empty. 0 if it cannot be read or is longer than LONGEST_FILE. */
int lend_file(const char *name, struct input *input);
/* So many bytes, all 0 but the first and the last, which are given. They take address space, and hardly any memory. 0 if there is none. */
int lend_sparse(size_t length, const uint8_t *front, size_t front_length, const uint8_t *end, size_t end_length, struct input *input);
/* A copy of so many bytes. 0 if there is no memory. */
int lend_copy(const void *bytes, size_t length, struct input *input);
void take_back(struct input *input);

struct output {
    uint8_t *bytes;
    size_t length;
    uint8_t *memory;
};

/* Bytes that all hold UNTOUCHED_BYTE, with as many on both sides. */
void lend_output(size_t length, struct output *output);
void take_output_back(struct output *output);
/* Whether nothing outside the first so many bytes was written. */
int only_front_written(const struct output *output, size_t front);

/* Bytes that all hold UNTOUCHED_BYTE, the last of them before memory that can neither be read nor written. */
struct edge {
    uint8_t *bytes;
    size_t length;
    void *memory;
    size_t memory_length;
};

int lend_edge(size_t length, struct edge *edge);
void take_edge_back(struct edge *edge);

#define MOST_NUMBERS 10

struct numbers {
    int64_t before[GUARD], number[MOST_NUMBERS], behind[GUARD];
};

void lend_numbers(struct numbers *numbers);
int only_front_numbers_written(const struct numbers *numbers, size_t front);

#endif
