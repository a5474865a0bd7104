/* The reader's jobs in plain C, the baseline of the bench: the signatures and answers of include/hurlyburn.h. */
#ifndef PLAIN_H
#define PLAIN_H
#include <stddef.h>
#include <stdint.h>

uint32_t plain_check_file(const uint8_t *file, size_t file_length, int64_t *answer, size_t answer_length);
uint32_t plain_place_page(const uint8_t *file, size_t file_length, const uint8_t *widths, size_t widths_length,
                          uint32_t resolution, uint32_t page, uint8_t *area, size_t area_length,
                          int64_t *answer, size_t answer_length);
uint32_t plain_scale_width(uint32_t scale, uint8_t b0, uint8_t b1, uint8_t b2, uint8_t b3, int64_t *answer, size_t answer_length);
uint32_t plain_check_table(const uint8_t *table, size_t table_length, int64_t *answer, size_t answer_length);
uint32_t plain_look_up(const uint8_t *table, size_t table_length, uint32_t checksum, uint32_t scale, const uint8_t *name,
                       size_t name_length, int32_t code, int64_t *answer, size_t answer_length);
uint32_t plain_widen_table(const uint8_t *old, size_t old_length, uint8_t *area, size_t area_length, int64_t *answer,
                           size_t answer_length);
uint32_t plain_narrow_table(const uint8_t *table, size_t table_length, uint8_t *area, size_t area_length, int64_t *answer,
                            size_t answer_length);
uint32_t plain_width_table(const uint8_t *pk, size_t pk_length, uint32_t scale, uint8_t *area, size_t area_length,
                           int64_t *answer, size_t answer_length);
uint32_t plain_cut_pages(const uint8_t *file, size_t file_length, const uint32_t *pages, size_t count, uint8_t *area,
                         size_t area_length, int64_t *answer, size_t answer_length);
#endif
