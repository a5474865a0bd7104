/* Both readers behind one door, for bench/readers.py: a question asked once, or some in turn, so many times, with a clock beside
   them. The loop is here, so that nothing but the calls is timed. The clock is the thread's own processor time: on a shared
   machine the time for which others had the processor is not the reader's. */
#include "hurlyburn.h"
#include "plain.h"

enum entry { CHECK, PLACE, SCALE, TABLE, LOOK, WIDTHS, CUT, WIDEN, NARROW };
enum reader { PROVED, PLAIN };

/* The fields of Question in bench/readers.py. */
struct question {
    uint64_t entry;
    const uint8_t *file;
    size_t file_length;
    const uint8_t *table;
    size_t table_length;
    uint8_t *area;
    size_t area_length;
    const uint32_t *pages;
    size_t pages_length;
    const uint8_t *name;
    size_t name_length;
    uint32_t resolution, page, checksum, scale;
    int32_t code;
    uint8_t word[4];
};

/* Of the C library, as every 64-bit Linux has them; the kit brings no header for it. */
struct timespec {
    long tv_sec, tv_nsec;
};
int clock_gettime(int clock, struct timespec *at);
#define CLOCK_THREAD_CPUTIME_ID 3
#define ANSWER_LENGTH 6

static inline uint32_t asked(enum reader reader, const struct question *q, int64_t *answer, size_t answer_length)
{
    switch (q->entry) {
    case CHECK:
        return (reader == PROVED ? hurlyburn_check_file : plain_check_file)(q->file, q->file_length, answer, answer_length);
    case PLACE:
        return (reader == PROVED ? hurlyburn_place_page : plain_place_page)(
            q->file, q->file_length, q->table, q->table_length, q->resolution, q->page, q->area, q->area_length, answer,
            answer_length);
    case SCALE:
        return (reader == PROVED ? hurlyburn_scale_width : plain_scale_width)(q->scale, q->word[0], q->word[1], q->word[2],
                                                                              q->word[3], answer, answer_length);
    case TABLE:
        return (reader == PROVED ? hurlyburn_check_table : plain_check_table)(q->table, q->table_length, answer, answer_length);
    case LOOK:
        return (reader == PROVED ? hurlyburn_look_up : plain_look_up)(q->table, q->table_length, q->checksum, q->scale, q->name,
                                                                      q->name_length, q->code, answer, answer_length);
    case WIDTHS:
        return (reader == PROVED ? hurlyburn_width_table : plain_width_table)(q->file, q->file_length, q->scale, q->area,
                                                                              q->area_length, answer, answer_length);
    case CUT:
        return (reader == PROVED ? hurlyburn_cut_pages : plain_cut_pages)(q->file, q->file_length, q->pages, q->pages_length, q->area,
                                                                          q->area_length, answer, answer_length);
    case WIDEN:
        return (reader == PROVED ? hurlyburn_widen_table : plain_widen_table)(q->table, q->table_length, q->area, q->area_length,
                                                                              answer, answer_length);
    default:
        return (reader == PROVED ? hurlyburn_narrow_table : plain_narrow_table)(q->table, q->table_length, q->area, q->area_length,
                                                                                answer, answer_length);
    }
}

uint32_t ask(uint32_t reader, const struct question *question, int64_t *answer, size_t answer_length)
{
    return reader == PROVED ? asked(PROVED, question, answer, answer_length) : asked(PLAIN, question, answer, answer_length);
}

static double seconds_since(const struct timespec *began)
{
    struct timespec now;
    clock_gettime(CLOCK_THREAD_CPUTIME_ID, &now);
    return (double)(now.tv_sec - began->tv_sec) + (double)(now.tv_nsec - began->tv_nsec) * 1e-9;
}

double seconds_of(uint32_t reader, const struct question *questions, uint64_t count, uint64_t calls)
{
    int64_t answer[ANSWER_LENGTH];
    struct timespec began;
    clock_gettime(CLOCK_THREAD_CPUTIME_ID, &began);
    for (uint64_t i = 0, which = 0; i < calls; i++) {
        ask(reader, &questions[which], answer, ANSWER_LENGTH);
        which = which + 1 < count ? which + 1 : 0;
    }
    return seconds_since(&began);
}
