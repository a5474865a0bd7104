/* example FILE R PAGE [TABLE]: checks a DVI file through the C interface and prints what is on one page, at R dots per inch, by a width
   table of its fonts. The table may be of the old form; it is widened then. Without one the page's rules alone are printed, since every
   character is missing.

       bench/archive target && cc -I include include/example.c target/libclib.a -o example */
#include "hurlyburn.h"
#include <stdio.h>
#include <stdlib.h>

/* A whole file, in memory that the caller frees; NULL if it cannot be read. */
static uint8_t *contents(const char *name, size_t *length)
{
    FILE *file = fopen(name, "rb");
    if (!file)
        return NULL;
    long end = fseek(file, 0, SEEK_END) ? -1 : ftell(file);
    uint8_t *bytes = end < 0 || fseek(file, 0, SEEK_SET) ? NULL : malloc((size_t)end + 1);
    *length = bytes ? fread(bytes, 1, (size_t)end, file) : 0;
    fclose(file);
    return bytes;
}

/* Numbers in a record have their greatest byte first. */
static int32_t number(const uint8_t *bytes)
{
    return (int32_t)((uint32_t)bytes[0] << 24 | (uint32_t)bytes[1] << 16 | (uint32_t)bytes[2] << 8 | bytes[3]);
}

static int refused(uint32_t code, const int64_t *answer)
{
    printf("refused %u at %lld\n", code, (long long)answer[0]);
    return 1;
}

/* A table as it is to be lent, in memory that the caller frees: as it was read or, where it is of the old form, widened. What is of
   neither form stays as it is, and placing tells where it is wrong. */
static uint8_t *in_new_form(uint8_t *table, size_t *length)
{
    int64_t answer[HURLYBURN_TABLE_NUMBERS];
    if (hurlyburn_check_table(table, *length, answer, HURLYBURN_TABLE_NUMBERS) == HURLYBURN_GIVEN)
        return table;
    size_t room = *length / HURLYBURN_OLD_WIDTH_RECORD_BYTES * HURLYBURN_WIDTH_RECORD_BYTES;
    uint8_t *wide = malloc(room + 1);
    if (!wide || hurlyburn_widen_table(table, *length, wide, room, answer, HURLYBURN_WIDEN_NUMBERS) != HURLYBURN_GIVEN) {
        free(wide);
        return table;
    }
    free(table);
    *length = room;
    return wide;
}

/* Prints a page's records. The area is doubled until they fit: a refusal writes nothing, so the same call can be made again. */
static int print_page(const uint8_t *file, size_t length, const uint8_t *table, size_t table_length, uint32_t resolution, uint32_t page)
{
    int64_t answer[HURLYBURN_PLACE_NUMBERS] = {0};
    uint32_t code = 17;
    size_t room = 64 * HURLYBURN_RECORD_BYTES;
    uint8_t *area = malloc(room);
    while (area && (code = hurlyburn_place_page(file, length, table, table_length, resolution, page, area, room, answer,
                                                HURLYBURN_PLACE_NUMBERS)) == 17) {
        free(area);
        area = malloc(room *= 2);
    }
    if (code != HURLYBURN_GIVEN) {
        free(area);
        return refused(code, answer);
    }
    for (int64_t i = 0; i < answer[0]; i++) {
        const uint8_t *record = area + HURLYBURN_RECORD_BYTES * i;
        printf("%s at %d %d: %d %d\n", record[0] == 1 ? "character" : "rule", number(record + 4), number(record + 8),
               number(record + 12), number(record + 16));
    }
    printf("%lld records, %lld missing characters, %lld specials\n", (long long)answer[0], (long long)answer[1], (long long)answer[2]);
    free(area);
    return 0;
}

/* Checks the file, and prints the page if it is right. */
static int checked(const uint8_t *file, size_t length, const uint8_t *table, size_t table_length, char **words)
{
    int64_t answer[HURLYBURN_CHECK_NUMBERS];
    uint32_t code = hurlyburn_check_file(file, length, answer, HURLYBURN_CHECK_NUMBERS);
    if (code != HURLYBURN_GIVEN)
        return refused(code, answer);
    printf("%lld pages, %lld fonts, depth %lld, post at %lld\n", (long long)answer[0], (long long)answer[1], (long long)answer[2],
           (long long)answer[3]);
    return print_page(file, length, table, table_length, (uint32_t)strtoul(words[0], NULL, 10), (uint32_t)strtoul(words[1], NULL, 10));
}

int main(int count, char **words)
{
    size_t length = 0, table_length = 0;
    uint8_t *file = count == 4 || count == 5 ? contents(words[1], &length) : NULL;
    uint8_t *table = file && count == 5 ? contents(words[4], &table_length) : NULL;
    if (!file || (count == 5 && !table)) {
        fprintf(stderr, "use: example FILE R PAGE [TABLE]\n");
        free(file);
        return 2;
    }
    if (table)
        table = in_new_form(table, &table_length);
    int status = checked(file, length, table, table_length, words + 2);
    free(table);
    free(file);
    return status;
}
