/* Answers every line of the desk (README.md at the top) through the C interface, for files of up to 17 MiB, areas of up to 32 MiB and lists
   of up to 70,000 pages; a name has up to 255 bytes, as at the desk. What a call must leave alone is looked at after each: where it did
   not, the answer is `guard broken`, which no other program gives. */
#include "hurlyburn.h"
#include "lent.h"
#include <stdio.h>
#include <stdlib.h>
#include <string.h>

#define LONGEST_AREA (32u << 20)
#define MOST_WORDS 7
#define MOST_PAGES 70000u
#define LONGEST_NAME 255u
#define ROW 32

static void no_input(void)
{
    puts("no input");
}

/* ---- words */

static size_t split(char *line, char *words[MOST_WORDS])
{
    size_t count = 0;
    while (count < MOST_WORDS) {
        words[count++] = line;
        char *space = strchr(line, ' ');
        if (!space)
            break;
        *space = 0;
        line = space + 1;
    }
    return count;
}

/* Decimal digits alone, one at least. */
static int read_number(const char *word, uint64_t greatest, uint64_t *number)
{
    uint64_t value = 0;
    if (!*word)
        return 0;
    for (; *word; word++) {
        if (*word < '0' || *word > '9')
            return 0;
        uint64_t digit = (uint64_t)(*word - '0');
        if (digit > greatest || value > (greatest - digit) / 10)
            return 0;
        value = value * 10 + digit;
    }
    *number = value;
    return 1;
}

static int read_unsigned(const char *word, uint32_t *number)
{
    uint64_t value;
    if (!read_number(word, UINT32_MAX, &value))
        return 0;
    *number = (uint32_t)value;
    return 1;
}

static int read_byte(const char *word, uint8_t *number)
{
    uint64_t value;
    if (!read_number(word, UINT8_MAX, &value))
        return 0;
    *number = (uint8_t)value;
    return 1;
}

static int read_signed(const char *word, int32_t *number)
{
    uint64_t value;
    int negative = *word == '-';
    if (!read_number(word + negative, negative ? 2147483648u : 2147483647u, &value))
        return 0;
    *number = (int32_t)(negative ? -(int64_t)value : (int64_t)value);
    return 1;
}

/* The value of a digit, or 16: a capital letter is none. */
static unsigned hexadecimal_digit(char sign)
{
    return sign >= '0' && sign <= '9' ? (unsigned)(sign - '0') : sign >= 'a' && sign <= 'f' ? (unsigned)(sign - 'a' + 10) : 16;
}

/* A name in lower-case hexadecimal, two digits a byte, or `-` for none, lent as an input is. */
static int read_name(const char *word, struct input *name)
{
    uint8_t bytes[LONGEST_NAME];
    size_t length = 0;
    if (!strcmp(word, "-"))
        return lend_copy(bytes, 0, name);
    for (; *word; word += 2) {
        unsigned high = hexadecimal_digit(word[0]), low = high < 16 ? hexadecimal_digit(word[1]) : 16;
        if (low == 16 || length == LONGEST_NAME)
            return 0;
        bytes[length++] = (uint8_t)(16 * high + low);
    }
    return length > 0 && lend_copy(bytes, length, name);
}

/* ---- answers */

/* Whether it is a result to be printed; a refusal, and what must not be, is printed here. `count` numbers are a result's. */
static int is_result(uint32_t code, const struct numbers *answer, size_t count)
{
    if (!only_front_numbers_written(answer, code == 0 ? count : 1))
        puts("guard broken");
    else if (code == 0)
        return 1;
    else if (code == HURLYBURN_ARRAY_TOO_SHORT)
        puts("array too short");
    else
        printf("refused %u at %llu\n", code, (unsigned long long)answer->number[0]);
    return 0;
}

static void command(char *words[])
{
    struct input file;
    struct numbers answer;
    uint64_t at;
    if (!read_number(words[2], UINT64_MAX, &at) || !lend_file(words[1], &file)) {
        no_input();
        return;
    }
    lend_numbers(&answer);
    uint32_t code = hurlyburn_read_command(file.bytes, file.length, (size_t)at, answer.number, HURLYBURN_COMMAND_NUMBERS);
    if (is_result(code, &answer, HURLYBURN_COMMAND_NUMBERS))
        printf("command %lld %lld %lld\n", (long long)answer.number[0], (long long)answer.number[1], (long long)answer.number[2]);
    take_back(&file);
}

static void check(const char *name)
{
    struct input file;
    struct numbers answer;
    if (!lend_file(name, &file)) {
        no_input();
        return;
    }
    lend_numbers(&answer);
    uint32_t code = hurlyburn_check_file(file.bytes, file.length, answer.number, HURLYBURN_CHECK_NUMBERS);
    if (is_result(code, &answer, HURLYBURN_CHECK_NUMBERS))
        printf("accepted %lld %lld %lld %lld\n", (long long)answer.number[0], (long long)answer.number[1],
               (long long)answer.number[2], (long long)answer.number[3]);
    take_back(&file);
}

static void rounded(char *words[])
{
    struct numbers answer;
    int32_t num, den, mag, n;
    uint32_t resolution;
    if (!read_signed(words[1], &num) || !read_signed(words[2], &den) || !read_signed(words[3], &mag) ||
        !read_unsigned(words[4], &resolution) || !read_signed(words[5], &n)) {
        no_input();
        return;
    }
    lend_numbers(&answer);
    uint32_t code = hurlyburn_round_distance(num, den, mag, resolution, n, answer.number, HURLYBURN_ROUND_NUMBERS);
    if (is_result(code, &answer, HURLYBURN_ROUND_NUMBERS))
        printf("rounded %lld\n", (long long)answer.number[0]);
}

static void scaled(char *words[])
{
    struct numbers answer;
    uint32_t scale;
    uint8_t b[4];
    if (!read_unsigned(words[1], &scale) || !read_byte(words[2], &b[0]) || !read_byte(words[3], &b[1]) ||
        !read_byte(words[4], &b[2]) || !read_byte(words[5], &b[3])) {
        no_input();
        return;
    }
    lend_numbers(&answer);
    uint32_t code = hurlyburn_scale_width(scale, b[0], b[1], b[2], b[3], answer.number, HURLYBURN_SCALE_NUMBERS);
    if (is_result(code, &answer, HURLYBURN_SCALE_NUMBERS))
        printf("width %lld\n", (long long)answer.number[0]);
}

static void table(const char *name)
{
    struct input widths;
    struct numbers answer;
    if (!lend_file(name, &widths)) {
        no_input();
        return;
    }
    lend_numbers(&answer);
    uint32_t code = hurlyburn_check_table(widths.bytes, widths.length, answer.number, HURLYBURN_TABLE_NUMBERS);
    if (is_result(code, &answer, HURLYBURN_TABLE_NUMBERS))
        printf("right %lld\n", (long long)answer.number[0]);
    take_back(&widths);
}

static void looked_up(const struct input *widths, uint32_t checksum, uint32_t scale, const struct input *name, int32_t code)
{
    struct numbers answer;
    lend_numbers(&answer);
    uint32_t result = hurlyburn_look_up(widths->bytes, widths->length, checksum, scale, name->length ? name->bytes : NULL, name->length,
                                        code, answer.number, HURLYBURN_LOOK_NUMBERS);
    int absent = answer.number[0] == 0;
    if (is_result(result, &answer, absent ? 1 : HURLYBURN_LOOK_NUMBERS)) {
        if (absent)
            puts("absent");
        else
            printf("found %lld %lld %lld %lld %lld\n", (long long)answer.number[1], (long long)answer.number[2],
                   (long long)answer.number[3], (long long)answer.number[4], (long long)answer.number[5]);
    }
}

/* TABLE CHECKSUM SCALE NAME CODE */
static void look(char *words[])
{
    struct input widths, name;
    uint32_t checksum, scale;
    int32_t code;
    if (!read_unsigned(words[2], &checksum) || !read_unsigned(words[3], &scale) || !read_signed(words[5], &code) ||
        !read_name(words[4], &name)) {
        no_input();
        return;
    }
    if (lend_file(words[1], &widths)) {
        looked_up(&widths, checksum, scale, &name, code);
        take_back(&widths);
    } else
        no_input();
    take_back(&name);
}

static void print_hexadecimal(const uint8_t *bytes, size_t count)
{
    static const char digits[] = "0123456789abcdef";
    for (size_t i = 0; i < count; i++) {
        putchar(digits[bytes[i] / 16]);
        putchar(digits[bytes[i] % 16]);
    }
    putchar('\n');
}

/* The bytes from a place of the caller's file up to another. */
static void print_bytes(const struct input *file, int64_t start, int64_t end)
{
    printf(start == end ? "spelled -" : "spelled ");
    print_hexadecimal(file->bytes + start, (size_t)(end - start));
}

static void name(char *words[], int spelled)
{
    struct input file;
    struct numbers answer;
    int32_t font;
    if (!read_signed(words[2], &font) || !lend_file(words[1], &file)) {
        no_input();
        return;
    }
    lend_numbers(&answer);
    uint32_t code = hurlyburn_font_name(file.bytes, file.length, font, answer.number, HURLYBURN_NAME_NUMBERS);
    if (is_result(code, &answer, HURLYBURN_NAME_NUMBERS)) {
        if (spelled)
            print_bytes(&file, answer.number[0], answer.number[1]);
        else
            printf("name %lld %lld\n", (long long)answer.number[0], (long long)answer.number[1]);
    }
    take_back(&file);
}

static int four_bytes(const uint8_t *bytes)
{
    return (int32_t)((uint32_t)bytes[0] << 24 | (uint32_t)bytes[1] << 16 | (uint32_t)bytes[2] << 8 | bytes[3]);
}

static void print_record(const uint8_t *r)
{
    printf("%s %d %d %d %d %d %d\n", r[0] == 1 ? "c" : r[0] == 2 ? "r" : "?", r[2] << 8 | r[3], r[1], four_bytes(r + 4),
           four_bytes(r + 8), four_bytes(r + 12), four_bytes(r + 16));
}

static void placed(const struct input *file, const struct input *widths, uint32_t resolution, uint32_t page, size_t room)
{
    struct output area;
    struct numbers answer;
    lend_output(room, &area);
    lend_numbers(&answer);
    uint32_t code = hurlyburn_place_page(file->bytes, file->length, widths->bytes, widths->length, resolution, page, area.bytes,
                                         area.length, answer.number, HURLYBURN_PLACE_NUMBERS);
    size_t records = code == 0 ? (size_t)answer.number[0] : 0;
    if (!only_front_written(&area, HURLYBURN_RECORD_BYTES * records))
        puts("guard broken");
    else if (is_result(code, &answer, HURLYBURN_PLACE_NUMBERS)) {
        for (size_t i = 0; i < records; i++)
            print_record(area.bytes + HURLYBURN_RECORD_BYTES * i);
        printf("end %lld %lld %lld\n", (long long)answer.number[0], (long long)answer.number[1], (long long)answer.number[2]);
    }
    take_output_back(&area);
}

static void place(char *words[])
{
    struct input file, widths;
    uint32_t resolution, page;
    uint64_t room;
    if (!read_unsigned(words[3], &resolution) || !read_unsigned(words[4], &page) || !read_number(words[5], LONGEST_AREA, &room) ||
        !lend_file(words[1], &file)) {
        no_input();
        return;
    }
    if (lend_file(words[2], &widths)) {
        placed(&file, &widths, resolution, page, (size_t)room);
        take_back(&widths);
    } else
        no_input();
    take_back(&file);
}

/* Width records of so many bytes, a line each, or a refusal, of a call that wrote into an area. */
static void print_width_records(uint32_t code, const struct output *area, const struct numbers *answer, size_t record)
{
    size_t records = code == 0 ? (size_t)answer->number[0] : 0;
    if (!only_front_written(area, record * records))
        puts("guard broken");
    else if (is_result(code, answer, 1)) {
        for (size_t i = 0; i < records; i++)
            print_hexadecimal(area->bytes + record * i, record);
        printf("end %lld\n", (long long)answer->number[0]);
    }
}

static void tabled(const struct input *pk, uint32_t scale, size_t room)
{
    struct output area;
    struct numbers answer;
    lend_output(room, &area);
    lend_numbers(&answer);
    uint32_t code = hurlyburn_width_table(pk->bytes, pk->length, scale, area.bytes, area.length, answer.number,
                                          HURLYBURN_WIDTH_TABLE_NUMBERS);
    print_width_records(code, &area, &answer, HURLYBURN_WIDTH_RECORD_BYTES);
    take_output_back(&area);
}

/* One of the two ways between a table's forms, and how many bytes a record has that it writes. */
struct way {
    uint32_t (*ask)(const uint8_t *table, size_t table_length, uint8_t *area, size_t area_length, int64_t *answer, size_t answer_length);
    size_t numbers, record;
};

static const struct way widening = {hurlyburn_widen_table, HURLYBURN_WIDEN_NUMBERS, HURLYBURN_WIDTH_RECORD_BYTES};
static const struct way narrowing = {hurlyburn_narrow_table, HURLYBURN_NARROW_NUMBERS, HURLYBURN_OLD_WIDTH_RECORD_BYTES};

static void in_other_form(const struct way *way, char *words[])
{
    struct input given;
    struct output area;
    struct numbers answer;
    uint64_t room;
    if (!read_number(words[2], LONGEST_AREA, &room) || !lend_file(words[1], &given)) {
        no_input();
        return;
    }
    lend_output((size_t)room, &area);
    lend_numbers(&answer);
    uint32_t code = way->ask(given.bytes, given.length, area.bytes, area.length, answer.number, way->numbers);
    print_width_records(code, &area, &answer, way->record);
    take_output_back(&area);
    take_back(&given);
}

static void width_table(char *words[])
{
    struct input pk;
    uint32_t scale;
    uint64_t room;
    if (!read_unsigned(words[2], &scale) || !read_number(words[3], LONGEST_AREA, &room) || !lend_file(words[1], &pk)) {
        no_input();
        return;
    }
    tabled(&pk, scale, (size_t)room);
    take_back(&pk);
}

static void cut_chosen(const struct input *file, const uint32_t *pages, size_t count, size_t room)
{
    struct output area;
    struct numbers answer;
    lend_output(room, &area);
    lend_numbers(&answer);
    uint32_t code = hurlyburn_cut_pages(file->bytes, file->length, count ? pages : NULL, count, area.bytes, area.length, answer.number,
                                        HURLYBURN_CUT_NUMBERS);
    size_t bytes = code == 0 ? (size_t)answer.number[0] : 0;
    if (!only_front_written(&area, bytes))
        puts("guard broken");
    else if (is_result(code, &answer, HURLYBURN_CUT_NUMBERS)) {
        for (size_t at = 0; at < bytes; at += ROW)
            print_hexadecimal(area.bytes + at, bytes - at < ROW ? bytes - at : ROW);
        printf("end %lld\n", (long long)answer.number[0]);
    }
    take_output_back(&area);
}

/* The list of pages, lent as an input is: how many there are, or MOST_PAGES + 1 where a word is no number. */
static size_t read_pages(char *rest, struct input *list)
{
    uint32_t *pages = malloc((MOST_PAGES + 1) * sizeof *pages);
    size_t count = 0;
    for (char *word = rest; word && count <= MOST_PAGES;) {
        char *space = strchr(word, ' ');
        if (space)
            *space = 0;
        if (!pages || !read_unsigned(word, &pages[count]))
            count = MOST_PAGES;
        count++;
        word = space ? space + 1 : NULL;
    }
    if (count <= MOST_PAGES && !lend_copy(pages, count * sizeof *pages, list))
        count = MOST_PAGES + 1;
    free(pages);
    return count;
}

/* FILE AREA, then the pages in one piece, NULL where there is none */
static void cut(char *words[], char *rest)
{
    struct input file, list;
    uint64_t room;
    if (!read_number(words[2], LONGEST_AREA, &room)) {
        no_input();
        return;
    }
    size_t count = read_pages(rest, &list);
    if (count > MOST_PAGES) {
        no_input();
        return;
    }
    if (lend_file(words[1], &file)) {
        cut_chosen(&file, (const uint32_t *)(const void *)list.bytes, count, (size_t)room);
        take_back(&file);
    } else
        no_input();
    take_back(&list);
}

/* `cut` has as many words as it likes behind its first three. */
static void answer_cut(char *line)
{
    char *words[3];
    for (size_t i = 0; i < 3; i++) {
        if (!line) {
            no_input();
            return;
        }
        words[i] = line;
        line = strchr(line, ' ');
        if (line)
            *line++ = 0;
    }
    cut(words, line);
}

static void answer_line(char *line)
{
    char *words[MOST_WORDS];
    if (!strncmp(line, "cut ", 4)) {
        answer_cut(line);
        return;
    }
    size_t count = split(line, words);
    if (count == 2 && !strcmp(words[0], "check"))
        check(words[1]);
    else if (count == 2 && !strcmp(words[0], "table"))
        table(words[1]);
    else if (count == 6 && !strcmp(words[0], "look"))
        look(words);
    else if (count == 3 && !strcmp(words[0], "widen"))
        in_other_form(&widening, words);
    else if (count == 3 && !strcmp(words[0], "narrow"))
        in_other_form(&narrowing, words);
    else if (count == 3 && !strcmp(words[0], "name"))
        name(words, 0);
    else if (count == 3 && !strcmp(words[0], "spell"))
        name(words, 1);
    else if (count == 3 && !strcmp(words[0], "read"))
        command(words);
    else if (count == 6 && !strcmp(words[0], "round"))
        rounded(words);
    else if (count == 6 && !strcmp(words[0], "scale"))
        scaled(words);
    else if (count == 6 && !strcmp(words[0], "place"))
        place(words);
    else if (count == 4 && !strcmp(words[0], "widths"))
        width_table(words);
    else
        no_input();
}

int main(void)
{
    char *line = NULL;
    size_t room = 0;
    for (long length; (length = getline(&line, &room, stdin)) > 0;) {
        if (line[length - 1] == '\n')
            line[length - 1] = 0;
        answer_line(line);
        fflush(stdout);
    }
    return 0;
}
