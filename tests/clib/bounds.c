/* What a call of the C interface writes and what it leaves: every length of the answer array from none on, areas of every interesting
   length, inputs of length 0, names of every interesting length, a PK font and a name longer than 2^32 bytes. Takes a DVI file of two
   pages whose first has records; a width table that is right for it, its first record for any name and its last for the name cmr10; the
   number of a font that the file defines; a PK font: no comment, a first packet of the short form without a raster, a second of the
   long form, the postamble byte at the end; and a width table of the old form: three records, the last of another check sum than the
   others. Prints each failure, and how many tests passed and failed. */
#include "hurlyburn.h"
#include "lent.h"
#include <stdio.h>
#include <stdlib.h>
#include <string.h>

#define RESOLUTION 300
#define PAGE 1
#define SCALE 655360

static struct input file, widths, pk, old, wide; /* wide: the old table in the new form, made by hand */
static int32_t font;
static const uint32_t both_pages[] = {1, 2};
static unsigned passed, failed;

static void expect(int holds, const char *what, const char *call, size_t length)
{
    if (holds) {
        passed++;
        return;
    }
    failed++;
    printf("%s: %s, with %zu\n", call, what, length);
}

/* ---- the calls: each is asked rightly and, with `less` 1, so that it is refused: an input cut short by a byte, or a number out of range */

static uint32_t number_at(const uint8_t *bytes)
{
    return (uint32_t)bytes[0] << 24 | (uint32_t)bytes[1] << 16 | (uint32_t)bytes[2] << 8 | bytes[3];
}

/* post_post and its tail, 10 bytes; at the file's end no command begins */
static uint32_t command(size_t less, struct output *area, int64_t *answer, size_t length)
{
    (void)area;
    return hurlyburn_read_command(file.bytes, file.length, less ? file.length : file.length - 10, answer, length);
}

static uint32_t check(size_t less, struct output *area, int64_t *answer, size_t length)
{
    (void)area;
    return hurlyburn_check_file(file.bytes, file.length - less, answer, length);
}

static uint32_t place(size_t less, struct output *area, int64_t *answer, size_t length)
{
    return hurlyburn_place_page(file.bytes, file.length, widths.bytes, widths.length - less, RESOLUTION, PAGE, area->bytes,
                                area->length, answer, length);
}

static uint32_t rounded(size_t less, struct output *area, int64_t *answer, size_t length)
{
    (void)area;
    return hurlyburn_round_distance(254, 1, 1000, less ? 501 : 500, -3, answer, length);
}

static uint32_t scaled(size_t less, struct output *area, int64_t *answer, size_t length)
{
    (void)area;
    return hurlyburn_scale_width(less ? 0 : 100, 255, 255, 255, 255, answer, length);
}

static uint32_t table(size_t less, struct output *area, int64_t *answer, size_t length)
{
    (void)area;
    return hurlyburn_check_table(widths.bytes, widths.length - less, answer, length);
}

static uint32_t look_for(const uint8_t *record, size_t less, int64_t *answer, size_t length)
{
    static const uint8_t own[] = "cmr10";
    return hurlyburn_look_up(widths.bytes, widths.length - less, number_at(record), number_at(record + 4), own, sizeof own - 1, record[24],
                             answer, length);
}

/* the table's first record, which is for any name */
static uint32_t look(size_t less, struct output *area, int64_t *answer, size_t length)
{
    (void)area;
    return look_for(widths.bytes, less, answer, length);
}

/* the last, which is for the font's own */
static uint32_t look_named(size_t less, struct output *area, int64_t *answer, size_t length)
{
    (void)area;
    return look_for(widths.bytes + widths.length - HURLYBURN_WIDTH_RECORD_BYTES, less, answer, length);
}

/* scale 0 is in no right table */
static uint32_t look_absent(size_t less, struct output *area, int64_t *answer, size_t length)
{
    (void)area;
    return hurlyburn_look_up(widths.bytes, widths.length - less, number_at(widths.bytes), 0, NULL, 0, widths.bytes[24], answer, length);
}

static uint32_t name(size_t less, struct output *area, int64_t *answer, size_t length)
{
    (void)area;
    return hurlyburn_font_name(file.bytes, file.length - less, font, answer, length);
}

static uint32_t tabled(size_t less, struct output *area, int64_t *answer, size_t length)
{
    return hurlyburn_width_table(pk.bytes, pk.length - less, SCALE, area->bytes, area->length, answer, length);
}

static uint32_t widened(size_t less, struct output *area, int64_t *answer, size_t length)
{
    return hurlyburn_widen_table(old.bytes, old.length - less, area->bytes, area->length, answer, length);
}

static uint32_t narrowed(size_t less, struct output *area, int64_t *answer, size_t length)
{
    return hurlyburn_narrow_table(wide.bytes, wide.length - less, area->bytes, area->length, answer, length);
}

static uint32_t cut(size_t less, struct output *area, int64_t *answer, size_t length)
{
    return hurlyburn_cut_pages(file.bytes, file.length - less, both_pages, 2, area->bytes, area->length, answer, length);
}

static uint32_t cut_last(size_t less, struct output *area, int64_t *answer, size_t length)
{
    return hurlyburn_cut_pages(file.bytes, file.length, both_pages + 1, 1 - less, area->bytes, area->length, answer, length);
}

static const struct call {
    const char *name;
    size_t least, written; /* of a result */
    uint32_t (*ask)(size_t less, struct output *area, int64_t *answer, size_t length);
} calls[] = {
    {"read", HURLYBURN_COMMAND_NUMBERS, 3, command},
    {"check", HURLYBURN_CHECK_NUMBERS, 4, check},
    {"place", HURLYBURN_PLACE_NUMBERS, 3, place},
    {"round", HURLYBURN_ROUND_NUMBERS, 1, rounded},
    {"scale", HURLYBURN_SCALE_NUMBERS, 1, scaled},
    {"table", HURLYBURN_TABLE_NUMBERS, 1, table},
    {"look", HURLYBURN_LOOK_NUMBERS, 6, look},
    {"look, named", HURLYBURN_LOOK_NUMBERS, 6, look_named},
    {"look, absent", HURLYBURN_LOOK_NUMBERS, 1, look_absent},
    {"name", HURLYBURN_NAME_NUMBERS, 2, name},
    {"widths", HURLYBURN_WIDTH_TABLE_NUMBERS, 1, tabled},
    {"widen", HURLYBURN_WIDEN_NUMBERS, 1, widened},
    {"narrow", HURLYBURN_NARROW_NUMBERS, 1, narrowed},
    {"cut", HURLYBURN_CUT_NUMBERS, 1, cut},
    {"cut, one page", HURLYBURN_CUT_NUMBERS, 1, cut_last},
};

#define CALLS (sizeof calls / sizeof calls[0])
#define AREA (20 * 100)

/* ---- the answer array */

/* One call at one length of the array, against the answer that it gave at the least length. */
static void at_length(const struct call *call, size_t less, size_t length, uint32_t code, const struct numbers *known)
{
    struct output area;
    struct numbers answer;
    lend_output(AREA, &area);
    lend_numbers(&answer);
    uint32_t got = call->ask(less, &area, answer.number, length);
    if (length < call->least) {
        expect(got == HURLYBURN_ARRAY_TOO_SHORT, "a short array is not refused", call->name, length);
        expect(only_front_numbers_written(&answer, 0), "a short array is written", call->name, length);
        expect(only_front_written(&area, 0), "the area is written", call->name, length);
    } else {
        size_t front = code == 0 ? call->written : 1;
        expect(got == code, "another code", call->name, length);
        expect(!memcmp(answer.number, known->number, sizeof answer.number), "other numbers", call->name, length);
        expect(only_front_numbers_written(&answer, front), "more is written than the answer's numbers", call->name, length);
    }
    take_output_back(&area);
}

static void every_length(const struct call *call, size_t less)
{
    struct output area;
    struct numbers known;
    lend_output(AREA, &area);
    lend_numbers(&known);
    uint32_t code = call->ask(less, &area, known.number, call->least);
    expect(less ? code > 0 && code < HURLYBURN_ARRAY_TOO_SHORT : code == 0, "not the kind of answer that is tested", call->name, less);
    for (size_t i = 0; i < (less ? 1 : call->written); i++)
        expect(known.number[i] != UNTOUCHED_NUMBER, "a number of the answer is missing", call->name, i);
    for (size_t length = 0; length <= MOST_NUMBERS; length++)
        at_length(call, less, length, code, &known);
    take_output_back(&area);
}

/* ---- the area */

/* An entry that writes records, so many bytes each; a file of chosen pages counts as records of a byte. */
struct writer {
    const char *name;
    size_t numbers, record;
    uint32_t (*ask)(size_t less, struct output *area, int64_t *answer, size_t length);
};

static const struct writer placing = {"area of place", HURLYBURN_PLACE_NUMBERS, HURLYBURN_RECORD_BYTES, place};
static const struct writer tabling = {"area of widths", HURLYBURN_WIDTH_TABLE_NUMBERS, HURLYBURN_WIDTH_RECORD_BYTES, tabled};
static const struct writer widening = {"area of widen", HURLYBURN_WIDEN_NUMBERS, HURLYBURN_WIDTH_RECORD_BYTES, widened};
static const struct writer narrowing = {"area of narrow", HURLYBURN_NARROW_NUMBERS, HURLYBURN_OLD_WIDTH_RECORD_BYTES, narrowed};
static const struct writer cutting[] = {
    {"area of cut", HURLYBURN_CUT_NUMBERS, 1, cut},
    {"area of cut, one page", HURLYBURN_CUT_NUMBERS, 1, cut_last},
};

static void area_of(const struct writer *writer, size_t length, size_t records, const uint8_t *known)
{
    struct output area;
    struct numbers answer;
    size_t bytes = writer->record * records;
    lend_output(length, &area);
    lend_numbers(&answer);
    uint32_t code = writer->ask(0, &area, answer.number, writer->numbers);
    if (length < bytes) {
        expect(code == 17 && answer.number[0] == 0, "a short area is not refused", writer->name, length);
        expect(only_front_written(&area, 0), "a refused call writes into the area", writer->name, length);
        expect(only_front_numbers_written(&answer, 1), "a refused call writes more than the place", writer->name, length);
    } else {
        expect(code == 0 && answer.number[0] == (int64_t)records, "a long area is refused", writer->name, length);
        expect(!memcmp(area.bytes, known, bytes), "other records", writer->name, length);
        expect(only_front_written(&area, bytes), "more is written than the records", writer->name, length);
    }
    take_output_back(&area);
}

/* Every length of the area; gives what was written into a long one, which the caller takes back, and the number of records. */
static size_t areas(const struct writer *writer, struct output *area)
{
    struct numbers answer;
    lend_output(AREA, area);
    lend_numbers(&answer);
    uint32_t code = writer->ask(0, area, answer.number, writer->numbers);
    size_t records = code == 0 ? (size_t)answer.number[0] : 0;
    size_t bytes = writer->record * records;
    expect(records > 1 && bytes < AREA, "no records to test with", writer->name, records);
    for (size_t length = 0; length <= bytes + 2 * writer->record; length++)
        area_of(writer, length, records, area->bytes);
    return records;
}

static void placed_areas(void)
{
    struct output area;
    size_t records = areas(&placing, &area);
    for (size_t i = 0; i < records; i++)
        expect(area.bytes[HURLYBURN_RECORD_BYTES * i] == 1 || area.bytes[HURLYBURN_RECORD_BYTES * i] == 2, "no record", placing.name, i);
    take_output_back(&area);
}

/* What is written is a right table. */
static void tabled_areas(void)
{
    struct output area;
    struct numbers answer;
    size_t records = areas(&tabling, &area);
    lend_numbers(&answer);
    uint32_t code = hurlyburn_check_table(area.bytes, HURLYBURN_WIDTH_RECORD_BYTES * records, answer.number, HURLYBURN_TABLE_NUMBERS);
    expect(code == 0 && answer.number[0] == (int64_t)records, "no right table", tabling.name, records);
    take_output_back(&area);
}

/* What is written is an accepted file, and no longer than the header says. */
static void cut_areas(const struct writer *writer, int64_t pages)
{
    struct output area;
    struct numbers answer;
    size_t bytes = areas(writer, &area);
    lend_numbers(&answer);
    uint32_t code = hurlyburn_check_file(area.bytes, bytes, answer.number, HURLYBURN_CHECK_NUMBERS);
    expect(code == 0 && answer.number[0] == pages, "no accepted file", writer->name, bytes);
    expect(bytes <= file.length + HURLYBURN_CUT_BYTES_MORE, "longer than the header says", writer->name, bytes);
    take_output_back(&area);
}

/* What is written is the table that was made by hand; and the other way the old table, to the byte. */
static void other_form_areas(const struct writer *writer, const uint8_t *known, size_t length)
{
    struct output area;
    size_t records = areas(writer, &area);
    expect(writer->record * records == length && !memcmp(area.bytes, known, length), "another table", writer->name, records);
    take_output_back(&area);
}

/* An area before memory that can neither be read nor written. */
static void at_edge(const struct writer *writer, size_t records, size_t length)
{
    struct edge edge;
    struct numbers answer;
    if (!lend_edge(length, &edge)) {
        expect(0, "no memory before an edge", writer->name, length);
        return;
    }
    struct output area = {edge.bytes, edge.length, NULL};
    int fits = length >= writer->record * records;
    lend_numbers(&answer);
    uint32_t code = writer->ask(0, &area, answer.number, writer->numbers);
    expect(fits ? code == 0 && answer.number[0] == (int64_t)records : code == 17 && answer.number[0] == 0, "another answer at an edge",
           writer->name, length);
    for (size_t i = 0; !fits && i < length; i++)
        expect(edge.bytes[i] == UNTOUCHED_BYTE, "a refused call writes into the area at an edge", writer->name, i);
    take_edge_back(&edge);
}

/* As long as is needed, and shorter. */
static void edges(const struct writer *writer)
{
    struct output area;
    struct numbers answer;
    lend_output(AREA, &area);
    lend_numbers(&answer);
    size_t records = writer->ask(0, &area, answer.number, writer->numbers) == 0 ? (size_t)answer.number[0] : 0;
    size_t bytes = writer->record * records;
    take_output_back(&area);
    expect(records > 0, "no records to test an edge with", writer->name, 0);
    for (size_t i = 0; records > 0 && i < 4; i++)
        at_edge(writer, records, (size_t[]){bytes, bytes - 1, 1, 0}[i]);
}

/* ---- refusals before the area is reached */

static void refused_place(uint32_t resolution, uint32_t page, uint32_t number)
{
    struct output area;
    struct numbers answer;
    lend_output(AREA, &area);
    lend_numbers(&answer);
    uint32_t code = hurlyburn_place_page(file.bytes, file.length, widths.bytes, widths.length, resolution, page, area.bytes,
                                         area.length, answer.number, HURLYBURN_PLACE_NUMBERS);
    expect(code == number && answer.number[0] == 0, "not the refusal that is tested", "place", number);
    expect(only_front_written(&area, 0), "a refused call writes into the area", "place", number);
    expect(only_front_numbers_written(&answer, 1), "a refused call writes more than the place", "place", number);
    take_output_back(&area);
}

/* Of a copy of the font with one byte made another, or cut. */
static void refused_widths(size_t length, size_t at, uint8_t byte, uint32_t scale, uint32_t number, int64_t place)
{
    struct output area, copy;
    struct numbers answer;
    lend_output(AREA, &area);
    lend_output(length, &copy);
    memcpy(copy.bytes, pk.bytes, length);
    copy.bytes[at] = byte;
    lend_numbers(&answer);
    uint32_t code = hurlyburn_width_table(copy.bytes, length, scale, area.bytes, area.length, answer.number, HURLYBURN_WIDTH_TABLE_NUMBERS);
    expect(code == number && answer.number[0] == place, "not the refusal that is tested", "widths", number);
    expect(only_front_written(&area, 0), "a refused call writes into the area", "widths", number);
    expect(only_front_numbers_written(&answer, 1), "a refused call writes more than the place", "widths", number);
    take_output_back(&copy);
    take_output_back(&area);
}

/* Of a file cut short by some bytes, at the file's own place or at 0. */
static void refused_cut(size_t less, const uint32_t *pages, size_t count, uint32_t number, size_t place)
{
    struct output area;
    struct numbers answer;
    for (size_t room = 0; room <= AREA; room += AREA) {
        lend_output(room, &area);
        lend_numbers(&answer);
        uint32_t code = hurlyburn_cut_pages(file.bytes, file.length - less, pages, count, area.bytes, area.length, answer.number,
                                            HURLYBURN_CUT_NUMBERS);
        expect(code == number && answer.number[0] == (int64_t)place, "not the refusal that is tested", "cut", number);
        expect(only_front_written(&area, 0), "a refused call writes into the area", "cut", number);
        expect(only_front_numbers_written(&answer, 1), "a refused call writes more than the place", "cut", number);
        take_output_back(&area);
    }
}

/* Of a copy of a table with one byte made another, or cut, with room and without. */
static void refused_form(const struct writer *writer, const uint8_t *table, size_t length, size_t at, uint8_t byte, uint32_t number, size_t place)
{
    struct input copy;
    struct output changed, area;
    struct numbers answer;
    lend_output(length, &changed);
    memcpy(changed.bytes, table, length);
    changed.bytes[at] = byte;
    int lent = lend_copy(changed.bytes, length, &copy);
    take_output_back(&changed);
    if (!lent) {
        expect(0, "no memory", writer->name, length);
        return;
    }
    for (size_t room = 0; room <= AREA; room += AREA) {
        lend_output(room, &area);
        lend_numbers(&answer);
        uint32_t code = (writer == &widening ? hurlyburn_widen_table : hurlyburn_narrow_table)(copy.bytes, length, area.bytes, area.length,
                                                                                               answer.number, writer->numbers);
        expect(code == number && answer.number[0] == (int64_t)place, "not the refusal that is tested", writer->name, at);
        expect(only_front_written(&area, 0), "a refused call writes into the area", writer->name, number);
        expect(only_front_numbers_written(&answer, 1), "a refused call writes more than the place", writer->name, number);
        take_output_back(&area);
    }
    take_back(&copy);
}

/* A code that falls, a scale, the byte 0, the first byte of a width, and bytes left over: 14 at the record, before all else. A zero that is
   followed by another byte is no name, so 14. A name is 24 at its record, before the area and after the whole table: where the first
   record gets one, the key of the second falls, and where the last is cut, that is 14. */
static void every_refusal_of_forms(void)
{
    enum { OLD = HURLYBURN_OLD_WIDTH_RECORD_BYTES, NEW = HURLYBURN_WIDTH_RECORD_BYTES };
    refused_form(&widening, old.bytes, old.length, OLD + 8, 0, 14, OLD);
    refused_form(&widening, old.bytes, old.length, OLD + 4, 8, 14, OLD);
    refused_form(&widening, old.bytes, old.length, OLD + 9, 1, 14, OLD);
    refused_form(&widening, old.bytes, old.length, OLD + 12, 1, 14, OLD);
    refused_form(&widening, old.bytes, old.length - 1, 0, old.bytes[0], 14, old.length - OLD);
    refused_form(&widening, wide.bytes, wide.length, 0, wide.bytes[0], 14, OLD);
    refused_form(&narrowing, wide.bytes, wide.length, NEW + 24, 0, 14, NEW);
    refused_form(&narrowing, wide.bytes, wide.length, NEW + 4, 8, 14, NEW);
    refused_form(&narrowing, wide.bytes, wide.length, NEW + 9, 'a', 14, NEW);
    refused_form(&narrowing, wide.bytes, wide.length, NEW + 23, 'a', 14, NEW);
    refused_form(&narrowing, wide.bytes, wide.length, NEW + 25, 1, 14, NEW);
    refused_form(&narrowing, wide.bytes, wide.length, NEW + 28, 1, 14, NEW);
    refused_form(&narrowing, wide.bytes, wide.length, 8, 'a', 14, NEW);
    refused_form(&narrowing, wide.bytes, wide.length - 1, NEW + 8, 'a', 14, wide.length - NEW);
    refused_form(&narrowing, wide.bytes, wide.length, NEW + 8, 'a', 24, NEW);
    refused_form(&narrowing, wide.bytes, wide.length, wide.length - NEW + 8, 255, 24, wide.length - NEW);
    refused_form(&narrowing, old.bytes, old.length, 0, old.bytes[0], 14, 0);
}

/* The file is judged before the list, the list before the area. */
static void every_refusal_of_cut(void)
{
    static const uint32_t falling[] = {2, 1}, equal[] = {1, 1}, zero[] = {0, 1}, absent[] = {1, 2, 3}, far[] = {4294967295};
    refused_cut(0, NULL, 0, 23, 0);
    refused_cut(0, falling, 2, 23, 0);
    refused_cut(0, equal, 2, 23, 0);
    refused_cut(0, zero, 2, 23, 0);
    refused_cut(0, absent, 3, 23, 0);
    refused_cut(0, far, 1, 23, 0);
    refused_cut(1, both_pages, 2, 11, file.length - 1);
    refused_cut(1, NULL, 0, 11, file.length - 1);
}

/* The first packet's flag stands at 19, its length and its code behind; the second's flag at 30. */
static void every_refusal_of_widths(void)
{
    refused_widths(pk.length, 1, pk.bytes[1], 0, 22, 0);
    refused_widths(pk.length, 1, 0, 134217728, 22, 0);
    refused_widths(pk.length - 1, 0, 247, SCALE, 18, (int64_t)pk.length - 1);
    refused_widths(18, 0, 247, SCALE, 18, 0);
    refused_widths(29, 0, 247, SCALE, 18, 19);
    refused_widths(pk.length, 1, 90, SCALE, 19, 0);
    refused_widths(pk.length, 30, 248, SCALE, 19, 30);
    refused_widths(pk.length, 20, 7, SCALE, 20, 19);
    refused_widths(pk.length, 21, pk.bytes[30 + 5 + 3], SCALE, 21, 30);
}

/* ---- a font longer than 2^32 bytes: a special as long as can be, then a packet and the postamble byte */

static const uint8_t far_front[] = {247, 89, 0, 0, 0, 0, 0, 0, 0, 0, 7, 0, 0, 0, 0, 0, 0, 0, 0, 243, 255, 255, 255, 255};
static const uint8_t far_end[] = {0, 8, 65, 1, 2, 3, 4, 0, 0, 0, 0, 245};
static const uint8_t far_record[] = {0, 0, 0, 7, 0, 10, 0, 0, [24] = 65, 0, 0, 4, 0, 1, 2, 3};

static void far_font(void)
{
    size_t first = sizeof far_front + UINT32_MAX, length = first + sizeof far_end;
    struct input font;
    if (!lend_sparse(length, far_front, sizeof far_front, far_end, sizeof far_end, &font)) {
        expect(0, "no address space", "widths", length);
        return;
    }
    for (size_t less = 0; less <= sizeof far_end + 1; less++) {
        struct output area;
        struct numbers answer;
        lend_output(sizeof far_record, &area);
        lend_numbers(&answer);
        uint32_t code = hurlyburn_width_table(font.bytes, length - less, SCALE, area.bytes, area.length, answer.number,
                                              HURLYBURN_WIDTH_TABLE_NUMBERS);
        size_t place = less == 1 ? length - 1 : less <= sizeof far_end ? first : 19;
        if (less == 0) {
            expect(code == 0 && answer.number[0] == 1, "a font longer than 2^32 is not answered", "widths", less);
            expect(!memcmp(area.bytes, far_record, sizeof far_record) && only_front_written(&area, sizeof far_record), "another record",
                   "widths", less);
        } else {
            expect(code == 18 && answer.number[0] == (int64_t)place, "not 18 at a place above 2^32", "widths", less);
            expect(only_front_written(&area, 0), "a refused call writes into the area", "widths", less);
        }
        take_output_back(&area);
    }
    take_back(&font);
}

/* ---- names: of one to sixteen bytes n each a record, whose escapement is their number, and one record for any name */

#define LETTER 'n'
#define ANY 100
#define LONGEST_KEPT 16
#define VERY_LONG 70000

static uint8_t names_table[HURLYBURN_WIDTH_RECORD_BYTES * (LONGEST_KEPT + 1)];

static void make_names_table(void)
{
    for (size_t length = 0; length <= LONGEST_KEPT; length++) {
        uint8_t *record = names_table + HURLYBURN_WIDTH_RECORD_BYTES * length;
        memset(record, 0, HURLYBURN_WIDTH_RECORD_BYTES);
        record[7] = 1;
        memset(record + 8, LETTER, length);
        record[24] = 65;
        record[27] = length ? (uint8_t)length : ANY;
    }
}

/* A name that ends before memory that cannot be read, and the escapement that is to be found. */
static void named(const struct input *name, size_t length, int64_t escapement)
{
    struct numbers answer;
    lend_numbers(&answer);
    uint32_t code = hurlyburn_look_up(names_table, sizeof names_table, 0, 1, length ? name->bytes : NULL, length, 65, answer.number,
                                      HURLYBURN_LOOK_NUMBERS);
    expect(code == 0 && answer.number[0] == 1 && answer.number[1] == escapement, "another record", "look by a name", length);
    expect(only_front_numbers_written(&answer, HURLYBURN_LOOK_NUMBERS), "more is written than the answer's numbers", "look by a name", length);
    code = hurlyburn_look_up(names_table, sizeof names_table, 0, 1, length ? name->bytes : NULL, length, 66, answer.number,
                             HURLYBURN_LOOK_NUMBERS);
    expect(code == 0 && answer.number[0] == 0, "a character that no record is for", "look by a name", length);
    lend_numbers(&answer);
    code = hurlyburn_look_up(names_table, sizeof names_table - 1, 0, 1, length ? name->bytes : NULL, length, 65, answer.number,
                             HURLYBURN_LOOK_NUMBERS);
    expect(code == 14 && answer.number[0] == sizeof names_table - HURLYBURN_WIDTH_RECORD_BYTES, "not 14", "look by a name", length);
    expect(only_front_numbers_written(&answer, 1), "a refused call writes more than the place", "look by a name", length);
}

static void name_of(const uint8_t *bytes, size_t length, int64_t escapement)
{
    struct input name;
    if (!lend_copy(bytes, length, &name)) {
        expect(0, "no memory", "look by a name", length);
        return;
    }
    named(&name, length, escapement);
    take_back(&name);
}

/* More than sixteen bytes, and a zero among them at any place, is any name; so is a length that only modulo 2^32 is one. */
static void every_name(void)
{
    static uint8_t bytes[VERY_LONG];
    memset(bytes, LETTER, sizeof bytes);
    make_names_table();
    for (size_t length = 0; length <= 3 * LONGEST_KEPT; length++)
        name_of(bytes, length, length && length <= LONGEST_KEPT ? (int64_t)length : ANY);
    name_of(bytes, 255, ANY);
    name_of(bytes, VERY_LONG, ANY);
    for (size_t length = 1; length <= LONGEST_KEPT + 1; length++)
        for (size_t zero = 0; zero < length; zero++) {
            bytes[zero] = 0;
            name_of(bytes, length, ANY);
            bytes[zero] = LETTER;
        }
    struct input far;
    size_t length = (size_t)UINT32_MAX + 2;
    if (!lend_sparse(length, bytes, LONGEST_KEPT, bytes, LONGEST_KEPT, &far)) {
        expect(0, "no address space", "look by a name", length);
        return;
    }
    named(&far, length, ANY);
    take_back(&far);
}

/* ---- inputs of length 0, lent as NULL */

static const uint8_t no_packets[] = {247, 89, 0, 0, 0, 0, 0, 0, 0, 0, 7, 0, 0, 0, 0, 0, 0, 0, 0, 245};

static void nothing_lent(void)
{
    struct numbers answer;
    lend_numbers(&answer);
    uint32_t code = hurlyburn_check_file(NULL, 0, answer.number, HURLYBURN_CHECK_NUMBERS);
    expect(code == 2 && answer.number[0] == 0, "the empty file is not 2 at 0", "check", 0);
    code = hurlyburn_read_command(NULL, 0, 7, answer.number, HURLYBURN_COMMAND_NUMBERS);
    expect(code == 2 && answer.number[0] == 7, "a command of the empty file is not 2 at its place", "read", 0);
    code = hurlyburn_font_name(NULL, 0, font, answer.number, HURLYBURN_NAME_NUMBERS);
    expect(code == 2 && answer.number[0] == 0, "the empty file is not 2 at 0", "name", 0);
    code = hurlyburn_place_page(NULL, 0, NULL, 0, RESOLUTION, PAGE, NULL, 0, answer.number, HURLYBURN_PLACE_NUMBERS);
    expect(code == 2 && answer.number[0] == 0, "the empty file is not 2 at 0", "place", 0);
    lend_numbers(&answer);
    code = hurlyburn_check_table(NULL, 0, answer.number, HURLYBURN_TABLE_NUMBERS);
    expect(code == 0 && answer.number[0] == 0, "the empty table has records", "table", 0);
    lend_numbers(&answer);
    code = hurlyburn_look_up(NULL, 0, 1, 1, NULL, 0, 1, answer.number, HURLYBURN_LOOK_NUMBERS);
    expect(code == 0 && answer.number[0] == 0 && only_front_numbers_written(&answer, 1), "a character in the empty table", "look", 0);
    lend_numbers(&answer);
    code = hurlyburn_place_page(file.bytes, file.length, widths.bytes, widths.length, RESOLUTION, PAGE, NULL, 0, answer.number,
                                HURLYBURN_PLACE_NUMBERS);
    expect(code == 17 && answer.number[0] == 0, "an area of no bytes is not 17", "place", 0);
    code = hurlyburn_width_table(NULL, 0, SCALE, NULL, 0, answer.number, HURLYBURN_WIDTH_TABLE_NUMBERS);
    expect(code == 18 && answer.number[0] == 0, "the empty font is not 18 at 0", "widths", 0);
    code = hurlyburn_width_table(pk.bytes, pk.length, SCALE, NULL, 0, answer.number, HURLYBURN_WIDTH_TABLE_NUMBERS);
    expect(code == 17 && answer.number[0] == 0, "an area of no bytes is not 17", "widths", 0);
    lend_numbers(&answer);
    code = hurlyburn_width_table(no_packets, sizeof no_packets, SCALE, NULL, 0, answer.number, HURLYBURN_WIDTH_TABLE_NUMBERS);
    expect(code == 0 && answer.number[0] == 0, "a font without packets has records", "widths", 0);
    expect(hurlyburn_width_table(NULL, 0, 0, NULL, 0, NULL, 0) == HURLYBURN_ARRAY_TOO_SHORT, "an array of none is not 255", "widths", 0);
    lend_numbers(&answer);
    code = hurlyburn_widen_table(NULL, 0, NULL, 0, answer.number, HURLYBURN_WIDEN_NUMBERS);
    expect(code == 0 && answer.number[0] == 0, "the empty table has records", "widen", 0);
    lend_numbers(&answer);
    code = hurlyburn_narrow_table(NULL, 0, NULL, 0, answer.number, HURLYBURN_NARROW_NUMBERS);
    expect(code == 0 && answer.number[0] == 0, "the empty table has records", "narrow", 0);
    code = hurlyburn_widen_table(old.bytes, old.length, NULL, 0, answer.number, HURLYBURN_WIDEN_NUMBERS);
    expect(code == 17 && answer.number[0] == 0, "an area of no bytes is not 17", "widen", 0);
    code = hurlyburn_narrow_table(wide.bytes, wide.length, NULL, 0, answer.number, HURLYBURN_NARROW_NUMBERS);
    expect(code == 17 && answer.number[0] == 0, "an area of no bytes is not 17", "narrow", 0);
    expect(hurlyburn_widen_table(NULL, 0, NULL, 0, NULL, 0) == HURLYBURN_ARRAY_TOO_SHORT, "an array of none is not 255", "widen", 0);
    expect(hurlyburn_narrow_table(NULL, 0, NULL, 0, NULL, 0) == HURLYBURN_ARRAY_TOO_SHORT, "an array of none is not 255", "narrow", 0);
    code = hurlyburn_cut_pages(NULL, 0, NULL, 0, NULL, 0, answer.number, HURLYBURN_CUT_NUMBERS);
    expect(code == 2 && answer.number[0] == 0, "the empty file is not 2 at 0", "cut", 0);
    code = hurlyburn_cut_pages(file.bytes, file.length, both_pages, 2, NULL, 0, answer.number, HURLYBURN_CUT_NUMBERS);
    expect(code == 17 && answer.number[0] == 0, "an area of no bytes is not 17", "cut", 0);
    expect(hurlyburn_cut_pages(NULL, 0, NULL, 0, NULL, 0, NULL, 0) == HURLYBURN_ARRAY_TOO_SHORT, "an array of none is not 255", "cut", 0);
    expect(hurlyburn_check_file(file.bytes, file.length, NULL, 0) == HURLYBURN_ARRAY_TOO_SHORT, "an array of none is not 255", "check", 0);
}

/* The old table with zeros for names. */
static int lend_wide(void)
{
    size_t records = old.length / HURLYBURN_OLD_WIDTH_RECORD_BYTES;
    struct output made;
    lend_output(HURLYBURN_WIDTH_RECORD_BYTES * records, &made);
    memset(made.bytes, 0, made.length);
    for (size_t i = 0; i < records; i++) {
        memcpy(made.bytes + HURLYBURN_WIDTH_RECORD_BYTES * i, old.bytes + HURLYBURN_OLD_WIDTH_RECORD_BYTES * i, 8);
        memcpy(made.bytes + HURLYBURN_WIDTH_RECORD_BYTES * i + 24, old.bytes + HURLYBURN_OLD_WIDTH_RECORD_BYTES * i + 8, 8);
    }
    int lent = lend_copy(made.bytes, made.length, &wide);
    take_output_back(&made);
    return lent;
}

int main(int count, char **words)
{
    if (count != 6 || !lend_file(words[1], &file) || !lend_file(words[2], &widths) || widths.length < HURLYBURN_WIDTH_RECORD_BYTES ||
        !lend_file(words[4], &pk) || pk.length < 42 || !lend_file(words[5], &old) || old.length < 3 * HURLYBURN_OLD_WIDTH_RECORD_BYTES ||
        !lend_wide()) {
        puts("use: bounds FILE TABLE FONT PK OLD-TABLE");
        return 2;
    }
    font = (int32_t)strtoul(words[3], NULL, 10);
    for (size_t i = 0; i < CALLS; i++)
        for (size_t less = 0; less < 2; less++)
            every_length(&calls[i], less);
    placed_areas();
    tabled_areas();
    other_form_areas(&widening, wide.bytes, wide.length);
    other_form_areas(&narrowing, old.bytes, old.length);
    cut_areas(&cutting[0], 2);
    cut_areas(&cutting[1], 1);
    edges(&widening);
    edges(&narrowing);
    edges(&cutting[0]);
    refused_place(0, PAGE, 12);
    refused_place(RESOLUTION, 0, 15);
    every_refusal_of_widths();
    every_refusal_of_forms();
    every_refusal_of_cut();
    far_font();
    every_name();
    nothing_lent();
    printf("%u passed, %u failed\n", passed, failed);
    return failed != 0;
}
