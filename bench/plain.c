/* The reader's jobs in plain C, from documents 01 and 02, written for speed: one scan of the file that notes the wanted page;
   a page walked twice, first with h and v alone (16 and 17 must be known before a byte is written), then with the pixels; the
   metrics of a font's characters kept once they are found. A PK font read once, with a note of where each code's packet is. Chosen
   pages cut out by two walks over a file that the scan found lawful, so without a test for its end: one counts, one copies. The
   name in a width record is two numbers of eight bytes, and is judged once for the records that share it. */
#include "plain.h"
#include <string.h>

#define LONGEST_FILE 16777216u
#define MOST_FONTS 64u
#define DEEPEST 100u
#define LARGEST_SIZE 134217727u
#define WIDTH_RECORD 32u
#define OLD_WIDTH_RECORD 16u
#define PLACED_RECORD 20u
#define TOO_SHORT_ANSWER 255u

struct refusal {
    uint32_t number; /* 0: none */
    size_t place;
};

static struct refusal refuse(uint32_t number, size_t place)
{
    struct refusal refusal = { number, place };
    return refusal;
}

static const struct refusal nothing_wrong = { 0, 0 };

/* ---- numbers in bytes ---- */

static inline uint32_t unsigned2(const uint8_t *b)
{
    return (uint32_t)b[0] << 8 | b[1];
}

static inline uint32_t unsigned3(const uint8_t *b)
{
    return (uint32_t)b[0] << 16 | (uint32_t)b[1] << 8 | b[2];
}

static inline uint32_t unsigned4(const uint8_t *b)
{
    uint32_t word;
    memcpy(&word, b, 4);
    return __builtin_bswap32(word);
}

static inline uint64_t unsigned8(const uint8_t *b)
{
    uint64_t word;
    memcpy(&word, b, 8);
    return __builtin_bswap64(word);
}

static inline uint32_t unsigned_in(const uint8_t *b, unsigned bytes)
{
    switch (bytes) {
    case 1: return b[0];
    case 2: return unsigned2(b);
    case 3: return unsigned3(b);
    default: return unsigned4(b);
    }
}

static inline int32_t signed1(const uint8_t *b) { return (int8_t)b[0]; }
static inline int32_t signed2(const uint8_t *b) { return (int16_t)unsigned2(b); }
static inline int32_t signed3(const uint8_t *b) { return (int32_t)(unsigned3(b) << 8) >> 8; }
static inline int32_t signed4(const uint8_t *b) { return (int32_t)unsigned4(b); }

static inline void put4(uint8_t *b, uint32_t number)
{
    number = __builtin_bswap32(number);
    memcpy(b, &number, 4);
}

/* Eight bytes as they stand, to be copied or compared for equality. */
static inline uint64_t eight(const uint8_t *b)
{
    uint64_t word;
    memcpy(&word, b, 8);
    return word;
}

/* ---- the file ---- */

/* The length of each command, its opcode with it, without names, comments and specials. */
#define FOUR_LENGTHS 2, 3, 4, 5
static const uint8_t command_length[250] = {
    [0 ... 127] = 1, [128] = FOUR_LENGTHS, [132] = 9, [133] = FOUR_LENGTHS, [137] = 9, [138] = 1, [139] = 45,
    [140 ... 142] = 1, [143] = FOUR_LENGTHS, [147] = 1, FOUR_LENGTHS, [152] = 1, FOUR_LENGTHS, [157] = FOUR_LENGTHS,
    [161] = 1, FOUR_LENGTHS, [166] = 1, FOUR_LENGTHS, [171 ... 234] = 1, [235] = FOUR_LENGTHS, [239] = FOUR_LENGTHS,
    [243] = 16, 17, 18, 19, [247] = 15, [248] = 29, [249] = 6,
};

/* The same for commands that on a page change nothing but the place, else 0: with a font selected, and without. */
static const uint8_t passed_with_font[256] = {
    [0 ... 127] = 1, [128] = FOUR_LENGTHS, [132] = 9, [133] = FOUR_LENGTHS, [137] = 9, [138] = 1,
    [143] = FOUR_LENGTHS, [147] = 1, FOUR_LENGTHS, [152] = 1, FOUR_LENGTHS, [157] = FOUR_LENGTHS,
    [161] = 1, FOUR_LENGTHS, [166] = 1, FOUR_LENGTHS,
};
static const uint8_t passed_without[256] = {
    [132] = 9, [137] = 9, [138] = 1,
    [143] = FOUR_LENGTHS, [147] = 1, FOUR_LENGTHS, [152] = 1, FOUR_LENGTHS, [157] = FOUR_LENGTHS,
    [161] = 1, FOUR_LENGTHS, [166] = 1, FOUR_LENGTHS,
};

enum stage { BEFORE_PAGES, ON_PAGE, BETWEEN_PAGES, AFTER_POST };

struct volume {
    uint32_t num, den, mag;
    uint32_t pages, fonts, depth;
    size_t post;
    size_t wanted;            /* the place of the wanted page's bop */
    uint32_t definition[256]; /* the place of a font's check sum in its definition before post, or 0 */
};

/* The length of the command at a place, opcode below 250, or 0 if it does not fit. */
static inline size_t length_at(const uint8_t *file, size_t length, size_t at)
{
    uint8_t opcode = file[at];
    size_t size = command_length[opcode], left = length - at;
    if (left < size)
        return 0;
    if (opcode >= 239) {
        if (opcode <= 242)
            size += unsigned_in(file + at + 1, opcode - 238);
        else if (opcode <= 246)
            size += (size_t)file[at + size - 2] + file[at + size - 1];
        else if (opcode == 247)
            size += file[at + 14];
        if (left < size)
            return 0;
    }
    return size;
}

static inline int lawful_size(uint32_t size)
{
    return size - 1 < LARGEST_SIZE;
}

/* The whole file: 1 to 11, from the front. */
static struct refusal scan(const uint8_t *file, size_t length, uint32_t wanted_page, struct volume *volume)
{
    if (length > LONGEST_FILE)
        return refuse(1, 0);
    if (length == 0)
        return refuse(2, 0);
    if (file[0] >= 250)
        return refuse(3, 0);
    size_t size = length_at(file, length, 0);
    if (size == 0)
        return refuse(2, 0);
    if (file[0] != 247 || file[1] != 2)
        return refuse(4, 0);
    const uint32_t num = unsigned4(file + 2), den = unsigned4(file + 6), mag = unsigned4(file + 10);
    if ((int32_t)num <= 0 || (int32_t)den <= 0 || (int32_t)mag <= 0)
        return refuse(4, 0);

    uint8_t defined_again[256] = { 0 };
    memset(volume->definition, 0, sizeof volume->definition);
    enum stage stage = BEFORE_PAGES;
    uint32_t pages = 0, fonts = 0, fonts_again = 0, depth = 0, deepest = 0;
    uint32_t bop = 0xffffffff; /* what the next bop or post must point to */
    size_t post = 0, at = size;
    const uint8_t *passed = passed_without;

    for (;;) {
        if (stage == ON_PAGE)
            for (; at < length; at += size) {
                /* runs of characters, by a branch that is foreseen well; the rest by the table */
                if (passed == passed_with_font)
                    while (file[at] < 128)
                        if (++at == length)
                            return refuse(2, at);
                size = passed[file[at]];
                if (size == 0 || size > length - at)
                    break;
            }
        if (at >= length)
            return refuse(2, at);
        const uint8_t opcode = file[at];
        if (opcode >= 250)
            return refuse(3, at);
        size = length_at(file, length, at);
        if (size == 0)
            return refuse(2, at);
        const uint8_t *parameters = file + at + 1;

        switch (opcode) {
        case 138:
            break;
        case 139:
            if (stage != BEFORE_PAGES && stage != BETWEEN_PAGES)
                return refuse(5, at);
            if (unsigned4(parameters + 40) != bop)
                return refuse(9, at);
            stage = ON_PAGE;
            passed = passed_without;
            bop = (uint32_t)at;
            if (++pages == wanted_page)
                volume->wanted = at;
            break;
        case 140:
            if (stage != ON_PAGE)
                return refuse(5, at);
            if (depth > 0)
                return refuse(6, at);
            stage = BETWEEN_PAGES;
            break;
        case 141:
            if (stage != ON_PAGE)
                return refuse(5, at);
            if (depth == DEEPEST)
                return refuse(6, at);
            if (++depth > deepest)
                deepest = depth;
            break;
        case 142:
            if (stage != ON_PAGE)
                return refuse(5, at);
            if (depth == 0)
                return refuse(6, at);
            depth--;
            break;
        case 171 ... 234:
            if (stage != ON_PAGE)
                return refuse(5, at);
            if (volume->definition[opcode - 171] == 0)
                return refuse(8, at);
            passed = passed_with_font;
            break;
        case 235 ... 238: {
            if (stage != ON_PAGE)
                return refuse(5, at);
            uint32_t number = unsigned_in(parameters, opcode - 234);
            if (number > 255 || volume->definition[number] == 0)
                return refuse(8, at);
            passed = passed_with_font;
            break;
        }
        case 239 ... 242:
            if (stage != ON_PAGE)
                return refuse(5, at);
            break;
        case 243 ... 246: {
            uint32_t number = unsigned_in(parameters, opcode - 242);
            const uint8_t *said = parameters + (opcode - 242);
            if (number > 255 || !lawful_size(unsigned4(said + 4)) || !lawful_size(unsigned4(said + 8)))
                return refuse(7, at);
            uint32_t before = volume->definition[number];
            if (stage == AFTER_POST) {
                if (before == 0 || defined_again[number]
                    || memcmp(file + before, said, 14u + said[12] + said[13]) != 0)
                    return refuse(7, at);
                defined_again[number] = 1;
                fonts_again++;
            } else {
                if (before != 0 || fonts == MOST_FONTS)
                    return refuse(7, at);
                volume->definition[number] = (uint32_t)(said - file);
                fonts++;
            }
            break;
        }
        case 247:
            return refuse(5, at);
        case 248:
            if (stage != BETWEEN_PAGES)
                return refuse(5, at);
            if (unsigned4(parameters) != bop)
                return refuse(9, at);
            /* the depth may be stated greater than it is: TeX counts pushes that it then drops */
            if (unsigned4(parameters + 4) != num || unsigned4(parameters + 8) != den
                || unsigned4(parameters + 12) != mag || unsigned2(parameters + 24) < deepest
                || unsigned2(parameters + 26) != pages)
                return refuse(10, at);
            stage = AFTER_POST;
            post = at;
            break;
        case 249:
            if (stage != AFTER_POST)
                return refuse(5, at);
            if (fonts_again != fonts)
                return refuse(7, at);
            if (unsigned4(parameters) != post)
                return refuse(9, at);
            if (parameters[4] != 2)
                return refuse(10, at);
            at += size;
            size_t fillers = at;
            while (fillers < length && file[fillers] == 223)
                fillers++;
            if (fillers < length || fillers - at < 4)
                return refuse(11, fillers);
            volume->num = num;
            volume->den = den;
            volume->mag = mag;
            volume->pages = pages;
            volume->fonts = fonts;
            volume->depth = deepest;
            volume->post = post;
            return nothing_wrong;
        default: /* characters, rules and moves; those that may stand there were passed */
            if (stage != ON_PAGE)
                return refuse(5, at);
            return refuse(8, at);
        }
        at += size;
    }
}

/* ---- widths ---- */

/* TeX's alpha times z: sixteen times the scale, of which only the first 23 bits are kept. Each halving of z drops the last bit, and
   the doubling of alpha puts a 0 in its place. */
static inline uint64_t sixteenfold_of(uint32_t scale)
{
    const unsigned halvings = 9 - (unsigned)__builtin_clz(scale | 1u << 22); /* 0 for a scale of 23 bits or fewer */
    return (uint64_t)(scale & ~0u << halvings) << 4;
}

/* The width of a fix word. TeX divides a byte at a time, to stay within 32 bits; all its divisions are downwards, so one of the
   whole product, which has 55 bits at most, gives the same. */
static inline int64_t scaled(uint64_t sixteenfold, uint8_t first, uint32_t last_three)
{
    const int64_t share = (int64_t)(last_three * sixteenfold >> 24);
    return first == 255 ? share - (int64_t)sixteenfold : share;
}

/* ---- the width table ---- */

/* Places in a record of the new form; an old one has no name, and its last eight bytes stand right behind the scale. */
enum { NAME = 8, LAST_EIGHT = 24, CODE = LAST_EIGHT, ESCAPEMENT = CODE + 2, WIDTH = CODE + 4 };
#define LONGEST_NAME 16u

/* A record's key but for the code: check sum and scale, and the name. */
struct key {
    uint64_t sum_and_scale, name[2];
};

static inline struct key key_of(const uint8_t *record)
{
    struct key key = { unsigned8(record), { unsigned8(record + NAME), unsigned8(record + NAME + 8) } };
    return key;
}

/* A font's name, the bytes without the area, as records have it; any name, which is zeros, where no record can have it. */
static struct key sought_key(uint64_t sum_and_scale, const uint8_t *name, size_t length)
{
    const struct key any = { sum_and_scale, { 0, 0 } };
    struct key key = any;
    if (length > LONGEST_NAME)
        return any;
    for (size_t i = 0; i < length; i++) {
        if (name[i] == 0)
            return any;
        key.name[i / 8] |= (uint64_t)name[i] << (56 - 8 * (i % 8));
    }
    return key;
}

static inline int has_name(const struct key *key)
{
    return (key->name[0] | key->name[1]) != 0;
}

static inline int is_same(const struct key *one, const struct key *other)
{
    return one->sum_and_scale == other->sum_and_scale && one->name[0] == other->name[0] && one->name[1] == other->name[1];
}

static inline int is_less(const struct key *one, const struct key *other)
{
    if (one->sum_and_scale != other->sum_and_scale)
        return one->sum_and_scale < other->sum_and_scale;
    if (one->name[0] != other->name[0])
        return one->name[0] < other->name[0];
    return one->name[1] < other->name[1];
}

static inline int has_zero_byte(uint64_t word)
{
    return ((word - 0x0101010101010101) & ~word & 0x8080808080808080) != 0;
}

/* The same word with every bit behind its last 1 set, so that no zero byte is left at its end. */
static inline uint64_t filled_up(uint64_t word)
{
    return word | (word - 1);
}

/* Whether no byte but zeros stands behind a zero. */
static inline int name_then_zeros(const uint64_t name[2])
{
    return name[1] == 0 ? !has_zero_byte(filled_up(name[0])) : !has_zero_byte(name[0]) && !has_zero_byte(filled_up(name[1]));
}

/* The zero byte and the width's first, by one number and one branch. */
static inline int lawful_end(const uint8_t *last_eight)
{
    const uint64_t word = unsigned8(last_eight);
    return ((word >> 48 & 0xff) == 0) & ((uint8_t)((word >> 24) + 1) <= 1);
}

/* 14. Where it is right, the place of the first record that has a name, or the table's length. Check sum, scale and name are judged once
   for all records that share them. */
static struct refusal judge_table(const uint8_t *table, size_t length, size_t *named)
{
    const size_t whole = length - length % WIDTH_RECORD;
    struct key last = { 0, { 0, 0 } }; /* a lawful scale is not 0, so every lawful key is above it */
    size_t at = 0;
    *named = length;
    while (at < whole) {
        const uint8_t *record = table + at;
        const struct key key = key_of(record);
        if (!is_less(&last, &key) || !lawful_size((uint32_t)key.sum_and_scale) || !name_then_zeros(key.name))
            return refuse(14, at);
        if (has_name(&key) && *named == length)
            *named = at;
        last = key;
        /* as they stand: equality needs no order of bytes */
        const uint64_t sum_and_scale = eight(record), name = eight(record + NAME), name_end = eight(record + NAME + 8);
        for (uint8_t code = record[CODE];;) {
            if (!lawful_end(record + LAST_EIGHT))
                return refuse(14, at);
            at += WIDTH_RECORD;
            record += WIDTH_RECORD;
            if (at == whole || ((eight(record) ^ sum_and_scale) | (eight(record + NAME) ^ name) | (eight(record + NAME + 8) ^ name_end)) != 0)
                break;
            if (record[CODE] <= code)
                return refuse(14, at);
            code = record[CODE];
        }
    }
    if (whole != length)
        return refuse(14, whole);
    return nothing_wrong;
}

/* 14, by the old form. */
static struct refusal judge_old_table(const uint8_t *table, size_t length)
{
    const size_t whole = length - length % OLD_WIDTH_RECORD;
    uint64_t last = 0;
    uint8_t last_code = 0;
    for (size_t at = 0; at < whole; at += OLD_WIDTH_RECORD) {
        const uint8_t *record = table + at;
        const uint64_t key = unsigned8(record);
        const uint8_t code = record[8];
        if (key < last || (key == last && code <= last_code) || !lawful_size((uint32_t)key) || !lawful_end(record + 8))
            return refuse(14, at);
        last = key;
        last_code = code;
    }
    if (whole != length)
        return refuse(14, whole);
    return nothing_wrong;
}

/* The index of the first record, from low to below high, whose key and code are not below these. Code 256 is above all. */
static size_t first_from(const uint8_t *table, size_t low, size_t high, const struct key *key, unsigned code)
{
    while (low < high) {
        const size_t middle = low + (high - low) / 2;
        const uint8_t *record = table + WIDTH_RECORD * middle;
        const struct key found = key_of(record);
        if (is_less(&found, key) || (is_same(&found, key) && record[CODE] < code))
            low = middle + 1;
        else
            high = middle;
    }
    return low;
}

/* The record of a key and code, or NULL. */
static const uint8_t *record_of(const uint8_t *table, size_t records, const struct key *key, uint8_t code)
{
    const size_t index = first_from(table, 0, records, key, code);
    if (index == records)
        return NULL;
    const uint8_t *record = table + WIDTH_RECORD * index;
    const struct key found = key_of(record);
    return is_same(&found, key) && record[CODE] == code ? record : NULL;
}

/* By the own name first, then by any. */
static const uint8_t *look_for(const uint8_t *table, size_t records, const struct key *key, uint8_t code)
{
    const uint8_t *record = record_of(table, records, key, code);
    if (record != NULL || !has_name(key))
        return record;
    const struct key any = { key->sum_and_scale, { 0, 0 } };
    return record_of(table, records, &any, code);
}

/* ---- tables of the old form ---- */

static struct refusal widen(const uint8_t *old, size_t old_length, uint8_t *area, size_t area_length)
{
    const struct refusal refusal = judge_old_table(old, old_length);
    if (refusal.number != 0)
        return refusal;
    const size_t records = old_length / OLD_WIDTH_RECORD;
    if (area_length / WIDTH_RECORD < records)
        return refuse(17, 0);
    for (size_t i = 0; i < records; i++, old += OLD_WIDTH_RECORD, area += WIDTH_RECORD) {
        memcpy(area, old, NAME);
        memset(area + NAME, 0, LONGEST_NAME);
        memcpy(area + LAST_EIGHT, old + NAME, 8);
    }
    return nothing_wrong;
}

static struct refusal narrow(const uint8_t *table, size_t table_length, uint8_t *area, size_t area_length)
{
    size_t named;
    const struct refusal refusal = judge_table(table, table_length, &named);
    if (refusal.number != 0)
        return refusal;
    if (named != table_length)
        return refuse(24, named);
    const size_t records = table_length / WIDTH_RECORD;
    if (area_length / OLD_WIDTH_RECORD < records)
        return refuse(17, 0);
    for (size_t i = 0; i < records; i++, table += WIDTH_RECORD, area += OLD_WIDTH_RECORD) {
        memcpy(area, table, NAME);
        memcpy(area + NAME, table + LAST_EIGHT, 8);
    }
    return nothing_wrong;
}

/* ---- a page ---- */

struct unit {
    uint64_t p, q, twice_p, twice_q; /* K is p/q in lowest terms */
    int64_t drift;
};

static uint64_t common_divisor(uint64_t a, uint64_t b)
{
    while (b != 0) {
        uint64_t rest = a % b;
        a = b;
        b = rest;
    }
    return a;
}

/* 12 and 13. */
static uint32_t judge_unit(const struct volume *volume, uint32_t resolution, struct unit *unit)
{
    if (resolution < 1 || resolution > 10000)
        return 12;
    uint64_t p = (uint64_t)volume->num * volume->mag, r = resolution;
    uint64_t q = (uint64_t)volume->den * (1000u * 254000u);
    uint64_t common = common_divisor(p, q);
    p /= common;
    q /= common;
    common = common_divisor(r, q);
    r /= common;
    q /= common;
    if (__builtin_mul_overflow(p, r, &p) || p > 1073741823 || 2 * p > q)
        return 13;
    unit->p = p;
    unit->q = q;
    unit->twice_p = 2 * p;
    unit->twice_q = 2 * q;
    unit->drift = resolution >= 200 ? 2 : resolution >= 100 ? 1 : 0;
    return 0;
}

static inline int64_t rounded(const struct unit *unit, int64_t n)
{
    uint64_t size = n < 0 ? -(uint64_t)n : (uint64_t)n;
    int64_t pixels = (int64_t)((unit->twice_p * size + unit->q) / unit->twice_q);
    return n < 0 ? -pixels : pixels;
}

/* Division cuts towards 0, which is upwards below it. */
static inline int64_t rounded_up(const struct unit *unit, int64_t n)
{
    const int64_t q = (int64_t)unit->q;
    return ((int64_t)unit->p * n + (n > 0 ? q - 1 : 0)) / q;
}

struct metric {
    int32_t width;
    int16_t escapement;
    uint8_t known; /* 0: not looked up yet */
};
enum { UNKNOWN, PRESENT, ABSENT };

/* Records of one key, from first to before past. */
struct run {
    size_t first, past;
};

/* A font that is selected on the page: its records in the table, by its own name and by any, its scale, and the metrics found so far. */
struct font {
    int64_t scale;
    uint64_t sixteenfold;
    struct run own, any;
    uint8_t number;
    struct metric metric[256];
};

/* The records of a key, from an index on behind which all that are below it stand. */
static struct run run_of(const uint8_t *table, size_t low, size_t records, const struct key *key)
{
    struct run run;
    run.first = first_from(table, low, records, key, 0);
    const size_t most = records - run.first < 256 ? records : run.first + 256;
    run.past = first_from(table, run.first, most, key, 256);
    return run;
}

/* At the place of the check sum stand check sum and scale, design size, the lengths of area and name, and these two. */
static void set_up_font(struct font *font, uint8_t number, const uint8_t *definition, const uint8_t *table, size_t records)
{
    const struct key any = { unsigned8(definition), { 0, 0 } };
    const struct key own = sought_key(any.sum_and_scale, definition + 14 + definition[12], definition[13]);
    font->number = number;
    font->scale = unsigned4(definition + 4);
    font->sixteenfold = sixteenfold_of((uint32_t)font->scale);
    font->any = run_of(table, 0, records, &any);
    /* records with names follow right behind, if there are any */
    font->own.first = font->own.past = font->any.past;
    if (has_name(&own) && font->any.past < records && unsigned8(table + WIDTH_RECORD * font->any.past) == own.sum_and_scale)
        font->own = run_of(table, font->any.past, records, &own);
    memset(font->metric, 0, sizeof font->metric);
}

/* The record of a code in a run, where the code is all that differs, or NULL. */
static const uint8_t *record_in(const uint8_t *table, struct run run, uint8_t code)
{
    size_t low = run.first, high = run.past;
    while (low < high) {
        const size_t middle = low + (high - low) / 2;
        if (table[WIDTH_RECORD * middle + CODE] < code)
            low = middle + 1;
        else
            high = middle;
    }
    if (low == run.past)
        return NULL;
    const uint8_t *record = table + WIDTH_RECORD * low;
    return record[CODE] == code ? record : NULL;
}

static __attribute__((noinline)) void find_metric(struct font *font, uint8_t code, const uint8_t *table)
{
    struct metric *metric = &font->metric[code];
    const uint8_t *record = record_in(table, font->own, code);
    if (record == NULL)
        record = record_in(table, font->any, code);
    if (record == NULL) {
        metric->known = ABSENT;
        return;
    }
    metric->width = (int32_t)scaled(font->sixteenfold, record[WIDTH], unsigned3(record + WIDTH + 1));
    metric->escapement = (int16_t)unsigned2(record + ESCAPEMENT);
    metric->known = PRESENT;
}

struct level {
    int64_t h, v, w, x, y, z, hh, vv;
};

struct page {
    const uint8_t *file, *table;
    size_t records;
    const struct volume *volume;
    struct unit unit;
    uint32_t number;
    size_t start;
    uint32_t fonts;
    uint8_t slot[256]; /* one more than a font's index in font, or 0 */
    struct font font[MOST_FONTS];
};

struct counts {
    size_t records, missing, specials;
};

static inline int leaves(int64_t n)
{
    return (uint64_t)(n + 2147483647) > 4294967294u;
}

static inline int64_t held(int64_t pixels, int64_t exact, int64_t drift)
{
    if (pixels > exact + drift)
        return exact + drift;
    if (pixels < exact - drift)
        return exact - drift;
    return pixels;
}

static inline uint8_t *put_record(uint8_t *to, uint8_t kind, uint8_t font, uint32_t page, const struct level *now,
                                  int64_t content, int64_t extent)
{
    put4(to, (uint32_t)kind << 24 | (uint32_t)font << 16 | page);
    put4(to + 4, (uint32_t)now->hh);
    put4(to + 8, (uint32_t)now->vv);
    put4(to + 12, (uint32_t)content);
    put4(to + 16, (uint32_t)extent);
    return to + PLACED_RECORD;
}

/* A walk over the page's commands, which the scan found lawful. Without writing: 16, and the counts, from h and v alone. With
   writing: the pixels and the records, of a page that stays in range. */
static inline __attribute__((always_inline)) struct refusal walk(struct page *page, uint8_t *to, const int writing,
                                                                 struct counts *counts)
{
    const struct unit unit = page->unit;
    const uint8_t *file = page->file, *at = file + page->start + 45;
    struct level now = { 0, 0, 0, 0, 0, 0, 0, 0 };
    struct level stack[DEEPEST];
    unsigned depth = 0;
    struct font *font = NULL;
    int64_t scale = 0;
    size_t records = 0, missing = 0, specials = 0;

    for (;;) {
        const uint8_t *command = at, *parameters = at + 1;
        const uint8_t opcode = *command;
        int32_t code, n;
        switch (opcode) {
        case 0 ... 127: code = opcode; at += 1; goto set;
        case 128: code = parameters[0]; at += 2; goto set;
        case 129: code = (int32_t)unsigned2(parameters); at += 3; goto set;
        case 130: code = (int32_t)unsigned3(parameters); at += 4; goto set;
        case 131: code = signed4(parameters); at += 5; goto set;
        case 132: case 137: {
            int32_t height = signed4(parameters), width = signed4(parameters + 4);
            int64_t wide = writing ? rounded_up(&unit, width) : 0;
            if (height > 0 && width > 0) {
                if (writing)
                    to = put_record(to, 2, 0, page->number, &now, rounded_up(&unit, height), wide);
                else
                    records++;
            }
            at += 9;
            if (opcode == 137)
                continue;
            /* set: the pixel moves by the width as it is drawn, near or far, so that what comes next does not overlap it */
            now.h += width;
            if (writing)
                now.hh = held(now.hh + wide, rounded(&unit, now.h), unit.drift);
            else if (leaves(now.h))
                return refuse(16, (size_t)(command - file));
            continue;
        }
        case 133: code = parameters[0]; at += 2; goto put;
        case 134: code = (int32_t)unsigned2(parameters); at += 3; goto put;
        case 135: code = (int32_t)unsigned3(parameters); at += 4; goto put;
        case 136: code = signed4(parameters); at += 5; goto put;
        case 138: at += 1; continue;
        case 140:
            counts->records = records;
            counts->missing = missing;
            counts->specials = specials;
            return nothing_wrong;
        case 141: stack[depth++] = now; at += 1; continue;
        case 142: now = stack[--depth]; at += 1; continue;
        case 143: n = signed1(parameters); at += 2; goto sideways;
        case 144: n = signed2(parameters); at += 3; goto sideways;
        case 145: n = signed3(parameters); at += 4; goto sideways;
        case 146: n = signed4(parameters); at += 5; goto sideways;
        case 147: n = (int32_t)now.w; at += 1; goto sideways;
        case 148: now.w = n = signed1(parameters); at += 2; goto sideways;
        case 149: now.w = n = signed2(parameters); at += 3; goto sideways;
        case 150: now.w = n = signed3(parameters); at += 4; goto sideways;
        case 151: now.w = n = signed4(parameters); at += 5; goto sideways;
        case 152: n = (int32_t)now.x; at += 1; goto sideways;
        case 153: now.x = n = signed1(parameters); at += 2; goto sideways;
        case 154: now.x = n = signed2(parameters); at += 3; goto sideways;
        case 155: now.x = n = signed3(parameters); at += 4; goto sideways;
        case 156: now.x = n = signed4(parameters); at += 5; goto sideways;
        case 157: n = signed1(parameters); at += 2; goto down;
        case 158: n = signed2(parameters); at += 3; goto down;
        case 159: n = signed3(parameters); at += 4; goto down;
        case 160: n = signed4(parameters); at += 5; goto down;
        case 161: n = (int32_t)now.y; at += 1; goto down;
        case 162: now.y = n = signed1(parameters); at += 2; goto down;
        case 163: now.y = n = signed2(parameters); at += 3; goto down;
        case 164: now.y = n = signed3(parameters); at += 4; goto down;
        case 165: now.y = n = signed4(parameters); at += 5; goto down;
        case 166: n = (int32_t)now.z; at += 1; goto down;
        case 167: now.z = n = signed1(parameters); at += 2; goto down;
        case 168: now.z = n = signed2(parameters); at += 3; goto down;
        case 169: now.z = n = signed3(parameters); at += 4; goto down;
        case 170: now.z = n = signed4(parameters); at += 5; goto down;
        case 171 ... 234: code = opcode - 171; at += 1; goto select;
        case 235 ... 238: code = (int32_t)unsigned_in(parameters, opcode - 234u); at += opcode - 233; goto select;
        case 239 ... 242:
            specials++;
            at += opcode - 237 + (size_t)unsigned_in(parameters, opcode - 238u);
            continue;
        default: { /* a definition: bop, pre, post and post_post stand on no page */
            const uint8_t *lengths = parameters + (opcode - 242) + 12;
            at = lengths + 2 + lengths[0] + lengths[1];
            continue;
        }
        }

    set: {
            struct metric *metric = &font->metric[(uint8_t)code];
            if (metric->known != PRESENT) {
                if (metric->known == UNKNOWN)
                    find_metric(font, (uint8_t)code, page->table);
                if (metric->known == ABSENT) {
                    missing++;
                    continue;
                }
            }
            now.h += metric->width;
            if (writing) {
                to = put_record(to, 1, font->number, page->number, &now, code, metric->escapement);
                now.hh = held(now.hh + metric->escapement, rounded(&unit, now.h), unit.drift);
            } else {
                records++;
                if (leaves(now.h))
                    return refuse(16, (size_t)(command - file));
            }
            continue;
        }

    put: {
            struct metric *metric = &font->metric[(uint8_t)code];
            if (metric->known == UNKNOWN)
                find_metric(font, (uint8_t)code, page->table);
            if (metric->known == ABSENT) {
                missing++;
                continue;
            }
            if (writing)
                to = put_record(to, 1, font->number, page->number, &now, code, metric->escapement);
            else
                records++;
            continue;
        }

    sideways:
        now.h += n;
        if (writing) {
            int64_t far = n;
            int near = n >= 0 ? 5 * far < scale : -10 * far < 9 * scale;
            int64_t exact = rounded(&unit, now.h);
            now.hh = near ? held(now.hh + rounded(&unit, n), exact, unit.drift) : exact;
        } else if (leaves(now.h))
            return refuse(16, (size_t)(command - file));
        continue;

    down:
        now.v += n;
        if (writing) {
            int64_t far = n < 0 ? -(int64_t)n : n;
            int64_t exact = rounded(&unit, now.v);
            now.vv = 5 * far < 4 * scale ? held(now.vv + rounded(&unit, n), exact, unit.drift) : exact;
        } else if (leaves(now.v))
            return refuse(16, (size_t)(command - file));
        continue;

    select:
        if (page->slot[code] == 0) {
            set_up_font(&page->font[page->fonts], (uint8_t)code, file + page->volume->definition[code], page->table,
                        page->records);
            page->slot[code] = (uint8_t)++page->fonts;
        }
        font = &page->font[page->slot[code] - 1];
        scale = font->scale;
    }
}

static struct refusal place(const uint8_t *file, size_t file_length, const uint8_t *widths, size_t widths_length,
                            uint32_t resolution, uint32_t number, uint8_t *area, size_t area_length, struct counts *counts)
{
    struct volume volume;
    struct refusal refusal = scan(file, file_length, number, &volume);
    if (refusal.number != 0)
        return refusal;
    struct page page;
    uint32_t wrong = judge_unit(&volume, resolution, &page.unit);
    if (wrong != 0)
        return refuse(wrong, 0);
    size_t named;
    refusal = judge_table(widths, widths_length, &named);
    if (refusal.number != 0)
        return refusal;
    if (number < 1 || number > volume.pages)
        return refuse(15, 0);
    page.file = file;
    page.table = widths;
    page.records = widths_length / WIDTH_RECORD;
    page.volume = &volume;
    page.number = number;
    page.start = volume.wanted;
    page.fonts = 0;
    memset(page.slot, 0, sizeof page.slot);
    refusal = walk(&page, NULL, 0, counts);
    if (refusal.number != 0)
        return refusal;
    if (area_length < PLACED_RECORD * counts->records)
        return refuse(17, 0);
    struct counts again;
    walk(&page, area, 1, &again);
    return nothing_wrong;
}

/* ---- PK fonts ---- */

#define PACKED_IDENTIFICATION 89u
#define CODES 256u
#define GREATEST_DX 0x7fff7fff /* the last that is rounded to 32,767 */

/* A form's bytes before those that the packet length counts, and the fewest that it may count. */
enum { SHORT_HEAD = 3, SHORT_FIELDS = 8, EXTENDED_HEAD = 4, EXTENDED_FIELDS = 13, LONG_HEAD = 9, LONG_FIELDS = 28 };

/* Whether the command at a place, before the end of the file, has all its bytes. */
static int fits_at(const uint8_t *pk, size_t length, size_t at)
{
    const uint8_t opcode = pk[at], *parameters = pk + at + 1;
    const size_t left = length - at - 1;
    size_t size, more = 0;
    if (opcode < 240) {
        const unsigned low = opcode & 7;
        size = low < 4 ? SHORT_HEAD - 1 : low < 7 ? EXTENDED_HEAD - 1 : LONG_HEAD - 1;
        if (left < size)
            return 0;
        more = low < 4 ? (size_t)(low << 8 | parameters[0])
             : low < 7 ? (size_t)((low & 3) << 16 | unsigned2(parameters))
                       : unsigned4(parameters);
    } else if (opcode < 244) {
        size = opcode - 239u;
        if (left < size)
            return 0;
        more = unsigned_in(parameters, opcode - 239u);
    } else if (opcode == 247) {
        size = 18;
        if (left < size)
            return 0;
        more = parameters[1];
    } else
        size = opcode == 244 ? 4 : 0;
    return left >= size && left - size >= more;
}

/* A command that may not stand where it stands: 18 where it is cut, too. */
static struct refusal out_of_place(const uint8_t *pk, size_t length, size_t at)
{
    return refuse(fits_at(pk, length, at) ? 19 : 18, at);
}

struct packed {
    uint32_t check_sum;
    size_t packets;
    size_t note[CODES]; /* the place of the packet of a code, or 0 */
};

/* The whole font: 18 to 21, from the front. */
static struct refusal judge_font(const uint8_t *pk, size_t length, struct packed *font)
{
    if (length == 0)
        return refuse(18, 0);
    if (pk[0] != 247 || !fits_at(pk, length, 0) || pk[1] != PACKED_IDENTIFICATION)
        return out_of_place(pk, length, 0);
    size_t at = 19 + (size_t)pk[2], packets = 0;
    font->check_sum = unsigned4(pk + at - 12);
    memset(font->note, 0, sizeof font->note);

    for (;;) {
        if (at == length)
            return refuse(18, at);
        const uint8_t opcode = pk[at], *parameters = pk + at + 1;
        const size_t left = length - at;
        size_t size;
        if (opcode < 240) {
            const unsigned low = opcode & 7;
            uint32_t code;
            if (low < 4) {
                if (left < SHORT_HEAD)
                    return refuse(18, at);
                size = low << 8 | parameters[0];
                if (left - SHORT_HEAD < size)
                    return refuse(18, at);
                if (size < SHORT_FIELDS)
                    return refuse(20, at);
                code = parameters[1];
                size += SHORT_HEAD;
            } else if (low < 7) {
                if (left < EXTENDED_HEAD)
                    return refuse(18, at);
                size = (low & 3) << 16 | unsigned2(parameters);
                if (left - EXTENDED_HEAD < size)
                    return refuse(18, at);
                if (size < EXTENDED_FIELDS)
                    return refuse(20, at);
                code = parameters[2];
                if (parameters[6] > 127)
                    return refuse(21, at);
                size += EXTENDED_HEAD;
            } else {
                if (left < LONG_HEAD)
                    return refuse(18, at);
                size = unsigned4(parameters);
                if (left - LONG_HEAD < size)
                    return refuse(18, at);
                if (size < LONG_FIELDS)
                    return refuse(20, at);
                code = unsigned4(parameters + 4);
                if (code >= CODES || (uint8_t)(parameters[8] + 1) > 1 || signed4(parameters + 12) > GREATEST_DX)
                    return refuse(21, at);
                size += LONG_HEAD;
            }
            if (font->note[code] != 0)
                return refuse(21, at);
            font->note[code] = at;
            packets++;
        } else if (opcode == 246) {
            /* runs of them, by a branch that is foreseen well */
            for (size = 1; size < left && pk[at + size] == 246; size++)
                ;
        } else if (opcode < 244) {
            const size_t head = opcode - 238u;
            if (left < head)
                return refuse(18, at);
            size = unsigned_in(parameters, opcode - 239u);
            if (left - head < size)
                return refuse(18, at);
            size += head;
        } else if (opcode == 244) {
            size = 5;
            if (left < size)
                return refuse(18, at);
        } else if (opcode == 245)
            break;
        else
            return out_of_place(pk, length, at);
        at += size;
    }
    for (at++; at < length; at++)
        if (pk[at] != 246)
            return out_of_place(pk, length, at);
    font->packets = packets;
    return nothing_wrong;
}

/* The record of the packet at a place, all of whose fields are there and in their ranges. */
static void put_width_record(uint8_t *record, const uint8_t *packet, uint32_t check_sum, uint32_t scale, uint8_t code)
{
    const unsigned low = packet[0] & 7;
    const uint8_t *width; /* its last three bytes */
    uint32_t escapement;
    uint8_t first = 0;
    if (low < 4) {
        width = packet + SHORT_HEAD;
        escapement = width[3];
    } else if (low < 7) {
        width = packet + EXTENDED_HEAD;
        escapement = unsigned2(width + 3);
    } else {
        width = packet + LONG_HEAD + 1;
        first = packet[LONG_HEAD];
        escapement = (uint32_t)(((int64_t)signed4(width + 3) + 32768) >> 16); /* nearest, halves up */
    }
    put4(record, check_sum);
    put4(record + 4, scale);
    memset(record + NAME, 0, LONGEST_NAME);
    put4(record + CODE, (uint32_t)code << 24 | (escapement & 0xffff));
    put4(record + WIDTH, (uint32_t)first << 24 | unsigned3(width));
}

static struct refusal make_table(const uint8_t *pk, size_t pk_length, uint32_t scale, uint8_t *area, size_t area_length, size_t *records)
{
    if (!lawful_size(scale))
        return refuse(22, 0);
    struct packed font;
    struct refusal refusal = judge_font(pk, pk_length, &font);
    if (refusal.number != 0)
        return refusal;
    if (area_length / WIDTH_RECORD < font.packets)
        return refuse(17, 0);
    for (unsigned code = 0; code < CODES; code++)
        if (font.note[code] != 0) {
            put_width_record(area, pk + font.note[code], font.check_sum, scale, (uint8_t)code);
            area += WIDTH_RECORD;
        }
    *records = font.packets;
    return nothing_wrong;
}

/* ---- files of chosen pages ---- */

#define BOP_LENGTH 45u
#define POST_LENGTH 29u
#define POST_POST_LENGTH 6u

/* The length of the commands that stay on a page and change nothing but the place, else 0. */
static const uint8_t kept[256] = {
    [0 ... 127] = 1, [128] = FOUR_LENGTHS, [132] = 9, [133] = FOUR_LENGTHS, [137] = 9, [138] = 1,
    [143] = FOUR_LENGTHS, [147] = 1, FOUR_LENGTHS, [152] = 1, FOUR_LENGTHS, [157] = FOUR_LENGTHS,
    [161] = 1, FOUR_LENGTHS, [166] = 1, FOUR_LENGTHS, [171 ... 234] = 1, [235] = FOUR_LENGTHS,
};

/* The list of chosen pages on its way: the next one, or 0 if none is left, and how many pages have begun. */
struct choice {
    const uint32_t *list;
    size_t left;
    uint32_t next, begun;
};

static struct choice first_choice(const uint32_t *list, size_t count)
{
    struct choice choice = { list, count, list[0], 0 };
    return choice;
}

/* Whether the page that begins now is chosen. */
static inline int is_chosen(struct choice *choice)
{
    if (++choice->begun != choice->next)
        return 0;
    choice->next = --choice->left > 0 ? *++choice->list : 0;
    return 1;
}

struct cut {
    size_t opening;   /* bytes up to the first page */
    size_t rest;      /* and behind, without the 223s */
    uint32_t deepest; /* of the chosen pages */
};

static inline size_t definition_length(const uint8_t *at)
{
    const uint8_t *lengths = at + command_length[*at] - 2;
    return command_length[*at] + (size_t)lengths[0] + lengths[1];
}

/* The next eop or definition of a page; with a depth, what pushes and pops make of it, too. */
static inline __attribute__((always_inline)) const uint8_t *next_break(const uint8_t *at, uint32_t *depth, uint32_t *deepest)
{
    for (;;) {
        /* runs of characters, pushes and pops, by branches that are foreseen well; the rest by the table */
        while (*at < 128)
            at++;
        const uint8_t opcode = *at;
        if (kept[opcode] != 0)
            at += kept[opcode];
        else if (opcode == 141) {
            if (depth != NULL && ++*depth > *deepest)
                *deepest = *depth;
            at++;
        } else if (opcode == 142) {
            if (depth != NULL)
                --*depth;
            at++;
        } else if (opcode >= 239 && opcode <= 242)
            at += opcode - 237 + (size_t)unsigned_in(at + 1, opcode - 238u);
        else
            return at;
    }
}

/* The first walk: how long the parts of the new file are, and how deep its pages go. */
static struct cut count_cut(const uint8_t *file, const uint32_t *list, size_t count)
{
    struct choice choice = first_choice(list, count);
    struct cut cut = { 15u + file[14], POST_LENGTH + POST_POST_LENGTH, 0 };
    uint32_t deepest = 0;
    const uint8_t *at = file + cut.opening;
    while (*at != 248)
        if (*at == 138)
            at++;
        else if (*at != 139) {
            const size_t size = definition_length(at);
            cut.opening += size;
            at += size;
        } else {
            const uint8_t *bop = at;
            const int chosen = is_chosen(&choice);
            size_t definitions = 0;
            uint32_t depth = 0;
            at += BOP_LENGTH;
            for (;;) {
                at = chosen ? next_break(at, &depth, &deepest) : next_break(at, NULL, NULL);
                if (*at == 140)
                    break;
                const size_t size = definition_length(at);
                definitions += size;
                at += size;
            }
            at++;
            cut.opening += definitions;
            if (chosen)
                cut.rest += (size_t)(at - bop) - definitions;
        }
    for (at += POST_LENGTH; *at != 249;)
        if (*at == 138)
            at++;
        else {
            const size_t size = definition_length(at);
            cut.rest += size;
            at += size;
        }
    cut.deepest = deepest;
    return cut;
}

static inline uint8_t *put_all(uint8_t *to, const uint8_t *from, size_t length)
{
    memcpy(to, from, length);
    return to + length;
}

/* The second walk, into an area that is long enough; the new file's length but for the 223s is known. */
static void write_cut(const uint8_t *file, const uint32_t *list, size_t count, const struct cut *cut, uint8_t *area)
{
    struct choice choice = first_choice(list, count);
    const uint8_t *at = file + 15u + file[14];
    uint8_t *opening = put_all(area, file, 15u + file[14]), *to = area + cut->opening;
    uint32_t last_bop = 0xffffffff;
    while (*at != 248)
        if (*at == 138)
            at++;
        else if (*at != 139) {
            const size_t size = definition_length(at);
            opening = put_all(opening, at, size);
            at += size;
        } else {
            const uint8_t *from = at; /* what is still to be copied */
            uint8_t *bop = to;
            const int chosen = is_chosen(&choice);
            at += BOP_LENGTH;
            while (*(at = next_break(at, NULL, NULL)) != 140) {
                const size_t size = definition_length(at);
                opening = put_all(opening, at, size);
                if (chosen)
                    to = put_all(to, from, (size_t)(at - from));
                at += size;
                from = at;
            }
            at++;
            if (chosen) {
                to = put_all(to, from, (size_t)(at - from));
                put4(bop + 41, last_bop);
                last_bop = (uint32_t)(bop - area);
            }
        }
    const uint32_t post = (uint32_t)(to - area);
    put4(to + 1, last_bop);
    to[0] = 248;
    memcpy(to + 5, at + 5, 20);
    put4(to + 25, cut->deepest << 16 | (uint32_t)count);
    to += POST_LENGTH;
    for (at += POST_LENGTH; *at != 249;)
        if (*at == 138)
            at++;
        else {
            const size_t size = definition_length(at);
            to = put_all(to, at, size);
            at += size;
        }
    to[0] = 249;
    put4(to + 1, post);
    to[5] = at[5];
}

/* 23: each number above the one before, the last among the pages. */
static int right_list(const uint32_t *list, size_t count, uint32_t pages)
{
    uint32_t last = 0;
    for (size_t i = 0; i < count; i++) {
        if (list[i] <= last || list[i] > pages)
            return 0;
        last = list[i];
    }
    return count > 0;
}

static struct refusal cut_out(const uint8_t *file, size_t file_length, const uint32_t *list, size_t count, uint8_t *area,
                              size_t area_length, size_t *bytes)
{
    struct volume volume;
    struct refusal refusal = scan(file, file_length, 0, &volume);
    if (refusal.number != 0)
        return refusal;
    if (!right_list(list, count, volume.pages))
        return refuse(23, 0);
    const struct cut cut = count_cut(file, list, count);
    const size_t length = cut.opening + cut.rest, fillers = 4 + (-length & 3);
    if (area_length < length + fillers)
        return refuse(17, 0);
    write_cut(file, list, count, &cut, area);
    memset(area + length, 223, fillers);
    *bytes = length + fillers;
    return nothing_wrong;
}

/* ---- the entries ---- */

static uint32_t refused(struct refusal refusal, int64_t *answer)
{
    answer[0] = (int64_t)refusal.place;
    return refusal.number;
}

uint32_t plain_check_file(const uint8_t *file, size_t file_length, int64_t *answer, size_t answer_length)
{
    if (answer_length < 4)
        return TOO_SHORT_ANSWER;
    struct volume volume;
    struct refusal refusal = scan(file, file_length, 0, &volume);
    if (refusal.number != 0)
        return refused(refusal, answer);
    answer[0] = volume.pages;
    answer[1] = volume.fonts;
    answer[2] = volume.depth;
    answer[3] = (int64_t)volume.post;
    return 0;
}

uint32_t plain_place_page(const uint8_t *file, size_t file_length, const uint8_t *widths, size_t widths_length,
                          uint32_t resolution, uint32_t page, uint8_t *area, size_t area_length,
                          int64_t *answer, size_t answer_length)
{
    if (answer_length < 3)
        return TOO_SHORT_ANSWER;
    struct counts counts;
    struct refusal refusal = place(file, file_length, widths, widths_length, resolution, page, area, area_length, &counts);
    if (refusal.number != 0)
        return refused(refusal, answer);
    answer[0] = (int64_t)counts.records;
    answer[1] = (int64_t)counts.missing;
    answer[2] = (int64_t)counts.specials;
    return 0;
}

uint32_t plain_scale_width(uint32_t scale, uint8_t b0, uint8_t b1, uint8_t b2, uint8_t b3, int64_t *answer, size_t answer_length)
{
    if (answer_length < 1)
        return TOO_SHORT_ANSWER;
    if (!lawful_size(scale) || (uint8_t)(b0 + 1) > 1)
        return refused(refuse(14, 0), answer);
    answer[0] = scaled(sixteenfold_of(scale), b0, (uint32_t)b1 << 16 | (uint32_t)b2 << 8 | b3);
    return 0;
}

uint32_t plain_check_table(const uint8_t *table, size_t table_length, int64_t *answer, size_t answer_length)
{
    if (answer_length < 1)
        return TOO_SHORT_ANSWER;
    size_t named;
    struct refusal refusal = judge_table(table, table_length, &named);
    if (refusal.number != 0)
        return refused(refusal, answer);
    answer[0] = (int64_t)(table_length / WIDTH_RECORD);
    return 0;
}

uint32_t plain_look_up(const uint8_t *table, size_t table_length, uint32_t checksum, uint32_t scale, const uint8_t *name,
                       size_t name_length, int32_t code, int64_t *answer, size_t answer_length)
{
    if (answer_length < 6)
        return TOO_SHORT_ANSWER;
    size_t named;
    struct refusal refusal = judge_table(table, table_length, &named);
    if (refusal.number != 0)
        return refused(refusal, answer);
    const struct key key = sought_key((uint64_t)checksum << 32 | scale, name, name_length);
    const uint8_t *record = look_for(table, table_length / WIDTH_RECORD, &key, (uint8_t)code);
    if (record == NULL) {
        answer[0] = 0;
        return 0;
    }
    answer[0] = 1;
    answer[1] = (int16_t)unsigned2(record + ESCAPEMENT);
    for (int i = 0; i < 4; i++)
        answer[2 + i] = record[WIDTH + i];
    return 0;
}

uint32_t plain_widen_table(const uint8_t *old, size_t old_length, uint8_t *area, size_t area_length, int64_t *answer,
                           size_t answer_length)
{
    if (answer_length < 1)
        return TOO_SHORT_ANSWER;
    struct refusal refusal = widen(old, old_length, area, area_length);
    if (refusal.number != 0)
        return refused(refusal, answer);
    answer[0] = (int64_t)(old_length / OLD_WIDTH_RECORD);
    return 0;
}

uint32_t plain_narrow_table(const uint8_t *table, size_t table_length, uint8_t *area, size_t area_length, int64_t *answer,
                            size_t answer_length)
{
    if (answer_length < 1)
        return TOO_SHORT_ANSWER;
    struct refusal refusal = narrow(table, table_length, area, area_length);
    if (refusal.number != 0)
        return refused(refusal, answer);
    answer[0] = (int64_t)(table_length / WIDTH_RECORD);
    return 0;
}

uint32_t plain_width_table(const uint8_t *pk, size_t pk_length, uint32_t scale, uint8_t *area, size_t area_length,
                           int64_t *answer, size_t answer_length)
{
    if (answer_length < 1)
        return TOO_SHORT_ANSWER;
    size_t records;
    struct refusal refusal = make_table(pk, pk_length, scale, area, area_length, &records);
    if (refusal.number != 0)
        return refused(refusal, answer);
    answer[0] = (int64_t)records;
    return 0;
}

uint32_t plain_cut_pages(const uint8_t *file, size_t file_length, const uint32_t *pages, size_t count, uint8_t *area,
                         size_t area_length, int64_t *answer, size_t answer_length)
{
    if (answer_length < 1)
        return TOO_SHORT_ANSWER;
    size_t bytes;
    struct refusal refusal = cut_out(file, file_length, pages, count, area, area_length, &bytes);
    if (refusal.number != 0)
        return refused(refusal, answer);
    answer[0] = (int64_t)bytes;
    return 0;
}
