/* Hurlyburn, a proved reader of DVI files (DVI Driver Standard, level 0) and of the widths in PK fonts: its C interface.

   `bench/archive target` writes target/libclib.a for x86-64 Linux; link it beside your program and the C library.
   include/example.c is a whole program. Every entry of the reader is here, and each is proved to answer exactly what the rules
   say (crates/clib, docs/PROMISES.md).

   How every function works:

   - An input is a pointer to bytes (a list of pages: to numbers) and how many there are. It is only read, and only during the call.
   - The result is numbers, written into the caller's array `answer`, which has `answer_length` numbers, HURLYBURN_..._NUMBERS at
     least. Only the numbers that are named at a function are written, from the first on; all others stay as they were.
   - What is returned is
       0           the result is given;
       1 to 24     the file, the table or the question is refused, for the reason of that number in the list below; answer[0] is
                   then the place, counted in bytes from 0, and the other numbers stay as they were;
       255         answer_length is too small for the function's result, whatever the inputs are. Nothing was judged and nothing
                   written, neither into answer nor into an area.
   - Nothing is kept from one call to the next, and nothing is allocated: all memory is the caller's. Functions may be called from
     several threads at once, as long as no thread writes what another call was lent.
   - Every pointer must stand for as many bytes (for answer and pages: numbers) as its length says, properly aligned (answer as
     int64_t, pages as uint32_t). Where the length is 0 the pointer is not used and may be NULL. Inputs may overlap each other; area
     and answer must not overlap anything else. The proof takes these as given: a C caller has to see to them.
   - Every call ends.

   Refusals:

        1   the file has more than 16,777,216 bytes
        2   no command stands where one is due, or its bytes run past the end of the file
        3   an opcode of 250 or more
        4   a bad beginning: a command that is not pre, another identification than 2, or num, den or mag below 1
        5   a command in a part of the file where it is not allowed
        6   the stack: a pop from an empty one, a push onto a hundred levels, a page that ends with levels left
        7   a font definition that breaks the rules for fonts, or one that is not repeated after post
        8   a font that nothing has defined so far, or a character while the page has selected no font
        9   a pointer of bop, post or post_post that leads elsewhere
       10   post repeats other units than those of pre, counts other pages than there are, or states a depth below the one that
            is reached; or post_post's identification is not 2
       11   at the end, a byte that is not 223, or three 223s or fewer
       12   a resolution of 0, or above 10,000
       13   pixels per unit, num x mag x resolution / (den x 254,000,000): above 1/2, or with a numerator above 1,073,741,823 in
            lowest terms
       14   a width table, a scale or a fix word against its rules
       15   a page that the file has not
       16   h or v at 2^31 or beyond, on either side
       17   an area that is too short for what is to be written
       18   a PK font: no command stands where one is due, its bytes run past the end of the file, or the postamble is missing
       19   a PK font: a command where it is not allowed, an opcode of 248 or more, another identification than 89
       20   a PK font: a packet length below the packet's own fields
       21   a PK font: a code above 255 or one that an earlier packet has, a width whose first byte is neither 0 nor 255, or an
            escapement that two bytes with a sign do not hold
       22   a scale of 0, or above 134,217,727
       23   a list of pages that is empty, does not rise from each number to the next, or names a page that the file has not
       24   a width record with a name, where only records without one can be written

   The place of 2 to 10, of 16 and of 18 to 21 is where the opcode or the flag of the wrong command stands, or would have to; of 11
   that byte's, or the length of the file; of 14 and 24 where the first such record begins, in the table that was given. It is 0 for
   all others, for a single distance or width, and for the name of a font that is not defined (8). */
#ifndef HURLYBURN_H
#define HURLYBURN_H

#include <stddef.h>
#include <stdint.h>

#ifdef __cplusplus
extern "C" {
#endif

/* the result is given */
#define HURLYBURN_GIVEN 0
/* answer_length is too small; any other code but 0 is the number of a refusal */
#define HURLYBURN_ARRAY_TOO_SHORT 255

/* how many numbers answer must hold */
#define HURLYBURN_COMMAND_NUMBERS 3
#define HURLYBURN_CHECK_NUMBERS 4
#define HURLYBURN_PLACE_NUMBERS 3
#define HURLYBURN_ROUND_NUMBERS 1
#define HURLYBURN_SCALE_NUMBERS 1
#define HURLYBURN_TABLE_NUMBERS 1
#define HURLYBURN_LOOK_NUMBERS 6
#define HURLYBURN_WIDTH_TABLE_NUMBERS 1
#define HURLYBURN_WIDEN_NUMBERS 1
#define HURLYBURN_NARROW_NUMBERS 1
#define HURLYBURN_CUT_NUMBERS 1
#define HURLYBURN_NAME_NUMBERS 2

/* how many bytes a placed character or rule takes in the area */
#define HURLYBURN_RECORD_BYTES 20

/* how many bytes a record of a width table has */
#define HURLYBURN_WIDTH_RECORD_BYTES 32
/* and how many one of the old form has, which hurlyburn_widen_table reads and hurlyburn_narrow_table writes */
#define HURLYBURN_OLD_WIDTH_RECORD_BYTES 16

/* how many bytes more than the file an area for its chosen pages may need, whichever they are */
#define HURLYBURN_CUT_BYTES_MORE 3

/* The command whose opcode stands at byte `at` of a DVI file; nothing before or behind it is judged. answer: the opcode, where its
   parameters start, the place after them. Refusal 1; then 2 or 3, whose place is `at` (negative in answer where `at` is 2^63 or
   more). */
uint32_t hurlyburn_read_command(const uint8_t *file, size_t file_length, size_t at, int64_t *answer, size_t answer_length);

/* The check of a whole DVI file. answer: how many pages it has and how many fonts, the depth that its stack reaches (post may
   state more), where post stands. Refusals 1 to 11. */
uint32_t hurlyburn_check_file(const uint8_t *file, size_t file_length, int64_t *answer, size_t answer_length);

/* The placing of one page (counted from 1) of a DVI file, by a width table, at a resolution in dots per inch. The page's records are
   written into area, from its first byte on, HURLYBURN_RECORD_BYTES each; the bytes behind them stay as they were. A refusal leaves
   every byte of area. answer: the number of records written, of missing characters, of specials. Refusals 1 to 17: with 17 the page
   is right and area too short for it.

   A record has a byte for its kind, 1 for a character and 2 for a rule; a byte for the font, which is 0 for a rule; two bytes for
   the page; and four numbers of four bytes: hh, vv, and of a character its code and its escapement, of a rule its height and its
   width in pixels. The greatest byte comes first. The four-byte numbers are signed, the others are not. */
uint32_t hurlyburn_place_page(const uint8_t *file, size_t file_length, const uint8_t *widths, size_t widths_length,
                              uint32_t resolution, uint32_t page, uint8_t *area, size_t area_length, int64_t *answer,
                              size_t answer_length);

/* A distance n of a file whose units are num, den and mag, in pixels at a resolution in dots per inch. answer: the distance, which
   may be negative. Refusals 4 (num, den or mag below 1), 12, 13. */
uint32_t hurlyburn_round_distance(int32_t num, int32_t den, int32_t mag, uint32_t resolution, int32_t n, int64_t *answer,
                                  size_t answer_length);

/* The width that a TFM fix word, bytes b0 to b3, stands for at a font's scale. answer: the width, which may be negative. Refusal 14. */
uint32_t hurlyburn_scale_width(uint32_t scale, uint8_t b0, uint8_t b1, uint8_t b2, uint8_t b3, int64_t *answer,
                               size_t answer_length);

/* The check of a width table: records of HURLYBURN_WIDTH_RECORD_BYTES and nothing else; none at all is right. answer: the number of
   records. Refusal 14.

   A record has the font's check sum and its scale, four bytes each; a name, sixteen; the code; a byte 0; two bytes for the escapement
   in pixels, which is signed; and the four bytes of the width, the first of which is 0 or 255. The greatest byte comes first. The
   first 25 bytes, code and all before it, rise from each record to the next, as bytes; the scale is 1 to 134,217,727.

   The name is that of the font without its area: the l bytes that the definition has behind the area, and zeros behind them up to
   sixteen. A byte that is not 0 behind a zero is wrong. Sixteen zeros stand for any name. A font takes a character's record under its
   own name and, where there is none, the one for any name, each character for itself. A name of more than sixteen bytes, or one that
   has a zero among them, is in no record: such a font, and one whose name is empty, has the records for any name alone.

   Tables of the old form, HURLYBURN_OLD_WIDTH_RECORD_BYTES a record, are read by hurlyburn_widen_table alone; everywhere else their
   bytes are taken for records as they are here. */
uint32_t hurlyburn_check_table(const uint8_t *table, size_t table_length, int64_t *answer, size_t answer_length);

/* What a width table says of a character, by the font's check sum, its scale, its name and the code mod 256: what stands under that
   name or else what stands there for any name. The name is given without its area and without zeros to fill it up, and it may have
   any length. The whole table is checked first. answer: 1, the escapement in pixels, which may be negative, and the four bytes of the
   width; or, where the table has no such character, 0 and nothing more. Refusal 14. */
uint32_t hurlyburn_look_up(const uint8_t *table, size_t table_length, uint32_t checksum, uint32_t scale, const uint8_t *name,
                           size_t name_length, int32_t code, int64_t *answer, size_t answer_length);

/* The width table of a PK font at a scale, which is the font's scaled size in the DVI file's units: for each packet of the font a
   record, in the order of codes, is written into area, from its first byte on, HURLYBURN_WIDTH_RECORD_BYTES each; the bytes behind
   them stay as they were. The records are for any name, since a PK font does not say its own. A font has 256 packets at most. A
   refusal leaves every byte of area. hurlyburn_check_table finds the table right. answer: the number of records. Refusals 22, then
   18 to 21, then 17. */
uint32_t hurlyburn_width_table(const uint8_t *pk, size_t pk_length, uint32_t scale, uint8_t *area, size_t area_length,
                               int64_t *answer, size_t answer_length);

/* A width table of the old form in the new one. An old record is a record as hurlyburn_check_table has it, without the name; its
   first nine bytes rise. In the new table each is for any name, so that every page places as it did. The new records are written
   into area, from its first byte on, HURLYBURN_WIDTH_RECORD_BYTES each; the bytes behind them stay as they were. A refusal leaves
   every byte of area. hurlyburn_check_table finds the new table right. answer: the number of records. Refusals 14, by the rules of
   the old form, then 17. */
uint32_t hurlyburn_widen_table(const uint8_t *old, size_t old_length, uint8_t *area, size_t area_length, int64_t *answer,
                               size_t answer_length);

/* The way back: a width table whose records are all for any name in the old form, HURLYBURN_OLD_WIDTH_RECORD_BYTES a record. What
   was widened is the same bytes again. The old records are written into area, from its first byte on; the bytes behind them stay as
   they were. A refusal leaves every byte of area. answer: the number of records. Refusals 14, then 24, then 17. */
uint32_t hurlyburn_narrow_table(const uint8_t *table, size_t table_length, uint8_t *area, size_t area_length, int64_t *answer,
                                size_t answer_length);

/* Chosen pages of a DVI file as a DVI file of their own, by the list of their numbers, counted from 1, each above the one before.
   The new file is written into area, from its first byte on; the bytes behind it stay as they were. An area of file_length +
   HURLYBURN_CUT_BYTES_MORE bytes always suffices. A refusal leaves every byte of area. hurlyburn_check_file accepts the new file,
   and each page places in it as in the old one, but for the page's number in the records and a refusal's place. Any file and any
   list may be asked: refusals 1 to 11, then 23, then 17; with 17 file and list are right and area is too short. answer: the
   number of bytes written.

   The new file has the preamble; every font definition that stands before post, in their order; the chosen pages, without the
   definitions that stood on them; post, the definitions behind it and post_post; and four to seven 223s, up to a multiple of four
   bytes. Its pointers, number of pages and greatest depth are its own; l and u of post are the old file's. nops outside pages are
   left out. It has no more bytes than a file may have, whatever the list. */
uint32_t hurlyburn_cut_pages(const uint8_t *file, size_t file_length, const uint32_t *pages, size_t count, uint8_t *area,
                             size_t area_length, int64_t *answer, size_t answer_length);

/* The name of a font, area first, as its definition before post has it: a part of the caller's own file. The whole file is checked
   first. answer: the place of the part's first byte, and the place past its last. Refusals 1 to 11; 8 with place 0 for a font that
   is not defined. */
uint32_t hurlyburn_font_name(const uint8_t *file, size_t file_length, int32_t font, int64_t *answer, size_t answer_length);

#ifdef __cplusplus
}
#endif

#endif
