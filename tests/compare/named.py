"""Width tables whose records have names: what fonts find there by their own names and by sixteen zeros, character by character; and tables moved
between the old form of records and the new one. What must be answered is worked out from the rules by `looking.py` and `placing.py`."""

import functools
import itertools

import dvi
from dvi import MARK, PLAIN_UNITS, POPPED, PUSHED, PUT1, Font, big, character, page, right, select, volume
from looking import Looking, answered_line, look_answer, narrow_answer, table_answer, widen_answer
from made_up import RESOLUTIONS, WHOLE_AREA, look, place, random_page
from placing import place_answer, placed
from single_lines import misspelt
from tables import (
    ANY, LONGEST_TABLE, MOST_RECORDS, NAME, NEW, OLD, RECORD, made_up_escapement, made_up_width, old_record, record, records_of, sayable, wrong_tables,
)
from tabling import LONGEST_AREA

SUM, SCALE = 0, 100  # of the fonts that only their names tell apart
LETTERS = b"abcdefghijklmnop"  # as many as a name in a record may have
LONG_NAMES = (LETTERS + b"q", LETTERS + b"r", (16 * LETTERS)[:255])
ZEROS_IN_NAMES = (b"a\0", b"a\0b", b"\0a", LETTERS[:15] + b"\0", b"a" + bytes(15), LETTERS + b"\0", bytes(1), bytes(NAME), bytes(NAME + 1))
SAYABLE_NAMES = (b"", b"a", b"ab", LETTERS[:15], LETTERS, LETTERS[:15] + b"q", b"b" + LETTERS[1:], b"\xff" * NAME, b"\1")
NAMES = SAYABLE_NAMES + LONG_NAMES + ZEROS_IN_NAMES
RESOLUTION = 300  # K is 3/10 in the plain units, D is 2


# ---- asking, with the answer that the rules give

def ask(group, line, rows):
    group.ask(line)
    group.expect(line, rows)


def ask_table(group, table):
    ask(group, b"table %s" % group.keep(table), table_answer(table))


def ask_look(group, table, name, code, check_sum=SUM, scale=SCALE):
    ask(group, look(group.keep(table), check_sum, scale, name, code), look_answer(table, check_sum, scale, name, code))


def ask_place(group, file, table, number=1, area=WHOLE_AREA, resolution=RESOLUTION):
    line = place(group.keep(file), group.keep(table), resolution, number, area)
    ask(group, line, place_answer(file, table, resolution, number, area))


def ask_widen(group, table, area=LONGEST_AREA):
    ask(group, b"widen %s %d" % (group.keep(table), area), widen_answer(table, area))


def ask_narrow(group, table, area=LONGEST_AREA):
    ask(group, b"narrow %s %d" % (group.keep(table), area), narrow_answer(table, area))


# ---- fonts and tables

def entry(name, code, escapement, check_sum=SUM, scale=SCALE):
    """A record whose escapement tells it from others; its width goes with that, so that what is behind it shows the width too."""
    return record(check_sum, scale, code, escapement, big(escapement << 12, 4), name=name)


def table_of(keys):
    """A record for each of these pairs of a name and a code, each with an escapement of its own, in the order of a table."""
    return b"".join(entry(name, code, 2 + at) for at, (name, code) in enumerate(sorted({(name, code) for name, code in keys if sayable(name)})))


def patterned(own, *others):
    """For each way to have a character's record or not, for any name, of this name and of each of the others, one code."""
    names = [b"", own, *others]
    return table_of((name, code) for code in range(1 << len(names)) for at, name in enumerate(names) if code >> at & 1)


def fonts_named(*names):
    return [Font(number, SUM, SCALE, name=name) for number, name in enumerate(names)]


def written(codes):
    """Each character put and set, with a mark behind it."""
    return [part for code in codes for part in (character(code, 1, PUT1), bytes([code]) if code < 128 else character(code), MARK)]


def in_fonts(numbers, codes):
    """The same characters in each of these fonts."""
    return [part for number in numbers for part in (select(number, number >= 64), *written(codes))]


def volume_of(fonts, *pages):
    return volume(PLAIN_UNITS, [*(font.definition() for font in fonts), *(part for one in pages for part in page(one))], fonts)


# ---- the notions

def pairs(group, rng):
    """Two fonts that only their names tell apart, every pair of the names: records for any name, of the one, of the other, and all mixtures of these."""
    for own, other in itertools.product(NAMES, NAMES):
        table, codes = patterned(own, other), range(8)
        for name in dict.fromkeys((own, other)):
            for code in codes:
                ask_look(group, table, name, code)
        fonts = fonts_named(own, other)
        ask_place(group, volume_of(fonts, in_fonts((0, 1), codes)), table)
    for name in NAMES:
        ask_table(group, patterned(name, b"zz"))


def lengths(group, rng):
    """Names of every length up to 255, and every beginning of them that a record can have; those for any name stand beside them for half of the codes."""
    letters = (16 * LETTERS)[:255]
    table = table_of([(letters[:length], code) for length in range(1, NAME + 1) for code in range(4)] + [(b"", code) for code in (2, 3, 4, 5)])
    ask_table(group, table)
    for length in range(256):
        for code in (0, 3, 4, 6):
            ask_look(group, table, letters[:length], code)
            ask_look(group, table, bytes(length), code)
        other = letters[:length] + b"z"
        if length < 255:
            ask_look(group, table, other, 3)
        if length in (0, 1, 2, 14, 15, 16, 17, 18, 254, 255):
            ask_place(group, volume_of(fonts_named(letters[:length], b"a"), in_fonts((0, 1), range(7))), table)


def alike_up_to(group, rng):
    """Names that are alike up to one place: each place of the sixteen, either way; and the same behind it alone."""
    for at in range(NAME):
        for other in (LETTERS[at] ^ 1, LETTERS[at] ^ 128, 255):
            changed = LETTERS[:at] + bytes([other]) + LETTERS[at + 1 :]
            table = patterned(LETTERS, changed)
            ask_table(group, table)
            for name in (LETTERS, changed, LETTERS[:at], LETTERS[: at + 1], changed[: at + 1]):
                for code in range(8):
                    ask_look(group, table, name, code)
            ask_place(group, volume_of(fonts_named(LETTERS, changed), in_fonts((0, 1), range(8))), table)


def areas(group, rng):
    """Areas that make two names alike: the same name in two areas; the same bytes parted elsewhere; an area and a name that are another font's name; an
    area that is a name; names that are long or have zeros by their areas alone."""
    whole = b"tf/cmr10"
    parted = [Font(at, SUM, SCALE, area=whole[:at], name=whole[at:]) for at in range(len(whole) + 1)]
    areas_and_names = ((b"x/", b"cmr10"), (bytes(3), b"cmr10"), (b"y" * 255, b"cmr10"), (b"", b"cmr10"), (b"tf/", b"cmr10\0"), (b"cmr10", b""),
                       (LETTERS, LETTERS), (b"a", LETTERS[1:]), (LETTERS, b""))
    others = [Font(20 + at, SUM, SCALE, area=area, name=name) for at, (area, name) in enumerate(areas_and_names)]
    fonts, codes = parted + others, range(8)
    numbers = [font.number for font in fonts]
    for own, other in ((b"cmr10", whole), (b"r10", b"cmr10"), (b"tf/", b"0"), (LETTERS, LETTERS[1:]), (b"a" + LETTERS[1:15], b"cmr10"), (whole, whole[:-1])):
        table = patterned(own, other)
        for font in fonts:
            ask_place(group, volume_of([font], in_fonts([font.number], codes)), table)
        ask_place(group, volume_of(fonts, in_fonts(numbers, codes)), table)
        for one, another in itertools.combinations(numbers, 2):
            if rng.random() < 0.15:
                ask_place(group, volume_of(fonts, in_fonts([one, another, one], codes)), table)


def in_turn(group, rng):
    """Fonts of one check sum and scale on one page: selected one after the other, for one character or more; inside *push* and *pop*, behind which they
    stay; on the next page; beside fonts of another check sum and of another scale."""
    for names in ((b"one", b"two"), (b"one", b"two", b""), (LETTERS, LETTERS[:15], b"a", LETTERS + b"q", b"a\0"), (b"one", b"one")):
        fonts, codes = fonts_named(*names), range(16)
        others = [Font(40, SUM + 1, SCALE, name=names[0]), Font(41, SUM, SCALE + 1, name=names[0])]
        beside = [one for code in codes for one in (entry(names[0], code, 99 - code, SUM + 1), entry(b"", code, 50, SUM, SCALE + 1))]
        table = sorted({*records_of(patterned(*dict.fromkeys(names[:3]))), *beside})
        every = [font.number for font in fonts + others]
        each = [part for code in codes for number in every for part in (select(number), *written([code]))]
        runs = [part for number in every + every[::-1] for part in (dvi.any_select(rng, number), *written(codes))]
        nested = []
        for number, other in itertools.permutations(every, 2):
            nested += [select(number), PUSHED, *written(codes[:8]), select(other), POPPED, *written(codes[:8])]
            nested += [PUSHED, select(number), PUSHED, POPPED, *written(codes[6:8]), POPPED]
        begins = [in_fonts((number, every[at - 1]), codes) for at, number in enumerate(every)]
        file = volume_of(fonts + others, each, runs, nested, *begins, [right(3), MARK])
        for number in range(1, 5 + len(begins)):
            ask_place(group, file, b"".join(table), number)
        for _ in range(6):  # records left out here and there
            some = b"".join(row for row in table if rng.random() < 0.6)
            for number in (1, 2, 3, 4):
                ask_place(group, file, some, number)


def one_place(group, rng):
    """Fonts whose numbers are alike but for their upper bits, selected in turn: fonts of one check sum and scale, of others, and as many as may be."""
    codes = range(8)
    for low in (0, 5, 63):
        for step in (64, 128, 32, 16):
            numbers = range(low, 256, step)[:4]
            names = [b"n%d" % number for number in numbers]
            told_by_name = [Font(number, SUM, SCALE, name=name) for number, name in zip(numbers, names)]
            told_by_sum = [Font(number, SUM + at, SCALE + at, name=b"one") for at, number in enumerate(numbers)]
            named = table_of([(name, code) for at, name in enumerate(names) for code in codes if code >> at % 3 & 1] + [(b"", code) for code in (0, 3, 4)])
            summed = b"".join(entry(b"one", code, 2 + 9 * at + code, SUM + at, SCALE + at) for at in range(len(numbers)) for code in codes if code != at)
            for fonts, table in ((told_by_name, named), (told_by_sum, summed)):
                turns = [part for turn in range(3) for number in (*numbers, *reversed(numbers)) for part in (dvi.any_select(rng, number), *written(codes[turn : turn + 4]))]
                file = volume_of(fonts, in_fonts([*numbers, *numbers], codes), turns)
                for number in (1, 2):
                    ask_place(group, file, table, number)
    numbers = rng.sample(range(256), 64)
    fonts = [Font(number, SUM, SCALE, name=b"n%d" % number) for number in numbers]
    table = table_of((font.name, code) for at, font in enumerate(fonts) for code in (at % 8, 8 + at % 5))
    for _ in range(8):
        chosen = [rng.choice(numbers) for _ in range(200)]
        ask_place(group, volume_of(fonts, [part for number in chosen for part in (dvi.any_select(rng, number), *written([rng.randrange(13)]))]), table)


def side_by_side(group, rng):
    """Fonts whose records stand side by side in the table, with codes that go on from one font to the next: a character that one font has not is the next
    one's, as far from the last character's record as their codes are apart. All codes, rising, falling and at random; a font of one record, and of 256."""
    ends = (0, 1, 2, 40, 41, 128, 255, 256)
    names = [b"%c" % (97 + at) for at in range(len(ends) - 1)]
    going_on = b"".join(entry(name, code, 2 + code) for name, low, high in zip(names, ends, ends[1:]) for code in range(low, high))
    whole = b"".join(entry(b"b", code, 3 + code) for code in range(256))
    fonts = fonts_named(*names)
    rising = list(range(256))
    for table in (going_on, entry(b"a", 255, 7) + whole + entry(b"c", 0, 9), entry(b"", 255, 7) + whole + entry(b"c", 1, 9)):
        ask_table(group, table)
        for font in fonts:
            for codes in (rising, rising[::-1], rng.sample(rising, 256)):
                ask_place(group, volume_of(fonts, in_fonts([font.number], codes)), table)
        mixed = [part for _ in range(300) for part in (select(rng.choice(fonts).number), *written(rng.sample(rising, 3)))]
        ask_place(group, volume_of(fonts, mixed), table)


def two_of_one_key(group, rng):
    """Two fonts of check sum 0 at one scale that have other widths for the same codes: in a table without names the one's stood for both. Each font's own
    records are found, and the old table, widened, still has one for both."""
    fonts = [Font(1, 0, 655_360, name=b"gothic"), Font(2, 0, 655_360, name=b"signs")]
    codes = range(60, 72)
    own = {font.name: [(code, 3 + at + 5 * turn, big(0x80000 + 0x1111 * code * (turn + 1), 4)) for at, code in enumerate(codes)]
           for turn, font in enumerate(fonts)}
    named = b"".join(record(0, 655_360, *row, name=name) for name, rows in sorted(own.items()) for row in rows)
    spliced = b"".join(old_record(0, 655_360, *row) for row in own[b"gothic"])
    moved = widened(spliced)
    text = [part for turn in range(4) for font in fonts for part in (select(font.number), *written(codes[turn : turn + 5]))]
    file = volume(dvi.TEX_UNITS, [*(font.definition() for font in fonts), *page(text)], fonts)
    for table in (named, moved, named + moved, moved + named):
        ask_table(group, table)
        for resolution in RESOLUTIONS:
            ask_place(group, file, table, resolution=resolution)
        for font in fonts:
            for code in codes:
                ask_look(group, table, font.name, code, 0, 655_360)
    for resolution in RESOLUTIONS:
        same = placed(file, named, resolution, 1) == placed(file, moved, resolution, 1)
        group.object("the table without names places this page rightly" if same else None)
    ask_widen(group, spliced)
    ask_narrow(group, moved)
    ask_narrow(group, named)


def ask_each(group, file, table, form=NEW):
    """A table through every question that reads one."""
    ask_widen(group, table)
    if form is NEW:
        ask_table(group, table)
        ask_narrow(group, table)
        ask_place(group, file, table)
        ask_look(group, table, b"cmr10", 65, 1)


def damaged_records(group, rng):
    """Every byte of a record made others, alone, first, between two and last, of both forms; and cut behind every byte."""
    font = Font(0, 1, SCALE)
    file = volume_of([font], [select(0), *written(range(60, 70))])
    front, last = record(0, 1, 0, 0, bytes(4)), record((1 << 32) - 1, SCALE, 0, 0, bytes(4), name=b"\xff" * NAME)
    for name in (b"cmr10", b"", LETTERS, b"c"):
        row = record(1, SCALE, 65, 31, bytes([0, 16, 0, 0]), name=name)
        for at in range(RECORD):
            for value in sorted({0, 1, 7, 8, 127, 128, 254, 255, row[at], row[at] ^ 1, row[at] ^ 64}):
                changed = row[:at] + bytes([value]) + row[at + 1 :]
                for table in (changed, front + changed + last):
                    ask_each(group, file, table)
                ask_table(group, changed + last)
                ask_table(group, front + changed)
                ask_table(group, row + changed)  # the same record before it: it rises or does not
                ask_table(group, changed + row)
        for end in range(2 * RECORD):
            ask_each(group, file, (front + row)[:end])
            ask_each(group, file, (row + last)[:end])
    row = old_record(1, SCALE, 65, 31, bytes([0, 16, 0, 0]))
    front, last = old_record(0, 1, 0, 0, bytes(4)), old_record((1 << 32) - 1, SCALE, 0, 0, bytes(4))
    for at in range(OLD.size):
        for value in range(256):
            changed = row[:at] + bytes([value]) + row[at + 1 :]
            for table in (changed, front + changed + last, row + changed, changed + row):
                ask_widen(group, table)
    for end in range(3 * OLD.size):
        ask_widen(group, (front + row + last)[:end])


def zeros_in_records(group, rng):
    """Zeros and other bytes in every arrangement over the ends of a name, and one zero or one other byte anywhere: right only where all zeros are last."""
    ends = [bytes(bits[:5]) + b"\1" * 6 + bytes(bits[5:]) for bits in itertools.product((0, 2), repeat=10)]
    singles = [rest * at + one + rest * (NAME - 1 - at) for at in range(NAME) for one, rest in ((b"\0", b"\3"), (b"\3", b"\0"))]
    behind = [LETTERS[:at].ljust(NAME, b"\0") for at in range(NAME + 1)]
    for name in ends + singles + behind:
        row = entry(name, 65, 9)
        ask_table(group, row)
        ask_narrow(group, entry(b"", 7, 1) + row)
        ask_look(group, row, name.rstrip(b"\0"), 65)


def orders_of_keys(group, rng):
    """Two records whose keys differ in one field or in two, in both orders: check sum before scale, scale before name, name before code, all as bytes."""
    sums, scales, codes = (0, 1, 255, 256, (1 << 32) - 1), (1, 255, 256, 65_536), (0, 1, 127, 128, 255)
    names = (b"", b"\1", b"a", b"aa", b"b", LETTERS[:15], LETTERS, b"\x80", b"\xff" * NAME)
    rows = [record(check_sum, scale, code, 5, bytes(4), name=name) for check_sum, scale, name, code in itertools.product(sums, scales, names, codes)]
    chosen = rng.sample(rows, 120)
    for one, other in itertools.combinations(chosen, 2):
        if rng.random() < 0.2:
            ask_table(group, one + other)
            ask_table(group, other + one)
    for _ in range(300):
        some = sorted(rng.sample(rows, rng.choice([3, 9, 40])))
        if rng.random() < 0.5:
            at, other = rng.randrange(len(some)), rng.randrange(len(some))
            some[at], some[other] = some[other], some[at]
        ask_table(group, b"".join(some))
        ask_narrow(group, b"".join(some))


def old_table(rng, count, fonts=None):
    """So many records without names; of these fonts, where any are given."""
    keys, known = set(), [(font.check_sum, font.scale) for font in fonts or ()]
    while len(keys) < count:
        anything = rng.choice([0, 1, rng.randrange(1 << 32)]), rng.choice([1, 100, 655_360])
        keys.add((*(rng.choice(known) if known else anything), rng.randrange(256)))
    return b"".join(old_record(*key, rng.randrange(-32768, 32768), made_up_width(rng)) for key in sorted(keys))


def widened(table):
    """An old table in the new form, as the document has it."""
    return b"".join(row[:8] + ANY + row[8:] for row in records_of(table, OLD))


def there_and_back(group, rng):
    """Tables of both forms moved to the other one and back, into areas just long enough, longer, a byte and a record too short, and none."""
    for count in (0, 1, 2, 3, 17, 256, 1874, 1875, 1876, 2047, 2048, 4096):
        for _ in range(3 if count < 300 else 1):
            old = old_table(rng, count)
            new = widened(old)
            for table, asking, given, made in ((old, ask_widen, OLD, NEW), (new[:LONGEST_TABLE], ask_narrow, NEW, OLD)):
                need = len(table) // given.size * made.size
                for area in sorted({0, need - made.size, need // 2, need - 1, need, need + 1, need + made.size, LONGEST_AREA - 1, LONGEST_AREA}):
                    if 0 <= area <= LONGEST_AREA:
                        asking(group, table, area)
            if len(new) <= LONGEST_TABLE:
                ask_table(group, new)


class OldLooking(Looking):
    """The old look-up, by check sum, scale and code."""

    def tried(self, widths, check_sum, scale, own):
        return (ANY,)


def placed_as_before(group, rng):
    """Pages with a table that was widened place as by the old look-up, whatever the fonts are called, and their areas."""
    for _ in range(40):
        fonts = [Font(number, rng.choice([0, 7]), rng.choice([100, 200]), area=rng.choice([b"", b"tf/", LETTERS]), name=rng.choice(NAMES))
                 for number in rng.sample(range(64), 4)]
        old = old_table(rng, rng.choice([0, 5, 200]), fonts)
        file = volume_of(fonts, random_page(rng, fonts, 150), in_fonts([font.number for font in fonts], rng.sample(range(128), 9)))
        ask_widen(group, old)
        for number in (1, 2):
            line = place(group.keep(file), group.keep(widened(old)), RESOLUTION, number)
            ask(group, line, placed(file, widened(old), RESOLUTION, number, looking=OldLooking))


def broken_tables(rows, at, row, place_in, value):
    """These records with one of them made wrong, in its place or before it; with one twice; and cut."""
    broken = row[:place_in] + bytes([value]) + row[place_in + 1 :]
    return [b"".join(some) for some in ([*rows[:at], broken, *rows[at + 1 :]], [*rows[:at], broken, *rows[at:]], [*rows, rows[at]])] + [b"".join(rows)[: -1 - at]]


def orders(group, rng):
    """Several things wrong at once. Narrowing: 14 wherever it is before 24, 24 at the first such record before 17. Widening: 14 before 17. Placing: 14
    before a page that is not there and an area too short."""
    font = Font(0, 1, SCALE, name=b"one")
    file = volume_of([font], [select(0), *written(range(4))])
    good = [record(1, SCALE, code, 5, bytes(4)) for code in range(5)]
    named = [record(1, SCALE, code, 5, bytes(4), name=b"one") for code in range(5)]
    faults = {"zero": (NEW.key, 1), "scale": (4, 8), "width": (28, 1), "name": (9, 1), "late name": (23, 1)}
    for at, (place_in, value) in itertools.product(range(5), faults.values()):
        for named_at in (*range(5), None):
            rows = sorted(row if index != named_at else named[index] for index, row in enumerate(good))
            for table in (b"".join(rows), *broken_tables(rows, at, good[at], place_in, value)):
                for area in (0, 5 * OLD.size - 1, 5 * OLD.size, 5 * RECORD - 1, 5 * RECORD):
                    ask_narrow(group, table, area)
                ask_table(group, table)
                ask_place(group, file, table)
                ask_place(group, file, table, 2, 0)
                ask_place(group, file, table, 1, 0)
    for some in itertools.product((good, named), repeat=5):  # every mixture of records with names and without
        table = b"".join(sorted(rows[at] for at, rows in enumerate(some)))
        for area in (0, 5 * OLD.size - 1, 5 * OLD.size):
            ask_narrow(group, table, area)
    rows = [old_record(1, SCALE, code, 5, bytes(4)) for code in range(5)]
    for at, (place_in, value) in itertools.product(range(5), ((9, 1), (4, 8), (12, 1), (12, 255), (8, 255), (8, 0), (0, 255))):
        for table in broken_tables(rows, at, rows[at], place_in, value):
            for area in (0, 5 * RECORD - 1, 5 * RECORD, 5 * RECORD + 1, LONGEST_AREA):
                ask_widen(group, table, area)


def other_form(group, rng):
    """Right tables of the one form given to those who read the other. In an old record a zero stands where the second byte of a name would, and a scale where
    its last ones; so but for the empty one no table is right in both, and the answers are known without the model."""
    font = Font(0, 1, SCALE)
    file = volume_of([font], [select(0), *written(range(4))])
    for count in (1, 2, 3, 4, 100, 4095, 4096):
        old = group.keep(old_table(rng, count))
        for line in (b"table %s" % old, b"narrow %s 0" % old, look(old, 1, SCALE, b"", 65), place(group.keep(file), old, 300)):
            ask(group, line, [["refused", 14, "at", 0]])
    for names in ((b"",), (b"a",), (b"ab",), (LETTERS,), (b"", b"a", LETTERS)):
        for count in (1, 2, 3, 500):
            new = table_of((name, code) for code in range(count % 256) for name in names)
            short = len(names[0]) < 2  # then the first half of the first record is one of the old form
            ask(group, b"widen %s 0" % group.keep(new), [["refused", 14, "at", OLD.size if short else 0]])
    for line in (b"table", b"widen", b"narrow"):
        more = [] if line == b"table" else [b"0"]
        ask(group, b" ".join([line, group.keep(b""), *more]), [["right", 0] if line == b"table" else ["end", 0]])


def any_table(rng, keys):
    """Records for these keys of check sum, scale, name and code, some of them left out."""
    rows = []
    for check_sum, scale, name, code in sorted(keys):
        if rng.random() < 0.7:
            width = made_up_width(rng)
            rows.append(record(check_sum, scale, code, made_up_escapement(rng, width, scale, 0.3), width, name=name))
    return b"".join(rows)


def names_beside(font):
    """Those by which a font may find its records, and those by which wrong rules would."""
    return b"", font.name, font.area + font.name, font.name[:NAME], font.name[:15], font.name.split(b"\0")[0]


def random_tables(group, rng, count):
    """Random fonts of few check sums, scales and names, tables with any of their records, random pages."""
    for _ in range(count):
        names = rng.sample(NAMES, 3) + [rng.choice(NAMES)]
        fonts = [Font(number, rng.choice([0, 0, 1]), rng.choice([100, 100, 250]), area=rng.choice([b"", b"", b"a", LETTERS[:3]]), name=name)
                 for number, name in zip(rng.sample(range(64), 4), names)]
        near = {name for font in fonts for name in names_beside(font) if sayable(name)}
        codes = rng.sample(range(128), 12)
        table = any_table(rng, itertools.product((0, 1), (100, 250), near, codes))
        text = [part for _ in range(30) for part in (dvi.any_select(rng, rng.choice(fonts).number), *written(rng.sample(codes, 2)))]
        file = volume_of(fonts, text, random_page(rng, fonts, 100))
        for number in (1, 2):
            ask_place(group, file, table, number, rng.choice([WHOLE_AREA, WHOLE_AREA, rng.randrange(3000)]))
        ask_table(group, table)
        for _ in range(20):
            font = rng.choice(fonts)
            name = rng.choice([font.name, rng.choice(names), (font.area + font.name)[:255]])
            ask_look(group, table, name, rng.choice(codes) + 256 * rng.randrange(-2, 3), font.check_sum, font.scale)


def random_damage(rng, table, form):
    """One to three random steps: bytes, records, cuts."""
    for _ in range(rng.choice([1, 1, 2, 3])):
        rows, kind = records_of(table, form), rng.randrange(6)
        if not rows:
            return rng.randbytes(rng.choice([1, form.size]))
        at, other = rng.randrange(len(rows)), rng.randrange(len(rows))
        if kind < 2:
            byte = rng.randrange(len(table))
            table = table[:byte] + bytes([rng.choice([0, 1, 255, rng.randrange(256)])]) + table[byte + 1 :]
            continue
        if kind == 2:
            rows[at], rows[other] = rows[other], rows[at]
        elif kind == 3:
            rows.insert(at, rows[other])
        elif kind == 4:
            del rows[at]
        else:
            rows[at] = rows[at][: rng.randrange(form.size + 1)]
        table = b"".join(rows)
    return table


def damaged_tables(group, rng, count):
    """Random damage of tables of both forms, through every question that reads one."""
    font = Font(0, 1, SCALE)
    file = volume_of([font], [select(0), *written(range(60, 70))])
    for _ in range(count):
        names = rng.sample(SAYABLE_NAMES, 3)
        base = any_table(rng, itertools.product((0, 1), (SCALE, 200), names, rng.sample(range(256), 3)))
        ask_each(group, file, random_damage(rng, base, NEW))
        old = old_table(rng, rng.randrange(1, 20))
        ask_widen(group, random_damage(rng, old, OLD), rng.choice([LONGEST_AREA, LONGEST_AREA, rng.randrange(700)]))
        ask_narrow(group, random_damage(rng, widened(old), NEW), rng.choice([LONGEST_AREA, rng.randrange(400)]))


def wrong_everywhere(group, rng):
    """Tables that are wrong at one record each, in every way, of both forms, and right ones beside them."""
    for size in (1, 3, 12):
        base = records_of(any_table(rng, itertools.product((0, 1), (SCALE, 200), SAYABLE_NAMES, range(8))))
        base = sorted(rng.sample(base, size))
        for table in wrong_tables(rng, b"".join(base)):
            ask_table(group, table)
            ask_narrow(group, table)
        for table in wrong_tables(rng, old_table(rng, size), OLD):
            ask_widen(group, table)


def longest_tables(group, rng):
    """As long as the desk holds a table, and a byte more; a search by halves that ends everywhere; the one record with a name first, last and between."""
    keys = itertools.product([b"%03d" % number for number in range(9)], range(256))
    rows = sorted(entry(name, code, at % 300, 5 + at // 1500, 100) for at, (name, code) in enumerate(keys))[:MOST_RECORDS]
    table = b"".join(rows)
    ask_table(group, table)
    for row in rng.sample(rows, 120):
        name, code = row[8:24].rstrip(b"\0"), row[24]
        ask_look(group, table, name, code, dvi.unsigned(row[:4]), 100)
        ask_look(group, table, name + b"x", code, dvi.unsigned(row[:4]), 100)
    line = b"table %s" % group.keep(table + b"\0")
    ask(group, line, [["no", "input"]])
    for length in (LONGEST_TABLE - 1, LONGEST_TABLE - RECORD, LONGEST_TABLE // 2 + 1):
        ask_table(group, table[:length])
    plain = records_of(widened(old_table(rng, MOST_RECORDS)))
    for at in (0, 1, MOST_RECORDS // 2, MOST_RECORDS - 1, None):
        some = list(plain)
        if at is not None:
            some[at] = some[at][:8] + b"\1".ljust(NAME, b"\0") + some[at][24:]
        for area in (0, OLD.size * MOST_RECORDS - 1, OLD.size * MOST_RECORDS):
            ask_narrow(group, b"".join(some), area)


def lines(group, rng):
    """Lines of the wrong form: names with an odd digit, in capitals, with other letters, of 255 bytes and of 256; numbers one past their ranges, files that
    are not there or too long."""
    table = table_of([(b"", 3), (b"\1", 3), (b"\xab", 3), (b"cmr10", 3), (b"a", 4)])
    file, old = group.keep(table), group.keep(old_table(rng, 2))
    for line in (look(file, SUM, SCALE, b"cmr10", 3), look(file, SUM, SCALE, b"", 3), b"widen %s 64" % old, b"narrow %s 64" % file, b"table %s" % file):
        misspelt(group, line, file)
    words = [b"-", b"--", b"-61", b"61-", b"6", b"61", b"616", b"6161", b"AB", b"aB", b"Ab", b"ab", b"0xab", b"ag", b"`a", b"a:", b"/0", b"@a", b"00", b"0",
             b"01", b"0000", b"636d723130", b"636D723130", b"636d72313000", b"x", b"+1", "ä".encode(), b"\xff\xff", b"61\t", b"61 ", b" 61"]
    words += [b"61" * length for length in (15, 16, 17, 254, 255, 256, 257, 1000, 8000)]
    words += [b"61" * 255 + b"6", b"61" * 254 + b"6", b"00" * 255, b"00" * 256, b"61" * 255 + b"-"]
    for word in words:
        for code in (b"3", b"4", b"x"):
            group.ask(b"look %s %d %d %s %s" % (file, SUM, SCALE, word, code))
    for word in (b"widen", b"narrow"):
        for area in (b"0", b"00", b"31", b"32", b"64", b"159", b"160", b"59999", b"60000", b"60001", b"0060000", b"-1", b"+1", b"4294967296", b"9" * 20):
            for name in (file, old, group.keep(b""), group.keep(bytes(LONGEST_TABLE)), group.keep(bytes(LONGEST_TABLE + 1)), b"/nowhere/at/all"):
                group.ask(b"%s %s %s" % (word, name, area), b"%s %s %s 1" % (word, name, area), b"%s %s" % (word, name))
    for line in group.lines:
        if line.split(b" ")[0] in (b"table", b"look", b"widen", b"narrow"):
            group.expect(line, answered_line(line))


def groups(gather, numbers, long, wanted=lambda name: True):
    """Those groups that are wanted; the random ones many times in the long form. `numbers` gives each group its random numbers, by its name."""
    notions = (pairs, lengths, alike_up_to, areas, in_turn, one_place, side_by_side, two_of_one_key, damaged_records, zeros_in_records, orders_of_keys, there_and_back,
               placed_as_before, orders, other_form, wrong_everywhere, longest_tables, lines)
    makers = {"named: " + make.__name__.replace("_", " "): make for make in notions}
    for turn in range(100 if long else 2):
        makers[f"named: random tables {turn + 1}"] = functools.partial(random_tables, count=60)
        makers[f"named: damaged tables {turn + 1}"] = functools.partial(damaged_tables, count=400)
    for name, make in makers.items():
        if wanted(name):
            with gather(name) as group:
                make(group, numbers(name))
