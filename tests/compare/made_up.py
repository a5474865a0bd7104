"""Made-up files that keep the rules, each group for one notion, and the places where the next step would break one."""

from fractions import Fraction

import dvi
from dvi import (
    DOWN1, FNT1, FURTHEST, GREATEST_SCALE, MARK, NOTHING, PLAIN_UNITS, POPPED, PUSHED, PUT1, PUT_RULE, RIGHT1, SET1,
    TEX_UNITS, W0, X0, XXX1, Y0, Z0, Font, big, character, down, page, right, rule, select, sized, special, volume,
)
from looking import spelled
from placing import placed, scaled
from tables import LONGEST_TABLE, MOST_RECORDS, NEW, RECORD, made_up_escapement, record, records_of, table_for, wrong_tables

RESOLUTIONS = (72, 100, 300, 600)
WHOLE_AREA = 60_000
LONGEST_FILE = 262_144  # what both programs hold; refusal 1 (above 16,777,216 bytes) cannot be reached through the desk


def unit_of(units, resolution):
    """K as a fraction."""
    num, den, mag = units
    return Fraction(num * mag * resolution, den * 254_000_000)


def edges(size):
    """The numbers at the edges of a signed parameter of this many bytes."""
    most = 256**size // 2
    return [-most, 1 - most, -1, 0, 1, most - 1]


def naming(file, font):
    """Both questions about a font's name: where it stands, and its bytes."""
    return b"name %s %d" % (file, font), b"spell %s %d" % (file, font)


def place(file, table, resolution, number=1, area=WHOLE_AREA):
    return b"place %s %s %d %d %d" % (file, table, resolution, number, area)


def look(table, check_sum, scale, name, code):
    return b"look %s %d %d %s %d" % (table, check_sum, scale, spelled(name), code)


def every_opcode(group, rng):
    """Each opcode form that may stand on a page, with parameters at their edges."""
    fonts = [Font(0, 0x12345678, 655_360), Font(63, 0xFFFFFFFF, 7, area=b"area/", name=b"n"), Font(255, 0, GREATEST_SCALE)]
    one, two, three = [select(0)], [select(63)], [select(255, 1)]
    one += [bytes([code]) for code in range(128)]
    for size in (1, 2, 3, 4):
        last = 256**size - 1 if size < 4 else FURTHEST
        for first in (SET1, PUT1):
            one += [character(code, size, first) + MARK for code in (0, 1, 127, 128, 255, last)]
        for number in edges(min(size, 3)):
            for first in (RIGHT1, W0 + 1, X0 + 1, DOWN1, Y0 + 1, Z0 + 1):
                two += [PUSHED, sized(first, number, size), MARK, POPPED, bytes([first - 1]) if first != RIGHT1 and
                        first != DOWN1 else NOTHING, MARK]
        three += [select(number, size) + MARK for number in (0, 63, 255)]
        three += [special(b"", size), special(b"ps:", size), special(bytes(range(200)), size)]
    two += [PUSHED, *(rule(h, w, op) + MARK for h in (-1, 0, 1, 99_999) for w in (-5, 0, 1, 77_777)
                      for op in (dvi.SET_RULE, PUT_RULE)), POPPED]
    wide = [[right(1, size), down(1, size), sized(first, number, 4), MARK, sized(other, -1, 1), MARK]
            for size in (1, 4) for number in (-FURTHEST - 1, -FURTHEST, FURTHEST - 1, FURTHEST)
            for first, other in ((RIGHT1, W0 + 1), (W0 + 1, X0 + 1), (X0 + 1, RIGHT1), (DOWN1, Y0 + 1), (Y0 + 1, Z0 + 1),
                                 (Z0 + 1, DOWN1))]
    pages = [one, two, three, *wide]
    body = [font.definition(4) for font in fonts] + [NOTHING] + [c for p in pages for c in page(p)]
    for units in (TEX_UNITS, PLAIN_UNITS):
        file = group.keep(volume(units, body, fonts, comment=bytes(range(255))))
        group.ask(b"check %s" % file)
        for share in (1.0, 0.5, 0.0):
            table = group.keep(table_for(rng, fonts, unit_of(units, 300), share))
            group.lines += [place(file, table, r, n + 1) for n in range(len(pages)) for r in (RESOLUTIONS if n < 3 else (300,))]
    # One opcode a file, with all its parameter bytes and with one byte too few.
    for opcode in range(256):
        need = dvi.FIXED_LENGTHS[opcode] if opcode < 250 else 0
        for have in {max(need - 1, 0), need, need + 1}:
            group.ask(b"read %s 0" % group.keep(bytes([opcode]) + bytes(have)))
            group.ask(b"read %s 3" % group.keep(b"abc" + bytes([opcode]) + bytes([255]) * have))


def near_and_far(group, rng):
    """Moves at the edges of near and far and one beside, from a position whose pixel leads or lags."""
    scales = [1, 2, 4, 5, 6, 9, 10, 11, 19, 20, 100, 1000, 655_360, 12_345_677, GREATEST_SCALE]
    cases = []
    for index, scale in enumerate(scales):
        near = {scale * top // bottom + beside for top, bottom in ((1, 5), (9, 10), (4, 5)) for beside in (-1, 0, 1, 2)}
        for n in sorted(near | {-n for n in near} | {0}):
            cases.append((index, n))
    for units, resolutions in ((PLAIN_UNITS, (300, 99, 100, 199, 200, 500)), ((7620, 10, 999), (150, 320)), (TEX_UNITS, (600,))):
        fonts = [Font(index, 1000 + index, scale) for index, scale in enumerate(scales)]
        pages = []
        for chunk in range(0, len(cases), 60):
            commands = []
            for index, n in cases[chunk : chunk + 60]:
                step = rng.choice([1, 2, 3, 5, 7])
                commands += [PUSHED, select(index), *[right(step), down(step)] * rng.randrange(7)]
                commands += [PUSHED, right(n), MARK, POPPED, PUSHED, down(n), MARK, POPPED]
                commands += [PUSHED, sized(W0 + 1, n), MARK, bytes([W0]), MARK, POPPED, PUSHED, sized(Y0 + 1, n), MARK,
                             bytes([Y0]), MARK, POPPED]
                commands += [PUSHED, sized(X0 + 1, n), sized(Z0 + 1, n), MARK, bytes([X0, Z0]), MARK, POPPED]
                commands += [PUSHED, rule(rng.choice([-1, 1]), n), MARK, POPPED, POPPED]
            pages.append(commands)
        # Before any selection s is 0, and every move is far.
        pages.append([c for n in (-3, -1, 0, 1, 3, 7, 10) for c in (right(n), MARK, down(n), MARK)])
        body = [font.definition() for font in fonts] + [c for p in pages for c in page(p)]
        file = group.keep(volume(units, body, fonts))
        empty = group.keep(b"")
        group.lines += [place(file, empty, r, n + 1) for r in resolutions for n in range(len(pages))]


def edge_of_range(group, rng):
    """h and v brought to the ends of their range and one step past, by every command that moves."""
    widest = Font(1, 77, GREATEST_SCALE)
    rows = [record(77, GREATEST_SCALE, 0, 5, big(1, 4)), record(77, GREATEST_SCALE, 1, -5, bytes([255, 255, 255, 255])),
            record(77, GREATEST_SCALE, 2, 32767, bytes([0, 255, 255, 255])), record(77, GREATEST_SCALE, 3, -32768, bytes([255, 0, 0, 0])),
            record(77, GREATEST_SCALE, 4, 0, bytes(4))]
    table = group.keep(b"".join(rows))
    for units in ((1, 1, 1000), PLAIN_UNITS, TEX_UNITS):
        pages = []
        for sign in (1, -1):
            for short in (0, 1, 127, 128, 129, 2_147_483_520):
                start = sign * (FURTHEST - short)
                for n in (sign, 0, sign * short, sign * (short + 1), -sign * FURTHEST, -sign * (FURTHEST - 1)):
                    moves = [right(n, 4), sized(W0 + 1, n, 4), sized(X0 + 1, n, 4), rule(1, n, dvi.SET_RULE), rule(-1, n)]
                    downs = [down(n, 4), sized(Y0 + 1, n, 4), sized(Z0 + 1, n, 4)]
                    pages.append([right(start, 4), MARK, rng.choice(moves), MARK])
                    pages.append([down(start, 4), MARK, rng.choice(downs), MARK])
                for code in range(5):  # put moves nothing, so it may stand at the very end
                    pages.append([select(1), right(start, 4), character(code, 1, PUT1), character(code), MARK])
        pages.append([right(FURTHEST), down(-FURTHEST), rule(FURTHEST, FURTHEST, PUT_RULE), rule(FURTHEST, 1), MARK])
        pages.append([right(-FURTHEST - 1)])
        pages.append([right(-1), right(-FURTHEST + 1), rule(1, -FURTHEST - 1, PUT_RULE), rule(1, -FURTHEST - 1)])
        body = [widest.definition()] + [c for p in pages for c in page(p)]
        file = group.keep(volume(units, body, [widest]))
        group.lines += [place(file, table, 300, n + 1) for n in range(len(pages))]


def many_fonts(group, rng):
    """64 fonts, defined in every form before, on, between and after pages; then one font or one number too many."""
    for count in (64, 65, 63, 1):
        numbers = rng.sample(range(256), count)
        fonts = [Font(n, rng.randrange(1 << 32), rng.choice([1, 655_360, GREATEST_SCALE, rng.randrange(1, 1 << 24)]),
                      rng.choice([1, GREATEST_SCALE, 655_360]), bytes(rng.randrange(6)), bytes(rng.randrange(256) for _ in
                      range(rng.choice([0, 5, 255])))) for n in numbers]
        quarter = max(count // 4, 1)
        parts = [fonts[i : i + quarter] for i in range(0, count, quarter)]
        body, known = [], []
        for index, part in enumerate(parts):
            definitions = [font.definition(rng.choice([1, 2, 3, 4])) for font in part]
            if index % 2 == 0:
                body += definitions + [NOTHING]
            known += part
            uses = [c for font in known for c in (dvi.any_select(rng, font.number), bytes([rng.randrange(128)]),
                                                  character(rng.randrange(256), None, PUT1), right(9), MARK)]
            body += page((definitions if index % 2 else []) + uses)
        body += page([MARK])
        after = [font.definition(rng.choice([1, 2, 3, 4])) for font in rng.sample(fonts, count)]
        file = group.keep(volume(TEX_UNITS, body, after=[c for d in after for c in (d, NOTHING)]))
        table = group.keep(table_for(rng, fonts, unit_of(TEX_UNITS, 300), 0.9))
        group.ask(b"check %s" % file, b"table %s" % table)
        group.lines += [place(file, table, 300, n + 1) for n in range(len(parts) + 1)]
        group.lines += [line for n in (*range(256), 256, -1, 65_536, FURTHEST, -FURTHEST - 1) for line in naming(file, n)]
    for number, size in ((255, 1), (255, 4), (256, 2), (256, 4), (-1, 4), (-256, 4), (1 << 24, 4), (0xFFFFFF, 3), (0, 3)):
        font = Font(number, 1, 100)
        for used in ([], [select(number, 4)], [select(0, 1)], [select(255, 1), b"A"], [select(number, 4), b"A", b"B"]):
            body = [font.definition(size), *page([right(3), *used, MARK])]
            file = group.keep(volume(PLAIN_UNITS, body, after=[font.definition(size)]))
            group.ask(b"check %s" % file, *naming(file, number))


def deepest(group, rng):
    """Depth 100 with other numbers on every level, all read back on the way out; and depth 101."""
    for depth in (0, 1, 2, 99, 100, 101, 102):
        fonts = [Font(n, n, 1000 * (n + 1)) for n in range(3)]
        commands = []
        for level in range(depth):
            commands += [PUSHED, select(level % 3)]
            commands += [sized(first, rng.randrange(-900, 900)) for first in (W0 + 1, X0 + 1, Y0 + 1, Z0 + 1)]
            commands += [right(rng.randrange(9)), down(rng.randrange(9)), MARK]
        for _ in range(depth):
            commands += [MARK, bytes([W0, X0, Y0, Z0]), MARK, POPPED, bytes([rng.choice([W0, X0, Y0, Z0])]), MARK]
        body = [font.definition() for font in fonts] + page(commands) + page([MARK]) + page([PUSHED, POPPED] * 101 + [MARK])
        for units in (PLAIN_UNITS, TEX_UNITS):
            data = volume(units, body, fonts)
            file, empty = group.keep(data), group.keep(b"")
            group.ask(b"check %s" % file)
            group.lines += [place(file, empty, r, n) for r in RESOLUTIONS for n in (1, 2, 3)]
            for off in (-1, 1):  # s in post too small; above the depth, which it may be
                group.ask(b"check %s" % group.keep(dvi.restated(data, dvi.stated_depth(data) + off)))


def nested(levels, innermost=()):
    """A mark inside so many levels, each 10 further right than the one around it, and a mark outside of them."""
    return [*[PUSHED, right(10)] * levels, *innermost, MARK, *[POPPED] * levels, MARK]


def stated_depths(group, rng):
    """Every s in *post* that is worth a try, for several depths: too small it is refused, and otherwise it changes no answer; the depth
    answered is the one reached. TeX counts a *push* that its *pop* follows at once before it leaves both out: here such pairs stand at the
    greatest depth, or are left out. The answers are worked out from the rules."""
    font = Font(7, 7, 1000, area=b"a:", name=b"bc")
    empty = group.keep(b"")

    def built(pages):
        body = [font.definition(), *(c for levels, innermost in pages for c in page(nested(levels, innermost)))]
        return volume(PLAIN_UNITS, body, [font])

    def ask(line, answer):
        group.ask(line)
        group.expect(line, answer)

    for depth in (0, 1, 2, 99, 100):
        three = [(depth, []), (depth // 2, []), (0, [])]  # the deepest page is the first, the last, the middle one
        shapes = [(three[turn:] + three[:turn], depth) for turn in range(3 if depth else 1)]
        if depth:
            shapes += [([(depth - 1, [PUSHED, POPPED] * 3), (depth - 1, [])], depth), ([(depth - 1, [])] * 2, depth - 1)]
        for pages, reached in shapes:
            data = built(pages)
            post = len(data) - 4 - 6 - len(font.definition()) - 29
            for s in sorted({0, depth - 1, depth, depth + 1, 100, 101, 255, 256, 32_768, 65_535} - {-1}):
                file = group.keep(dvi.restated(data, s))
                refused = [["refused", 10, "at", post]] if s < reached else None
                ask(b"check %s" % file, refused or [["accepted", len(pages), 1, reached, post]])
                where, spelled = naming(file, 7)  # the definition stands behind the 15 bytes of pre, the name behind 16 of its own
                ask(where, refused or [["name", 31, 35]])
                ask(spelled, refused or [["spelled", b"a:bc".hex()]])
                for number, (levels, _) in enumerate(pages, 1):
                    # K is 3/10 and no font is selected, so every move is far: three pixels a level.
                    marks = [["r", number, 0, 3 * levels, 0, 1, 1], ["r", number, 0, 0, 0, 1, 1]]
                    ask(place(file, empty, 300, number), refused or [*marks, ["end", 2, 0, 0]])
                ask(place(file, empty, 300, len(pages) + 1), refused or [["refused", 15, "at", 0]])
    for s in (100, 101, 65_535):  # a greater s makes no room for a push at depth 100
        file = group.keep(dvi.restated(built([(101, [])]), s))
        ask(b"check %s" % file, [["refused", 6, "at", 15 + len(font.definition()) + 45 + 100 * len(PUSHED + right(10))]])


def codes(group, rng):
    """Codes above 255 and negative: the full code in the record, code mod 256 in the look-up; missing ones counted."""
    font = Font(9, 0xCAFEBABE, 655_360)
    wanted = [0, 1, 127, 128, 255, 256, 257, 511, 65_535, 65_536, 0xFFFFFF, 1 << 24, FURTHEST, -1, -2, -255, -256, -257, -FURTHEST - 1,
              *(rng.randrange(-FURTHEST - 1, FURTHEST) for _ in range(40))]
    commands = [select(9)]
    for code in wanted:
        for first in (SET1, PUT1):
            smallest = 4 if code < 0 or code >= 1 << 24 else max(1, (code.bit_length() + 7) // 8)
            commands += [character(code, size, first) for size in range(smallest, 5)]
    file = group.keep(volume(TEX_UNITS, [font.definition(), *page(commands)], [font]))
    for share in (1.0, 0.7, 0.1, 0.0):
        table = group.keep(table_for(rng, [font, Font(0, 0xCAFEBABE, 655_361), Font(0, 0xCAFEBABD, 655_360)], unit_of(TEX_UNITS, 300), share))
        group.lines += [place(file, table, r) for r in RESOLUTIONS]
        for code in wanted:
            for check_sum, scale in ((0xCAFEBABE, 655_360), (0xCAFEBABE, 655_361), (0xCAFEBABD, 655_360), (0, 1)):
                group.ask(look(table, check_sum, scale, rng.choice([font.name, font.name, b"", b"cmr1"]), code))


def edge_units(rng, count):
    """num, den, mag and R for which P is near 1,073,741,823 or 2P near Q, and others at the ends of their range."""
    found = [(254, 1, 1000, 500), (254, 1, 1000, 501), (254, 1, 1000, 499), (1, 1, 1, 1), (FURTHEST, FURTHEST, FURTHEST, 1),
             (1, FURTHEST, 1, 1), (FURTHEST, 1, FURTHEST, 10_000), (127_000_000, 1, 1, 1), (127_000_001, 1, 1, 1), (126_999_999, 1, 1, 1)]
    # 254,000,000 is 2^7 times an odd number. A factor 128 above cancels that, so that P can be even too: P is num, 2^30 among them.
    for num in range(1_073_741_820, 1_073_741_829):
        found += [(num, den, mag, resolution) for den in (1087, 2_000_003, FURTHEST) for mag, resolution in ((128, 1), (1, 128), (16, 8))]
    for _ in range(count):
        kind = rng.randrange(4)
        if kind == 0:  # P is num, near its limit
            num = 1_073_741_823 + rng.randrange(-40, 41)
            found.append((num, rng.choice([9, 10, 101, FURTHEST, rng.randrange(9, 1 << 31)]), 1, 1))
        elif kind == 1:  # P is a product near its limit, cancelled or not
            mag = rng.randrange(1, 5000)
            resolution = rng.randrange(1, 3000)
            num = max(1, 1_073_741_823 // (mag * resolution) + rng.randrange(-3, 4))
            den = rng.randrange(9, 1 << 31)
            times = rng.choice([1, 2, 3, 7])
            if num * times <= FURTHEST and den * times <= FURTHEST:
                num, den = num * times, den * times
            found.append((num, den, mag, resolution))
        elif kind == 2:  # 2P near Q: den from the other three
            num, mag, resolution = rng.randrange(1, 1 << 31), rng.randrange(1, 1 << rng.randrange(1, 32)), rng.randrange(1, 10_001)
            den = 2 * num * mag * resolution // 254_000_000 + rng.randrange(-2, 3)
            if 1 <= den <= FURTHEST:
                found.append((num, den, mag, resolution))
        else:
            found.append(tuple(max(1, rng.randrange(1 << rng.randrange(1, 32))) for _ in range(3)) +
                         (rng.choice([0, 1, 2, 10_000, 10_001, 4_294_967_295, rng.randrange(1, 10_001)]),))
    return found


def units_and_resolutions(group, rng, count):
    """Units and R near the limits of 12 and 13, through placing."""
    font = Font(0, 1, 1000)
    commands = [select(0), *[right(150), MARK] * 3, rule(1, 12_345_678), down(-9_999), rule(2, 3), right(FURTHEST - 20_000_000, 4), MARK]
    table = group.keep(table_for(rng, [font], Fraction(1, 2)))
    for num, den, mag, resolution in edge_units(rng, count):
        file = group.keep(volume((num, den, mag), [font.definition(), *page(commands)], [font]))
        group.lines += [place(file, table, r) for r in {resolution, 1, 10_000, max(resolution - 1, 0)}]
    for resolution in (0, 1, 99, 100, 199, 200, 10_000, 10_001, 4_294_967_295):
        file = group.keep(volume((1, 1, 1000), [font.definition(), *page([select(0), *[right(155_000, 4), MARK] * 9])], [font]))
        group.ask(place(file, table, resolution))


def order_of_refusals(group, rng):
    """Several things wrong at once: the lowest number must win. Areas at, below and above what is needed; pages past the ends."""
    font = Font(0, 5, 1000)
    marks = page([MARK] * 4)
    leaves = page([MARK, right(FURTHEST), right(1)])
    whole = volume(PLAIN_UNITS, [font.definition(), *marks, *leaves, *page([])], [font])
    good = table_for(rng, [font], Fraction(3, 10))
    tables = [group.keep(t) for t in (b"", good, good[:RECORD] * 2, good + b"\0", good[: NEW.key] + b"\1" + good[NEW.key + 1 :])]
    files = [group.keep(f) for f in (whole, whole[:-1], whole[:40], b"", volume((FURTHEST, 1, 1000), [font.definition(), *marks], [font]))]
    for file in files:
        for table in tables:
            for resolution in (0, 300, 500, 501, 10_000, 10_001):
                for number in (0, 1, 2, 3, 4, 4_294_967_295):
                    group.lines += [place(file, table, resolution, number, area) for area in (0, 79, 80)]
    group.lines += [place(files[0], tables[0], 300, 1, area) for area in (0, 1, 19, 20, 59, 60, 79, 80, 81, 99, 59_999, 60_000, 60_001)]


def tables_right_and_wrong(group, rng):
    """Width tables of every length and every kind of fault, through `table`, `look` and `place`."""
    fonts = [Font(0, 0, 1), Font(1, 0x01000000, 655_360), Font(2, 0xFFFFFFFF, GREATEST_SCALE)]
    file = group.keep(volume(PLAIN_UNITS, [f.definition() for f in fonts] + page([select(1), b"ABC", select(2), b"DE"]), fonts))
    for size in (1, 3, 20):
        whole = records_of(table_for(rng, fonts, Fraction(3, 10)))
        keep = sorted(rng.sample(range(len(whole)), size))
        for table in wrong_tables(rng, b"".join(whole[i] for i in keep)):
            name = group.keep(table)
            group.ask(b"table %s" % name, place(file, name, 300), look(name, 0x01000000, 655_360, fonts[1].name, rng.randrange(256)))
    longest = b"".join(record(7, 100 + i // 256, i % 256, i % 300, bytes(4)) for i in range(MOST_RECORDS + 1))
    for length in (0, RECORD, RECORD - 1, 1, LONGEST_TABLE - RECORD, LONGEST_TABLE - 1, LONGEST_TABLE, LONGEST_TABLE + 1, LONGEST_TABLE + RECORD):
        name = group.keep(longest[:length])
        group.ask(b"table %s" % name, place(file, name, 300))
        for _ in range(12):
            group.ask(look(name, 7, rng.randrange(98, 110), rng.choice([b"", b"cmr10"]), rng.randrange(-300, 300)))
    middle = group.keep(longest[: 1000 * RECORD])
    for i in range(-2, 1003, 13):  # every depth of a search by halves
        group.ask(look(middle, 7, 100 + i // 256, b"", i % 256))


def greatest_sizes(group, rng):
    """The longest file, the fullest area, the longest names, comments and specials."""
    font = Font(0, 3, 655_360, area=bytes(255), name=bytes(range(255)))
    head = [font.definition(), *page([select(0), b"A", MARK])]
    short = volume(PLAIN_UNITS, head, [font])
    for length in (LONGEST_FILE - 1, LONGEST_FILE, LONGEST_FILE + 1):
        more = length - len(short)
        for body, tail in ((head, 4 + more), ([*[NOTHING] * more, *head], 4),
                           ([font.definition(), *page([special(bytes(more - 5), 4), select(0), b"A", MARK])], 4)):
            file = group.keep(volume(PLAIN_UNITS, body, [font], tail=tail))
            group.ask(b"check %s" % file, *naming(file, 0), b"read %s %d" % (file, length - 1), b"read %s %d" % (file, length))
    table = group.keep(table_for(rng, [font], Fraction(3, 10)))
    for records in (2999, 3000, 3001):
        file = group.keep(volume(PLAIN_UNITS, [font.definition(), *page([select(0), *[b"AB" + right(7) + MARK] * (records // 3),
                                                                        *[MARK] * (records % 3)])], [font]))
        group.lines += [place(file, table, 300, 1, area) for area in (60_000, 20 * records if records <= 3000 else 0, 59_979)]
    pages = [c for n in range(4000) for c in page([right(n), MARK], (n, *[-n] * 9))]
    file = group.keep(volume(PLAIN_UNITS, pages))
    group.ask(b"check %s" % file)
    group.lines += [place(file, group.keep(b""), 300, n) for n in (0, 1, 255, 256, 2000, 3999, 4000, 4001)]


def random_distance(rng, scale):
    """Mostly near the size of the font, now and then anything."""
    kind = rng.random()
    if kind < 0.5:
        return rng.randrange(-scale, scale + 1)
    if kind < 0.8:
        return rng.choice([-1, 1]) * rng.randrange(1 << rng.randrange(1, 25))
    if kind < 0.985:
        return rng.choice([-1, 1]) * (scale * rng.choice([2, 8, 9]) // 10 + rng.randrange(-1, 2))
    return rng.choice([-1, 1]) * rng.randrange(1 << 31)


def random_page(rng, fonts, length):
    """Any commands that a page may hold, in any order that keeps the rules."""
    commands, depth, scale, w, deepest_here = [], 0, 0, rng.random(), rng.choice([2, 6, 30])
    for _ in range(length):
        kind = rng.random()
        if kind < 0.06 and fonts or not scale and fonts and kind < 0.5:
            font = rng.choice(fonts)
            scale = font.scale
            commands.append(dvi.any_select(rng, font.number))
        elif kind < 0.45 and scale:
            form = rng.random()
            if form < 0.6:
                commands.append(bytes([rng.randrange(128)]))
            else:
                size = rng.choice([1, 1, 2, 3, 4])
                commands.append(character(rng.randrange(-(1 << 31), 1 << 31) if size == 4 else rng.randrange(256**size), size,
                                          rng.choice([SET1, PUT1])))
        elif kind < 0.52:
            sides = [rng.choice([-1, 0, 1, rng.randrange(1 << rng.randrange(1, 24))]) for _ in range(2)]
            commands.append(rule(*sides, rng.choice([dvi.SET_RULE, PUT_RULE])))
        elif kind < 0.60 and depth < deepest_here:
            commands.append(PUSHED)
            depth += 1
        elif kind < 0.67 and depth:
            commands.append(POPPED)
            depth -= 1
        elif kind < 0.70:
            commands.append(special(bytes(rng.randrange(12)), rng.choice([1, 2, 3, 4])) if w < 0.5 else NOTHING)
        else:
            n = random_distance(rng, scale or 1000)
            first = rng.choice([RIGHT1, W0 + 1, X0 + 1, DOWN1, Y0 + 1, Z0 + 1])
            if first not in (RIGHT1, DOWN1) and rng.random() < 0.4:
                commands.append(bytes([first - 1]))
            else:
                least = len(sized(first, n)) - 1
                commands.append(sized(first, n, rng.choice([least, least, 4])))
    return commands + [POPPED] * depth


def random_volume(rng, length):
    """A valid file of a few random pages, its fonts and its units."""
    units = rng.choice([TEX_UNITS, PLAIN_UNITS, (25_400_000, 473_628_672, rng.choice([500, 1095, 1200, 2986])), (1, 1, 1000),
                        tuple(rng.randrange(1, 1 << rng.randrange(1, 31)) for _ in range(3))])
    if units == PLAIN_UNITS or units == (1, 1, 1000):
        scales = [rng.choice([1, 10, 100, rng.randrange(1, 5000)]) for _ in range(4)]
    else:
        scales = [rng.choice([655_360, 458_752, rng.randrange(1, 1 << 22), rng.randrange(1, GREATEST_SCALE)]) for _ in range(4)]
    numbers = rng.sample(range(256), 2) + rng.sample(range(64), 2)
    fonts = list({n: Font(n, rng.randrange(1 << 32), s, rng.randrange(1, GREATEST_SCALE), rng.choice([b"", b"a:"]),
                          b"f%d" % n) for n, s in zip(numbers, scales)}.values())[: rng.choice([0, 1, 4, 4])]
    early = fonts[: rng.randrange(len(fonts) + 1)]
    body = [font.definition(rng.choice([1, 2, 3, 4])) for font in early]
    for number in range(rng.choice([1, 1, 2, 3])):
        late = fonts[len(early) :] if number == 0 else []
        body += page([font.definition() for font in late] + random_page(rng, fonts, rng.randrange(length)),
                     tuple(rng.randrange(-9, 99) for _ in range(10)))
        body += [NOTHING] * rng.choice([0, 0, 2])
    after = [font.definition(rng.choice([1, 2, 3, 4])) for font in rng.sample(fonts, len(fonts))]
    stated = rng.choice([0, 0, 0, 0, 1, 3, 100, 101, 256, 65_535])
    return units, fonts, volume(units, body, after=after, comment=bytes(rng.randrange(20)), tail=rng.randrange(4, 9), stated=stated)


def random_pages(group, rng, count):
    """Random valid files, placed whole with a table for their fonts."""
    for _ in range(count):
        units, fonts, data = random_volume(rng, rng.choice([12, 60, 250]))
        resolutions = rng.sample([1, 10, 50, 72, 99, 100, 101, 199, 200, 201, 300, 600, 1200, 2400, 10_000], 2)
        table = group.keep(table_for(rng, fonts, min(unit_of(units, resolutions[0]), Fraction(1, 2)), rng.choice([1, 0.8])))
        file = group.keep(data)
        line = b"check %s" % file
        group.ask(line)
        group.expect(line, [["accepted", *dvi.summary(data)]])
        group.lines += [place(file, table, r, n, rng.choice([WHOLE_AREA, WHOLE_AREA, rng.randrange(2000)]))
                        for r in resolutions for n in (1, 2)]


def units_for(top, bottom, resolution):
    """Units in which K is this fraction at this resolution."""
    return 254_000_000 // bottom * top, resolution, 1


TINY_UNITS = (1, FURTHEST, 1)  # nothing is as long as half a pixel
BAR_RESOLUTIONS = (1, 50, 99, 100, 150, 199, 200, 300, 10_000)  # D is 0, 1 and 2, three times each
BAR_HEIGHTS = (1, 4, FURTHEST, 0, -1, -FURTHEST - 1)


def ask_placed(group, file, table, resolution, number=1):
    """Asks for a page, with the answer that the rules give."""
    line = place(group.keep(file), group.keep(table), resolution, number)
    group.ask(line)
    group.expect(line, placed(file, table, resolution, number))


def bar_widths(unit, scale):
    """Widths around whole pixels and halves of them, and around near and far, of both signs; and 0."""
    around = [halves / (2 * unit) for halves in (1, 2, 3, 4, 14, 15)] + [Fraction(scale, 5), Fraction(9 * scale, 10)]
    some = {int(n) + beside for n in around for beside in (-1, 0, 1)} | {1, 2, 3}
    return sorted({sign * n for n in some if 0 <= n <= FURTHEST // 8 for sign in (1, -1)})


def bars(group, rng, resolution):
    """Bars of every width that is worth a try and of every height, with a font and without, from pixels that are on rounded h or as far from
    it as D lets them be, on either side. Behind each bar every move, those of 0 among them, another bar, push and pop, a character."""
    for units, scale in ((units_for(3, 10, resolution), 100), (units_for(1, 2, resolution), 100), (TEX_UNITS, 655_360), (TINY_UNITS, 1000)):
        unit, font = unit_of(units, resolution), Font(0, 5, scale)
        step = max(1, min(scale // 9, int(Fraction(3, 5) / unit)))  # near, and where it may be so wide, less than the pixel that it is rounded to
        pages = []
        for selected in ([], [select(0)]):
            for lead in ([], [right(step)] * 7, [right(-step)] * 7, [rule(1, 1)] * 3, [right(1), right(-2)]):
                commands = [*selected, *lead, MARK]
                for turn, b in enumerate(bar_widths(unit, scale)):
                    bar = rule(BAR_HEIGHTS[turn % len(BAR_HEIGHTS)], b)
                    after = [right(0), bytes([W0]), bytes([X0]), sized(W0 + 1, b), right(1), right(-1), bar, rule(1, 0), rule(-1, 1), rule(1, -1),
                             PUSHED + bar + POPPED, rule(1, b, PUT_RULE), down(scale), NOTHING, *([b"A"] if selected else [])]
                    commands += [PUSHED, bar, MARK, *(c for one in after for c in (PUSHED, one, MARK, POPPED)), POPPED]
                pages.append(commands)
        file = volume(units, [font.definition(), *(c for p in pages for c in page(p))], [font])
        for number in range(1, len(pages) + 1):
            ask_placed(group, file, record(5, scale, 65, 2, big(1 << 16, 4)), resolution, number)


def bars_at_the_ends(group, rng):
    """Bars, with an area and without, that lead to the ends of h's range and one step past."""
    font = Font(0, 5, GREATEST_SCALE)
    for resolution in (50, 100, 300):
        for units in (units_for(1, 2, resolution), TEX_UNITS, TINY_UNITS):
            pages = []
            for sign in (1, -1):
                for short in (0, 1, 2, GREATEST_SCALE // 5, FURTHEST):
                    start = sign * (FURTHEST - short)
                    widths = [sign * (short - 1), sign * short, sign * (short + 1), 0, -sign, -sign * FURTHEST, -FURTHEST - 1]
                    for b in [b for b in widths if b <= FURTHEST]:
                        height = rng.choice(BAR_HEIGHTS)
                        pages += [[*selected, first, MARK, rule(height, b), MARK, rule(1, -b // 2), MARK]
                                  for first in (right(start, 4), rule(1, start)) for selected in ([], [select(0)])]
            file = volume(units, [font.definition(), *(c for p in pages for c in page(p))], [font])
            for number in range(1, len(pages) + 1):
                ask_placed(group, file, b"", resolution, number)


def pages_with_bars(group, rng, count):
    """Random pages with many bars among their commands."""
    for _ in range(count):
        resolution, other = rng.sample(BAR_RESOLUTIONS[:-1], 2)
        units = rng.choice([TEX_UNITS, units_for(1, 2, resolution), units_for(3, 10, resolution), TINY_UNITS])
        scale = 655_360 if units == TEX_UNITS else rng.choice([10, 100, 1000])
        fonts = [Font(number, rng.randrange(1 << 32), rng.choice([scale, 2 * scale])) for number in (0, 200)]
        commands = []
        for command in random_page(rng, rng.choice([fonts, fonts, []]), rng.choice([10, 60, 200])):
            commands.append(command)
            while rng.random() < 0.3:
                width = rng.choice([random_distance(rng, scale), rng.randrange(-9, 10), rng.randrange(-scale, scale + 1)])
                commands += [rule(rng.choice(BAR_HEIGHTS), width), *[MARK] * rng.randrange(2)]
        table = table_for(rng, fonts, unit_of(units, resolution), rng.choice([1, 0.8]))
        file = volume(units, [*(font.definition() for font in fonts), *page([*commands, MARK])], fonts)
        for one in (resolution, other):
            if unit_of(units, one) <= Fraction(1, 2):
                ask_placed(group, file, table, one)


def scales_around_halvings():
    """Around each bound from which a scale is halved once more: one less, the bound, and above it those that lose a single bit, to any one of the
    halvings, or a bit to each. Far above the bounds two that are odd before and behind their halvings, and the two greatest."""
    found = {12_345_679, 99_999_999, GREATEST_SCALE - 1, GREATEST_SCALE}
    for times in (1, 2, 3, 4):
        bound = 1 << 22 + times
        found |= {bound - 1, bound, bound + (1 << times) - 1, *(bound + (1 << lost) for lost in range(times))}
    return tuple(sorted(found))


SCALES_AROUND_HALVINGS = scales_around_halvings()
SCALED_FONTS = [Font(number, 77, scale) for number, scale in enumerate((1, 655_360, *SCALES_AROUND_HALVINGS))]
ABSENT_FONTS = [Font(200, 78, 655_360), Font(255, 77, (1 << 25) + 3)]  # no record has the check sum of the one, the scale of the other
SCALED_RESOLUTIONS = (50, 100, 300, 10_000)  # D is 0, 1, 2 and 2
# Fix words in which all bytes count or one alone does, one em and those beside it: seven ems at most, so that h stays in range at any scale.
ADVANCES = (1, 128, 255, 1 << 8, 128 << 8, 255 << 8, 1 << 16, 112 << 16, (1 << 20) - 1, 1 << 20, (1 << 20) + 1, 0x05_55_55, 0x12_34_57, 0x6F_FF_FF)


def words_table(rng, fonts, unit, codes=2 * len(ADVANCES)):
    """Records for these fonts: an even code goes on by one of these words, the next goes back by as much."""
    rows = []
    for font in sorted(fonts, key=lambda font: (font.check_sum, font.scale)):
        for code in range(codes):
            word = ADVANCES[code // 2 % len(ADVANCES)]
            width = big(-word if code % 2 else word, 4)
            rows.append(record(font.check_sum, font.scale, code, made_up_escapement(rng, width, font.scale, unit), width))
    return b"".join(rows)


def there_and_back(font, turn):
    """A character set, the one that leads back put and set, the first one put; then a move that is near at this font's scale and far at half of it."""
    code = 2 * (turn % len(ADVANCES))
    return [bytes([code]), character(code + 1, 1, PUT1), bytes([code + 1]), character(code, 1, PUT1), PUSHED, right(font.scale // 6), MARK, POPPED]


def some_others(font):
    """Fonts whose scales are close to this one's, and far from it."""
    return [SCALED_FONTS[(font.number + step) % len(SCALED_FONTS)] for step in (1, 2, 9, 15)]


def selected_in_turn(rng, font):
    """Each font behind this one, and this one behind each."""
    for turn, other in enumerate(SCALED_FONTS):
        for current in (font, other):
            yield from [dvi.any_select(rng, current.number), *there_and_back(current, turn + font.number)]


def inside_push_and_pop(rng, font):
    """Fonts selected between *push* and *pop* stay selected behind the *pop*, with characters between the two and without, on every level."""
    for turn, other in enumerate(some_others(font)):
        third = some_others(other)[turn]
        first, second, last = (dvi.any_select(rng, one.number) for one in (font, other, third))
        here, there, elsewhere = (there_and_back(one, turn + font.number) for one in (font, other, third))
        yield from [PUSHED, first, *here, PUSHED, second, *there, POPPED, *there, PUSHED, first, POPPED, *here, POPPED, *here]
        yield from [PUSHED, second, PUSHED, first, PUSHED, last, POPPED, *elsewhere, POPPED, *elsewhere, first, *here, POPPED, *here]


def again_and_absent(rng, font):
    """The same font twice in a row; fonts that the table has nothing of, before this font and before another."""
    for turn, other in enumerate(some_others(font)):
        here, there = there_and_back(font, turn + font.number), there_and_back(other, turn + font.number)
        absent, missing = ABSENT_FONTS[turn % 2], there_and_back(ABSENT_FONTS[turn % 2], turn)
        again, lost, second = (dvi.any_select(rng, one.number) for one in (font, absent, other))
        yield from [again, *here, dvi.any_select(rng, font.number), *here, lost, *missing, again, *here, lost, second, *there]


def scaled_volume(units, pages):
    fonts = SCALED_FONTS + ABSENT_FONTS
    return volume(units, [*(font.definition() for font in fonts), *(c for p in pages for c in page(p))], fonts)


def pages_of_scales(group, rng, commands, resolution):
    """These commands for each font, a page each; every second page begins one to the right, where halves of a pixel become whole ones."""
    for units in (units_for(1, 2, resolution), TEX_UNITS):
        table = words_table(rng, SCALED_FONTS, unit_of(units, resolution))
        file = scaled_volume(units, [[right(font.number % 2), *commands(rng, font), MARK] for font in SCALED_FONTS])
        for font in SCALED_FONTS:
            ask_placed(group, file, table, resolution, font.number + 1)


def on_the_next_page(group, rng):
    """Pages that begin with another font than the page before ended with, or with the same one, or have none."""
    for resolution in (50, 300):
        units, pages = units_for(1, 2, resolution), []
        for font in SCALED_FONTS:
            for other in some_others(font)[1:3]:
                here, there = ([dvi.any_select(rng, one.number), *there_and_back(one, font.number)] for one in (font, other))
                pages += [here, there, there + here, here + there, [right(1)] * 3 + [MARK]]
        file, table = scaled_volume(units, pages), words_table(rng, SCALED_FONTS, unit_of(units, resolution))
        for number in range(1, len(pages) + 1):
            ask_placed(group, file, table, resolution, number)


def scales_at_the_ends(group, rng):
    """Characters whose widths lead to the ends of h's range and one step past, each behind one of another font."""
    words = (bytes([0, 255, 255, 255]), bytes([255, 0, 0, 0]), bytes([0, 128, 0, 1]), bytes([255, 128, 0, 1]))
    rows = [record(77, font.scale, code, 0, word) for font in SCALED_FONTS for code, word in enumerate(words)]
    for units, resolution in ((units_for(1, 2, 50), 50), (TINY_UNITS, 300)):
        pages = []
        for font in SCALED_FONTS:
            for code, word in enumerate(words):
                other, end = rng.choice(some_others(font)), -FURTHEST if word[0] else FURTHEST
                start = end - scaled(word, font.scale)
                for past in (0, 1 if end > 0 else -1):
                    pages.append([select(other.number), character(code, 1, PUT1), select(font.number), right(start + past, 4),
                                  character(code, 1, PUT1), bytes([code]), MARK])
        file = scaled_volume(units, pages)
        for number in range(1, len(pages) + 1):
            ask_placed(group, file, b"".join(rows), resolution, number)


def pages_with_scales(group, rng, count):
    """Files of random pages with many selections among their commands."""
    for _ in range(count):
        resolution = rng.choice(SCALED_RESOLUTIONS)
        units, fonts = rng.choice([units_for(1, 2, resolution), TEX_UNITS]), rng.sample(SCALED_FONTS, 4)
        pages = []
        for length in (10, 10, 60, 60, 200):
            commands = []
            for command in random_page(rng, fonts, length):
                commands.append(command)
                while rng.random() < 0.2:
                    commands += [dvi.any_select(rng, rng.choice(fonts).number), bytes([rng.randrange(128)])]
            pages.append([*commands, MARK])
        file, table = scaled_volume(units, pages), words_table(rng, fonts, unit_of(units, resolution), 256)
        for number in range(1, len(pages) + 1):
            ask_placed(group, file, table, resolution, number)


def groups(gather, rng, long):
    """All of them, one group a notion; the random ones many times in the long form."""
    for make in (every_opcode, near_and_far, edge_of_range, many_fonts, deepest, stated_depths, codes, order_of_refusals,
                 tables_right_and_wrong, greatest_sizes):
        with gather("made up: " + make.__name__.replace("_", " ")) as group:
            make(group, rng)
    for turn in range(100 if long else 2):
        with gather(f"made up: units and resolutions {turn + 1}") as group:
            units_and_resolutions(group, rng, 200)
    for turn in range(400 if long else 20):
        with gather(f"made up: random pages {turn + 1}") as group:
            random_pages(group, rng, 60)


def bar_groups(gather, rng, long):
    """Those of bars, whose answers are all worked out from the rules."""
    for resolution in BAR_RESOLUTIONS:
        with gather(f"bars: at {resolution} dots per inch") as group:
            bars(group, rng, resolution)
    with gather("bars: at the ends") as group:
        bars_at_the_ends(group, rng)
    for turn in range(100 if long else 5):
        with gather(f"bars: random pages {turn + 1}") as group:
            pages_with_bars(group, rng, 60)


def scale_groups(gather, numbers, long, wanted=lambda name: True):
    """Those of fonts' scales that are wanted, whose answers are all worked out from the rules. `numbers` gives each group its random numbers, by
    its name."""
    makers = {"scales: on the next page": (on_the_next_page,), "scales: at the ends": (scales_at_the_ends,)}
    for commands in (selected_in_turn, inside_push_and_pop, again_and_absent):
        for resolution in SCALED_RESOLUTIONS:
            makers[f"scales: {commands.__name__.replace('_', ' ')} at {resolution} dots per inch"] = pages_of_scales, commands, resolution
    for turn in range(100 if long else 2):
        makers[f"scales: random pages {turn + 1}"] = pages_with_scales, 12
    for name, (make, *more) in makers.items():
        if wanted(name):
            with gather(name) as group:
                make(group, numbers(name), *more)
