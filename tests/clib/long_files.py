"""Questions about files, tables and fonts that the desk cannot hold: up to the longest that is read, and one byte more; PK fonts, which may have
any length, beyond that.

A case is a name and its questions; a question is a line and what the answer must start with, or None where only the two
programs' agreement counts.
"""

import dvi
import pk
import tables
from dvi import MARK, NOTHING, PLAIN_UNITS, big
from made_up import look

LONGEST = 16_777_216
MOST_PAGES = 65_535
CHARACTERS = 100_000
RECORD = 20


def filled(make, length=LONGEST):
    """What `make` gives for as many filling bytes as bring it to this length."""
    data = make(length - len(make(0)))
    if len(data) != length:
        raise AssertionError("the filling does not fill")
    return data


def filled_up(data):
    """A file whose 223s fill up to a multiple of four, as that of chosen pages has them."""
    data = data.rstrip(bytes([dvi.TAIL]))
    return data + bytes([dvi.TAIL]) * (4 + -len(data) % 4)


def in_rows(data):
    """The answer that gives a file of chosen pages: 32 bytes a row."""
    return b"".join(b"%s\n" % data[at : at + 32].hex().encode() for at in range(0, len(data), 32)) + b"end %d" % len(data)


def cut(file, area, pages):
    return b" ".join([b"cut", file, b"%d" % area, *(b"%d" % page for page in pages)])


def fonts(count, name_length):
    return [dvi.Font(n, 1000 + n, 655_360 + n, name=bytes([97 + n % 26]) * name_length, area=bytes([65 + n % 26]) * name_length)
            for n in range(count)]


def three_pages_apart(keep):
    """Long specials and a run of nops over the file's middle, then fonts and a third page: most of interest stands near the end."""
    defined = fonts(64, 255)

    def make(filling):
        nops = filling // 16
        first = (filling - nops) // 2
        definitions = [font.definition() for font in defined]
        long_pages = [*dvi.page([dvi.special(b"1" * first, 4)]), NOTHING * nops, *dvi.page([dvi.special(b"2" * (filling - nops - first), 4)])]
        return dvi.volume(PLAIN_UNITS, [*long_pages, *definitions, *dvi.page([dvi.right(1000), MARK])], defined)

    data = filled(make)
    start = LONGEST - 4 - 6 - sum(len(font.definition()) for font in defined) - 29  # post
    file, empty = keep(data), keep(b"")
    yield "the longest file", [
        (b"check %s" % file, b"accepted 3 64 0 %d" % start),
        (b"read %s %d" % (file, start), b"command 248 %d %d" % (start + 1, start + 29)),
        (b"read %s %d" % (file, LONGEST - 1), b"command 223 %d %d" % (LONGEST, LONGEST)),
        (b"read %s %d" % (file, LONGEST), b"refused 2 at %d" % LONGEST),
        (b"name %s 63" % file, b"name 16"),
        (b"spell %s 63" % file, b"spelled " + (defined[63].area + defined[63].name).hex().encode()),
        (b"name %s 64" % file, b"refused 8 at 0"),
        (b"spell %s 64" % file, b"refused 8 at 0"),
        (b"place %s %s 300 3 20" % (file, empty), b"r 3 0 300 0 1 1\nend 1 0 0"),
        (b"place %s %s 300 3 19" % (file, empty), b"refused 17 at 0"),
        (b"place %s %s 300 4 20" % (file, empty), b"refused 15 at 0"),
    ]
    yield from cut_long(keep, data, defined)
    longer = keep(filled(make, LONGEST + 1))
    yield "a byte too long", [
        (cut(longer, 0, []), b"refused 1 at 0"),
        (cut(longer, LONGEST + 4, [1, 2, 3]), b"refused 1 at 0"),
        (b"check %s" % longer, b"refused 1 at 0"),
        (b"name %s 0" % longer, b"refused 1 at 0"),
        (b"spell %s 0" % longer, b"refused 1 at 0"),
        *((b"read %s %d" % (longer, at), b"refused 1 at 0") for at in (0, 15, LONGEST, LONGEST + 1, (1 << 64) - 1)),
        (b"place %s %s 0 0 0" % (longer, empty), b"refused 1 at 0"),
    ]
    yield "far too long", [(b"check %s" % keep(bytes(17 << 20)), b"refused 1 at 0")]
    yield from damaged_at(keep, data, start)


def cut_long(keep, data, defined):
    """Chosen pages of the longest file. Its definitions, which stand before the third page, come before the first; the nops between pages go."""
    file = keep(data)
    commands, _ = dvi.commands_of(data)
    pages = [[*dvi.page([command])] for command in commands if command[0] == dvi.XXX1 + 3] + [[*dvi.page([dvi.right(1000), MARK])]]
    definitions = [font.definition() for font in defined]
    questions = []
    for chosen in ([1, 2, 3], [2, 3], [1], [3]):
        new = filled_up(dvi.volume(PLAIN_UNITS, [*definitions, *(command for page in chosen for command in pages[page - 1])], defined))
        questions += [
            (cut(file, len(new), chosen), in_rows(new)),
            (cut(file, len(new) - 1, chosen), b"refused 17 at 0"),
        ]
    yield "chosen pages of the longest file", questions + [
        (cut(file, 0, [1, 2, 3, 4]), b"refused 23 at 0"),
        (cut(file, LONGEST + 3, []), b"refused 23 at 0"),
        (cut(keep(data[:-1]), 0, []), b"refused 11 at %d" % (LONGEST - 1)),
    ]
    short = filled(lambda filling: dvi.volume(PLAIN_UNITS, dvi.page([dvi.special(bytes([dvi.TAIL]) * filling, 4)])), LONGEST - 3)
    longer = filled_up(short)
    yield "three bytes more", [
        (cut(keep(short), LONGEST, [1]), in_rows(longer)),
        (cut(keep(short), LONGEST - 1, [1]), b"refused 17 at 0"),
        (cut(keep(longer), LONGEST, [1]), in_rows(longer)),
    ]


def damaged_at(keep, data, post):
    """One step away from an accepted file, in the middle and near its end."""
    middle = LONGEST // 2

    def changed(at, byte):
        return b"check %s" % keep(data[:at] + bytes([byte]) + data[at + 1 :])

    yield "damaged", [
        (changed(middle, 250), b"refused 3 at %d" % middle),
        (changed(middle, dvi.POP), b"refused 5 at %d" % middle),
        (changed(post + 4, data[post + 4] ^ 1), b"refused 9 at %d" % post),
        (changed(post + 25, 255), b"accepted 3 64 0 %d" % post),  # no damage: s may be above the depth
        (changed(post + 28, data[post + 28] ^ 1), b"refused 10 at %d" % post),
        (changed(LONGEST - 1, 0), b"refused 11 at %d" % (LONGEST - 1)),
        (b"check %s" % keep(data[:-1]), b"refused 11 at %d" % (LONGEST - 1)),
        (b"check %s" % keep(data[:-5]), b"refused 2 at %d" % (LONGEST - 10)),
        (b"check %s" % keep(data[:middle]), b"refused 2 at %d" % middle),
    ]


def shortest_commands(keep):
    """The longest file of commands of one byte."""
    file = keep(filled(lambda filling: dvi.volume(PLAIN_UNITS, [*dvi.page([]), NOTHING * filling])))
    yield "the most commands", [(b"check %s" % file, b"accepted 1 0 0 %d" % (LONGEST - 39))]


def one_long_special(keep):
    """A length of three bytes' worth inside a command, and one that reaches a byte past the end."""
    data = filled(lambda filling: dvi.volume(PLAIN_UNITS, dvi.page([dvi.special(b"s" * filling, 4), MARK])))
    at = 15 + 45
    length = dvi.unsigned(data[at + 1 : at + 5])
    past = data[: at + 1] + big(LONGEST - at - 5 + 1, 4) + data[at + 5 :]
    greatest = data[: at + 1] + bytes([255]) * 4 + data[at + 5 :]
    file, empty = keep(data), keep(b"")
    yield "a long special", [
        (b"check %s" % file, b"accepted 1 0 0 %d" % (at + 5 + length + len(MARK) + 1)),
        (b"place %s %s 100 1 20" % (file, empty), b"r 1 0 0 0 1 1\nend 1 0 1"),
        (b"check %s" % keep(past), b"refused 2 at %d" % at),
        (b"check %s" % keep(greatest), b"refused 2 at %d" % at),
    ]


def many_pages(keep):
    """As many pages as post can count, and one more."""

    def make(count):
        return dvi.volume(PLAIN_UNITS, [*(dvi.page([]) * (count - 1)), *dvi.page([MARK])])

    file, empty = keep(make(MOST_PAGES)), keep(b"")
    more = make(MOST_PAGES + 1)
    yield "many pages", [
        (b"check %s" % file, b"accepted 65535 0 0 "),
        (b"place %s %s 100 65535 20" % (file, empty), b"r 65535 0 0 0 1 1\nend 1 0 0"),
        (b"place %s %s 100 65534 20" % (file, empty), b"end 0 0 0"),
        (b"place %s %s 100 65536 20" % (file, empty), b"refused 15 at 0"),
        (b"check %s" % keep(more), b"refused 10 at %d" % (len(more) - 39)),
    ]
    every = range(1, MOST_PAGES + 1)
    all_pages, odd_pages, first_page, last_page = (filled_up(new) for new in (
        make(MOST_PAGES), make(MOST_PAGES // 2 + 1), dvi.volume(PLAIN_UNITS, dvi.page([])), make(1)))
    yield "many chosen pages", [
        (cut(file, len(all_pages), every), in_rows(all_pages)),
        (cut(file, len(all_pages) - 1, every), b"refused 17 at 0"),
        (cut(file, len(odd_pages), every[::2]), in_rows(odd_pages)),
        (cut(file, len(odd_pages) - 1, every[::2]), b"refused 17 at 0"),
        (cut(file, len(first_page), [1]), in_rows(first_page)),
        (cut(file, len(last_page), [MOST_PAGES]), in_rows(last_page)),
        (cut(file, len(last_page) - 1, [MOST_PAGES]), b"refused 17 at 0"),
        (cut(file, 0, [*every, MOST_PAGES + 1]), b"refused 23 at 0"),
        (cut(file, 0, [*every, MOST_PAGES]), b"refused 23 at 0"),
        (cut(file, 0, every[::-1]), b"refused 23 at 0"),
        (cut(keep(more), 0, []), b"refused 10 at %d" % (len(more) - 39)),
    ]


def many_records(keep, rng):
    """A page of many characters, present and missing, and rules; the area just long enough, and a byte shorter."""
    font = dvi.Font(7, 77, 655_360)
    text = bytes(rng.choice(b"abcdef\x84\x8a" if i % 50 else b"abc") for i in range(CHARACTERS))
    body = [font.definition(), *dvi.page([dvi.select(7), *(bytes([c]) if c < 128 else MARK if c == 132 else dvi.right(-rng.randrange(3000)) for c in text)])]
    file = keep(dvi.volume(dvi.TEX_UNITS, body, [font]))
    widths = keep(b"".join(tables.record(77, 655_360, code, 5 + code % 3, big(3000, 4)) for code in b"abcd"))
    records = sum(c in b"abcd\x84" for c in text)
    missing = sum(c in b"ef" for c in text)
    yield "many records", [
        (b"place %s %s 300 1 %d" % (file, widths, RECORD * records), b"c 1 7 0 0 "),
        (b"place %s %s 72 1 %d" % (file, widths, RECORD * records + 3), b"c 1 7 0 0 "),
        (b"place %s %s 300 1 %d" % (file, widths, RECORD * records - 1), b"refused 17 at 0"),
        (b"place %s %s 300 1 %d" % (file, keep(b""), RECORD * text.count(132)), b"r 1 0 "),
    ]
    if not records or not missing:
        raise AssertionError("the page has not both characters and missing ones")


def keys_and_codes(rng, count):
    """So many keys in their order: check sum and scale, each with all codes for any name, for a name and for one that is alike up to its last byte, or for
    two of these three."""
    keys = {(rng.randrange(1 << 32), rng.randrange(1, dvi.GREATEST_SCALE + 1)) for _ in range(count // 512 + 1)}
    names = [b"", b"cmr10", b"cmr17", bytes(range(1, 17)), bytes([*range(1, 16), 17])]
    every = []
    for key in sorted(keys):
        first = rng.choice([1, 3])
        for name in rng.choice([names[:1] + names[first : first + 2], names[:1] + names[first : first + 1], names[first : first + 2]]):
            every += [(*key, name, code) for code in range(256)]
    return every[:count]


def long_tables(keep, rng):
    """Width tables of 65,536 records and more; look-ups at their ends, by own names and by any; wrong records near the end."""
    for count in (65_536, 300_000):
        every = keys_and_codes(rng, count)
        rows = [tables.record(c, s, code, rng.randrange(-32768, 32768), tables.made_up_width(rng), name=name) for c, s, name, code in every]
        found = {key: b"found %d %d %d %d %d" % (dvi.signed(row[26:28]), *row[28:]) for key, row in zip(every, rows)}
        data = b"".join(rows)
        file = keep(data)

        def asked(c, s, name, code):
            """By the own name first, then by any."""
            return look(file, c, s, name, code), found.get((c, s, name, code % 256)) or found.get((c, s, b"", code % 256)) or b"absent"

        some = [every[0], every[-1], *rng.sample(every, 30)]
        yield f"a table of {count} records", [(b"table %s" % file, b"right %d" % count)] + [
            asked(c, s, other, code) for c, s, name, code in some for other in (name, b"", b"cmr1", name + b"0")
        ] + [
            asked(c, s, name, code - 256) for c, s, name, code in rng.sample(every, 2)
        ] + [
            asked(c, s + 1, name, code) for c, s, name, code in (every[-1], *rng.sample(every, 3))
        ]
        last = len(data) - tables.RECORD
        wrong = {
            data[:-4] + b"\1" + data[-3:]: last,
            data[:-7] + b"\1" + data[-6:]: last,
            data[:-9] + b"\1" + data[-8:] if 0 in data[last + 8 : -9] else data[: last + 8] + b"\0" + data[last + 9 :]: last,
            data[:last] + data[last - tables.RECORD : last]: last,
            data + data[:7]: len(data),
            data[: last - tables.RECORD] + rows[-1] + rows[-2]: last,
        }
        c, s, name, code = every[0]
        yield f"wrong near the end of {count} records", [
            question for table, at in wrong.items() for question in (
                (b"table %s" % keep(table), b"refused 14 at %d" % at),
                (look(keep(table), c, s, name, code), b"refused 14 at %d" % at),
                (b"narrow %s 0" % keep(table), b"refused 14 at %d" % at),
            )
        ]
        yield from other_forms(keep, rng, rows)


def in_lines(records):
    return b"".join(b"%s\n" % record.hex().encode() for record in records) + b"end %d" % len(records)


def other_forms(keep, rng, named):
    """As many records, for any names, from the old form to the new one and back: areas that just suffice, are a byte short, and are longer; a byte too many;
    the last record wrong, and the last one with a name."""
    keys = sorted({row[:8] + row[24:25] for row in named})
    old = [key + b"\0" + named[at][26:] for at, key in enumerate(keys)]
    new = [row[:8] + tables.ANY + row[8:] for row in old]
    small, large = b"".join(old), b"".join(new)
    last = rng.choice([b"n", b"n" * 16]).ljust(16, b"\0")
    with_name = large[:-24] + last + large[-8:]
    count = len(old)
    there, back = keep(small), keep(large)
    yield f"{count} records in the other form", [
        (b"widen %s %d" % (there, len(large)), in_lines(new)),
        (b"widen %s %d" % (there, len(large) + 1000), in_lines(new)),
        (b"widen %s %d" % (there, len(large) - 1), b"refused 17 at 0"),
        (b"widen %s %d" % (there, len(small)), b"refused 17 at 0"),
        (b"widen %s 0" % keep(small + b"\0"), b"refused 14 at %d" % len(small)),
        (b"widen %s 0" % keep(small[:-1]), b"refused 14 at %d" % (len(small) - 16)),
        (b"widen %s %d" % (keep(small[:-4] + b"\1" + small[-3:]), 2 * len(large)), b"refused 14 at %d" % (len(small) - 16)),
        (b"widen %s %d" % (keep(small[:-16] + small[-32:-16]), 2 * len(large)), b"refused 14 at %d" % (len(small) - 16)),
        (b"table %s" % back, b"right %d" % count),
        (b"narrow %s %d" % (back, len(small)), in_lines(old)),
        (b"narrow %s %d" % (back, len(small) + 1000), in_lines(old)),
        (b"narrow %s %d" % (back, len(small) - 1), b"refused 17 at 0"),
        (b"narrow %s %d" % (keep(large + b"\0"), len(small)), b"refused 14 at %d" % len(large)),
        (b"narrow %s %d" % (keep(with_name), len(small)), b"refused 24 at %d" % (len(large) - 32)),
        (b"narrow %s 0" % keep(with_name), b"refused 24 at %d" % (len(large) - 32)),
        (b"narrow %s 0" % keep(with_name + b"\0"), b"refused 14 at %d" % len(large)),
    ]


def long_fonts(keep):
    """PK fonts longer than any DVI file that is read: by a special, by rasters, by many small commands, by no-ops behind the postamble; faults
    in the middle and near the end, and numbers that reach a byte past it."""
    one, two = pk.packet(pk.SHORT, 200, 700_000, 255), pk.packet(pk.LONG, 3, -1, -98_305)
    sum_and_scale = (0x4BF16079, 655_360)
    first, second = (tables.record(*sum_and_scale, code, escapement, width).hex().encode()
                     for code, escapement, width in ((3, -2, bytes([255] * 4)), (200, 255, big(700_000, 4))))
    both = b"%s\n%s\nend 2" % (first, second)

    def ask(data, area=2 * tables.RECORD):
        return b"widths %s 655360 %d" % (keep(data), area)

    def in_special(filling):
        return pk.font(one, pk.special(b"\xf5" * filling, 4), two)

    just = keep(filled(in_special, LONGEST + 1))
    yield "a PK font a byte longer than a DVI file may be", [
        (b"widths %s 655360 %d" % (just, 2 * tables.RECORD), both),
        (b"widths %s 655360 %d" % (just, 2 * tables.RECORD - 1), b"refused 17 at 0"),
        (b"widths %s 0 %d" % (just, 2 * tables.RECORD), b"refused 22 at 0"),
    ]
    length = 17 << 20
    data, last = filled(in_special, length), length - 1 - len(two)
    yield "a PK font of 17 MiB", [
        (ask(data), both),
        (ask(data[:-1]), b"refused 18 at %d" % (length - 1)),
        (ask(data[:-2]), b"refused 18 at %d" % last),
        (ask(data[: last - 1]), b"refused 18 at %d" % (19 + len(one))),
        (ask(data[:-1] + b"\xf7"), b"refused 18 at %d" % (length - 1)),
        (ask(data[:-1] + b"\xf8"), b"refused 19 at %d" % (length - 1)),
        (ask(data[:last] + one + pk.END), b"refused 21 at %d" % last),
    ]
    raster = pk.EXTENDED.longest - pk.EXTENDED.counted
    many = [pk.packet(pk.EXTENDED, code, code, code, raster=b"\xf7" * raster) for code in range(89, -1, -1)]
    rows = b"\n".join(tables.record(*sum_and_scale, code, code, big(code, 4)).hex().encode() for code in range(90))
    data = pk.font(*many)
    last = len(data) - 1 - len(many[-1])
    yield "a PK font of the longest packets that are not long", [
        (ask(data, 90 * tables.RECORD), rows + b"\nend 90"),
        (ask(data, 90 * tables.RECORD - 1), b"refused 17 at 0"),
        (ask(data[: last + 3] + b"\1" + data[last + 4 :], 90 * tables.RECORD), b"refused 21 at %d" % last),
        (ask(data[:last] + b"\4\0\14" + data[last + 3 :], 90 * tables.RECORD), b"refused 20 at %d" % last),
    ]
    data = filled(lambda filling: pk.font(pk.packet(pk.LONG, 3, -1, -98_305, raster=bytes(filling)), one), LONGEST + 7)
    yield "a PK font of one long raster", [
        (ask(data), both),
        (ask(data[:20] + big(dvi.unsigned(data[20:24]) + len(one) + 1, 4) + data[24:]), b"refused 18 at %d" % len(data)),
        (ask(data[:20] + big(dvi.unsigned(data[20:24]) + len(one) + 2, 4) + data[24:]), b"refused 18 at 19"),
        (ask(data[:20] + big((1 << 32) - 1, 4) + data[24:]), b"refused 18 at 19"),
    ]
    small = pk.NOTHING + pk.numeric(-1) + b"".join(pk.special(b"", size) for size in (1, 2, 3, 4))
    data = pk.font(one, small * (LONGEST // len(small)), two, tail=1000)
    yield "a PK font of many commands", [
        (ask(data), both),
        (ask(data[:-1] + pk.END), b"refused 19 at %d" % (len(data) - 1)),
    ]
    data = pk.font(one, two, tail=LONGEST)
    yield "a PK font with many no-ops at its end", [
        (ask(data), both),
        (ask(data[:-1] + pk.END), b"refused 19 at %d" % (len(data) - 1)),
    ]


def cases(keep, rng):
    yield from three_pages_apart(keep)
    yield from shortest_commands(keep)
    yield from one_long_special(keep)
    yield from many_pages(keep)
    yield from many_records(keep, rng)
    yield from long_tables(keep, rng)
    yield from long_fonts(keep)
