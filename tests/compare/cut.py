"""Files of chosen pages: of published files and of what TeX wrote, of made-up ones for each notion and at the edges, of damaged ones, and lines.
What must be answered is worked out from the rules by `cutting.py`. The new file is asked about too: it is accepted, its pages place as the old
ones, and cutting it again changes nothing. Where DVItype is installed it reads old and new files and must say the same of each page."""

import functools
import itertools

import damaged
import dvi
from cutting import DEFINITIONS, LONGEST_AREA, LONGEST_FILE, LONGEST_LINE, MOST_PAGES, answered, answered_line, new_file, rows_of
from dvi import (
    FURTHEST, MARK, NOTHING, PLAIN_UNITS, POPPED, PUSHED, TAIL, TEX_UNITS, Font, page, right, select, special, volume,
)
from dvitype import unlike
from made_up import RESOLUTIONS, naming, place, random_page, unit_of
from placing import placed
from published import units_of
from retyped import hear
from single_lines import misspelt
from tables import table_for

WIDE = 1 << 32
FEW_PAGES = 20  # of a file of up to so many each page is cut out alone, of a longer one some, but for the long form
# What is no command where it stands inside a special, a name or a comment.
LOOKALIKES = (
    NOTHING, NOTHING * 5, bytes([dvi.EOP]), bytes([dvi.EOP]) + dvi.bop(), PUSHED, POPPED, bytes([dvi.EOP, dvi.POST]) + bytes(28), dvi.pre(),
    Font(9, 8, 7).definition(), Font(9, 8, 7).definition(4)[:9], bytes([dvi.POST_POST, 0, 0, 0, 0, 2]) + bytes([TAIL]) * 4, b"\xff", bytes([dvi.XXX1, 200]),
)


def cut(file, pages, area=LONGEST_AREA):
    return b" ".join([b"cut", file, b"%d" % area, *(b"%d" % number for number in pages)])


def ask(group, data, pages, area=LONGEST_AREA):
    """Asks for a file of these pages of one that is accepted, with the answer that the rules give."""
    line = cut(group.keep(data), pages, area)
    held = len(data) <= LONGEST_FILE and area <= LONGEST_AREA and len(pages) <= MOST_PAGES and len(line) <= LONGEST_LINE
    group.ask(line)
    group.expect(line, answered(data, pages, area) if held else [["no", "input"]])


def ask_any(group, data, pages, area=LONGEST_AREA):
    """The same of a file that may be refused: then the answer is the check's."""
    checked, line = b"check %s" % group.keep(data), cut(group.keep(data), pages, area)
    group.ask(checked, line)
    group.hold(line, checked, functools.partial(as_checked, data, pages, area))


def as_checked(data, pages, area, answer, checked):
    rows = [checked.decode().split(" ")] if checked.startswith(b"refused ") else answered(data, pages, area)
    return unlike(answer, rows)


def ask_both(group, rng, data, pages, placings, table=None):
    """Asks for a file of these pages, then about the file that the rules make: the check, fonts' names, pages at so many resolutions beside the
    old ones, and a file of all its pages, which is itself."""
    new = new_file(data, pages)
    rows = rows_of(new)
    old_file, file, everything = group.keep(data), group.keep(new), range(1, len(pages) + 1)
    commands = dvi.commands_of(new)[0]
    line = b"check %s" % file
    known = {cut(old_file, pages): rows, cut(old_file, pages, len(new)): rows, cut(old_file, pages, len(new) - 1): [["refused", 17, "at", 0]],
             line: [["accepted", *dvi.summary_of(commands)]], cut(file, everything): rows}
    for line, answer in known.items():
        group.ask(line)
        group.expect(line, answer)
    ask_names(group, rng, old_file, file, commands)
    if placings:
        table = group.keep(table if table is not None else any_table(rng, commands))
        for number in sorted(rng.sample(everything, min(3, len(pages)))):
            for resolution in rng.sample(RESOLUTIONS, placings):
                ask_page(group, old_file, file, rng.choice([table, table, table, group.keep(b"")]), resolution, pages[number - 1], number)
    return new


def any_table(rng, commands):
    """A width table for most characters of a file's fonts."""
    return table_for(rng, dvi.fonts_of(commands), unit_of(units_of(commands), 300), 0.9)


def ask_names(group, rng, old_file, file, commands):
    """Where the names of some fonts stand in the new file, and that they are the old ones."""
    defined = {}
    for command, start in zip(commands, dvi.places_of(commands)):
        if command[0] in DEFINITIONS:
            defined.setdefault(Font.read(command).number, (command, start))
    for number, (command, start) in rng.sample(sorted(defined.items()), min(3, len(defined))):
        font, end = Font.read(command), start + len(command)
        (name, spelled), (_, before) = naming(file, number), naming(old_file, number)
        group.ask(name, spelled, before)
        group.expect(name, [["name", end - len(font.area + font.name), end]])
        group.hold(spelled, before, lambda new, old: None if new == old else f"another name than {old.decode()}")


def ask_page(group, old_file, file, table, resolution, old_number, number):
    new, old = place(file, table, resolution, number), place(old_file, table, resolution, old_number)
    group.ask(new, old)
    group.hold(new, old, functools.partial(same_page, number, old_number))


def same_page(number, old_number, new, old):
    """Where a page places otherwise than the old one; page numbers in records, and where a refusal is, may differ."""
    for at, rows in enumerate(itertools.zip_longest(new.split(b"\n"), old.split(b"\n"), fillvalue=b"")):
        fields, others = (row.split(b" ") for row in rows)
        if others[0] in (b"c", b"r"):
            others[1] = b"%d" % number if others[1] == b"%d" % old_number else b"(another page)"
        elif others[0] == b"refused":
            others[3:] = fields[3:]
        if fields != others:
            return f"row {at + 1}: {b' '.join(fields).decode()}, but the old page has: {b' '.join(others).decode()}"
    return None


def some_lists(rng, count):
    """All lists of a few pages; of more pages the first, the last, all, all but one, every second, and any."""
    everything = range(1, count + 1)
    if count <= 4:
        return [list(some) for size in everything for some in itertools.combinations(everything, size)]
    any_list = sorted(rng.sample(everything, rng.randrange(1, count)))
    lists = [[1], [count], everything, everything[1:], everything[:-1], everything[::2], everything[1::2], any_list]
    return [list(some) for some in lists]


def wrong_lists(count):
    """Lists that are empty, not strictly rising, or name a page that is not there."""
    everything = list(range(1, count + 1))
    return [[], [0], [count + 1], [WIDE - 1], [FURTHEST + 1], [65_536], [count + 65_536], [0, 1], [0, 0], [1, 1], [count, count], [count, 1], everything[::-1] + [1],
            everything + [count], everything + [1], everything + [count + 1], everything + [WIDE - 1], [0, *everything], [1, 1, *everything], [1, WIDE - 1], [WIDE - 1, 1],
            [WIDE - 1, 0], [1, 0], [count + 1, count + 2], [256, 1], *([1, 3, 2], [2, 3, 3], [1, 2, 2], [1, 3, count + 1]) * (count >= 3)]


# ---- made-up files ----

def with_l_and_u(data, eight):
    """The file with these bytes for l and u in *post*."""
    at = dvi.summary(data)[3] + 17
    return data[:at] + eight + data[at + 8 :]


def any_bytes(rng, longest):
    kind = rng.random()
    return b"" if kind < 0.3 else rng.choice(LOOKALIKES)[:longest] if kind < 0.7 else rng.randbytes(rng.randrange(min(longest, 30)))


def any_font(rng, number):
    return Font(number, rng.randrange(WIDE), rng.choice([1, 1000, 655_360, rng.randrange(1, 1 << 24)]), rng.randrange(1, dvi.GREATEST_SCALE),
                any_bytes(rng, 255), any_bytes(rng, 255))


def any_definition(rng, font):
    return font.definition(rng.choice([1, 2, 3, 4]))


def any_volume(rng, count, length):
    """A file of so many pages with definitions and *nop*s on them and between them, and a postamble with the definitions in another order."""
    fonts = [any_font(rng, number) for number in rng.sample(range(256), rng.choice([0, 1, 3, 8]))]
    waiting, known, body = list(fonts), [], []

    def some_nops():
        return [NOTHING] * rng.choice([0, 0, 1, 3])

    for _ in range(count):
        while waiting and rng.random() < 0.3:
            known.append(waiting.pop())
            body += [*some_nops(), any_definition(rng, known[-1])]
        commands = [c for command in random_page(rng, known, rng.randrange(length)) for c in (*some_nops(), command)] if length else []
        while waiting and rng.random() < 0.4:
            known.append(waiting.pop())
            at = rng.randrange(len(commands) + 1)
            commands[at:at] = [any_definition(rng, known[-1]), *rng.choice([[], [dvi.any_select(rng, known[-1].number), b"A", MARK]])]
        if rng.random() < 0.5:
            commands.insert(rng.randrange(len(commands) + 1), special(rng.choice(LOOKALIKES), rng.choice([1, 2, 3, 4])))
        body += [*some_nops(), *page(commands, [rng.choice([0, -1, FURTHEST, rng.randrange(-WIDE // 2, WIDE // 2)]) for _ in range(10)])]
    body += [c for font in waiting for c in (*some_nops(), any_definition(rng, font))] + some_nops()
    after = [c for font in rng.sample(fonts, len(fonts)) for c in (*some_nops(), any_definition(rng, font))] + some_nops()
    data = volume(rng.choice([TEX_UNITS, PLAIN_UNITS]), body, after=after, comment=any_bytes(rng, 255), tail=rng.choice([4, 5, 6, 7, 8, 40]),
                  stated=rng.choice([0, 0, 2, 99, 65_535]))
    return with_l_and_u(data, rng.randbytes(8))


def definitions(group, rng):
    """Definitions in every form, before, on, between and behind pages, of fonts that are used or not; after *post* in another form and order."""
    one, two, three = Font(1, 11, 1000, name=b"one"), Font(200, 22, 2000, area=b"a:", name=b"two"), Font(0, 33, 3000, name=b"")
    rest = [three.definition(), *page([MARK]), *page([select(0), b"B"]), *page([])]
    for form in (1, 2, 3, 4):
        for again in (1, 2, 3, 4):
            for slot in range(len(rest) + 1):
                body = [*rest[:slot], one.definition(form), *rest[slot:]]
                body.insert(rng.randrange(len(body) + 1), two.definition(again))
                after = [one.definition(again), two.definition(form), three.definition(5 - form)]
                data = volume(PLAIN_UNITS, body, after=rng.sample(after, 3))
                for some in some_lists(rng, 3):
                    ask(group, data, some)
    for count in (1, 2, 63, 64):
        fonts = [any_font(rng, number) for number in rng.sample(range(256), count)]
        for turn in range(2):
            body = []
            for number in range(0, count, 16):
                some = [any_definition(rng, font) for font in fonts[number : number + 16]]
                body += [*some[:4], *page(some[4:12]), *some[12:]]
            data = volume(TEX_UNITS, [*body, *page([MARK])], after=[any_definition(rng, font) for font in rng.sample(fonts, count)])
            for some in some_lists(rng, dvi.summary(data)[0]):
                ask(group, data, some)
            ask_both(group, rng, data, [1], 1)


def nops(group, rng):
    """*nop*s at every place of a file, alone and in runs: those on pages stay, the others go."""
    font = Font(3, 4, 5)
    parts = [[dvi.pre(PLAIN_UNITS)], [font.definition()], page([])[:1], [select(3), b"A"], page([])[-1:], page([])[:1], [MARK], page([])[-1:],
             [bytes([dvi.POST]) + bytes(28)], [font.definition(2)], [bytes([dvi.POST_POST]) + bytes(4) + b"\2"]]
    tail = bytes([TAIL]) * 4
    for count in (1, 2, 3, 4, 300):
        for at in range(1, len(parts)):
            data = b"".join(dvi.mended([c for part in [*parts[:at], [NOTHING] * count, *parts[at:]] for c in part])) + tail
            for some in some_lists(rng, 2):
                ask(group, data, some)
    everywhere = b"".join(dvi.mended([c for part in parts[:-1] for command in part for c in (command, NOTHING, NOTHING)] + parts[-1])) + tail
    for some in some_lists(rng, 2):
        ask_both(group, rng, everywhere, some, 2)


def depths(group, rng):
    """Pages of different depths in every order, and an s in *post* that is above them all."""
    for some_depths in (*itertools.permutations((0, 1, 2, 5)), (100, 0, 99, 1), (3, 3, 3), (0,), (100,)):
        pages = [page([*[PUSHED, right(10)] * depth, MARK, *[POPPED] * depth, PUSHED, POPPED] if depth else [MARK]) for depth in some_depths]
        for stated in (0, 6, 101, 65_535):
            data = volume(PLAIN_UNITS, [c for one in pages for c in one], stated=stated)
            for some in some_lists(rng, len(pages)):
                ask(group, data, some)
        ask_both(group, rng, data, rng.choice(some_lists(rng, len(pages))), 1)


def fields(group, rng):
    """Counts of *bop*, comments, l and u, units and tails of any bytes and lengths."""
    for turn in range(256):
        counts = [rng.choice([0, 1, -1, FURTHEST, -FURTHEST - 1, rng.randrange(-WIDE // 2, WIDE // 2)]) for _ in range(10)]
        units = rng.choice([TEX_UNITS, PLAIN_UNITS, (FURTHEST, 1, FURTHEST), (1, FURTHEST, 1)])
        data = volume(units, [*page([MARK]), *page([special(b"x" * (turn % 5))], counts)], comment=rng.randbytes(turn), tail=4 + turn % 9)
        data = with_l_and_u(data, rng.choice([bytes(8), b"\xff" * 8, bytes([dvi.NOP] * 8), rng.randbytes(8)]))
        ask(group, data, rng.choice([[1], [2], [1, 2]]))
    for tail in (4, 5, 6, 7, 8, 9, 100, 1000, 70_000):
        ask_both(group, rng, volume(PLAIN_UNITS, page([MARK]), tail=tail), [1], 1)


def no_commands(group, rng):
    """What looks like a command inside specials, names, areas and comments."""
    for inside in LOOKALIKES:
        font = Font(5, 6, 7, area=inside[:255], name=inside[-255:])
        for size in (1, 2, 3, 4):
            data = volume(PLAIN_UNITS, [NOTHING, *page([special(inside, size), MARK, PUSHED, special(inside, size), POPPED]), font.definition(size),
                                        *page([select(5), b"A", special(inside, size)])], after=[NOTHING, font.definition()], comment=inside[:255])
            for some in some_lists(rng, 2):
                ask(group, data, some)
        ask_both(group, rng, data, [2], 2)


def fillings(group, rng):
    """Every length modulo four, on the pages, in the definitions and in the comment."""
    for more in range(9):
        for font in (Font(1, 2, 3, name=b"n" * more), Font(1, 2, 3, area=b"a" * 255, name=b"n" * (250 - more))):
            data = volume(PLAIN_UNITS, [*page([NOTHING] * more), *page([MARK]), font.definition()], [font], tail=4 + more)
            for some in some_lists(rng, 2):
                length = len(new_file(data, some))
                for area in (length - 8, length - 5, length - 4, length - 3, length - 2, length - 1, length, length + 1, length + 2, length + 3, length + 4):
                    ask(group, data, some, area)
        data = volume(PLAIN_UNITS, page([MARK]), comment=b"c" * more)
        ask_both(group, rng, data, [1], 1)


def lists(group, rng):
    """Right and wrong lists, of files of few pages and of many, each with an area that is long enough and one that is not: 23 goes before 17."""
    for count in (1, 2, 3, 9, 300):
        data = volume(PLAIN_UNITS, [c for number in range(count) for c in page([right(number), MARK])])
        for some in (*some_lists(rng, count), *wrong_lists(count)):
            for area in (LONGEST_AREA, 0, 99, 100):
                ask(group, data, some, area)
    data = volume(PLAIN_UNITS, [c for number in range(1100) for c in page([])])
    for size in (999, 1000, 1001, 1002, 1100):
        some = sorted(rng.sample(range(1, 1101), size))
        for wanted in (some, some[::-1], [1] * size, [0] * size, [WIDE - 1] * size, [*some[:-1], some[-2]], [*some[:-1], 1101], [0, *some[1:]]):
            ask(group, data, wanted)
            ask(group, data, wanted, 0)


def areas(group, rng):
    """Areas around the length of the new file, of the old one, and of what the desk holds."""
    for count, length in ((1, 0), (2, 5), (3, 40), (8, 100)):
        data = any_volume(rng, count, length)
        for some in some_lists(rng, count):
            new = len(new_file(data, some))
            for area in (0, 1, 4, 15, new - 33, new - 32, new - 4, new - 1, new, new + 1, new + 4, len(data) - 1, len(data), LONGEST_AREA - 1, LONGEST_AREA,
                         LONGEST_AREA + 1):
                ask(group, data, some, max(area, 0))


def broken_files():
    """A file for each refusal that the desk can give, and its number."""
    font = Font(7, 8, 9)
    whole = volume(PLAIN_UNITS, [font.definition(), *page([select(7), b"A", PUSHED, POPPED]), *page([])], [font])
    commands, tail = dvi.commands_of(whole)

    def changed(at, *others):
        return b"".join(dvi.mended([*commands[:at], *others, *commands[at + 1 :]])) + tail

    return whole, [
        (2, b""), (2, whole[:14]), (2, whole[:-5]), (2, whole[: len(whole) // 2]), (3, changed(4, b"\xff")), (4, whole[1:]),
        (4, dvi.pre(PLAIN_UNITS, identification=3) + whole[15:]), (4, changed(0, dvi.pre((0, 1, 1000)))), (5, changed(7, MARK)),
        (5, changed(2, dvi.bop(), NOTHING, dvi.bop())), (6, changed(5, POPPED)), (6, changed(6, NOTHING)), (7, changed(1, Font(7, 8, 0).definition())),
        (7, changed(11, Font(7, 8, 10).definition())), (7, changed(11, NOTHING)), (8, changed(3, NOTHING)), (8, changed(3, select(8))),
        (9, whole[:-9] + bytes(4) + whole[-5:]), (9, whole.replace(b"\xff" * 4, bytes(4), 1)), (10, dvi.restated(whole, 0)), (10, whole[:-5] + b"\3" + whole[-4:]),
        (11, whole[:-1]), (11, whole + b"\0"), (11, whole[:-1] + b"\xff"),
    ]


def orders(group, rng):
    """Two or three things wrong at once: the file's refusal goes before 23, and 23 before 17."""
    whole, broken = broken_files()
    for number, data in broken:
        line = b"check %s" % group.keep(data)
        group.ask(line)
        group.expect(line, [["refused", number, "at", None]])
        for some in ([1], [2], [1, 2], *wrong_lists(2)):
            for area in (LONGEST_AREA, 0):
                ask_any(group, data, some, area)
    for some in ([1], [2], [1, 2], *wrong_lists(2)):
        for area in (LONGEST_AREA, 0, 99, len(new_file(whole, [1])) - 1):
            ask(group, whole, some, area)


def many_pages(group, rng):
    """As many pages as the desk's file holds."""
    count = 5000
    data = volume(PLAIN_UNITS, [c for number in range(count) for c in page([NOTHING, right(number)][: rng.randrange(3)], (number, *[-number] * 9))])
    some = [[number] for number in (1, 2, 255, 256, 257, 4096, count - 1, count)]
    some += [[1, count], [count, 1], [count + 1], [0], range(1, 1001), range(count - 999, count + 1)]
    some += [sorted(rng.sample(range(1, count + 1), size)) for size in (10, 999, 1000)]
    for wanted in some:
        ask(group, data, list(wanted))
    ask(group, data, [1, count], 0)
    ask_both(group, rng, data, sorted(rng.sample(range(1, count + 1), 700)), 1)


def greatest_sizes(group, rng):
    """As long as a file and an area may be and one byte more: by a special, by *nop*s on the page or outside of it, by many commands, by the tail."""
    short = volume(PLAIN_UNITS, [*page([MARK]), *page([])])
    for length in (LONGEST_FILE - 3, LONGEST_FILE - 1, LONGEST_FILE, LONGEST_FILE + 1):
        more = length - len(short)
        bodies = [([*page([special(bytes(more - 5), 4), MARK]), *page([])], 4), ([*page([MARK]), *page([])], 4 + more)]
        if length == LONGEST_FILE:  # these take the rules' model its time
            bodies += [([*page([MARK]), *[NOTHING] * more, *page([])], 4), ([*page([MARK]), *page([NOTHING] * more)], 4)]
        for body, tail in bodies:
            data = volume(PLAIN_UNITS, body, tail=tail)
            for some in ([1], [2], [1, 2], []):
                ask(group, data, some)
            ask(group, data, [1, 2], LONGEST_AREA - 1)


def out_of_range(group, rng):
    """Pages that are refused by 16, whose place is another in the new file, and by 12, 13 and 17."""
    font = Font(9, 1, 1000)
    data = volume(PLAIN_UNITS, [NOTHING, *page([MARK]), *page([font.definition(), right(FURTHEST), MARK, right(1), MARK]), NOTHING,
                                *page([NOTHING, dvi.down(-FURTHEST), dvi.down(-1)])], [font])
    for some in some_lists(rng, 3):
        new = ask_both(group, rng, data, some, 0)
        old_file, file, empty = group.keep(data), group.keep(new), group.keep(b"")
        for number, old_number in enumerate(some, 1):
            for resolution in (0, 1, 300, 500, 501, 10_001):
                ask_page(group, old_file, file, empty, resolution, old_number, number)
            line = place(file, empty, 300, number)
            group.ask(line)
            group.expect(line, placed(new, b"", 300, number))
            for area in (0, 19, 20):
                lines = place(file, empty, 300, number, area), place(old_file, empty, 300, old_number, area)
                group.ask(*lines)
                group.hold(*lines, functools.partial(same_page, number, old_number))


def random_cuts(group, rng, count):
    """Files of random pages, with definitions and *nop*s at any place."""
    for _ in range(count):
        pages = rng.choice([1, 2, 3, 5, 12])
        data = any_volume(rng, pages, rng.choice([0, 4, 20, 100]))
        for some in rng.sample(some_lists(rng, pages), min(3, pages)):
            ask_both(group, rng, data, some, 1)
        ask_any(group, data, [rng.randrange(pages + 2) for _ in range(rng.randrange(4))], rng.choice([LONGEST_AREA, rng.randrange(2 * len(data))]))


def lines(group, rng):
    """Lines of the wrong form, numbers one past their ranges, files that are not there or too long, lines too long."""
    data = volume(PLAIN_UNITS, [*page([MARK]), *page([]), *page([])])
    file = group.keep(data)
    for line in (cut(file, [1]), cut(file, [1, 3], 5000), cut(file, [])):
        misspelt(group, line, file)
        group.ask(line + b" 2", line + b" 02", line + b" 4", line + b"  2", line + b" 2 ", line + b" -1", line + b" 2,3", line + b" 2-3", line + b" 2\t3", line + b" all")
    for area in (b"262143", b"262144", b"262145", b"00262144", b"200", b"60001"):
        group.ask(b"cut %s %s 1" % (file, area))
    longer = group.keep(data + bytes([TAIL]) * (LONGEST_FILE + 1 - len(data)))
    group.ask(cut(longer, [1]), cut(longer, []), cut(longer, [0], 0), cut(file + b"x", [1]), cut(file + b"x", []), cut(file + b"x", [0], 0))
    for length in (4095, 4096, 4097, LONGEST_LINE - 1, LONGEST_LINE, LONGEST_LINE + 1, 2 * LONGEST_LINE, 100_000):
        for start in (b"cut %s 262144 2 " % file, b"cut %s " % file, b"cut %s 0 " % file):
            group.ask(start + b"3".rjust(length - len(start), b"0"))
        numbers = b" 1" * ((length - len(file) - 11) // 2)
        group.ask(b"cut %s 262144%s" % (file, numbers), b"cut %s 262144%s" % (file, numbers[: 2 * MOST_PAGES]))
    for line in group.lines:
        if line.startswith(b"cut "):
            group.expect(line, answered_line(line))


# ---- files that others made ----

def real_groups(gather, numbers, paths, long, wanted, typed=False, lawful=True):
    """One group a file: all its pages, the odd ones, the first, the last, and pages alone. Files that may not be lawful are asked less. With `typed`
    DVItype reads some of the new files; gives of how many old ones."""
    heard = 0
    for path in paths:
        name = f"cut: {path.name}"
        if not wanted(name):
            continue
        data = path.read_bytes()
        with gather(name) as group:
            rng = numbers(name)
            if len(data) > LONGEST_FILE:
                ask(group, data, [1])
                continue
            commands = dvi.commands_of(data)[0]
            count = dvi.page_count(commands)
            everything, table = list(range(1, count + 1)), any_table(rng, commands)
            if not lawful:
                for some in (everything[:MOST_PAGES], everything[1::2][:MOST_PAGES], [count]):
                    ask_any(group, data, some)
                continue
            alone = everything if long or count <= FEW_PAGES else rng.sample(everything, FEW_PAGES)
            for some in (everything, everything[::2], [1], [count]):
                ask_both(group, rng, data, some, 2, table)
            for number in alone:
                if number not in (1, count):
                    ask_both(group, rng, data, [number], 1, table)
            for some in wrong_lists(count)[:4]:
                ask(group, data, some)
            if typed:
                heard += hear(group, data, [everything[::2], *([everything, everything[count // 2 :], *([number] for number in alone[:12])] if long else [])], new_file)
    return heard


# ---- damaged files ----

def damaged_groups(gather, rng, small, count, long):
    """Every single step away from a small file (in the long form from all of them), then random damage. Gives how many files there were."""
    one, two = Font(1, 0x01020304, 1000, name=b"ab"), Font(200, 0xFFFFFFFF, 65_536, 7, b"x", b"")
    own = volume(PLAIN_UNITS, [NOTHING, *page([one.definition(), select(1), b"A", PUSHED, NOTHING, POPPED]), NOTHING, two.definition(2), *page([MARK, special(b"\x8c")])],
                 after=[two.definition(), NOTHING, one.definition(3)], stated=2, tail=6)
    asked = 0

    def ask_all(title, files):
        nonlocal asked
        files, turn = iter(files), 0
        while batch := list(itertools.islice(files, 1000)):
            turn, asked = turn + 1, asked + len(batch)
            with gather(f"cut: {title} {turn}") as group:
                for data in batch:
                    ask_any(group, data, rng.choice([[1], [1], [2], [1, 2], [1, 2], [2, 2], []]), rng.choice([LONGEST_AREA] * 5 + [rng.randrange(400)]))

    bases = [own, *damaged.small_bases()]
    ask_all("single steps", dict.fromkeys(step for base in (bases if long else bases[:1]) for step in damaged.single_steps(base)))
    others = bases + small

    def base():
        return rng.choice(others) if rng.random() < 0.6 else any_volume(rng, rng.choice([1, 2, 3]), 10)

    ask_all("random damage", (damaged.random_damage(rng, base(), others) for _ in range(max(0, count - asked))))
    return asked


def groups(gather, numbers, long, wanted=lambda name: True):
    """Those groups of made-up files and lines that are wanted; the random ones many times in the long form. `numbers` gives each group its random
    numbers, by its name."""
    notions = (definitions, nops, depths, fields, no_commands, fillings, lists, areas, orders, many_pages, greatest_sizes, out_of_range, lines)
    makers = {"cut: " + make.__name__.replace("_", " "): make for make in notions}
    for turn in range(200 if long else 5):
        makers[f"cut: random {turn + 1}"] = functools.partial(random_cuts, count=60)
    for name, make in makers.items():
        if wanted(name):
            with gather(name) as group:
                make(group, numbers(name))
