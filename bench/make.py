#!/usr/bin/env python3
"""The bench's work: DVI files, width tables, PK fonts, widths to scale, pages to cut out, and the manifest that names each job. Standard library only;
the same bytes each time.

    make.py PUBLISHED FONTS OUT     the folders of published files and of PK fonts; where the work goes

A line of the manifest: ENTRY GROUP NAME SIZE, then the entry's files and numbers (bench/readers.py). Sizes rise in geometric steps inside a group, so that growth can be
fitted. A small work of many different commands is several files alike: asked over and over, a single small one would be learnt by heart by the
processor, which foresees its branches then, and growth would look steeper than it is.
"""

import itertools
import random
import sys
from pathlib import Path

sys.path.insert(0, str(Path(__file__).resolve().parent.parent / "tests" / "compare"))
import dvi  # noqa: E402
import pk  # noqa: E402

from readers import spelled  # noqa: E402

LONGEST_FILE = 16_777_216
MOST_PAGES = 65_535
MOST_FONTS = 64
CODES = 256
WIDTH_RECORD, LONGEST_NAME = 32, 16  # bytes; of a name those that a record has room for
RESOLUTION = 300
SCALE = 655_360
POINT = 65_536  # in TeX's units
REAL_FONTS = ("cmr10.72", "cmr10.300", "cmr17.600", "cminch.300", "ecrm1000.300", "odd.300")
SEED = 1
QUICK = {"-1024K", "-1", "-64", "-4096", "-100", "-10000"}  # ends of names
DIFFERENT_BYTES, DIFFERENT_RECORDS, DIFFERENT_PACKETS = 1 << 20, 10_000, 2048  # in all files of a work together, at least
DIFFERENT_WIDTHS, DIFFERENT_DEFINITIONS = 800, 320  # in a work
CUT = {  # of the files of which of the check's groups which pages are cut out
    "joined": ("all", "odd", "one"), "pages": ("all", "odd"), "characters": ("all",), "one-byte": ("all",), "push-pop": ("all",), "selections": ("all",),
    "specials": ("all",), "on-pages": ("all", "odd"),
}


big = dvi.big

# ---- whole files from pages ----


class Volume:
    """A lawful file that grows page by page; pointers, stated depth and page count are kept right."""

    def __init__(self, units=dvi.TEX_UNITS, fonts=()):
        self.units, self.fonts = units, list(fonts)
        self.parts = [dvi.pre(units), *(font.definition() for font in self.fonts)]
        self.length = sum(map(len, self.parts))
        self.last_bop, self.pages, self.depth = -1, 0, 0

    def add(self, inside, depth=0, counts=bytes(40)):
        """A page: the bytes between bop and eop, and the greatest depth reached there or, as a file may state, more."""
        page = bytes([dvi.BOP]) + counts + big(self.last_bop, 4) + inside + bytes([dvi.EOP])
        self.last_bop, self.pages, self.depth = self.length, self.pages + 1, max(self.depth, depth)
        self.parts.append(page)
        self.length += len(page)

    def end_length(self):
        return 29 + sum(len(font.definition()) for font in self.fonts) + 6 + 4

    def finished(self):
        units = b"".join(big(unit, 4) for unit in self.units)
        post = bytes([dvi.POST]) + big(self.last_bop, 4) + units + bytes(8) + big(self.depth, 2) + big(self.pages, 2)
        again = [font.definition() for font in self.fonts]
        last = bytes([dvi.POST_POST]) + big(self.length, 4) + b"\x02" + bytes([dvi.TAIL]) * 4
        return b"".join([*self.parts, post, *again, last])


# ---- published files joined ----


def published_pages(data):
    """Units, fonts by number, and the pages: the commands between bop and eop, and the ten counts."""
    commands, _ = dvi.commands_of(data)
    units = tuple(dvi.signed(data[at : at + 4]) for at in (2, 6, 10))
    fonts = {font.number: font for font in dvi.fonts_of(commands)}
    pages, inside = [], None
    for command in commands:
        if command[0] == dvi.BOP:
            counts, inside = command[1:41], []
        elif command[0] == dvi.EOP:
            pages.append((counts, inside))
            inside = None
        elif inside is not None:
            inside.append(command)
    return units, fonts, pages


def number_of(command):
    """The font that a selection names."""
    if command[0] < dvi.FNT1:
        return command[0] - dvi.FNT_NUM_0
    return dvi.signed(command[1:]) if command[0] == dvi.FNT1 + 3 else dvi.unsigned(command[1:])


def renumbered(inside, new_number):
    """A page's bytes with its selections naming the new numbers and without its definitions, and its greatest depth."""
    depth = deepest = 0
    out = []
    for command in inside:
        opcode = command[0]
        if opcode == dvi.PUSH:
            depth += 1
            deepest = max(deepest, depth)
        elif opcode == dvi.POP:
            depth -= 1
        elif dvi.FNT_NUM_0 <= opcode < dvi.XXX1:
            command = dvi.select(new_number[number_of(command)])
        elif dvi.FNT_DEF1 <= opcode < dvi.PRE:
            continue
        out.append(command)
    return b"".join(out), deepest


def sayings_of(fonts):
    """What each font's definition says without its number."""
    return {number: dvi.Font(0, f.check_sum, f.scale, f.design, f.area, f.name).definition() for number, f in fonts.items()}


def joined_pages(published):
    """Pages of published files of TeX's units, and their fonts under new numbers: of the files those first that bring most bytes for each font
    that is new, as many as 64 fonts allow. A font that two files define alike is one font here."""
    files = [file for file in map(published_pages, published) if file[0] == dvi.TEX_UNITS]
    sayings = [sayings_of(fonts) for _, fonts, _ in files]
    lengths = [sum(len(command) for _, inside in pages for command in inside) for _, _, pages in files]
    new_numbers, pages, left = {}, [], set(range(len(files)))

    def fresh(index):
        return len(set(sayings[index].values()) - new_numbers.keys())

    while fitting := [index for index in left if len(new_numbers) + fresh(index) <= MOST_FONTS]:
        best = max(fitting, key=lambda index: (lengths[index] / (1 + fresh(index)), index))
        left.remove(best)
        for saying in sayings[best].values():
            new_numbers.setdefault(saying, len(new_numbers))
        numbers = {number: new_numbers[saying] for number, saying in sayings[best].items()}
        pages += [(*renumbered(inside, numbers), counts) for counts, inside in files[best][2]]
    fonts = [dvi.Font.read(saying) for saying in new_numbers]
    for number, font in enumerate(fonts):
        font.number = number
    return fonts, pages


def joined(fonts, pages, most):
    """Those pages over and over, up to a length."""
    volume = Volume(fonts=fonts)
    for inside, depth, counts in itertools.cycle(pages):
        if volume.pages == MOST_PAGES or volume.length + 46 + len(inside) + volume.end_length() > most:
            return volume.finished()
        volume.add(inside, depth, counts)


# ---- worst cases of the check ----


def filled(inside_of, most, fonts=()):
    """One page as long as fits: `inside_of(room)` gives its bytes and depth."""
    volume = Volume(fonts=fonts)
    inside, depth = inside_of(most - volume.length - 46 - volume.end_length())
    volume.add(inside, depth)
    return volume.finished()


def one_byte_commands(rng, most):
    """Every opcode of one byte that may stand on a page, in random order: characters, nop, push and pop, w0 to z0, fonts."""
    font = dvi.Font(0, 1, 655_360)

    def inside_of(room):
        out, depth, deepest = bytearray([dvi.FNT_NUM_0]), 0, 0
        choices = [*range(128), *[dvi.NOP, dvi.PUSH, dvi.POP, dvi.W0, dvi.X0, dvi.Y0, dvi.Z0, dvi.FNT_NUM_0] * 16]
        for opcode in rng.choices(choices, k=min(room, 1 << 16) - 200):
            if opcode == dvi.PUSH and depth < 100:
                depth += 1
                deepest = max(deepest, depth)
            elif opcode == dvi.POP and depth > 0:
                depth -= 1
            elif opcode in (dvi.PUSH, dvi.POP):
                opcode = dvi.NOP
            out.append(opcode)
        out += bytes([dvi.POP]) * depth
        return bytes(out) * (room // len(out)), deepest

    return filled(inside_of, most, [font])


def characters_only(most):
    """Characters without a push; post states a depth of 2, as where TeX counted pushes and then dropped them."""
    font = dvi.Font(0, 1, 655_360)
    return filled(lambda room: (bytes([dvi.FNT_NUM_0]) + bytes(i % 128 for i in range(128)) * ((room - 1) // 128), 2), most, [font])


def pushes_and_pops(most):
    return filled(lambda room: ((bytes([dvi.PUSH]) * 100 + bytes([dvi.POP]) * 100) * (room // 200), 100), most)


def selections(most):
    fonts = [dvi.Font(n, n + 1, 655_360) for n in range(MOST_FONTS)]
    each = b"".join(dvi.select(n, size) for n in range(MOST_FONTS) for size in (0, 1, 4))
    return filled(lambda room: (each * (room // len(each)), 0), most, fonts)


def definitions(fonts, area, name):
    """So many fonts, each defined twice, with this area and name."""
    volume = Volume(fonts=[dvi.Font(n, n + 1, 655_360, area=area, name=name) for n in range(fonts)])
    volume.add(b"")
    return volume.finished()


def definitions_on_pages(rng, fonts):
    """So many pages, each of which defines a font in the midst of its text and uses it from there on."""
    known = [dvi.Font(n, n + 1, 655_360, name=b"cmr%d" % n) for n in range(fonts)]
    volume = Volume(fonts=known)
    volume.parts[1:] = []
    volume.length = len(volume.parts[0])
    for font in known:
        before, depth = text_page(rng, 200, known[:1], False) if font.number else (b"", 0)
        after, deeper = text_page(rng, 200, [font], False)  # selects font 0 by its first byte
        volume.add(before + font.definition() + dvi.select(font.number) + after[1:], max(depth, deeper))
    return volume.finished()


def many_pages(pages):
    volume = Volume()
    for _ in range(pages):
        volume.add(b"")
    return volume.finished()


def specials(most):
    """Short specials one after the other."""
    each = dvi.special(b"")
    return filled(lambda room: (each * (room // len(each)), 0), most)


# ---- width tables and pages to be placed ----


def width_record(check_sum, scale, code, escapement, width, name=b""):
    return big(check_sum, 4) + big(scale, 4) + name.ljust(LONGEST_NAME, b"\0") + bytes([code, 0]) + big(escapement, 2) + big(width, 4)


def records_of(table):
    return [table[at : at + WIDTH_RECORD] for at in range(0, len(table), WIDTH_RECORD)]


def in_old_form(table):
    """A table for any names as it was before records had names."""
    return b"".join(record[:8] + record[8 + LONGEST_NAME :] for record in records_of(table))


def with_names(table, fonts, is_named):
    """A table for any names with the records of some codes moved to their fonts' own names; `is_named` says which codes. A name that no record can have
    stays any."""
    names = {}
    for font in fonts:
        sayable = font.name if len(font.name) <= LONGEST_NAME and 0 not in font.name else b""
        names.setdefault(big(font.check_sum, 4) + big(font.scale, 4), set()).add(sayable)
    rows = set()
    for record in records_of(table):
        key, last_eight = record[:8], record[8 + LONGEST_NAME :]
        rows |= {key + name.ljust(LONGEST_NAME, b"\0") + last_eight for name in (names[key] if is_named(last_eight[0]) else [b""])}
    return b"".join(sorted(rows))


NAMINGS = {"own": lambda code: True, "mixed": lambda code: code % 4 == 0}


def table_for(rng, fonts, unit):
    """Records of all 256 codes for each font; widths up to an em, escapements a pixel around the true ones."""
    rows = []
    for check_sum, scale in sorted({(font.check_sum, font.scale) for font in fonts}):
        for code in range(256):
            width = rng.randrange(1 << 18, 1 << 20)
            pixels = round(unit * width * scale / (1 << 20)) + rng.choice([-1, 0, 0, 0, 1])
            rows.append(width_record(check_sum, scale, code, max(-32768, min(32767, pixels)), width))
    return b"".join(rows)


CODES_EACH = 128  # of a font in the tables that are checked and searched


def font_of(index):
    """The font of these tables that has such a number: names of one to sixteen bytes in turn, alike up to their last bytes."""
    return dvi.Font(0, 7 * index + 1, 655_360, name=(b"%d" % index).rjust(1 + index % LONGEST_NAME, b"n")[-LONGEST_NAME:])


def table_of(records):
    """So many records for any names."""
    return b"".join(width_record(7 * (i // CODES_EACH) + 1, 655_360, i % CODES_EACH, i % 40, (i * 977) % (1 << 20)) for i in range(records))


def named_table_of(records, naming):
    """The same, with own names for all or for a quarter of the codes."""
    return with_names(table_of(records), [font_of(index) for index in range(-(-records // CODES_EACH))], NAMINGS[naming])


def pages_in(data):
    """How many pages a lawful file has, as its post says."""
    post_post = len(data.rstrip(bytes([dvi.TAIL]))) - 6
    post = dvi.unsigned(data[post_post + 1 : post_post + 5])
    return dvi.unsigned(data[post + 27 : post + 29])


def chosen(which, pages):
    """A list of pages, as the manifest has it."""
    return {"all": f"1..{pages}", "odd": f"1..{pages}/2", "one": f"{(pages + 1) // 2}"}[which]


def unit_of(units, resolution):
    num, den, mag = units
    return num * mag * resolution / (den * 1000 * 254_000)


def text_page(rng, records, fonts, deep):
    """Lines of words as TeX sets them: a push around each line, down to the next, words with w0 and small kerns between; fonts in turn.

    Deep: each word stands in a push and pop of its own, up to ninety levels deep on a line. The line is taken back sideways, so h stays small.
    """
    out, left, depth, deepest, word_number = [dvi.select(0)], records, 0, 0, 0
    while left > 0:
        out += [bytes([dvi.PUSH])]
        depth += 1
        for word in range(12 if not deep else 90):
            if left == 0:
                break
            length = min(left, rng.randrange(2, 10))
            left -= length
            if len(fonts) > 1:
                out.append(dvi.select(word_number % len(fonts)))
            word_number += 1
            out.append(dvi.sized(dvi.W0 + 1, rng.randrange(150_000, 300_000), 3) if word == 0 else bytes([dvi.W0]))
            if deep:
                out.append(bytes([dvi.PUSH]))
                depth += 1
                deepest = max(deepest, depth)
            letters = bytes(rng.randrange(97, 123) for _ in range(length))
            if length > 4:
                letters = letters[:3] + dvi.right(-rng.randrange(1, 30_000), 3) + letters[3:]
            out.append(letters)
        out.append(bytes([dvi.POP]) * depth)
        deepest = max(deepest, depth)
        depth = 0
        out.append(dvi.sized(dvi.Y0 + 1, 786_432, 3) if rng.random() < 0.1 else bytes([dvi.Y0]))
        if rng.random() < 0.02:
            out.append(dvi.down(-40 * 786_432, 4))
    return b"".join(out), deepest


def moves_page(rng, moves):
    """Moves only, of every form, near and far, forth and back."""
    out, h, v = [dvi.select(0)], 0, 0
    forms = {"right": dvi.RIGHT1, "w": dvi.W0 + 1, "x": dvi.X0 + 1, "down": dvi.DOWN1, "y": dvi.Y0 + 1, "z": dvi.Z0 + 1}
    for _ in range(moves):
        form = rng.choice(list(forms))
        size = rng.choice([1, 2, 3, 3, 4])
        limit = min(1 << (8 * size - 1), 1 << 24)
        distance = rng.randrange(limit)
        sideways = form in ("right", "w", "x")
        if (h if sideways else v) > 0:
            distance = -distance
        if sideways:
            h += distance
        else:
            v += distance
        out.append(dvi.sized(forms[form], distance, size))
    return b"".join(out), 0


def rules_page(rng, rules):
    """Rules only, set and put in turn, the pen taken back now and then by a rule of negative width (which gives no record)."""
    out = []
    for i in range(rules):
        out.append(dvi.rule(rng.randrange(1, 1 << 20), rng.randrange(1, 1 << 20), dvi.SET_RULE if i % 2 else dvi.PUT_RULE))
        if i % 64 == 63:
            out.append(dvi.rule(1, -16 << 20))
    return b"".join(out), 0


def levels_page(rng, levels):
    """Push and pop alone, so many of each, to depths up to a hundred."""
    out, depth, deepest, left = bytearray(), 0, 0, levels
    while left or depth:
        opens = left > 0 and depth < 100 and (depth == 0 or rng.random() < 0.5)
        out.append(dvi.PUSH if opens else dvi.POP)
        depth += 1 if opens else -1
        left -= opens
        deepest = max(deepest, depth)
    return bytes(out), deepest


def boxes_page(rng, boxes):
    """A push, a character and a pop, over and over: no more than the character is between a level saved and brought back."""
    return dvi.select(0) + b"".join(bytes([dvi.PUSH, rng.randrange(97, 123), dvi.POP]) for _ in range(boxes)), 1


def still_page(rng, moves):
    """Moves by 0: of the registers, which hold 0, and by a distance of one byte."""
    still = [bytes([first]) for first in (dvi.W0, dvi.X0, dvi.Y0, dvi.Z0)] + [bytes([first, 0]) for first in (dvi.RIGHT1, dvi.DOWN1)]
    return dvi.select(0) + b"".join(rng.choice(still) for _ in range(moves)), 0


# ---- PK fonts ----


def short_packet(rng, code, raster):
    """As most packets of most fonts are."""
    return pk.packet(pk.SHORT, code, rng.randrange(1 << 20), rng.randrange(1, 80), [rng.randrange(1, 80) for _ in range(4)], rng.randbytes(raster), rng.randrange(30))


def mixed_commands(rng, size):
    """What may stand between packets, in random order: no-ops, yyy, specials of every size, with few bytes."""
    out, length = [], 0
    while length < size:
        out.append(rng.choice([pk.NOTHING, pk.numeric(rng.randrange(1 << 32)), pk.special(rng.randbytes(rng.randrange(20)), rng.randrange(1, 5))]))
        length += len(out[-1])
    return b"".join(out)


def packets_of_all_forms(rng, count):
    """Packets in random order of codes, the three forms in turn, a raster of ten to sixty bytes each."""
    codes = rng.sample(range(CODES), count)
    return b"".join(pk.packet(rng.choice(pk.FORMS), code, rng.randrange(1 << 20), rng.randrange(200), raster=rng.randbytes(rng.randrange(10, 60))) for code in codes)


def packets_with_raster(rng, size):
    """All codes in turn, with rasters that make the file so long."""
    each = size // CODES
    form = pk.SHORT if each < 1000 else pk.EXTENDED
    return b"".join(pk.packet(form, code, rng.randrange(1 << 20), rng.randrange(200), raster=bytes(each - form.head - form.counted)) for code in range(CODES))


# ---- the manifest ----


class Work:
    def __init__(self, folder):
        self.folder, self.lines, self.known = folder, [], set()
        folder.mkdir(parents=True, exist_ok=True)

    def keep(self, name, data):
        """A file of the work, by its name; equal names are one file."""
        if name not in self.known:
            (self.folder / name).write_bytes(data)
            self.known.add(name)
        return name

    def keep_all(self, name, files, ending="dvi"):
        """Files alike, as the manifest lists them, and their mean length."""
        names = [self.keep(f"{name}.{ending}" if index == 0 else f"{name}.{index}.{ending}", data) for index, data in enumerate(files)]
        return ",".join(names), sum(map(len, files)) // len(files)

    def check(self, group, name, *files):
        names, size = self.keep_all(name, files)
        self.lines.append(f"check {group} {name} {size} {names}")

    def place(self, group, name, size, files, table):
        names, _ = self.keep_all(name, files)
        self.lines.append(f"place {group} {name} {size} {names} {self.keep(*table)} {RESOLUTION} 1")

    def place_again(self, group, name, before, table):
        """The files of a work that is there already, by another table."""
        line = next(line for line in self.lines if line.split()[2] == before)
        _, _, _, size, names, _, *numbers = line.split()
        self.lines.append(f"place {group} {name} {size} {names} {table} {' '.join(numbers)}")

    def table(self, group, records, data):
        name = f"{group}-{records}"
        self.lines.append(f"table {group} {name} {records} {self.keep(name, data)}")

    def look(self, group, records, table, font, name, code):
        self.lines.append(f"look {group} {group}-{records} {records} {table} {font.check_sum} {font.scale} {spelled(name)} {code}")

    def cut(self, group, name, names, which):
        """Pages of files that are kept already, by an area that always suffices."""
        files = [(self.folder / file).read_bytes() for file in names]
        areas = ",".join(str(len(data) + 3) for data in files)
        lists = ",".join(chosen(which, pages_in(data)) for data in files)
        self.lines.append(f"cut {group} {name} {sum(map(len, files)) // len(files)} {','.join(names)} {areas} {lists}")

    def widths(self, group, name, files, size=None):
        names, length = self.keep_all(name, files, "pk")
        self.lines.append(f"widths {group} {name} {size or length} {names} {SCALE}")

    def manifest(self, name, lines):
        (self.folder / name).write_text("".join(line + "\n" for line in lines))


def steps(first, last, factor):
    while first <= last:
        yield first
        first *= factor


def check_jobs(work, rng, published, sizes):
    fonts, pages = joined_pages(published)
    for size in sizes:
        kib = size // 1024
        shuffled = (rng.sample(pages, len(pages)) for _ in range(max(1, DIFFERENT_BYTES // size)))
        work.check("joined", f"joined-{kib}K", *(joined(fonts, order, size) for order in shuffled))
        work.check("one-byte", f"one-byte-{kib}K", one_byte_commands(rng, size))
        work.check("characters", f"characters-{kib}K", characters_only(size))
        work.check("push-pop", f"push-pop-{kib}K", pushes_and_pops(size))
        work.check("selections", f"selections-{kib}K", selections(size))
        work.check("specials", f"specials-{kib}K", specials(size))


def definition_jobs(work, counts):
    for group, area, name in (("names", b"a" * 255, b"n" * 255), ("short-names", b"", b"cmr10")):
        for fonts in counts:
            work.check(group, f"{group}-{fonts}", definitions(fonts, area, name))


def page_count_jobs(work, counts):
    for pages in counts:
        work.check("pages", f"pages-{pages}", many_pages(pages))


def cut_jobs(work, rng, counts):
    """Pages cut out of the check's files, and of files that define their fonts on pages."""
    for fonts in counts:
        work.check("on-pages", f"on-pages-{fonts}", *(definitions_on_pages(rng, fonts) for _ in range(DIFFERENT_DEFINITIONS // fonts)))
    checks = [line.split()[1:] for line in work.lines if line.startswith("check ")]
    for group, ways in CUT.items():
        for which in ways:
            for name, _, names in (words for of, *words in checks if of == group):
                work.cut(f"{group}-{which}", f"{group}-{which}{name.removeprefix(group)}", names.split(","), which)


def place_jobs(work, rng, sizes):
    unit = unit_of(dvi.TEX_UNITS, RESOLUTION)
    one = [dvi.Font(0, 0x1234, 655_360)]
    many = [dvi.Font(n, 0x1000 + 77 * n, 655_360 + 1000 * n) for n in range(MOST_FONTS)]
    tables = {len(fonts): (f"widths-{len(fonts)}", table_for(rng, fonts, unit)) for fonts in ((), one, many)}

    def add(group, size, fonts, page_of):
        files = []
        for _ in range(max(1, DIFFERENT_RECORDS // size)):
            volume = Volume(fonts=fonts)
            volume.add(*page_of())
            files.append(volume.finished())
        table = tables[len(fonts)]
        work.place(group, f"{group}-{size}", size, files, table)
        if group.startswith(("flat", "deep")):
            again.append((group, size, fonts, table))

    again = []
    for size in sizes:
        for fonts, which in ((one, "one-font"), (many, "64-fonts")):
            add(f"flat-{which}", size, fonts, lambda: text_page(rng, size, fonts, False))
            add(f"deep-{which}", size, fonts, lambda: text_page(rng, size, fonts, True))
        add("moves", size, one, lambda: moves_page(rng, size))
        add("rules", size, (), lambda: rules_page(rng, size))
    for naming in NAMINGS:
        for group, size, fonts, (name, table) in again:
            named = work.keep(f"{name}-{naming}", with_names(table, fonts, NAMINGS[naming]))
            work.place_again(f"{group}-{naming}", f"{group}-{naming}-{size}", f"{group}-{size}", named)


def level_jobs(work, rng, sizes):
    """Pages on which levels are saved and brought back, on which nothing moves, and one with no command at all."""
    font = dvi.Font(0, 0x1234, 655_360)
    table = ("widths-levels", table_for(rng, [font], unit_of(dvi.TEX_UNITS, RESOLUTION)))

    def add(group, size, page_of, files):
        volumes = [Volume(fonts=[font]) for _ in range(files)]
        for volume in volumes:
            volume.add(*page_of())
        work.place(group, f"{group}-{size}", size, [volume.finished() for volume in volumes], table)

    for size in sizes:
        for group, page_of in (("levels", levels_page), ("boxes", boxes_page), ("still", still_page)):
            add(group, size, lambda: page_of(rng, size), max(1, DIFFERENT_RECORDS // size))
    add("empty-page", 1, lambda: (b"", 0), 1)


def one_key_jobs(work, rng, sizes):
    """Text in 64 fonts of check sum 0 and one scale, which only their names tell apart, by own names and by both."""
    fonts = [dvi.Font(n, 0, SCALE, name=b"font%d" % n) for n in range(MOST_FONTS)]
    unnamed = table_for(rng, fonts, unit_of(dvi.TEX_UNITS, RESOLUTION))
    tables = {naming: (f"widths-one-key-{naming}", with_names(unnamed, fonts, is_named)) for naming, is_named in NAMINGS.items()}
    for size in sizes:
        files = []
        for _ in range(max(1, DIFFERENT_RECORDS // size)):
            volume = Volume(fonts=fonts)
            volume.add(*text_page(rng, size, fonts, False))
            files.append(volume.finished())
        for naming, table in tables.items():
            work.place(f"one-key-{naming}", f"one-key-{naming}-{size}", size, files, table)


def table_jobs(work, sizes):
    """Tables for any names, of own names, and of both; in each of them look-ups for its last font. A font's own name is not in the first one, as in every
    table that was widened: there, and in the mixed one for most codes, the record for any name is found. A name that no table has is absent in the
    second."""
    for records in sizes:
        work.table("table", records, table_of(records))
    for naming in NAMINGS:
        for records in sizes:
            work.table(f"table-{naming}", records, named_table_of(records, naming))
    for records in sizes:
        font, code = font_of((records - 1) // CODES_EACH), records // 3 % CODES_EACH
        work.look("look-up", records, f"table-{records}", font, font.name, code)
    for records in sizes:
        font, last = font_of((records - 1) // CODES_EACH), min(records, CODES_EACH)
        work.look("look-own", records, f"table-own-{records}", font, font.name, last // 3)
        work.look("look-any", records, f"table-mixed-{records}", font, font.name, last // 12 * 4 + 1)
        work.look("look-absent", records, f"table-own-{records}", font, b"absent", last // 3)


def form_jobs(work, sizes):
    """Tables from the old form to the new one, and back."""
    for records in sizes:
        old = work.keep(f"old-table-{records}", in_old_form(table_of(records)))
        work.lines.append(f"widen widen widen-{records} {records} {old}")
    for records in sizes:
        work.lines.append(f"narrow narrow narrow-{records} {records} {work.keep(f'table-{records}', table_of(records))}")


def scale_jobs(work, rng):
    """Widths by themselves, half of them negative: at scales as fonts have them, 5 to below 128 points, which TeX does not halve, and at those that it
    halves, once to four times. Signs and halvings are in random order, so that branches on them are hard to foresee."""
    unhalved = [rng.randrange(5 * POINT, 128 * POINT) for _ in range(DIFFERENT_WIDTHS)]
    halved = [rng.randrange(1 << bits, 2 << bits) for bits in rng.choices(range(23, 27), k=DIFFERENT_WIDTHS)]
    for group, scales in (("scale", unhalved), ("scale-halved", halved)):
        firsts = rng.sample([0, 255] * (DIFFERENT_WIDTHS // 2), DIFFERENT_WIDTHS)
        lists = (scales, firsts, *(rng.randbytes(DIFFERENT_WIDTHS) for _ in range(3)))
        work.lines.append(f"scale {group} {group} 1 " + " ".join(",".join(map(str, one)) for one in lists))


def published_jobs(work, rng, published):
    """Published files as they are: the check, and the first, middle and last page with a width table for their fonts."""
    for name, data in published.items():
        units, fonts, pages = published_pages(data)
        file = work.keep(name, data)
        work.lines.append(f"check published {name} {len(data)} {file}")
        unnamed = table_for(rng, fonts.values(), unit_of(units, RESOLUTION))
        tables = {"": work.keep(f"{name}.widths", unnamed)}
        for naming, is_named in NAMINGS.items():
            tables[f"-{naming}"] = work.keep(f"{name}.{naming}.widths", with_names(unnamed, fonts.values(), is_named))
        for page in sorted({1, (len(pages) + 1) // 2, len(pages)}):
            for ending, table in tables.items():
                work.lines.append(f"place published {name}-{page}{ending} {len(data)} {file} {table} {RESOLUTION} {page}")
        for which in ("all", "odd", "one"):
            work.cut("published", f"{name}-{which}", [file], which)


def published_page_jobs(work, published, count):
    """The fullest page of each of the largest published files, as `published_jobs` kept them, by a table for any names, by one of own names and by one of
    both. The size is the file's: placing judges it whole."""
    for ending, table in (("", "widths"), *((f"-{naming}", f"{naming}.widths") for naming in NAMINGS)):
        for name, data in sorted(published.items(), key=lambda item: -len(item[1]))[:count]:
            _, _, pages = published_pages(data)
            fullest = max(range(len(pages)), key=lambda index: sum(map(len, pages[index][1])))
            title = name.removesuffix(".dvi") + ending
            work.lines.append(f"place published-pages{ending} {title} {len(data)} {name} {name}.{table} {RESOLUTION} {fullest + 1}")


def published_cut_jobs(work, published, count):
    """The odd pages of the largest published files, as `published_jobs` kept them."""
    for name, _ in sorted(published.items(), key=lambda item: -len(item[1]))[:count]:
        work.cut("published-odd", name.removesuffix(".dvi"), [name], "odd")


def font_jobs(work, rng, sizes):
    """PK fonts that grow: by what stands between packets, by the number of packets, by their rasters, which are passed over."""
    for size in sizes:
        kib = size // 1024
        few = b"".join(short_packet(rng, code, 20) for code in rng.sample(range(CODES), 16))
        room = size - len(pk.font(few))
        work.widths("pk-no-ops", f"pk-no-ops-{kib}K", [pk.font(few, pk.NOTHING * room)])
        work.widths("pk-specials", f"pk-specials-{kib}K", [pk.font(few, pk.special(b"") * (room // 2))])
        alike = max(1, DIFFERENT_BYTES // size)
        work.widths("pk-mixed", f"pk-mixed-{kib}K", [pk.font(few, mixed_commands(rng, room)) for _ in range(alike)])
        work.widths("pk-raster", f"pk-raster-{kib}K", [pk.font(packets_with_raster(rng, size))])
    for count in steps(1, CODES, 4):
        work.widths("pk-packets", f"pk-packets-{count}", [pk.font(packets_of_all_forms(rng, count)) for _ in range(DIFFERENT_PACKETS // count)], count)


def real_font_jobs(work, fonts):
    for name, data in fonts.items():
        work.widths("pk-fonts", name, [data])


def is_quick(line):
    """Whether a work is in the short form: one size or two of each group."""
    _, group, name, *_ = line.split()
    return group.startswith("published-") or group in ("scale", "scale-halved", "pk-fonts") or name.removeprefix(group) in QUICK


def main():
    published_folder, fonts_folder, out = map(Path, sys.argv[1:])
    published = {path.name: path.read_bytes() for path in sorted(published_folder.glob("*.dvi"))}
    fonts = {path.name.removesuffix("pk"): path.read_bytes() for path in sorted(fonts_folder.glob("*pk"))}
    work, rng = Work(out), random.Random(SEED)
    published_jobs(work, rng, published)
    work.manifest("published", work.lines)
    work.lines = []
    check_jobs(work, rng, published.values(), list(steps(1 << 16, LONGEST_FILE, 4)))
    page_count_jobs(work, [*steps(64, 4096, 8), MOST_PAGES])
    definition_jobs(work, list(steps(1, MOST_FONTS, 4)))
    place_jobs(work, rng, list(steps(100, 100_000, 10)))
    one_key_jobs(work, random.Random(SEED), list(steps(100, 100_000, 10)))  # numbers of their own, so that the works after them keep their bytes
    level_jobs(work, random.Random(SEED), list(steps(100, 100_000, 10)))  # these too
    published_page_jobs(work, published, 6)
    scale_jobs(work, random.Random(SEED))
    table_jobs(work, list(steps(16, 65_536, 4)))
    form_jobs(work, list(steps(16, 65_536, 4)))
    font_jobs(work, rng, list(steps(1 << 16, LONGEST_FILE, 4)))
    real_font_jobs(work, {name: fonts[name] for name in REAL_FONTS})
    cut_jobs(work, rng, list(steps(4, MOST_FONTS, 4)))
    published_cut_jobs(work, published, 6)
    work.manifest("quick", filter(is_quick, work.lines))
    work.manifest("full", work.lines)


if __name__ == "__main__":
    main()
