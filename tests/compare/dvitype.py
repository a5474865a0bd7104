"""DVItype as a third witness: where it puts every character and every rule of a file.

DVItype's h and v follow the same rules as document 01's, so all of them are compared. Its hh and vv do not quite: its bounds of near
and far are other fractions of the font's size. A set_rule moves hh as document 02 has it (Ask 2), by the width rounded up, near or far; but
DVItype multiplies by a float, so where K times the width is whole it may round up to one more. So hh and vv are compared only while they
cannot have been touched by that: `Witness` follows them through every move. (Both have the drift D = 2 from R 200 on.)
"""

import functools
import pathlib
import re
import subprocess
import tempfile
from fractions import Fraction

import dvi
from made_up import LONGEST_FILE, WHOLE_AREA, place, unit_of
from published import units_of
from tables import MOST_RECORDS, record

MOST_IN_AREA = WHOLE_AREA // 20

COMMAND = re.compile(r"(\d+): ([a-z]+)(\d*)(.*)")
LEVEL = re.compile(r"level (\d+):\(h=(-?\d+),v=(-?\d+),.*,hh=(-?\d+),vv=(-?\d+)\)")
MOVE = re.compile(r" ([hv]):=-?\d+([+-]\d+)=(-?\d+), (?:hh|vv):=(-?\d+)")
RULE = re.compile(r" height (-?\d+), width (-?\d+) (?:\((\d+)x(\d+) pixels\)|\(invisible\))")
CODE = re.compile(r" (-?\d+)")
INVALID = " invalid in font "
OVERFLOW = " arithmetic overflow! parameter changed "
POSTAMBLE = re.compile(r"Postamble starts at byte (\d+)\.")
TOTALS = re.compile(r"maxv=-?\d+, maxh=-?\d+, maxstackdepth=(\d+), totalpages=(\d+)")
# Where a check sum is not that of the TFM file, DVItype says so in between, and this stands on a line of its own.
LOADED = re.compile(r"(?:Font \d+: .*| *)---loaded at size \d+ DVI units")


class NoWitness(Exception):
    """Why DVItype cannot be asked about a file."""


class Mark:
    """A character or a rule: `value` and `other` are code and None, or height and width; hh and vv are None where DVItype's need not
    be ours; `sides` are a rule's height and width in pixels."""

    def __init__(self, kind, font, h, v, value, other=None, hh=None, vv=None, sides=None):
        self.kind, self.font, self.h, self.v, self.value, self.other = kind, font, h, v, value, other
        self.hh, self.vv, self.sides = hh, vv, sides


class Page:
    """`overflow` is the place of the first command that would take h or v out of their range, which is DVItype's range too. DVItype then
    goes on with another parameter; what it says of the rest of the page is left aside."""

    def __init__(self):
        self.marks, self.specials, self.missing, self.overflow = [], 0, 0, None


def near_there_and_here(direction, n, scale):
    """Whether a move is near for DVItype, and whether it is for document 01."""
    space = scale // 6
    if direction == "h":
        return -4 * space < n < space, 5 * n < scale if n >= 0 else 10 * -n < 9 * scale
    return abs(n) < 5 * space, 5 * abs(n) < 4 * scale


class Witness:
    """Reads what DVItype prints, line by line."""

    def __init__(self, scales, unit):
        self.scales, self.unit = scales, unit  # scales by font number; K at the resolution asked
        self.pages, self.widths = [], {}  # widths by font number and code mod 256, as DVItype adds them to h
        self.post = self.stated_depth = self.page_count = None
        self.font_count = self.depth = 0
        self.begin()

    def begin(self):
        self.at, self.pixels, self.same = {"h": 0, "v": 0}, {"h": 0, "v": 0}, {"h": True, "v": True}
        self.saved, self.font, self.last, self.set_code, self.place = [], None, "", None, 0

    def read(self, text):
        for line in text.split("\n"):
            if "beginning of page" in line:
                self.pages.append(Page())
                self.begin()
            elif level := LEVEL.match(line):
                self.at = {"h": int(level[2]), "v": int(level[3])}
                self.pixels = {"h": int(level[4]), "v": int(level[5])}
                if self.last == "push":
                    # Not DVItype's maxstackdepth, which is the s that the file states and may be above the depth: its own count of the levels.
                    # Behind a push it names the level that was saved, the outermost 0.
                    self.depth = max(self.depth, int(level[1]) + 1)
            elif not self.pages:
                self.heading(line)
            elif not line.startswith("["):  # a line with a bracket repeats the text set
                if command := COMMAND.match(line):
                    self.place = int(command[1])
                    self.command(*command.groups()[1:])
                if self.last != "xxx" and OVERFLOW in line and self.pages[-1].overflow is None:
                    self.pages[-1].overflow = self.place
                if self.last != "xxx" and (move := MOVE.search(line)):  # a special may say anything
                    self.move(move[1], int(move[2]), int(move[3]), int(move[4]))
        return self

    def heading(self, line):
        """What stands before the first page is about the whole file."""
        if found := POSTAMBLE.match(line):
            self.post = int(found[1])
        elif found := TOTALS.match(line):
            self.stated_depth, self.page_count = int(found[1]), int(found[2])
        elif LOADED.match(line):
            self.font_count += 1

    def command(self, name, digits, rest):
        self.last, self.set_code = name, None
        if name in ("setchar", "set", "put"):
            code = int(digits) if name == "setchar" else int(CODE.match(rest)[1])
            if INVALID in rest:
                self.pages[-1].missing += 1
            else:
                self.mark("c", self.font, code)
                self.set_code = code % 256 if name != "put" else None
        elif name in ("setrule", "putrule"):
            height, width, high, wide = RULE.match(rest).groups()
            if high:
                self.mark("r", 0, int(height), int(width), (int(high), int(wide)))
        elif name in ("fntnum", "fnt"):
            self.font = int(digits) if name == "fntnum" else int(CODE.match(rest)[1])
        elif name == "push":
            self.saved.append(dict(self.same))
        elif name == "pop":
            self.same = self.saved.pop()
        elif name == "xxx":
            self.pages[-1].specials += 1

    def mark(self, kind, font, value, other=None, sides=None):
        pixels = [self.pixels[way] if self.same[way] else None for way in "hv"]
        self.pages[-1].marks.append(Mark(kind, font, self.at["h"], self.at["v"], value, other, *pixels, sides))

    def move(self, way, n, to, pixel):
        self.at[way], self.pixels[way] = to, pixel
        if self.last in ("setchar", "set"):
            if self.set_code is not None and self.pages[-1].overflow is None:
                self.widths[self.font, self.set_code] = n
        else:
            there, here = near_there_and_here(way, n, self.scales.get(self.font, 0))
            if self.last == "setrule":
                self.same[way] &= n == 0 or not whole(self.unit * n)  # else both went on by the same pixels, as far as D lets them
            elif there != here:
                self.same[way] = False
            elif not there:
                self.same[way] = True  # both took the rounded new h or v


def whole(x):
    """Whether what DVItype's float makes of this number can be a little more, and be rounded up to one more."""
    return x.denominator == 1


def said(path, resolution):
    """What DVItype prints about a file at this resolution."""
    command = ["dvitype", "-output-level=4", f"-dpi={resolution}", str(path)]
    done = subprocess.run(command, stdin=subprocess.DEVNULL, capture_output=True, timeout=600, check=False)
    if done.returncode:
        raise NoWitness("DVItype gives up: " + done.stderr.decode(errors="replace").strip()[-100:])
    return done.stdout.decode("latin-1")


def typed(path, scales, unit, resolution):
    """What DVItype says of a file at this resolution, where K is this."""
    return Witness(scales, unit).read(said(path, resolution))


def half(n):
    """n/2 rounded as document 01 rounds."""
    return (abs(n) + 1) // 2 * (1 if n >= 0 else -1)


def rounded(x):
    return (abs(x) + Fraction(1, 2)).__floor__() * (1 if x >= 0 else -1)


def in_range(unit):
    """Whether K is one that refusal 13 does not meet."""
    return unit.numerator <= 1_073_741_823 and 2 * unit.numerator <= unit.denominator


@functools.cache
def metrics(name):
    """The fix words by code of a font's TFM file, or None if there is no such file here."""
    if not re.fullmatch(rb"[-\w.]+", name):
        return None
    found = subprocess.run(["kpsewhich", name.decode() + ".tfm"], capture_output=True, text=True, check=False).stdout.strip()
    return fix_words(pathlib.Path(found).read_bytes()) if found else None


def fix_words(tfm):
    header, first, last = (dvi.unsigned(tfm[at : at + 2]) for at in (2, 4, 6))
    infos = 24 + 4 * header
    widths = infos + 4 * (last - first + 1)
    indices = {code: tfm[infos + 4 * (code - first)] for code in range(first, last + 1)}
    return {code: tfm[widths + 4 * index : widths + 4 * index + 4] for code, index in indices.items() if index}


def true_widths(fonts, used=None):
    """The fix words of the fonts' characters by check sum, scale and code, from their TFM files; of those used alone, if told which."""
    rows = {}
    for font in fonts:
        words = None if font.area else metrics(font.name)
        if words is None:
            raise NoWitness("the TFM files of its fonts are not all at hand")
        for code, word in words.items():
            if used is None or (font.number, code) in used:
                if rows.setdefault((font.check_sum, font.scale, code), word) != word:
                    raise NoWitness("two of its fonts are one to a width table")
    return rows


def table_of(rows, stated):
    """A width table with these fix words and these escapements, both by check sum, scale and code."""
    return b"".join(record(*key, stated[key], word) for key, word in sorted(rows.items()))


def pixel_widths(rows, unit):
    """The fix words as whole pixels, by the same keys; the last bit of TeX's scaling does not matter for this."""
    fixes = {key: int.from_bytes(word, "big", signed=True) * key[1] >> 20 for key, word in rows.items()}
    return {key: max(-32768, min(32767, rounded(unit * fix))) for key, fix in fixes.items()}


# h and v in whole. With K = 1/2 and R below 100 (so D is 0) a record's hh is h/2 rounded and vv is v/2 rounded, whatever the escapements
# are. A second file, with all that stands on its pages moved by 1 to the right and down, tells the half that the first one rounds away.
HALF_UNITS = (2540, 1, 1000)
HALF_RESOLUTION = 50
SHIFT = dvi.right(1) + dvi.down(1)


def halved(data, shift):
    """The file in these units, with moves by 1 at the start of each page if shifted."""
    commands, tail = dvi.commands_of(data)
    commands[0] = commands[0][:2] + b"".join(dvi.big(n, 4) for n in HALF_UNITS) + commands[0][14:]
    moves = [SHIFT] if shift else []
    return b"".join(dvi.mended([c for command in commands for c in (command, *(moves if command[0] == dvi.BOP else []))])) + tail


def unlike(answer, rows):
    """The first row in which an answer is not what the witness said, or None."""
    text = answer.decode(errors="replace")
    if text == "\n".join([" ".join(map(str, row)) for row in rows]):
        return None  # the quick way, where nothing is left open
    given = text.split("\n")
    for at in range(max(len(given), len(rows))):
        fields = given[at].split(" ") if at < len(given) else []
        wanted = rows[at] if at < len(rows) else []
        if len(fields) != len(wanted) or any(b is not None and a != str(b) for a, b in zip(fields, wanted)):
            return f"row {at + 1}: {' '.join(fields) or '(none)'}, but it must be: {' '.join('?' if b is None else str(b) for b in wanted) or '(none)'}"
    return None


class Testimony:
    """What DVItype says of a file: how many pages and fonts, the depth reached and the place of *post*; widths; pages with h and v, and for
    each R the pages with hh, vv and sides in pixels."""

    def __init__(self, data, rows, volume, widths, pages, placed):
        self.data, self.rows, self.volume, self.widths, self.pages, self.placed = data, rows, volume, widths, pages, placed
        commands, _ = dvi.commands_of(data)
        self.fonts = {font.number: font for font in dvi.fonts_of(commands)}
        self.units = tuple(dvi.signed(commands[0][start : start + 4]) for start in (2, 6, 10))

    def escapements(self, resolution):
        """DVItype's pixel widths by the fields of a width record: K times the width that it adds to h, rounded. A character that is never
        set has 0."""
        unit = unit_of(self.units, resolution)
        stated = dict.fromkeys(self.rows, 0)
        for (number, code), width in self.widths.items():
            font = self.fonts[number]
            stated[font.check_sum, font.scale, code] = rounded(unit * width)
        return stated

    def ask(self, group, refusable=False):
        """Asks for every page, with what is to be answered. Gives how many marks have h and v compared, and how many hh and vv are."""
        line = b"check %s" % group.keep(self.data)
        group.ask(line)
        group.expect(line, [["accepted", *self.volume]], refusable)
        for (number, code), width in self.widths.items():
            font = self.fonts[number]
            line = b"scale %d %d %d %d %d" % (font.scale, *self.rows[font.check_sum, font.scale, code])
            group.ask(line)
            group.expect(line, [["width", width]])
        stated = dict.fromkeys(self.rows, -77)  # escapements do not count where D is 0
        table = group.keep(table_of(self.rows, stated))
        for shift in (0, 1):
            file = group.keep(halved(self.data, shift))
            for number, page in enumerate(self.pages, 1):
                line = place(file, table, HALF_RESOLUTION, number)
                group.ask(line)
                group.expect(line, self.expected(page, number, stated, lambda mark: [half(mark.h + shift), half(mark.v + shift)],
                                                 lambda mark: [(mark.value + 1) // 2, (mark.other + 1) // 2], len(SHIFT) * shift * number),
                             refusable)
        file, pixels = group.keep(self.data), 0
        for resolution, pages in self.placed.items():
            stated, unit = self.escapements(resolution), unit_of(self.units, resolution)
            if not in_range(unit) or any(not -32768 <= width <= 32767 for width in stated.values()):
                continue

            def sides(mark):
                return [None if whole(unit * n) else pixels for n, pixels in zip((mark.value, mark.other), mark.sides)]

            table = group.keep(table_of(self.rows, stated))
            for number, page in enumerate(pages, 1):
                line = place(file, table, resolution, number)
                group.ask(line)
                group.expect(line, self.expected(page, number, stated, lambda mark: [mark.hh, mark.vv], sides), refusable)
                pixels += sum((mark.hh is not None) + (mark.vv is not None) for mark in page.marks)
        return sum(len(page.marks) for page in self.pages), pixels

    def expected(self, page, number, stated, pixels, sides, added=0):
        """The whole answer as rows of fields, None for a field that DVItype does not tell. `added` bytes stand before what is on the page
        that the file DVItype read does not have."""
        if page.overflow is not None:
            return [["refused", 16, "at", page.overflow + added]]
        if len(page.marks) > MOST_IN_AREA:
            return [["refused", 17, "at", 0]]
        rows = []
        for mark in page.marks:
            if mark.kind == "c":
                font = self.fonts[mark.font]
                last = [mark.value, stated[font.check_sum, font.scale, mark.value % 256]]
            else:
                last = sides(mark)
            rows.append([mark.kind, number, mark.font, *pixels(mark), *last])
        return rows + [["end", len(rows), page.missing, page.specials]]


def hear(data, resolutions, used_alone=False):
    """DVItype's testimony about a file. NoWitness if it gives none."""
    if len(data) > LONGEST_FILE:
        raise NoWitness("it is longer than the desk holds")
    commands, _ = dvi.commands_of(data)
    fonts = dvi.fonts_of(commands)
    if not commands or commands[0][0] != dvi.PRE or dvi.page_count(commands) == 0:
        raise NoWitness("it is no DVI file")
    if len(halved(data, 1)) > LONGEST_FILE:
        raise NoWitness("it is longer than the desk holds")
    scales, units = {font.number: font.scale for font in fonts}, units_of(commands)
    with tempfile.TemporaryDirectory() as folder:
        path = pathlib.Path(folder) / "typed.dvi"  # DVItype wants this ending
        path.write_bytes(data)
        heard = {resolution: typed(path, scales, unit_of(units, resolution), resolution) for resolution in resolutions}
    first = next(iter(heard.values()))
    if len(first.pages) != dvi.page_count(commands):
        raise NoWitness("DVItype does not read all its pages")
    if first.depth > first.stated_depth:
        raise NoWitness("it goes deeper than it states")
    used = {(mark.font, mark.value % 256) for page in first.pages for mark in page.marks if mark.kind == "c"}
    rows = None if used_alone else true_widths(fonts)
    if rows is None or len(rows) > MOST_RECORDS:
        rows = true_widths(fonts, used)
    if len(rows) > MOST_RECORDS:
        raise NoWitness("its characters are more than a width table holds")
    volume = (first.page_count, first.font_count, first.depth, first.post)
    return Testimony(data, rows, volume, first.widths, first.pages, {resolution: one.pages for resolution, one in heard.items()})
