"""Files of chosen pages as document 02 has them: what the question `cut` must answer about a file that the check accepts, whatever the list and
the area.

Written for the tests alone, from document 02; neither program under test is used here. `tests/wrong_sides` puts one wrong rule each in the
place of these.
"""

import functools

import dvi
from tabling import DIGITS, Refused

LONGEST_FILE, LONGEST_AREA = 262_144, 262_144  # what the desk holds
LONGEST_LINE, MOST_PAGES = 16_384, 1_000
BYTES_A_ROW = 32
DEFINITIONS = range(dvi.FNT_DEF1, dvi.PRE)


class Listed:
    """The commands of an accepted file up to *post_post*: those of each page, *bop* first; those outside of pages; those from *post* on; and the
    definitions before *post*, wherever they stand."""

    def __init__(self, file):
        self.outside, self.pages, self.last, self.definitions = [], [], [], []
        here = self.outside
        for command in dvi.commands_of(file)[0]:
            if command[0] == dvi.BOP:
                self.pages.append([])
                here = self.pages[-1]
            elif command[0] == dvi.POST:
                here = self.last
            here.append(command)
            if command[0] == dvi.EOP:
                here = self.outside
            elif command[0] in DEFINITIONS and here is not self.last:
                self.definitions.append(command)


listed = functools.lru_cache(4)(Listed)


class Cutting:
    """One question on its way."""

    def __init__(self, file, pages, area):
        self.file, self.pages, self.area, self.old = file, pages, area, listed(file)

    def answer(self):
        """The answer's rows."""
        try:
            self.judge()
        except Refused as refused:
            return [["refused", refused.args[0], "at", refused.args[1]]]
        return rows_of(self.new_file)

    def judge(self):
        self.judge_list()
        self.judge_area()

    def judge_list(self):
        if not self.pages or not self.rising() or self.pages[0] < 1 or self.pages[-1] > len(self.old.pages):
            raise Refused(23, 0)

    def rising(self):
        return all(a < b for a, b in zip(self.pages, self.pages[1:]))

    def judge_area(self):
        if len(self.new_file) > self.area:
            raise Refused(17, 0)

    @functools.cached_property
    def new_file(self):
        data = b"".join(self.mended(self.commands()))
        return data + bytes([dvi.TAIL]) * self.fill(len(data))

    def fill(self, length):
        """So many 223s, four at least, that a multiple of four comes out."""
        return 4 + -length % 4

    def commands(self):
        """The new file's, its pointers and the numbers in *post* still to be mended."""
        pages = [command for number in self.pages for command in self.page(self.old.pages[number - 1])]
        return [self.old.outside[0], *self.definitions(), *pages, *self.postamble()]

    def definitions(self):
        """All before *post*, in their order."""
        return self.old.definitions

    def page(self, commands):
        """What stays of a chosen page."""
        return [command for command in commands if command[0] not in DEFINITIONS]

    def postamble(self):
        """*post* with no depth stated, definitions, *post_post*."""
        post, *rest = self.old.last
        return [post[:25] + bytes(4), *(command for command in rest if command[0] != dvi.NOP)]

    def mended(self, commands):
        """With pointers, greatest depth and number of pages as they are in the new file; l and u stay."""
        return dvi.mended(commands)


def rows_of(data):
    """A new file as the desk writes it."""
    return [*([data[at : at + BYTES_A_ROW].hex()] for at in range(0, len(data), BYTES_A_ROW)), ["end", len(data)]]


def answered(file, pages, area=LONGEST_AREA, rules=Cutting):
    return rules(file, list(pages), area).answer()


def new_file(file, pages):
    return Cutting(file, list(pages), LONGEST_AREA).new_file


def read_line(line):
    """The bytes of the file, the list and the area of a line that begins with `cut`, or None where it is no input."""
    words = line.split(b" ")
    if len(line) > LONGEST_LINE or not 3 <= len(words) <= 3 + MOST_PAGES or words[0] != b"cut" or not all(map(DIGITS.match, words[2:])):
        return None
    area, *pages = (int(word.lstrip(b"0") or b"0") for word in words[2:])  # of thousands of digits Python makes no number
    if area > LONGEST_AREA or any(page >= 1 << 32 for page in pages):
        return None
    try:
        with open(words[1], "rb") as file:
            data = file.read(LONGEST_FILE + 1)
    except (OSError, ValueError):
        return None
    return (data, pages, area) if len(data) <= LONGEST_FILE else None


def answered_line(line, rules=Cutting):
    """The rows that a line which begins with `cut` must be answered with, where its file is accepted."""
    read = read_line(line)
    return answered(*read, rules) if read else [["no", "input"]]
