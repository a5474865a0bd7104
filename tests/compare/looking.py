"""Width tables as document 02 has them: what the questions `table`, `look`, `widen` and `narrow` must answer, whatever the table, and what a font
of a page finds there.

Written for the tests alone, from documents 01 and 02; neither program under test is used here. `tests/wrong_sides` puts one wrong rule each
in the place of these.
"""

import functools
import re

import dvi
from tables import ANY, LONGEST_TABLE, NAME, NEW, OLD, records_of, sayable
from tabling import DIGITS, LONGEST_AREA, Refused, contents

SIGNED = re.compile(rb"-?[0-9]+\Z")
SPELLED = re.compile(rb"(?:-|(?:[0-9a-f]{2}){1,255})\Z")


class Looking:
    """The rules. A page's font is one of `file`, where there is one."""

    def __init__(self, file=b""):
        self.file = file

    # ---- a table: 14

    def judge(self, table, form=NEW):
        before = b""
        for at, record in enumerate(records_of(table, form)):
            if len(record) < form.size or not self.lawful(record, form) or not self.rises(before, record, form):
                raise Refused(14, self.place_of(at, form))
            before = record

    def place_of(self, index, form):
        return index * form.size

    def lawful(self, record, form):
        code = 8 + form.name
        scale, first = dvi.unsigned(record[4:8]), record[code + 4]
        return 1 <= scale <= dvi.GREATEST_SCALE and self.lawful_name(record[8:code]) and record[code + 1] == 0 and first in (0, 255)

    def lawful_name(self, name):
        """No zero before a byte that is none."""
        return 0 not in name.rstrip(b"\0")

    def rises(self, before, record, form):
        return before[: form.key] < record[: form.key]

    # ---- what a font finds

    def name_of(self, font):
        """The name by which a font of a page looks its characters up."""
        return font.name

    def sought(self, name):
        """What stands in the records that have this name, or what stands there for any."""
        return name.ljust(NAME, b"\0") if self.sayable(name) else ANY

    def sayable(self, name):
        return sayable(name)

    def found(self, widths, check_sum, scale, name, code):
        """Escapement and fix word, or None; `widths` is what `widths_of` gives."""
        for one in self.tried(widths, check_sum, scale, self.sought(name)):
            if (key := (check_sum, scale, one, code % 256)) in widths:
                return widths[key]
        return None

    def tried(self, widths, check_sum, scale, own):
        """The names to be tried, in their order."""
        return own, ANY

    # ---- from one form to the other

    def widened(self, table, area):
        self.judge(table, OLD)
        self.judge_area(table, OLD, NEW, area)
        return [record[:8] + ANY + record[8:] for record in records_of(table, OLD)]

    def narrowed(self, table, area):
        self.judge_narrow(table, area)
        return [record[:8] + record[8 + NAME :] for record in records_of(table)]

    def judge_narrow(self, table, area):
        self.judge(table)
        self.judge_names(table)
        self.judge_area(table, NEW, OLD, area)

    def judge_names(self, table):
        for at, record in enumerate(records_of(table)):
            if record[8 : 8 + NAME] != ANY:
                raise Refused(24, self.place_of(at, NEW))

    def judge_area(self, table, form, other, area):
        if len(records_of(table, form)) * other.size > area:
            raise Refused(17, 0)


@functools.lru_cache(8)
def widths_of(table):
    """Escapement and fix word by check sum, scale, the name's sixteen bytes and code. A record that is cut, which wrong rules may let pass, is none."""
    rows = [row for row in records_of(table) if len(row) == NEW.size]
    return {(dvi.unsigned(row[:4]), dvi.unsigned(row[4:8]), row[8:24], row[24]): (dvi.signed(row[26:28]), row[28:]) for row in rows}


def answered(work):
    """The rows that this gives, or those of its refusal."""
    try:
        return work()
    except Refused as refused:
        return [["refused", refused.args[0], "at", refused.args[1]]]


def listed(records):
    return [*([record.hex()] for record in records), ["end", len(records)]]


def table_answer(table, looking=Looking):
    def work():
        looking().judge(table)
        return [["right", len(records_of(table))]]
    return answered(work)


def look_answer(table, check_sum, scale, name, code, looking=Looking):
    def work():
        rules = looking()
        rules.judge(table)
        found = rules.found(widths_of(table), check_sum, scale, name, code)
        return [["absent"]] if found is None else [["found", found[0], *found[1]]]
    return answered(work)


def widen_answer(table, area=LONGEST_AREA, looking=Looking):
    return answered(lambda: listed(looking().widened(table, area)))


def narrow_answer(table, area=LONGEST_AREA, looking=Looking):
    return answered(lambda: listed(looking().narrowed(table, area)))


def spelled(name):
    """A name as a line has it."""
    return name.hex().encode() or b"-"


def answered_line(line, looking=Looking):
    """The rows that a line which begins with one of the four words must be answered with."""
    word, *words = line.split(b" ")
    numbers = []
    for at, (form, least, most) in enumerate(NUMBERS[word], 1):
        if at >= len(words) or not form.match(words[at]):
            return NO_INPUT
        if form is not SPELLED and not least <= int(words[at]) <= most:
            return NO_INPUT
        numbers.append(bytes.fromhex(words[at].decode().strip("-")) if form is SPELLED else int(words[at]))
    table = contents(words[0], LONGEST_TABLE) if len(words) == 1 + len(numbers) else None
    return NO_INPUT if table is None else ANSWERS[word](table, *numbers, looking=looking)


NO_INPUT = [["no", "input"]]
WORD = (DIGITS, 0, (1 << 32) - 1)
AREA = (DIGITS, 0, LONGEST_AREA)
# What stands behind the table on the lines of these questions.
NUMBERS = {b"table": (), b"look": (WORD, WORD, (SPELLED, 0, 0), (SIGNED, -1 << 31, (1 << 31) - 1)), b"widen": (AREA,), b"narrow": (AREA,)}
ANSWERS = {b"table": table_answer, b"look": look_answer, b"widen": widen_answer, b"narrow": narrow_answer}
