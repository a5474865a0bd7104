"""Placing as the rules have it, in exact numbers: what a page of an accepted file must give with a right width table. `looking.py` has the rules
for the table.

Written for the tests alone, from documents 01 and 02; neither program under test is used here. `tests/wrong_sides` puts one wrong rule
each in the place of these.
"""

import functools
from fractions import Fraction

import dvi
from looking import Looking, widths_of
from tabling import Refused

PLACED = 20  # bytes of a record
BOTH_RULES = (dvi.SET_RULE, dvi.PUT_RULE)
# The first opcode of each move, the way that it goes, and the register that keeps its distance.
MOVES = ((dvi.Z0, "v", "z"), (dvi.Y0, "v", "y"), (dvi.DOWN1, "v", None), (dvi.X0, "h", "x"), (dvi.W0, "h", "w"), (dvi.RIGHT1, "h", None))


class OutOfRange(Exception):
    """Refusal 16."""


def halved(scale, bound=1 << 23):
    """The scale, halved until it is below the bound, and 16, doubled as often."""
    z, alpha = scale, 16
    while z >= bound:
        z, alpha = z // 2, 2 * alpha
    return z, alpha


def scaled(word, scale):
    """A fix word at this scale, as TeX multiplies."""
    z, alpha = halved(scale)
    b0, b1, b2, b3 = word
    return ((b3 * z // 256 + b2 * z) // 256 + b1 * z) // (256 // alpha) - (alpha * z if b0 == 255 else 0)


class Placing:
    """A page's numbers on their way through its commands: `at` has h, v, w, x, y, z and the pixels hh and vv by their names."""

    def __init__(self, units, resolution):
        num, den, mag = units
        self.over, self.under = Fraction(num * mag * resolution, den * 254_000_000).as_integer_ratio()  # K
        self.drift = 2 if resolution >= 200 else 1 if resolution >= 100 else 0
        self.at, self.saved, self.scale = dict.fromkeys(("h", "v", "w", "x", "y", "z", "hh", "vv"), 0), [], 0

    scaled = staticmethod(scaled)  # one of the rules that a wrong one can take the place of

    def select(self, scale):
        """A font of this scale is current from here on; *push* and *pop* leave it alone."""
        self.scale = scale

    def width(self, word):
        """How far a character of the current font with this fix word moves h."""
        return self.scaled(word, self.scale)

    def nearest(self, n):
        """K times n, rounded; a half goes away from 0."""
        whole = (2 * self.over * abs(n) + self.under) // (2 * self.under)
        return whole if n >= 0 else -whole

    def upwards(self, n):
        """K times n, rounded up."""
        return -(-self.over * n // self.under)

    def near(self, way, n):
        if way == "v":
            return 5 * abs(n) < 4 * self.scale
        return 5 * n < self.scale if n >= 0 else 10 * -n < 9 * self.scale

    def carry(self, way, n, pixel=None):
        """The position moves by n, the pixel to the one given, or else to the position; D holds it."""
        self.at[way] += n
        if abs(self.at[way]) > dvi.FURTHEST:
            raise OutOfRange
        there = self.nearest(self.at[way])
        self.at[2 * way] = there if pixel is None else max(there - self.drift, min(there + self.drift, pixel))

    def move(self, way, n):
        """A move over space."""
        self.carry(way, n, self.at[2 * way] + self.nearest(n) if self.near(way, n) else None)

    def bar(self, n):
        """The move of a rule that is set."""
        self.carry("h", n, self.at["hh"] + self.upwards(n))


@functools.lru_cache(8)
def pages_of(file):
    """Units; fonts by number; of each page the commands with their places."""
    commands, _ = dvi.commands_of(file)
    pages = []
    for command, place in zip(commands, dvi.places_of(commands)):
        if command[0] == dvi.BOP:
            pages.append([])
        elif pages:
            pages[-1].append((command, place))
    return [dvi.signed(file[at : at + 4]) for at in (2, 6, 10)], {font.number: font for font in dvi.fonts_of(commands)}, pages


def placed(file, table, resolution, number, rules=Placing, looking=Looking):
    """The rows that placing this page must answer, where the area is long enough."""
    units, fonts, pages = pages_of(file)
    widths, state, font, rows, missing, specials = widths_of(table), rules(units, resolution), None, [], 0, 0
    look_up = looking(file)
    for command, place in pages[number - 1]:
        opcode = command[0]
        at = state.at
        try:
            if opcode == dvi.EOP:
                break
            if opcode in BOTH_RULES:
                height, width = dvi.signed(command[1:5]), dvi.signed(command[5:9])
                if height > 0 and width > 0:
                    rows.append(["r", number, 0, at["hh"], at["vv"], state.upwards(height), state.upwards(width)])
                if opcode == dvi.SET_RULE:
                    state.bar(width)
            elif opcode < dvi.PUT_RULE:
                code = opcode if opcode < dvi.SET1 else dvi.signed(command[1:]) if len(command) == 5 else dvi.unsigned(command[1:])
                found = look_up.found(widths, font.check_sum, font.scale, look_up.name_of(font), code)
                if found is None:
                    missing += 1
                else:
                    rows.append(["c", number, font.number, at["hh"], at["vv"], code, found[0]])
                    if opcode < dvi.SET_RULE:
                        state.carry("h", state.width(found[1]), at["hh"] + found[0])
            elif opcode == dvi.PUSH:
                state.saved.append(dict(at))
            elif opcode == dvi.POP:
                state.at = state.saved.pop()
            elif dvi.RIGHT1 <= opcode < dvi.FNT_NUM_0:
                way, register = next(move[1:] for move in MOVES if opcode >= move[0])
                distance = dvi.signed(command[1:]) if len(command) > 1 else at[register]
                if register:
                    at[register] = distance
                state.move(way, distance)
            elif dvi.FNT_NUM_0 <= opcode < dvi.XXX1:
                font = fonts[dvi.unsigned(command[1:]) if len(command) > 1 else opcode - dvi.FNT_NUM_0]
                state.select(font.scale)
            elif dvi.XXX1 <= opcode < dvi.FNT_DEF1:
                specials += 1
        except OutOfRange:
            return [["refused", 16, "at", place]]
    return [*rows, ["end", len(rows), missing, specials]]


def place_answer(file, table, resolution, number, area, rules=Placing, looking=Looking):
    """The rows that placing must answer, of an accepted file and a resolution at which its units are in range."""
    try:
        looking(file).judge(table)
    except Refused as refused:
        return [["refused", refused.args[0], "at", refused.args[1]]]
    if not 1 <= number <= len(pages_of(file)[2]):
        return [["refused", 15, "at", 0]]
    rows = placed(file, table, resolution, number, rules, looking)
    return [["refused", 17, "at", 0]] if PLACED * (len(rows) - 1) > area else rows
