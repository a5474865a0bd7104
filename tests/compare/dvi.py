"""DVI commands as bytes: writing them, walking over a file, mending its pointers.

Written for the tests alone, from appendix A; neither program under test is used here.
"""

SET1, SET_RULE, PUT1, PUT_RULE = 128, 132, 133, 137
NOP, BOP, EOP, PUSH, POP = 138, 139, 140, 141, 142
RIGHT1, W0, X0, DOWN1, Y0, Z0 = 143, 147, 152, 157, 161, 166
FNT_NUM_0, FNT1, XXX1, FNT_DEF1 = 171, 235, 239, 243
PRE, POST, POST_POST, TAIL = 247, 248, 249, 223

GREATEST_SCALE = 134_217_727
FURTHEST = 2_147_483_647
TEX_UNITS = (25_400_000, 473_628_672, 1000)
PLAIN_UNITS = (254, 1, 1000)  # K is R / 1000


def big(number, size):
    """The low `size` bytes of a number, negative or not, the greatest first."""
    return (number % 256**size).to_bytes(size, "big")


def unsigned(data):
    return int.from_bytes(data, "big")


def signed(data):
    return int.from_bytes(data, "big", signed=True)


def sized(first, number, size=None):
    """A command of the forms first (one byte) to first + 3 (four); the shortest signed form if no size is given."""
    if size is None:
        size = next(k for k in (1, 2, 3, 4) if -(256**k) // 2 <= number < 256**k // 2)
    return bytes([first + size - 1]) + big(number, size)


def right(number, size=None):
    return sized(RIGHT1, number, size)


def down(number, size=None):
    return sized(DOWN1, number, size)


def character(code, size=None, first=SET1):
    """A set (or, with first=PUT1, put) form; codes are unsigned but for four bytes."""
    if size is None:
        size = next(k for k in (1, 2, 3, 4) if k == 4 or 0 <= code < 256**k)
    return bytes([first + size - 1]) + big(code, size)


def rule(height, width, opcode=SET_RULE):
    return bytes([opcode]) + big(height, 4) + big(width, 4)


def special(data, size=1):
    return bytes([XXX1 + size - 1]) + big(len(data), size) + data


def select(number, size=0):
    """fnt_num where size is 0, else fnt1 to fnt4."""
    return bytes([FNT_NUM_0 + number]) if size == 0 else bytes([FNT1 + size - 1]) + big(number, size)


def any_select(rng, number):
    """One of the forms that can name this font."""
    return select(number, rng.choice([0, 1, 2, 3, 4] if number < 64 else [1, 2, 3, 4]))


PUSHED, POPPED, NOTHING = bytes([PUSH]), bytes([POP]), bytes([NOP])
MARK = rule(1, 1, PUT_RULE)  # a record that shows hh and vv and moves nothing


class Font:
    """A font definition."""

    def __init__(self, number, check_sum, scale, design=655_360, area=b"", name=b"cmr10"):
        self.number, self.check_sum, self.scale = number, check_sum, scale
        self.design, self.area, self.name = design, area, name

    def definition(self, size=1):
        lengths = bytes([len(self.area), len(self.name)])
        numbers = big(self.check_sum, 4) + big(self.scale, 4) + big(self.design, 4)
        return bytes([FNT_DEF1 + size - 1]) + big(self.number, size) + numbers + lengths + self.area + self.name

    @staticmethod
    def read(command):
        size = command[0] - FNT_DEF1 + 1
        rest = command[1 + size :]
        number = signed(command[1:5]) if size == 4 else unsigned(command[1 : 1 + size])
        split = 14 + rest[12]
        return Font(number, unsigned(rest[0:4]), unsigned(rest[4:8]), unsigned(rest[8:12]), rest[14:split], rest[split:])


def pre(units=TEX_UNITS, comment=b"", identification=2):
    return bytes([PRE, identification]) + b"".join(big(n, 4) for n in units) + bytes([len(comment)]) + comment


def bop(counts=(1, 0, 0, 0, 0, 0, 0, 0, 0, 0)):
    """Its pointer is set by `mended`."""
    return bytes([BOP]) + b"".join(big(n, 4) for n in counts) + big(0, 4)


def page(commands, counts=(1, 0, 0, 0, 0, 0, 0, 0, 0, 0)):
    return [bop(counts), *commands, bytes([EOP])]


def volume(units, body, fonts=(), comment=b"", tail=4, after=None, stated=0):
    """A whole file: *pre*, the body (pages and what stands between), *post*, definitions, *post_post*, tail.

    `after` are the commands between *post* and *post_post*; if none are given, the definitions of `fonts`. The s in *post* is `stated`,
    or the greatest depth where that is more.
    """
    repeated = [font.definition() for font in fonts] if after is None else list(after)
    post = bytes([POST]) + bytes(16) + big(1000, 4) + big(1000, 4) + big(stated, 2) + bytes(2)
    last = [bytes([POST_POST]) + bytes(4) + bytes([2]), bytes([TAIL]) * tail]
    return b"".join(mended([pre(units, comment), *body, post, *repeated, *last]))


def mended(commands):
    """The same commands with every pointer right, and num, den, mag, depth and page count in *post*. Where *post* states more than the
    greatest depth, which it may, that stays."""
    result, place, last_bop, post, units = [], 0, -1, 0, bytes(12)
    depth = deepest = pages = 0
    for command in commands:
        opcode = command[0] if command else TAIL
        if opcode == PRE and place == 0:
            units = command[2:14]
        elif opcode == BOP and len(command) == 45:
            command = command[:41] + big(last_bop, 4)
            last_bop, pages, depth = place, pages + 1, 0
        elif opcode == PUSH:
            depth += 1
            deepest = max(deepest, depth)
        elif opcode == POP:
            depth = max(depth - 1, 0)
        elif opcode == POST and len(command) == 29:
            post = place
            stated = max(deepest, unsigned(command[25:27]))
            command = bytes([POST]) + big(last_bop, 4) + units + command[17:25] + big(stated, 2) + big(pages, 2)
        elif opcode == POST_POST and len(command) == 6:
            command = bytes([POST_POST]) + big(post, 4) + command[5:]
        result.append(command)
        place += len(command)
    return result


def _fixed_lengths():
    lengths = [0] * 250
    for first in (SET1, PUT1, RIGHT1, W0 + 1, X0 + 1, DOWN1, Y0 + 1, Z0 + 1, FNT1, XXX1):
        for size in (1, 2, 3, 4):
            lengths[first + size - 1] = size
    for size in (1, 2, 3, 4):
        lengths[FNT_DEF1 + size - 1] = 14 + size
    lengths[SET_RULE] = lengths[PUT_RULE] = 8
    lengths[BOP], lengths[PRE], lengths[POST], lengths[POST_POST] = 44, 14, 28, 5
    return lengths


FIXED_LENGTHS = _fixed_lengths()


def command_end(file, at):
    """The place after the command at this place, or None where there is none that fits."""
    if at >= len(file) or file[at] >= 250:
        return None
    opcode = file[at]
    end = at + 1 + FIXED_LENGTHS[opcode]
    if end > len(file):
        return None
    if XXX1 <= opcode < FNT_DEF1:
        end += unsigned(file[at + 1 : end])
    elif FNT_DEF1 <= opcode < PRE:
        end += file[end - 2] + file[end - 1]
    elif opcode == PRE:
        end += file[end - 1]
    return end if end <= len(file) else None


def commands_of(file):
    """The commands from the front up to *post_post*, or up to where none fits; and the bytes left."""
    commands, at = [], 0
    while (end := command_end(file, at)) is not None:
        commands.append(file[at:end])
        at = end
        if commands[-1][0] == POST_POST:
            break
    return commands, file[at:]


def places_of(commands):
    """Where each command stands."""
    places, at = [], 0
    for command in commands:
        places.append(at)
        at += len(command)
    return places


def fonts_of(commands):
    """The fonts defined before *post*, as the file has them, each number once."""
    fonts = {}
    for command in commands:
        if command[0] == POST:
            break
        if FNT_DEF1 <= command[0] < PRE:
            font = Font.read(command)
            fonts.setdefault(font.number, font)
    return list(fonts.values())


def page_count(commands):
    return sum(1 for command in commands if command[0] == BOP)


def greatest_depth(commands):
    """The most pushes open at a time, whatever *post* states."""
    depth = deepest = 0
    for command in commands:
        depth += (command[0] == PUSH) - (command[0] == POP)
        deepest = max(deepest, depth)
    return deepest


def post_place(commands):
    return next(place for command, place in zip(commands, places_of(commands)) if command[0] == POST)


def summary(file):
    """What the check answers about a file that keeps the rules: pages, fonts, the depth reached, the place of *post*."""
    return summary_of(commands_of(file)[0])


def summary_of(commands):
    return [page_count(commands), len(fonts_of(commands)), greatest_depth(commands), post_place(commands)]


def stated_depth(file):
    """The s in *post*."""
    at = post_place(commands_of(file)[0]) + 25
    return unsigned(file[at : at + 2])


def restated(file, s):
    """The file with this s in *post*."""
    at = post_place(commands_of(file)[0]) + 25
    return file[:at] + big(s, 2) + file[at + 2 :]
