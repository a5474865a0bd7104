"""PK commands as bytes: writing them, walking over a file.

Written for the tests alone, from appendix C and document 02; neither program under test is used here.
"""

from dvi import big, unsigned

XXX1, YYY, POST, NO_OP, PRE = 240, 244, 245, 246, 247
IDENTIFICATION = 89
GREATEST_CODE = 255


class Form:
    """How many bytes a packet's length and code have, and each field that the length counts: width, escapement (of the long form two, across
    and down), w, h and both offsets."""

    def __init__(self, name, low, length, code, fields):
        self.name, self.low, self.length, self.code, self.fields = name, low, length, code, fields
        self.head = 1 + length + code  # with the flag
        self.counted = sum(fields)  # the least that the packet length may be
        self.longest = 256**length * {"short": 4, "extended": 3, "long": 1}[name] - 1


SHORT = Form("short", 0, 1, 1, (3, 1, 1, 1, 1, 1))
EXTENDED = Form("extended", 4, 2, 1, (3, 2, 2, 2, 2, 2))
LONG = Form("long", 7, 4, 4, (4, 4, 4, 4, 4, 4, 4))
FORMS = (SHORT, EXTENDED, LONG)


def form_of(flag):
    low = flag % 8
    return SHORT if low < 4 else EXTENDED if low < 7 else LONG


def packet(form, code, width=0, escapement=0, rest=(), raster=b"", high=0, length=None):
    """A packet: `rest` are the fields behind the escapement, 0 where none are given, `high` is the flag's upper five bits, 0 to 29, and `length`
    what it says of its length, where that is not the truth."""
    fields = (width, escapement, *rest, *[0] * (len(form.fields) - 2 - len(rest)))
    counted = b"".join(big(number, size) for number, size in zip(fields, form.fields)) + raster
    upper, lower = divmod(len(counted) if length is None else length, 256**form.length)
    return bytes([8 * high + form.low + upper]) + big(lower, form.length) + big(code, form.code) + counted


def special(data, size=1, length=None):
    return bytes([XXX1 + size - 1]) + big(len(data) if length is None else length, size) + data


def numeric(number):
    """A yyy."""
    return bytes([YYY]) + big(number, 4)


NOTHING, END = bytes([NO_OP]), bytes([POST])


def pre(comment=b"", design=10_485_760, check_sum=0x4BF16079, across=272_046, down=272_046, identification=IDENTIFICATION):
    return bytes([PRE, identification, len(comment)]) + comment + b"".join(big(n, 4) for n in (design, check_sum, across, down))


def font(*commands, tail=0, **preamble):
    """A whole file: preamble, these commands, postamble with so many no-ops behind it."""
    return pre(**preamble) + b"".join(commands) + END + NOTHING * tail


def packet_length(file, at):
    """What the packet at this place says of its length, where those bytes are there."""
    form = form_of(file[at])
    upper = file[at] % 4 if form is not LONG else 0
    return upper * 256**form.length + unsigned(file[at + 1 : at + 1 + form.length])


def command_end(file, at):
    """The place after the command at this place, or None where there is none, or where its bytes do not fit. Those of a packet are the
    fields up to the code and as many as its length says."""
    if at >= len(file):
        return None
    opcode = file[at]
    if opcode < XXX1:
        head = form_of(opcode).head
        end = at + head + packet_length(file, at)
    elif opcode < YYY:
        head = 2 + opcode - XXX1
        end = at + head + unsigned(file[at + 1 : at + head])
    elif opcode == PRE:
        head = 3
        end = at + head + 16 + (file[at + 2] if at + 2 < len(file) else 0)
    else:
        head = 5 if opcode == YYY else 1  # 248 to 255 have no parameters
        end = at + head
    return end if at + head <= len(file) and end <= len(file) else None


def commands_of(file):
    """The commands from the front up to where none fits; and the bytes left."""
    commands, at = [], 0
    while (end := command_end(file, at)) is not None:
        commands.append(file[at:end])
        at = end
    return commands, file[at:]
