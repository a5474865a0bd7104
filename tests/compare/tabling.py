"""Width tables from PK fonts as document 02 has them: what the question `widths` must answer, whatever the file, the scale and the area.

Written for the tests alone, from document 02 and appendix C; neither program under test is used here. `tests/wrong_sides` puts one wrong
rule each in the place of these.
"""

import re

import pk
from dvi import GREATEST_SCALE, signed, unsigned
from tables import RECORD, record

LONGEST_FILE, LONGEST_AREA = 262_144, 60_000  # what the desk holds
DIGITS = re.compile(rb"[0-9]+\Z")


class Refused(Exception):
    """A number of the list, and a place."""


class Packet:
    """What a packet says, where its bytes are there: `counted` are those that its length counts."""

    def __init__(self, command):
        self.form = pk.form_of(command[0])
        self.code = unsigned(command[1 + self.form.length : self.form.head])
        self.counted = command[self.form.head :]
        width, escapement = self.form.fields[:2]
        self.width, self.escapement = self.counted[:width], self.counted[width : width + escapement]


class Tabling:
    """One question on its way: the packets met so far, by their codes, in the order of the file."""

    def __init__(self, file, scale, area):
        self.file, self.scale, self.area, self.packets, self.check_sum = file, scale, area, {}, 0

    def answer(self):
        """The answer's rows."""
        try:
            self.judge()
        except Refused as refused:
            return [["refused", refused.args[0], "at", refused.args[1]]]
        rows = [[row.hex()] for row in self.table()]
        return [*rows, ["end", len(rows)]]

    def judge(self):
        """22 before all others, 17 last of all."""
        self.judge_scale()
        self.judge_file()
        self.judge_area()

    def judge_scale(self):
        if not 1 <= self.scale <= GREATEST_SCALE:
            raise Refused(22, 0)

    def judge_area(self):
        if RECORD * len(self.packets) > self.area:
            raise Refused(17, 0)

    def judge_file(self):
        """18 to 21, from the front."""
        at, part = 0, "front"  # then "packets", then "end"
        while at < len(self.file) or part != "end":
            number = self.fault(at, part)
            if number:
                raise Refused(number, self.place_of(number, at))
            command = self.file[at : pk.command_end(self.file, at)]
            if command[0] == pk.PRE:
                self.check_sum, part = unsigned(command[-12:-8]), "packets"
            elif command[0] == pk.POST:
                part = "end"
            elif command[0] < pk.XXX1:
                self.note(Packet(command))
            at += len(command)

    def place_of(self, number, at):
        return at

    def fault(self, at, part):
        """The lowest number that is against the command at this place, or None."""
        end = pk.command_end(self.file, at)
        if end is None:
            return 18
        command = self.file[at:end]
        if not self.allowed(command, part):
            return 19
        if command[0] < pk.XXX1:
            packet = Packet(command)
            if len(packet.counted) < packet.form.counted:
                return 20
            if not self.lawful(packet):
                return 21
        return None

    def allowed(self, command, part):
        if part == "front":
            return command[0] == pk.PRE and command[1] == pk.IDENTIFICATION
        if part == "packets":
            return command[0] <= pk.NO_OP
        return command[0] == pk.NO_OP

    def lawful(self, packet):
        first = self.width(packet)[0]
        return self.fits(packet.code) and first in (0, 255) and -32_768 <= self.escapement(packet) <= 32_767

    def fits(self, code):
        return code <= pk.GREATEST_CODE and code not in self.packets

    def note(self, packet):
        self.packets[packet.code] = packet

    def escapement(self, packet):
        if packet.form is pk.LONG:
            return self.rounded(signed(packet.escapement))
        return unsigned(packet.escapement)

    def rounded(self, dx):
        """dx / 65536 to the nearest, halves up."""
        return (dx + 32_768) // 65_536

    def width(self, packet):
        return packet.width if packet.form is pk.LONG else b"\0" + packet.width

    def table(self):
        """The records, in rising order of codes."""
        return [self.record_of(self.packets[code]) for code in sorted(self.packets)]

    def record_of(self, packet):
        return record(self.check_sum, self.scale, packet.code, self.escapement(packet), self.width(packet))


def answered(file, scale, area=LONGEST_AREA, rules=Tabling):
    return rules(file, scale, area).answer()


def answered_line(line, rules=Tabling):
    """The rows that a line which begins with `widths` must be answered with."""
    words = line.split(b" ")
    if len(words) != 4 or words[0] != b"widths" or not all(map(DIGITS.match, words[2:])):
        return [["no", "input"]]
    scale, area = map(int, words[2:])
    if scale >= 1 << 32 or area > LONGEST_AREA:
        return [["no", "input"]]
    data = contents(words[1], LONGEST_FILE)
    return [["no", "input"]] if data is None else answered(data, scale, area, rules)


def contents(name, longest):
    """The bytes of a file; None where it cannot be read or has more than so many."""
    try:
        with open(name, "rb") as file:
            data = file.read(longest + 1)
    except (OSError, ValueError):
        return None
    return data if len(data) <= longest else None
