"""PKtype as a third witness: check sum, and of each packet code, width and escapement, of real PK fonts; here where it is installed, and its word
kept in tests/fonts.

The fonts are in tests/fonts, NAME; PKtype's word on it is NAME.typed:

    sum CHECK-SUM                 as four bytes without a sign
    c CODE TFM-WIDTH DX           a packet, in the order of the file; DX in pixels times 65,536

PKtype multiplies a short form's dm by 65,536, so DX is the same for all forms.
"""

import pathlib
import re
import shutil
import subprocess

import packed
from dvi import big
from looking import spelled
from tables import RECORD, record
from tabling import LONGEST_FILE

FOLDER = pathlib.Path(__file__).resolve().parent.parent / "fonts"
FEWEST = 12  # fonts, or some were lost

CHECK_SUM = re.compile(r"Checksum = (-?\d+)")
PACKET = re.compile(r"\d+:  Flag byte = \d+  Character = (-?\d+)  Packet length = \d+")
SIZES = re.compile(r"  TFM width = (-?\d+)  dx = (-?\d+) ")
BYTES_READ = re.compile(r"(\d+) bytes read from packed file\.")


class NoWitness(Exception):
    """Why PKtype cannot be asked about a file."""


class Testimony:
    """What PKtype says of a font: `packets` are code, width and escapement times 65,536, in the order of the file."""

    def __init__(self, check_sum, packets):
        self.check_sum, self.packets = check_sum, packets

    def lawful(self):
        """Whether these numbers are such that document 02 does not refuse them."""
        codes = [code for code, _, _ in self.packets]
        return len({*codes}) == len(codes) and all(0 <= code <= 255 and -(1 << 24) <= width < 1 << 24 and -32_768 <= pixels(dx) <= 32_767
                                                   for code, width, dx in self.packets)

    def rows(self, scale):
        """The answer to `widths` with this scale."""
        records = [record(self.check_sum, scale, code, pixels(dx), big(width, 4)) for code, width, dx in sorted(self.packets)]
        return [*([one.hex()] for one in records), ["end", len(records)]]

    def written(self, version):
        lines = [version, f"sum {self.check_sum}", *(f"c {code} {width} {dx}" for code, width, dx in self.packets)]
        return "\n".join(lines) + "\n"


def pixels(dx):
    """To the nearest, halves up."""
    return (dx + 32_768) // 65_536


def read(text):
    """What `Testimony.written` wrote."""
    check_sum, packets = None, []
    for line in text.split("\n")[1:]:
        word, *numbers = line.split(" ")
        if word == "sum":
            check_sum = int(numbers[0])
        elif word == "c":
            packets.append(tuple(map(int, numbers)))
        elif word:
            raise AssertionError(f"not a line of a kept testimony: {line}")
    return Testimony(check_sum, packets)


def hear(path):
    """PKtype's testimony about a font. NoWitness if it does not read it to its end."""
    done = subprocess.run(["pktype", str(path)], stdin=subprocess.DEVNULL, capture_output=True, timeout=600, check=False)
    text = done.stdout.decode("latin-1")
    whole = BYTES_READ.search(text)
    if done.returncode or not whole or int(whole[1]) != path.stat().st_size:
        raise NoWitness("PKtype gives up")
    check_sum, codes, sizes = None, [], []
    for line in text.split("\n"):
        if check_sum is None and (found := CHECK_SUM.match(line)):
            check_sum = int(found[1]) % (1 << 32)
        elif found := PACKET.match(line):
            codes.append(int(found[1]))
        elif found := SIZES.match(line):
            sizes.append((int(found[1]), int(found[2])))
    if len(codes) != len(sizes):
        raise NoWitness("PKtype says other things of some packets")
    return Testimony(check_sum, [(code, *size) for code, size in zip(codes, sizes)])


def version():
    return subprocess.run(["pktype", "--version"], capture_output=True, text=True, check=True).stdout.split("\n")[0]


def kept_fonts():
    """The fonts of tests/fonts, each with PKtype's word on it."""
    paths = sorted(path for path in FOLDER.glob("*pk") if path.is_file())
    if len(paths) < FEWEST:
        raise AssertionError("tests/fonts has lost its fonts")
    for path in paths:
        yield path, read(path.with_name(path.name + ".typed").read_text())


SCALES, OTHER_SCALE = (1, 655_360, 134_217_727), 7


def ask_about(group, data, testimony, refusable=False):
    """Tables at some scales, in areas just long enough, and a byte shorter. Of a font that may be against document 02's rules only a table is
    known, and only where it is not."""
    file, enough = group.keep(data), RECORD * len(testimony.packets)
    for scale in SCALES:
        for area in (60_000, enough, enough + 1):
            line = b"widths %s %d %d" % (file, scale, area)
            group.ask(line)
            if not refusable or testimony.lawful():
                group.expect(line, testimony.rows(scale))
    line = b"widths %s 1 %d" % (file, max(0, enough - 1))
    group.ask(line)
    if enough and (not refusable or testimony.lawful()):
        group.expect(line, [["refused", 17, "at", 0]])


def ask_table(group, testimony):
    """The table itself: it is right, and has each character of the font and no other, whatever the font is called."""
    names = (b"", b"cmr10", b"sixteen-letters.", b"seventeen-letters", b"a\0", bytes(16))
    rows = testimony.rows(SCALES[1])[:-1]
    table = group.keep(bytes.fromhex("".join(row for row, in rows)))
    line = b"table %s" % table
    group.ask(line)
    group.expect(line, [["right", len(rows)]])
    found = {code: (pixels(dx), *big(width, 4)) for code, width, dx in testimony.packets}
    for code in range(256):
        line = b"look %s %d %d %s %d" % (table, testimony.check_sum, SCALES[1], spelled(names[code % len(names)]), code)
        group.ask(line)
        group.expect(line, [["found", *found[code]] if code in found else ["absent"]])


def groups(gather, more, wanted=lambda name: True):
    """The kept fonts that are wanted, all of which must be accepted, and others, PKtype asked about them where it is installed, the rules anyway."""
    installed = shutil.which("pktype")
    counts, reasons = [0, 0], {}

    def witnessed(group, data, testimony, refusable=False):
        ask_about(group, data, testimony, refusable)
        counts[0], counts[1] = counts[0] + 1, counts[1] + len(testimony.packets)

    for path, testimony in kept_fonts():
        if not wanted(f"packed: kept {path.name}"):
            continue
        with gather(f"packed: kept {path.name}") as group:
            witnessed(group, path.read_bytes(), testimony)
            ask_table(group, testimony)
            if installed:
                witnessed(group, path.read_bytes(), hear(path))
    for path in more:
        with gather(f"packed: {path.name}") as group:
            data = path.read_bytes()
            try:
                if not installed:
                    raise NoWitness("PKtype is not installed")
                if len(data) > LONGEST_FILE:
                    raise NoWitness("it is longer than the desk holds")
                witnessed(group, data, hear(path), refusable=True)
            except NoWitness as reason:
                reasons[str(reason)] = reasons.get(str(reason), 0) + 1
            packed.ask(group, data, OTHER_SCALE)
    print(f"PKtype: {counts[0]} testimonies, {counts[1]} packets; not asked about:",
          ", ".join(f"{count} ({reason})" for reason, count in sorted(reasons.items())) or "none", flush=True)
