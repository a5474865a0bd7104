"""Lines that need no DVI file worth the name, numbers at their edges, and lines that are `no input`."""

from cutting import LONGEST_LINE
from dvi import FURTHEST, GREATEST_SCALE, PLAIN_UNITS, TEX_UNITS, Font, page, right, select, volume
from made_up import SCALES_AROUND_HALVINGS, edge_units, naming
from placing import scaled
from tables import record

DISTANCES = (0, 1, -1, 2, -2, 3, -3, 5, 499, 500, 501, FURTHEST, -FURTHEST, -FURTHEST - 1, FURTHEST - 1, 1_073_741_823, -1_073_741_824)


def rounding(group, rng, count):
    for num, den, mag, resolution in edge_units(rng, count):
        halves = [254_000_000 * den * k // (2 * num * mag * resolution or 1) for k in (1, 3, 5, rng.randrange(1, 1 << 20, 2))]
        for n in {*rng.sample(DISTANCES, 4), rng.randrange(-FURTHEST - 1, FURTHEST + 1),
                  *(h + d for h in halves for d in (-1, 0, 1) if h + 1 <= FURTHEST)}:
            group.ask(b"round %d %d %d %d %d" % (num, den, mag, resolution, n))
    for n in DISTANCES:
        for resolution in (1, 499, 500, 501):
            group.ask(b"round %d %d %d %d %d" % (*PLAIN_UNITS, resolution, n))
        group.ask(b"round %d %d %d 300 %d" % (*TEX_UNITS, n))
    for wrong in (0, -1, -FURTHEST - 1):
        for at in range(3):
            units = [254, 1, 1000]
            units[at] = wrong
            for resolution in (0, 300, 10_001):
                group.ask(b"round %d %d %d %d 1" % (*units, resolution))


def ask_scaled(group, scale, word):
    """Asks for a width at this scale, with the answer that the rules give."""
    line = b"scale %d %d %d %d %d" % (scale, *word)
    lawful = 1 <= scale <= GREATEST_SCALE and word[0] in (0, 255)
    group.ask(line)
    group.expect(line, [["width", scaled(word, scale)] if lawful else ["refused", 14, "at", 0]])


def edge_words():
    """Fix words with the first byte right and wrong: the least and the greatest, one em and the next below it, each other byte alone."""
    words = [(first, *[rest] * 3) for first in (0, 255, 1, 254, 127, 128) for rest in (0, 255)]
    words += [(0, 16, 0, 0), (0, 15, 255, 255), (255, 240, 0, 0), (255, 239, 255, 255)]
    for first in (0, 255):
        for byte in (1, 128, 255):
            words += [(first, byte, 0, 0), (first, 0, byte, 0), (first, 0, 0, byte)]
    return words


def scaling(group, rng, count):
    scales = [0, 1, 2, 3, 255, 256, 65_536, 655_360, *SCALES_AROUND_HALVINGS, GREATEST_SCALE + 1, 1 << 31, (1 << 32) - 1]
    for scale in scales:
        for word in edge_words():
            ask_scaled(group, scale, word)
    for _ in range(count):
        scale = rng.choice([rng.choice(scales), rng.randrange(1, GREATEST_SCALE), 1 << rng.randrange(28)])
        rest = [rng.choice([0, 1, 255, rng.randrange(256)]) for _ in range(3)]
        ask_scaled(group, scale, (rng.choice([0, 0, 0, 255, 255, 255, rng.randrange(256)]), *rest))


def reading(group, rng):
    font = Font(5, 1, 1000, area=b"ar", name=b"na")
    data = volume(TEX_UNITS, [font.definition(3), *page([select(5), b"A", right(70_000)])], [font], comment=b"hello")
    file = group.keep(data)
    for at in (*range(len(data) + 3), 1 << 31, (1 << 32) - 1, 1 << 32, (1 << 32) + 15, (1 << 63) - 1, 1 << 63, (1 << 64) - 1, 1 << 64):
        group.ask(b"read %s %d" % (file, at))
    for length in (0, 1, 2, 255, 256, 65_535):  # a special as long as its length says, and one byte shorter
        for size in (1, 2, 3, 4):
            if length < 256**size:
                whole = bytes([238 + size]) + length.to_bytes(size, "big") + bytes(length)
                group.ask(b"read %s 0" % group.keep(whole), b"read %s 0" % group.keep(whole[:-1]))
    for head in (b"\xf2\xff\xff\xff\xff", b"\xf2\x80\x00\x00\x00", b"\xf2\x7f\xff\xff\xff", b"\xf1\xff\xff\xff"):
        group.ask(b"read %s 0" % group.keep(head + bytes(300)))
    for area, name in ((0, 0), (255, 255), (255, 0), (0, 255), (1, 2)):
        for size in (1, 2, 3, 4):
            whole = Font(1, 2, 3, 4, bytes(area), bytes(name)).definition(size)
            group.ask(b"read %s 0" % group.keep(whole), b"read %s 0" % group.keep(whole[:-1]))
    for _ in range(300):
        noise = bytes(rng.randrange(256) for _ in range(rng.randrange(40)))
        group.ask(b"read %s %d" % (group.keep(noise), rng.randrange(42)))


def misspelt(group, line, file):
    """A right line, and those one step away from it: blanks, words left out, other words in the place of its files and numbers."""
    words = line.split(b" ")
    group.ask(line, line + b" 1", line + b" ", b" " + line, line.replace(b" ", b"  ", 1), line.replace(b" ", b"\t", 1), line + b"\r")
    group.ask(line.upper(), words[0], words[0] + b" ", words[0][:-1] + line[len(words[0]) :], words[0] + b"s" + line[len(words[0]) :])
    for at in range(1, len(words)):
        group.ask(b" ".join(words[:at] + words[at + 1 :]))
        for other in (b"", b"-", b"x", b"1x", b"x1", b"0x1", b"+1", b"1.0", b"1e3", b"--1", b"1-", b"-1", b"-0", b"00", b"007", b"-007", b"256", b"255",
                      b"60000", b"60001", b"2147483647", b"2147483648", b"-2147483648", b"-2147483649", b"4294967295", b"4294967296",
                      b"18446744073709551615", b"18446744073709551616", b"9" * 40, b"-" + b"9" * 40, b"\xff", b"1\x002",
                      file + b"x", file + b"/", group.folder_name, b"/", b".", b"/nonexistent/" + file[-4:]):
            group.ask(b" ".join([*words[:at], other, *words[at + 1 :]]))


def no_input(group, rng):
    """Lines that are none of the desk's, numbers one past their ranges, files that are not there."""
    data = volume(PLAIN_UNITS, page([]))
    file, table = group.keep(data), group.keep(record(1, 2, 3, 4, bytes(4)))
    right_lines = [
        b"read %s 15" % file, b"check %s" % file, *naming(file, 0), b"round 254 1 1000 300 5", b"scale 655360 0 9 199 28", b"table %s" % table,
        b"look %s 1 2 - 3" % table, b"place %s %s 300 1 60000" % (file, table),
    ]
    for line in right_lines:
        misspelt(group, line, file)
    group.ask(b"", b" ", b"\t", b"hello", b"check", b"checked %s" % file, b"CHECK %s" % file, b"refused 2 at 0", b"end 0 0 0", b"no input", b"\xff\xfe",
              b"\0", b"check \0", b"check %s\0" % file, b"check %s\0.dvi" % file, b"#", b"x" * 3000, b"check " + b"y" * 3000, b"1 " * 1500)
    start = b"round 254 1 1000 500 "
    for length in (4096, 4097, LONGEST_LINE - 1, LONGEST_LINE, LONGEST_LINE + 1, LONGEST_LINE + 2, 2 * LONGEST_LINE, 100_000):
        line = start + b"3".rjust(length - len(start), b"0")
        group.ask(line, b"x" * length, b"check %s" % file)  # a line too long leaves the next one alone
        group.expect(line, [["rounded", 2]] if length <= LONGEST_LINE else [["no", "input"]])


def groups(gather, rng, long):
    for make in (reading, no_input):
        with gather("lines: " + make.__name__.replace("_", " ")) as group:
            make(group, rng)
    for turn in range(100 if long else 3):
        for make in (rounding, scaling):
            with gather(f"lines: {make.__name__} {turn + 1}") as group:
                make(group, rng, 400)
