"""PK fonts: made-up ones for each notion and at the edges, damaged ones, and lines. What must be answered is worked out from the rules by
`tabling.py`, in exact numbers."""

import functools
import itertools

import pk
from dvi import FURTHEST, GREATEST_SCALE, big
from pk import END, EXTENDED, FORMS, LONG, NOTHING, SHORT, font, numeric, packet, pre, special
from single_lines import misspelt
from tables import RECORD
from tabling import LONGEST_AREA, LONGEST_FILE, answered, answered_line

SCALE = 655_360
WIDE = 1 << 32
SMALL_FONT = 3000  # bytes
# Of each kind of command one that fits, and what is wrong with each of the others. `packet` stands for all packets that are right.
RIGHT = {
    "packet": packet(SHORT, 7, 1, 1), "empty special": special(b""), "special": special(b"\xf5", 2), "yyy": numeric(-1), "no-op": NOTHING, "post": END,
}
WRONG = {
    "cut special": special(b"", 4, WIDE - 1), "cut yyy": b"\xf4\0\0\0", "cut flag": b"\x08", "cut length": b"\x0f\0\0\0", "cut code": b"\x04\0\0",
    "cut packet": packet(SHORT, 7, length=1000), "cut packet, too short": packet(LONG, 300, length=WIDE - 1)[:12], "preamble": pre(),
    "cut preamble": pre(bytes(9))[:20], "another preamble": pre(identification=0), "undefined": b"\xf8", "last": b"\xff",
    "too short": packet(SHORT, 9)[:3].replace(b"\x08", b"\0"), "too short, code": packet(LONG, 256)[:36].replace(b"\x1c", b"\x1b"),
    "code": packet(LONG, 256), "width": packet(LONG, 1, 1 << 24), "escapement": packet(EXTENDED, 1, 0, 32_768),
}


def widths(file, scale=SCALE, area=LONGEST_AREA):
    return b"widths %s %d %d" % (file, scale, area)


def ask(group, data, scale=SCALE, area=LONGEST_AREA):
    """Asks for a table, with the answer that the rules give."""
    line = widths(group.keep(data), scale, area)
    group.ask(line)
    group.expect(line, answered(data, scale, area) if len(data) <= LONGEST_FILE else [["no", "input"]])


def edges(size):
    """The numbers at the edges of a field of this many bytes, signed or not."""
    most = 256**size
    return sorted({0, 1, 2, 127, 128, 254, 255, most // 2 - 1, most // 2, most // 2 + 1, most - 2, most - 1})


def escapements(form):
    """Those at their edges: of the long form, whole pixels and halves of them and one beside, of both signs, all that four bytes hold."""
    if form is not LONG:
        return sorted({n for n in (*edges(form.fields[1]), 256, 32_766, 32_767, 32_768, 32_769) if n < 256 ** form.fields[1]})
    near = {(halves << 15) + beside for halves in (0, 1, 2, 3, 4, 5, 255, 65_531, 65_532, 65_533, 65_534, 65_535) for beside in (-2, -1, 0, 1, 2)}
    both = {n for sign in (1, -1) for n in (sign * m for m in near)} | {-FURTHEST - 1, -FURTHEST, FURTHEST}
    return sorted(n for n in both if -FURTHEST - 1 <= n <= FURTHEST)


def fields(group, rng):
    """Every form with each of its fields at its edges, and every flag; alone, and between two packets of other forms."""
    before, behind = packet(EXTENDED, 200, 5, 6), packet(SHORT, 100, 7, 8)

    def put(one):
        ask(group, font(one))
        ask(group, font(before, one, behind))

    for form in FORMS:
        codes = [0, 1, 127, 128, 254, 255]
        if form is LONG:
            codes += [256, 257, 300, 511, 512, 65_535, 65_536, 1 << 24, FURTHEST, FURTHEST + 1, WIDE - 256, WIDE - 1]
        for code in codes:
            put(packet(form, code, 1, 2))
        firsts = (0, 1, 2, 127, 128, 129, 253, 254, 255) if form is LONG else (0,)
        for width in sorted({first << 24 | low for first in firsts for low in edges(3)}):
            put(packet(form, 3, width, 4))
        for escapement in escapements(form):
            put(packet(form, 3, 1 << 20, escapement))
        for at, size in enumerate(form.fields[2:]):
            for number in edges(size):
                put(packet(form, 3, 1 << 20, 4, [number if i == at else 9 for i in range(len(form.fields) - 2)]))
    for flag in range(pk.XXX1):
        form = pk.form_of(flag)
        upper = flag % 4 if form is not LONG else 0
        raster = bytes(upper * 256**form.length)
        put(packet(form, 3, 2, 1, raster=raster, high=flag // 8) if upper else packet(form, 3, 2, 1, high=flag // 8))
    whole = font(packet(EXTENDED, 1, 2, 3, raster=bytes(196_607 - 13)))  # the longest packet that is not long
    ask(group, whole)
    ask(group, whole[:-1])


def lengths(group, rng):
    """Packet lengths below, at and above the fields, at the edges of their bytes, and beside the file's end. Where the bytes are there, but
    fewer than the fields, it is 20; where they are not, 18."""
    for form in FORMS:
        own = form.counted
        for length in sorted({0, 1, own - 2, own - 1, own, own + 1, own + 2, 255, 256, 257, 511, 512, 767, 768, 1023, 1024, 4095, 65_535,
                              65_536, 65_537, 131_071, 131_072, 196_607, 196_608, 250_000}):
            if length > form.longest:
                continue
            one = packet(form, 3, 2, 1, raster=bytes(max(0, length - own)), length=length)[: form.head + length]
            for data in (font(one), font(one, special(b"x")), pre() + one, pre() + one[:-1], pre() + one + NOTHING, pre() + one[: form.head],
                         pre() + one[: form.head - 1], font(one[:-1]), font(one, b"\0"), font(one, one[: 100_000])):
                ask(group, data)
        # What the length says is more than there is: by one, or by so much that a sum of 32 bits comes to a place inside the file.
        short = font(packet(form, 3, 2, 1), END)
        for length in [own + more for more in range(12)] + [form.longest, form.longest - 1, *(WIDE - n for n in range(1, 90)),
                                                            FURTHEST, FURTHEST + 1, FURTHEST - 40, FURTHEST - 27]:
            if length <= form.longest:
                ask(group, pre() + packet(form, 3, 2, 1, length=length) + END)
                ask(group, pre() + packet(form, 300, 2, 1, length=length) + NOTHING * 9 + END)
        for end in range(len(short)):
            ask(group, short[:end])


def specials(group, rng):
    """Specials of every size and of length 0, 1 and those at the edges, yyy, no-ops: at the front, between packets, before the postamble. What
    is in a special or in a raster is no command."""
    one, two = packet(SHORT, 9, 1, 2, raster=bytes(range(240, 256))), packet(LONG, 8, 3, 65_536, raster=b"\xf5\xf7\xff")
    for size in (1, 2, 3, 4):
        for length in (0, 1, 2, 3, 254, 255, 256, 257, 65_535, 65_536, 200_000):
            if length >= 256**size:
                continue
            for content in (bytes(length), b"\xf5" * length, b"\xff" * length):
                it = special(content, size)
                for data in (font(it), font(it, one, two), font(one, it, two), font(one, two, it), font(it, it) if length < 1000 else font(it)):
                    ask(group, data)
                ask(group, pre() + it)  # no postamble
                ask(group, pre() + it[:-1])
                ask(group, font(one) + it)  # behind it
                ask(group, it + pre() + END)  # before the preamble
        for more in (*range(1, 60), 256**size - 1, 256**size - 2, 256**size // 2):
            ask(group, pre() + special(b"ab", size, (2 + more) % 256**size) + END + NOTHING * 3)
        for head in range(1, size + 1):
            ask(group, pre() + bytes([pk.XXX1 + size - 1]) + bytes(head - 1))
    for number in (0, 1, -1, FURTHEST, -FURTHEST - 1):
        ask(group, font(numeric(number), one, numeric(number), numeric(number), two, numeric(number)))
    for cut in range(1, 6):
        ask(group, pre() + numeric(-1)[:cut])
        ask(group, pre() + one + numeric(0)[:cut])
    for turn in range(60):
        parts = [one, two, packet(EXTENDED, 255)]
        for _ in range(rng.randrange(12)):
            some = rng.choice([NOTHING, NOTHING * 5, numeric(7), special(b"", 1), special(b"abc", rng.choice([1, 2, 3, 4]))])
            parts.insert(rng.randrange(len(parts) + 1), some)
        ask(group, font(*parts, tail=rng.randrange(9)))


@functools.cache
def lawful_escapements(form):
    return [n for n in escapements(form) if n <= (0x7FFF7FFF if form is LONG else 32_767)]


def any_packet(rng, code):
    """One that is right."""
    form = rng.choice(FORMS)
    width = rng.randrange(1 << 24) - ((1 << 24) * rng.randrange(2) if form is LONG else 0)
    rest = [rng.randrange(256**size) for size in form.fields[2:]]
    return packet(form, code, width, rng.choice(lawful_escapements(form)), rest, rng.randbytes(rng.randrange(20)), rng.randrange(30))


def codes(group, rng):
    """No packet, one, many, all 256, and one more; codes rising, falling and in any order; one code twice, in all pairs of forms."""
    for count in (0, 1, 2, 3, 16, 255, 256):
        for turn in range(6 if count > 3 else 2):
            some = sorted(rng.sample(range(256), count))
            for order in (some, some[::-1], rng.sample(some, count)):
                data = font(*(any_packet(rng, code) for code in order), check_sum=rng.randrange(WIDE))
                ask(group, data)
                ask(group, data, area=RECORD * count)
                if count:
                    ask(group, data, area=RECORD * count - 1)
                    again = font(*(any_packet(rng, code) for code in (*order, rng.choice(order))))
                    ask(group, again)
                    ask(group, again, area=0)
    for code in (0, 1, 64, 254, 255):
        for first in FORMS:
            for second in FORMS:
                one = packet(first, code, 1, 1)
                for other in (packet(second, code, 1, 1), packet(second, code, 2, 2), packet(second, (code + 1) % 256, 1, 1), packet(second, code)[:-1]):
                    ask(group, font(one, other))
                    ask(group, font(one, NOTHING, special(b"x"), other, packet(SHORT, 128)))
                    ask(group, pre() + one + other)
    for code in range(256):  # each place of the note, alone and with the one before
        ask(group, font(packet(SHORT, code, code, code)))
        ask(group, font(packet(LONG, code, code, code << 16), packet(EXTENDED, code ^ 1, code, code)))


def preambles(group, rng):
    """Comments of every length, every identification, check sums and the other numbers at their edges; every cut."""
    one = packet(SHORT, 65, 700_000, 30)
    for length in range(256):
        data = font(one, comment=rng.randbytes(length), check_sum=rng.randrange(WIDE))
        ask(group, data)
        ask(group, data[: 18 + length])  # without the last byte of the preamble
        ask(group, data[: 19 + length])
        ask(group, pre(identification=length) + one + END)
        ask(group, pre(identification=length)[:-1])
        ask(group, bytes([length]))
        ask(group, bytes([length]) + font(one)[1:])
        ask(group, bytes([length]) + bytes(40))
        ask(group, bytes([length]) + b"\xff" * 40)
    for number in (0, 1, 255, 256, FURTHEST, FURTHEST + 1, WIDE - 2, WIDE - 1, 0x01020304, 0xF5F6F7F8):
        for name in ("design", "check_sum", "across", "down"):
            ask(group, font(one, **{name: number}))
    ask(group, b"")
    for data in (font(), font(one), font(tail=3), font(one, comment=b"METAFONT output")):
        ask(group, data)
        ask(group, data + data)
        for end in range(len(data)):
            ask(group, data[:end])


def scales_and_areas(group, rng):
    """Scales and areas at their edges, for files that are right and files that are refused: 22 first, 17 last."""
    files = [font(), font(packet(SHORT, 1, 2, 3)), font(*(packet(LONG, code, -code, -code << 15) for code in range(255, 250, -1))),
             font(*(packet(SHORT, code, code, code) for code in range(256))), b"", font(packet(LONG, 256)), font()[:-1], font(b"\xff"), font(b"\0\7\0" + bytes(7))]
    for data in files:
        count = max(0, len(answered(data, 1)) - 1)
        for scale in (0, 1, 2, 255, 256, SCALE, GREATEST_SCALE - 1, GREATEST_SCALE, GREATEST_SCALE + 1, 1 << 28, FURTHEST, FURTHEST + 1, WIDE - 1):
            around = {size + beside for size in (0, RECORD, RECORD * count, RECORD * count // 2, LONGEST_AREA) for beside in (-1, 0, 1)}
            for area in sorted(area for area in around if 0 <= area <= LONGEST_AREA):
                ask(group, data, scale, area)


def orders(group, rng):
    """Two things wrong at once: of two places the first, at one place the lowest number, 22 before all and 17 behind all."""
    whole = [packet(SHORT, 40, 1, 1), packet(EXTENDED, 30, 1, 1)]
    parts = {**RIGHT, **WRONG}
    for one in parts.values():
        for other in parts.values():
            for data in (pre() + one + other + END, pre() + one + other, one + other, one + pre() + other, pre() + END + one + other,
                         font(*whole, one, other), font(*whole) + one + other, font(*whole, other)[:-1] + one, pre(identification=3) + one + other):
                ask(group, data)
                ask(group, data, area=0)
            ask(group, font(one, other), 0, 0)
        for cut in range(1, len(one)):
            for data in (pre() + one[:cut], one[:cut], font() + one[:cut], font(one[:cut])):
                ask(group, data)
    # One packet with several faults: cut, too short, and against 21 in each way; in the parts where no packet may stand, too.
    for length in (0, 26, 27, 28, 29, 30, 1000, WIDE - 1):
        for code in (5, 256):
            for width in (0, 1 << 24):
                for dx in (0, 0x7FFF7FFF, 0x7FFF8000):
                    one = packet(LONG, code, width, dx, length=length)
                    for data in (font(one), pre() + one, one, font() + one, font(packet(SHORT, 5), one), one + bytes(1000), font() + one + bytes(1000)):
                        ask(group, data)


def behind_the_postamble(group, rng):
    """Every byte value behind the postamble, alone and with bytes enough for any command; no-ops in any number."""
    one = packet(SHORT, 65, 700_000, 30)
    for value in range(256):
        for before in (0, 1, 3):
            base = font(one, tail=before) + bytes([value])
            for data in (base, base + NOTHING * 3, base + bytes(60), base + b"\xff" * 60):
                ask(group, data)
        ask(group, font(bytes([value])))
        ask(group, font(one, bytes([value]), NOTHING))
        ask(group, font(bytes([value]), bytes(60)))
        ask(group, pre() + bytes([value]) + b"\xff" * 60)
    for count in (0, 1, 2, 3, 4, 5, 255, 256, 1000):
        ask(group, font(one, tail=count))
        ask(group, font(NOTHING * count, one, NOTHING * count, tail=count))
        ask(group, pre() + NOTHING * count)


def greatest_sizes(group, rng):
    """As long as a file may be and one byte more, by a special, a raster, no-ops on either side of the postamble, many specials."""
    one = packet(SHORT, 65, 700_000, 30)
    for length in (65_535, 65_536, 65_537, LONGEST_FILE - 1, LONGEST_FILE, LONGEST_FILE + 1):
        more = length - len(font(one))
        files = [font(special(bytes(more - 5), 4), one), font(packet(LONG, 65, 700_000, 30, raster=bytes(length - len(font(packet(LONG, 65)))))),
                 font(one, special(b"x" * (more - 5), 4, more - 4))]
        if length >= LONGEST_FILE:  # these take the rules' model its time
            files += [font(one, NOTHING * more), font(one, special(b"abc") * (more // 5), NOTHING * (more % 5))]
        for data in files:
            ask(group, data)
    ask(group, font(*(packet(SHORT, code, code, 255 - code, raster=bytes(1015)) for code in range(254, -1, -1))))


def random_font(rng):
    """Any commands in any order, most of them right."""
    parts, free = [], rng.sample(range(256), 256)
    for _ in range(rng.choice([0, 3, 10, 40])):
        kind = rng.random()
        if kind < 0.6:
            parts.append(any_packet(rng, free.pop()))
        elif kind < 0.75:
            parts.append(special(rng.randbytes(rng.choice([0, 1, 5, 40])), rng.choice([1, 2, 3, 4])))
        else:
            parts.append(rng.choice([NOTHING, NOTHING * 3, numeric(rng.randrange(WIDE))]))
    return font(*parts, tail=rng.randrange(5), comment=rng.randbytes(rng.choice([0, 4, 20])), check_sum=rng.randrange(WIDE))


def random_fonts(group, rng, count):
    for _ in range(count):
        data = random_font(rng)
        ask(group, data, rng.choice([SCALE, 1, GREATEST_SCALE, rng.randrange(1, GREATEST_SCALE)]), rng.choice([LONGEST_AREA, LONGEST_AREA, rng.randrange(500)]))


def lines(group, rng):
    """Lines of the wrong form, numbers one past their ranges, files that are not there or too long."""
    file = group.keep(font(packet(SHORT, 65, 700_000, 30)))
    right_line = widths(file)
    misspelt(group, right_line, file)
    for more in (b"0", b"00655360", b"4294967295", b"4294967296", b"60001", b"32", b"31", b"16", b"99999999999999999999"):
        words = right_line.split(b" ")
        group.ask(b" ".join([*words[:2], more, words[3]]), b" ".join([*words[:3], more]))
    group.ask(widths(group.keep(bytes(LONGEST_FILE + 1))), widths(group.keep(bytes(LONGEST_FILE + 1)), 0, 0))
    for line in group.lines:
        if line.startswith(b"widths "):
            group.expect(line, answered_line(line))


def small_bases():
    """Right files of few bytes that yet hold every part a file can have."""
    return [font(), font(tail=3, comment=b"ab"), font(packet(SHORT, 2, 700_000, 30, (1, 1, 0, 0), b"\x80"), packet(LONG, 1, -5, -98_304, (0, 1, 1, 0, 0), b"\x80"), tail=1),
            font(packet(EXTENDED, 255, 1, 32_767), special(b"sp"), packet(SHORT, 254, 2, 255, high=29), special(b"", 2), NOTHING, special(b"\xf5", 3),
                 numeric(5), special(b"", 4), packet(LONG, 0, 1 << 20, 3 << 15), comment=b"c", tail=2)]


def single_steps(file, values):
    """Every file one step away: a byte made others, dropped, doubled, put in; a command dropped, doubled, swapped, put in; every cut."""
    commands, tail = pk.commands_of(file)
    for end in range(len(file)):
        yield file[:end]
    for at in range(len(file)):
        now = file[at]
        for other in values if values else {now ^ 1, now ^ 128, (now + 1) % 256, (now - 1) % 256, 0, 255, 245, 247}:
            yield file[:at] + bytes([other]) + file[at + 1 :]
        yield file[:at] + file[at + 1 :]
        yield file[:at] + file[at : at + 1] + file[at:]
        for other in (0, 7, 240, 245, 246, 247, 255):
            yield file[:at] + bytes([other]) + file[at:]
    for index, command in enumerate(commands):
        before, behind = commands[:index], commands[index + 1 :]
        yield b"".join([*before, *behind]) + tail
        yield b"".join([*before, command, command, *behind]) + tail
        for other in (*RIGHT.values(), *WRONG.values()):
            yield b"".join([*before, other, command, *behind]) + tail
            yield b"".join([*before, other, *behind]) + tail
        for later in range(len(behind)):
            yield b"".join([*before, behind[later], *behind[:later], command, *behind[later + 1 :]]) + tail


def random_damage(rng, file, others):
    """One to three random steps."""
    for _ in range(rng.choice([1, 1, 1, 2, 3])):
        kind = rng.randrange(8)
        at = rng.randrange(len(file) + 1)
        if kind == 0 and file:
            at %= len(file)
            file = file[:at] + bytes([rng.randrange(256)]) + file[at + 1 :]
        elif kind == 1:
            file = file[:at] if rng.random() < 0.5 else file[:at] + file[at + rng.randrange(1, 9) :]
        elif kind == 2:
            file = file[:at] + rng.randbytes(rng.choice([1, 1, 2, 4])) + file[at:]
        elif kind == 3:
            other = rng.choice(others)
            file = file[:at] + other[rng.randrange(len(other) + 1) :]
        else:
            commands, tail = pk.commands_of(file)
            if not commands:
                continue
            index, other = rng.randrange(len(commands)), rng.randrange(len(commands))
            if kind == 4:
                commands.insert(index, rng.choice([*RIGHT.values(), *WRONG.values()]))
            elif kind == 5:
                commands[index], commands[other] = commands[other], commands[index]
            elif kind == 6:
                commands.insert(index, commands[other])
            else:  # a field of a command made another
                one = commands[index]
                start = rng.randrange(min(len(one), 37))
                size = rng.choice([1, 1, 2, 4])
                value = rng.choice([0, 1, 255, 256, 32_768, WIDE - 1, rng.randrange(WIDE)])
                commands[index] = (one[:start] + big(value, size) + one[start + size :])[: len(one)]
            file = b"".join(commands) + tail
    return file


def damaged_groups(gather, rng, real, count, long):
    """Every single step away from small files, of two of them (in the long form of all) with all values of each byte, in the long form from small
    real ones too; then random damage of these, of random ones and of real ones, until there are `count`. Gives how many files there were."""
    small, asked = small_bases(), 0

    def ask_all(title, files, group_size=2000):
        nonlocal asked
        files, turn = iter(files), 0
        while batch := list(itertools.islice(files, group_size)):
            turn, asked = turn + 1, asked + len(batch)
            with gather(f"packed: {title} {turn}") as group:
                for data in batch:
                    ask(group, data, area=rng.choice([LONGEST_AREA] * 7 + [RECORD]))

    for at, file in enumerate(small):
        ask_all(f"single steps {at + 1}:", dict.fromkeys(single_steps(file, range(256) if long or at in (0, 2) else None)))
    for at, data in enumerate([data for data in real if len(data) <= SMALL_FONT] if long else []):
        ask_all(f"steps from real fonts {at + 1}:", single_steps(data, None))
    # Most of a long font is rasters, which nothing reads: a few of its packets are enough.
    others = small + [data if len(data) <= SMALL_FONT else shortened(rng, data) for data in real]
    bases = (rng.choice(others) if rng.random() < 0.7 else random_font(rng) for _ in range(max(0, count - asked)))
    ask_all("random damage", (random_damage(rng, base, others) for base in bases))
    return asked


def shortened(rng, data):
    """A file with few of its packets."""
    commands, tail = pk.commands_of(data)
    return b"".join(command for command in commands if command[0] >= pk.XXX1 or rng.random() < 0.1) + tail


def groups(gather, numbers, long, wanted=lambda name: True):
    """Those groups of made-up files and lines that are wanted; the random ones many times in the long form. `numbers` gives each group its random
    numbers, by its name."""
    notions = (fields, lengths, specials, codes, preambles, scales_and_areas, orders, behind_the_postamble, greatest_sizes, lines)
    makers = {"packed: " + make.__name__.replace("_", " "): make for make in notions}
    for turn in range(200 if long else 5):
        makers[f"packed: random fonts {turn + 1}"] = lambda group, rng: random_fonts(group, rng, 400)
    for name, make in makers.items():
        if wanted(name):
            with gather(name) as group:
                make(group, numbers(name))
