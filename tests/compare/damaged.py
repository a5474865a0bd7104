"""Damaged files: every single step away from small valid ones, and random damage of larger ones."""

import dvi
from dvi import (
    BOP, EOP, FNT1, FNT_DEF1, FNT_NUM_0, FURTHEST, GREATEST_SCALE, MARK, NOTHING, PLAIN_UNITS, POPPED, POST, POST_POST, PRE, PUSHED,
    TAIL, TEX_UNITS, Font, big, character, down, page, right, rule, select, sized, special, volume,
)
from made_up import RESOLUTIONS, naming, place, random_volume, unit_of
from tables import table_for


def small_bases():
    """Valid files of few bytes that yet hold every part a file can have."""
    one, two = Font(1, 0x01020304, 1000, name=b"ab"), Font(200, 0xFFFFFFFF, 65_536, 7, b"x", b"")
    plain = volume(PLAIN_UNITS, page([]))
    letters = volume(PLAIN_UNITS, [one.definition(), *page([select(1), b"A", character(300), right(5), MARK])], [one])
    nested = volume(PLAIN_UNITS, page([PUSHED, sized(dvi.W0 + 1, 9), PUSHED, bytes([dvi.W0]), POPPED, rule(3, 4), POPPED, MARK]) +
                    page([PUSHED, POPPED, down(-3), special(b"sp")]))
    fonts = volume(TEX_UNITS, [two.definition(2), NOTHING, *page([one.definition(), select(200, 1), b"B", select(1), b"C"]), NOTHING,
                               *page([select(1, 4), character(66, 1, dvi.PUT1)])], after=[one.definition(3), NOTHING, two.definition()],
                   comment=b"c", tail=6)
    left_out = volume(PLAIN_UNITS, page([PUSHED, right(5), POPPED, MARK]), stated=3)  # as TeX leaves it where it dropped the two inner pushes
    return [plain, letters, nested, fonts, left_out]


def intruders(commands):
    """One command of each kind, the valid ones and those that a rule forbids at one place or another."""
    defined = [Font.read(c) for c in commands if FNT_DEF1 <= c[0] < PRE]
    number = defined[0].number if defined else 3
    free = next(n for n in range(256) if n not in {font.number for font in defined})
    own = [font.definition(4) for font in defined[:1]]
    return own + [
        b"A", character(200), character(-1, 4, dvi.PUT1), MARK, rule(0, 5), NOTHING, dvi.bop(), bytes([EOP]), PUSHED, POPPED, right(1),
        bytes([dvi.X0]), down(FURTHEST), select(number, 1), select(free, 1), select(-1, 4), select(256, 2), special(b"x"),
        Font(free, 1, 1).definition(), Font(free, 1, 0).definition(), Font(256, 1, 1).definition(2), dvi.pre(), dvi.pre(PLAIN_UNITS),
        bytes([POST]) + bytes(28), bytes([POST_POST]) + bytes(4) + b"\2", bytes([250]), bytes([255]), bytes([TAIL]),
    ]


def with_field(command, start, size, values):
    """The command with the field at this place made each of the values."""
    return [command[:start] + big(value, size) + command[start + size :] for value in values]


def beside(command, start, size, *others):
    now = dvi.signed(command[start : start + size])
    return with_field(command, start, size, [v for v in (now - 1, now + 1, *others) if v % 256**size != now % 256**size])


def field_changes(command, at):
    """Each field of a command that has rules of its own, made wrong (or other) in one step."""
    opcode = command[0]
    if opcode == PRE:
        changed = beside(command, 1, 1, 0, 255)
        for start in (2, 6, 10):
            changed += beside(command, start, 4, 0, -1, -FURTHEST - 1, FURTHEST)
        return changed
    if opcode == BOP:
        return beside(command, 41, 4, -1, 0, at, 15) + beside(command, 1, 4, -FURTHEST - 1)
    if opcode == POST:
        changed = [c for start in (1, 5, 9, 13) for c in beside(command, start, 4, -1, 0, at)]
        changed += beside(command, 25, 2, 0, 101, 256, -1) + beside(command, 27, 2, 0, -1)
        return changed + beside(command, 17, 4) + beside(command, 21, 4)
    if opcode == POST_POST:
        return beside(command, 1, 4, -1, 0, at) + beside(command, 5, 1, 0)
    if FNT_DEF1 <= opcode < PRE:
        size = opcode - FNT_DEF1 + 1
        font = Font.read(command)
        changed = beside(command, 1, size, 0, 255, -1) + [font.definition(k) for k in (1, 2, 3, 4) if 0 <= font.number < 256]
        changed += beside(command, 1 + size, 4)
        for start in (5 + size, 9 + size):
            changed += beside(command, start, 4, 0, 1, GREATEST_SCALE, GREATEST_SCALE + 1, -1)
        name = font.area + font.name
        for split in range(min(len(name), 3) + 1):  # the same bytes, parted elsewhere
            changed.append(Font(font.number, font.check_sum, font.scale, font.design, name[:split], name[split:]).definition(size)
                           if len(name) - split < 256 and 0 <= font.number < 256**size else command)
        if name:
            changed += [command[:-1] + bytes([command[-1] ^ 1]), command[: -len(name)] + bytes([name[0] ^ 128]) + name[1:]]
        return changed
    if FNT_NUM_0 <= opcode < dvi.XXX1:
        return [select(n, size) for n, size in ((0, 0), (63, 0), (1, 1), (255, 1), (256, 2), (200, 3), (-1, 4), (1, 4), (200, 4))]
    return []


def single_steps(file):
    """Every file one step away: a byte, a command or a field changed, dropped, doubled, inserted, swapped; every cut."""
    commands, tail = dvi.commands_of(file)
    places = dvi.places_of(commands)
    for end in range(len(file)):
        yield file[:end]
    for at in range(len(file)):
        for other in {file[at] ^ 128, (file[at] + 1) % 256, (file[at] - 1) % 256, 0, 255, TAIL} - {file[at]}:
            yield file[:at] + bytes([other]) + file[at + 1 :]
        yield file[:at] + file[at + 1 :]
        yield file[:at] + bytes([file[at]]) + file[at:]
    for index, (command, at) in enumerate(zip(commands, places)):
        before, after = commands[:index], commands[index + 1 :]
        for changed in field_changes(command, at):
            yield b"".join([*before, changed, *after]) + tail
            if len(changed) != len(command):
                yield b"".join(dvi.mended([*before, changed, *after])) + tail
        structures = [[*before, *after], [*before, command, command, *after]]
        structures += [[*before, intruder, command, *after] for intruder in intruders(commands)]
        structures += [[*before, intruder, *after] for intruder in intruders(commands)]
        if after:
            structures.append([*before, after[0], command, *after[1:]])
        for structure in structures:
            yield b"".join(structure) + tail
            yield b"".join(dvi.mended(structure)) + tail
    for length in range(9):
        yield file[: len(file) - len(tail)] + bytes([TAIL]) * length
        yield file[: len(file) - len(tail)] + bytes([TAIL]) * length + b"\0" + bytes([TAIL]) * 4


def spliced(rng, file, other):
    """A run of commands of one file put in place of a run of the other's; pointers mended."""
    mine, tail = dvi.commands_of(file)
    theirs, _ = dvi.commands_of(other)

    def run(commands):
        starts = [i for i, c in enumerate(commands) if c[0] == BOP] if rng.random() < 0.7 else []
        ends = [i + 1 for i, c in enumerate(commands) if c[0] == EOP] if starts else []
        a, b = (rng.choice(starts), rng.choice(ends)) if starts and ends else (rng.randrange(len(commands) + 1), rng.randrange(len(commands) + 1))
        return min(a, b), max(a, b)

    (a, b), (c, d) = run(mine), run(theirs)
    return b"".join(dvi.mended(mine[: rng.choice([a, b])] + theirs[c:d] + mine[b:])) + tail


def random_damage(rng, file, others):
    """One to three random steps; after some of them pointers are mended, so that later rules come into reach."""
    for _ in range(rng.choice([1, 1, 1, 2, 3])):
        kind = rng.randrange(9)
        at = rng.randrange(len(file) + 1)
        if kind == 0 and file:
            at %= len(file)
            file = file[:at] + bytes([rng.randrange(256)]) + file[at + 1 :]
        elif kind == 1:
            file = file[:at] if rng.random() < 0.5 else file[:at] + file[at + rng.randrange(1, 9) :]
        elif kind == 2:
            file = file[:at] + bytes(rng.randrange(256) for _ in range(rng.choice([1, 1, 2, 4]))) + file[at:]
        elif kind == 3:
            file = spliced(rng, file, rng.choice(others)) if file else file
        else:
            commands, tail = dvi.commands_of(file)
            if not commands:
                continue
            index = rng.randrange(len(commands))
            changed = field_changes(commands[index], dvi.places_of(commands)[index])
            if kind == 4 and not changed:  # look for a command that has fields of its own
                index = rng.choice([0, len(commands) - 1])
                changed = field_changes(commands[index], 0)
            if kind == 4 and changed:
                commands[index] = rng.choice(changed)
            elif kind == 5:
                commands.insert(index, rng.choice(intruders(commands)))
            elif kind == 6:
                del commands[index]
            elif kind == 7:
                other = rng.randrange(len(commands))
                commands[index], commands[other] = commands[other], commands[index]
            else:
                commands.insert(index, commands[rng.randrange(len(commands))])
            file = b"".join(dvi.mended(commands) if kind != 4 and rng.random() < 0.7 else commands) + tail
    return file


class Asker:
    """Puts damaged files into groups of a thousand: `check` for all, `place` and `name` for a part."""

    def __init__(self, gather, rng, title, table, group_size=1000):
        self.gather, self.rng, self.title, self.table, self.group_size = gather, rng, title, table, group_size
        self.files, self.turn = 0, 0

    def ask_all(self, files):
        batch = []
        for file in files:
            batch.append(file)
            if len(batch) == self.group_size:
                self.ask_batch(batch)
                batch = []
        if batch:
            self.ask_batch(batch)

    def ask_batch(self, batch):
        self.turn += 1
        with self.gather(f"damaged: {self.title} {self.turn}") as group:
            table, empty = group.keep(self.table), group.keep(b"")
            for data in batch:
                file = group.keep(data)
                self.files += 1
                group.ask(b"check %s" % file)
                if self.rng.random() < 0.3:
                    resolution, number = self.rng.choice(RESOLUTIONS), self.rng.choice([1, 1, 1, 2])
                    group.ask(place(file, self.rng.choice([table, table, empty]), resolution, number))
                if self.rng.random() < 0.05:
                    group.ask(*naming(file, self.rng.choice([0, 1, 200, self.rng.randrange(256)])))


def groups(gather, rng, published, count, long):
    """At least `count` damaged files; `published` are small published files to begin from. Gives how many there were."""
    small = small_bases()
    fonts = {(f.check_sum, f.scale): f for file in small + published for f in dvi.fonts_of(dvi.commands_of(file)[0])}
    # The table has most characters of these fonts, so that damaged pages get records too.
    table = table_for(rng, list(fonts.values())[:40], unit_of(TEX_UNITS, 300), 0.8)
    steps = Asker(gather, rng, "single steps", table)
    for file in small + (published if long else []):
        steps.ask_all(dict.fromkeys(single_steps(file)))
    others = small + published
    at_random = Asker(gather, rng, "random damage", table)

    def base():
        return rng.choice(others) if rng.random() < 0.7 else random_volume(rng, 30)[2]

    at_random.ask_all(random_damage(rng, base(), others) for _ in range(max(0, count - steps.files)))
    return steps.files + at_random.files
