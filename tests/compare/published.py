"""Questions about whole DVI files that others made: published ones and those that TeX writes here."""

import dvi
from made_up import LONGEST_FILE, RESOLUTIONS, WHOLE_AREA, look, naming, place, unit_of
from tables import table_for


def units_of(commands):
    if not commands or commands[0][0] != dvi.PRE:
        return dvi.TEX_UNITS
    return tuple(max(1, dvi.signed(commands[0][start : start + 4])) for start in (2, 6, 10))


def some_places(rng, commands, length):
    """Starts of commands, places inside them, and both sides of the end."""
    starts = dvi.places_of(commands)
    chosen = rng.sample(starts, min(len(starts), 8)) + [rng.randrange(length) for _ in range(8)]
    return [0, 14, 15, *chosen, length - 1, length, length + 1, (1 << 64) - 1]


def ask_about(group, rng, data):
    """Check, names, single commands, and the first, middle and last page with a width table for its fonts and without."""
    commands, _ = dvi.commands_of(data)
    fonts = dvi.fonts_of(commands)
    pages = dvi.page_count(commands)
    file, empty = group.keep(data), group.keep(b"")
    table = group.keep(table_for(rng, fonts, unit_of(units_of(commands), 300)))
    group.ask(b"check %s" % file, b"table %s" % table)
    defined = {font.number for font in fonts}
    undefined = [n for n in range(256) if n not in defined]
    numbers = [*sorted(defined), *rng.sample(undefined, min(3, len(undefined))), -1, 256, dvi.FURTHEST]
    group.lines += [line for number in numbers for line in naming(file, number)]
    group.lines += [b"read %s %d" % (file, at) for at in some_places(rng, commands, len(data))]
    for number in sorted({1, (pages + 1) // 2, pages}):
        for resolution in RESOLUTIONS:
            group.lines += [place(file, name, resolution, number) for name in (table, empty)]
        group.ask(place(file, table, 300, number, rng.choice([0, 20, 200, WHOLE_AREA - 20])))
    group.ask(place(file, table, 300, 0), place(file, table, 300, pages + 1), place(file, table, 0), place(file, table, 10_000))
    for font in rng.sample(fonts, min(2, len(fonts))):
        group.ask(look(table, font.check_sum, font.scale, font.name, rng.randrange(-300, 300)))


def groups(gather, rng, paths, lawful=False):
    """One group a file. Of files that are all known to keep the rules the check's whole answer is known too."""
    for path in paths:
        with gather(f"published: {path.name}") as group:
            data = path.read_bytes()
            if len(data) > LONGEST_FILE:
                file = group.keep(data)  # no input, whatever is asked
                group.ask(b"check %s" % file, *naming(file, 0), b"read %s 0" % file, place(file, group.keep(b""), 300))
            else:
                ask_about(group, rng, data)
                if lawful:
                    group.expect(b"check %s" % group.keep(data), [["accepted", *dvi.summary(data)]])
