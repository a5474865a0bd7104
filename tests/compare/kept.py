"""DVItype's word kept as text, so that it is heard where neither TeX nor DVItype is installed: the files of tests/tex.

NAME.dvi is what TeX wrote, NAME.widths the width table of its characters (escapements 0), NAME.typed what DVItype said:

    volume PAGES FONTS DEPTH POST                the whole file; DEPTH by the levels that it counted, whatever the file states
    dpi R R ...                                  the resolutions of the columns below
    w FONT CODE WIDTH                            what setting this character adds to h
    page MISSING SPECIALS                        a page begins; its marks follow in order
    c FONT CODE H V  HH VV  HH VV ...            a character, its pixels at each R
    r HEIGHT WIDTH H V  HH VV HIGH WIDE ...      a rule, its pixels and its sides in pixels at each R

with ? for an hh or vv that DVItype may give otherwise than our rules (`dvitype.py` says where).
"""

import pathlib

from dvitype import Mark, Page, Testimony, table_of
from looking import widths_of

FOLDER = pathlib.Path(__file__).resolve().parent.parent / "tex"
FEWEST = 8  # files, or some were lost


def told(number):
    return "?" if number is None else str(number)


def written(testimony, version):
    """The testimony as text."""
    resolutions = list(testimony.placed)
    lines = [version, "volume " + " ".join(map(str, testimony.volume)), "dpi " + " ".join(map(str, resolutions))]
    lines += [f"w {font} {code} {width}" for (font, code), width in sorted(testimony.widths.items())]
    for number, page in enumerate(testimony.pages):
        assert page.overflow is None, "there is no line for that"
        lines.append(f"page {page.missing} {page.specials}")
        for at, mark in enumerate(page.marks):
            head = (mark.font, mark.value) if mark.kind == "c" else (mark.value, mark.other)
            fields = [mark.kind, *head, mark.h, mark.v]
            for pages in testimony.placed.values():
                there = pages[number].marks[at]
                fields += [there.hh, there.vv, *(there.sides or ())]
            lines.append(" ".join(map(told, fields)))
    return "\n".join(lines) + "\n"


def numbers(words):
    return [None if word == "?" else int(word) for word in words]


def read(data, table, text):
    """The testimony that `written` wrote."""
    rows = {(check_sum, scale, code): word for (check_sum, scale, _, code), (_, word) in widths_of(table).items()}
    volume, widths, pages, placed, resolutions = None, {}, [], {}, []
    for line in text.split("\n")[1:]:
        word, *rest = line.split(" ")
        if word == "volume":
            volume = numbers(rest)
        elif word == "dpi":
            resolutions = [int(r) for r in rest]
            placed = {resolution: [] for resolution in resolutions}
        elif word == "w":
            font, code, width = map(int, rest)
            widths[font, code] = width
        elif word == "page":
            for one in (pages, *placed.values()):
                one.append(Page())
                one[-1].missing, one[-1].specials = map(int, rest)
        elif word in ("c", "r"):
            fields = numbers(rest)
            font, value, other = (fields[0], fields[1], None) if word == "c" else (0, fields[0], fields[1])
            h, v, pixels = fields[2], fields[3], fields[4:]
            each = len(pixels) // len(resolutions)
            pages[-1].marks.append(Mark(word, font, h, v, value, other))
            for at, resolution in enumerate(resolutions):
                hh, vv, *sides = pixels[at * each : (at + 1) * each]
                placed[resolution][-1].marks.append(Mark(word, font, h, v, value, other, hh, vv, sides))
        elif word:
            raise AssertionError(f"not a line of a kept testimony: {line}")
    return Testimony(data, rows, volume, widths, pages, placed)


def kept_testimonies():
    names = sorted(path.stem for path in FOLDER.glob("*.typed"))
    if len(names) < FEWEST:
        raise AssertionError("tests/tex has lost its files")
    for name in names:
        parts = [(FOLDER / f"{name}.{ending}").read_bytes() for ending in ("dvi", "widths", "typed")]
        yield name, read(parts[0], parts[1], parts[2].decode())


def keep(name, source, testimony, version):
    FOLDER.mkdir(exist_ok=True)
    (FOLDER / f"{name}.tex").write_text(source + "\n")
    (FOLDER / f"{name}.dvi").write_bytes(testimony.data)
    (FOLDER / f"{name}.widths").write_bytes(table_of(testimony.rows, dict.fromkeys(testimony.rows, 0)))
    (FOLDER / f"{name}.typed").write_text(written(testimony, version))
