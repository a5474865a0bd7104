"""DVItype as a witness of files of chosen pages: it must read the new file without a word that it does not have for the old one, and say the
same of every chosen page: each command, where h, v and the pixels then are, and what is saved. Only the places in the file differ."""

import pathlib
import re
import tempfile

import dvi
from dvitype import NoWitness, said

RESOLUTION = 300
COMMAND = re.compile(r"\d+: (.*)")
DEFINED = re.compile(r"(?:Font|\d+: fntdef[1-4]) (\d+: .*)")
# A definition on a page has no size in DVItype's words, and of a font without a TFM file the next line is missing.
SIZE = re.compile(r" scaled \d+(?=---| *\Z)| +\Z")
NO_TFM = "---not loaded, TFM file can't be opened!"
# Where a page goes beyond l or u, which TeX's may, and beyond all pages before it, of which the new file has fewer.
BEYOND = re.compile(r"warning: \|[hv]\|>\d+! *|warning: observed max[hv] was -?\d+ *")
# What the head says of the new file alone.
POST = re.compile(r"Postamble starts at byte \d+\.")
DEPTH_AND_PAGES = re.compile(r"maxstackdepth=\d+, totalpages=\d+")


class Typed:
    """What DVItype says of a file: of the whole, of the definitions before *post*, and of each page, without places."""

    def __init__(self, data):
        with tempfile.TemporaryDirectory() as folder:
            path = pathlib.Path(folder) / "typed.dvi"  # DVItype wants this ending
            path.write_bytes(data)
            text = said(path, RESOLUTION)
        self.head, self.definitions, self.pages, self.late = [], [], [], 0
        repeated = dvi.summary(data)[1]  # DVItype begins with the postamble's definitions
        for line in text.split("\n"):
            if "beginning of page" in line:
                self.pages.append([])
            found = DEFINED.match(line)
            if found and repeated:
                repeated, found = repeated - 1, None
            if found:
                self.late += bool(self.pages)  # a definition on a page or behind one
                self.definitions.append(SIZE.sub("", found[1]).replace(NO_TFM, ""))
            elif (line := BEYOND.sub("", line)).strip() and not line.startswith(("[", NO_TFM)):  # a line with a bracket repeats the text set, up to the next definition
                command = COMMAND.match(line)
                (self.pages[-1] if self.pages else self.head).append(command[1] if command else line)


def hear(group, data, lists, new_file):
    """Whether DVItype reads the file. Then it reads those of these pages too, and what it has against them is one more fault of the group."""
    try:
        old = Typed(data)
    except NoWitness:
        return False
    for pages in lists:
        new = new_file(data, pages)
        try:
            fault = against(old, Typed(new), pages, dvi.summary(new))
        except NoWitness as reason:
            fault = str(reason)
        group.object(fault and f"DVItype on pages {' '.join(map(str, pages))}: {fault}")
    return True


def against(old, new, pages, summary):
    """The first thing that DVItype says of the new file otherwise than it must, or None."""
    count, _, depth, post = summary
    head = [POST.sub(f"Postamble starts at byte {post}.", line) for line in old.head]
    head = [DEPTH_AND_PAGES.sub(f"maxstackdepth={depth}, totalpages={count}", line) for line in head]
    wanted = [("of the whole", head), ("of the definitions", old.definitions), *((f"of page {number}", old.pages[number - 1]) for number in pages)]
    given = [new.head, new.definitions, *new.pages]
    if len(given) != len(wanted):
        return f"{len(new.pages)} pages"
    if new.late:
        return f"{new.late} definitions behind the first bop"
    for (what, lines), others in zip(wanted, given):
        if lines != others:
            at = next((i for i, (a, b) in enumerate(zip(lines, others)) if a != b), min(len(lines), len(others)))
            return f"{what}, line {at + 1}: {others[at : at + 1]}, but of the old file: {lines[at : at + 1]}"
    return None
