"""The questions of tests/compare as jobs: made-up files, each group for one notion, bars, fonts' scales, widths, width tables with names, PK fonts, files of
chosen pages, published files, and damaged ones."""

import contextlib
import random
import sys
from pathlib import Path

TESTS = Path(__file__).resolve().parent.parent / "tests"
sys.path.insert(0, str(TESTS / "compare"))
import cut  # noqa: E402
import damaged  # noqa: E402
import dvi  # noqa: E402
import made_up  # noqa: E402
import named  # noqa: E402
import packed  # noqa: E402
import pktype  # noqa: E402
import published  # noqa: E402
import single_lines  # noqa: E402

from readers import ENTRIES, job_of  # noqa: E402


class Group:
    """What tests/compare fills: files by a name, and lines that name them."""

    def __init__(self):
        self.lines, self.files, self.names = [], {}, {}

    def keep(self, data):
        if data not in self.names:
            self.names[data] = b"%d" % len(self.names)
            self.files[self.names[data]] = data
        return self.names[data]

    def ask(self, *lines):
        self.lines += lines

    def expect(self, line, rows, refusable=False):
        """tests/compare holds its programs to these; here the two readers are held to each other."""

    def hold(self, *lines_and_judge):
        """The same."""

    def object(self, words):
        """The same."""

    def jobs(self, name):
        """Those lines that an entry of the bench answers."""
        for line in self.lines:
            words = line.split(b" ")
            if words[0].decode() in ENTRIES:
                yield job_of([words[0].decode(), *words[1:]], self.files.get, name, line.decode())


class Gathered:
    """Jobs, handed on group by group."""

    def __init__(self, take):
        self.take = take

    @contextlib.contextmanager
    def gather(self, name):
        group = Group()
        yield group
        for job in group.jobs(name):
            self.take(job)


def file_of_pages(count):
    """A file of so many pages, every third of which has something on it."""
    return dvi.volume(dvi.PLAIN_UNITS, [c for number in range(count) for c in dvi.page([dvi.right(number), dvi.MARK] if number % 3 == 0 else [])])


def ask_all(take, seed, damaged_files):
    """Every question of the short form, with that many damaged files."""

    def numbers(name):
        return random.Random(f"{seed} {name}")

    gather = Gathered(take).gather
    paths = sorted((TESTS / "published").glob("*.dvi"))
    published.groups(gather, random.Random(f"{seed} published"), paths)
    made_up.groups(gather, random.Random(f"{seed} made-up"), False)
    made_up.bar_groups(gather, random.Random(f"{seed} bars"), False)
    made_up.scale_groups(gather, lambda name: random.Random(f"{seed} {name}"), False)
    with gather("lines: scaling") as group:
        single_lines.scaling(group, random.Random(f"{seed} scaling"), 400)
    named.groups(gather, numbers, False, lambda name: name != "named: lines")
    small = [path.read_bytes() for path in paths if path.stat().st_size <= 2000]
    damaged.groups(gather, random.Random(f"{seed} damaged"), small, damaged_files, False)
    packed.groups(gather, lambda name: random.Random(f"{seed} {name}"), False, lambda name: name != "packed: lines")
    fonts = [path.read_bytes() for path, _ in pktype.kept_fonts()]
    packed.damaged_groups(gather, random.Random(f"{seed} packed damaged"), fonts, damaged_files, False)
    cut.groups(gather, numbers, False, lambda name: name != "cut: lines")
    cut.real_groups(gather, numbers, paths, False, lambda name: True)
    cut.damaged_groups(gather, numbers("cut damaged"), small, damaged_files, False)
