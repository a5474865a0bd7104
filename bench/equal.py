#!/usr/bin/env python3
"""Both readers asked the same. Any difference is told and ends the run.

    equal.py READERS.so SEED QUESTIONS VARIANTS [MANIFEST...]

Asked are widths at the edges of what a scale and a fix word may be, names of every kind, tables with each byte of a record made another, tables from the old form to
the new one and back, lists of pages of every kind, the questions of tests/compare with so many damaged files (none of these questions if 0 is said), every job of the
manifests, and so many damaged variants of their small ones.
Compared are the returned code, the whole answer array (with numbers behind the answer) and the whole area with guard bytes before and after it.
"""

import collections
import copy
import ctypes
import itertools
import random
import sys

import questions
from make import LONGEST_NAME, MOST_FONTS, in_old_form, records_of, width_record
from readers import ANSWER_LENGTHS, OLD_WIDTH_RECORD, PLAIN, PROVED, RECORDS, WIDTH_RECORD, Job, Readers, listed, works_of

GUARD = 64
ANSWER = 8  # two numbers more than the longest answer
SMALL = 70_000  # bytes; what is longer is asked as it is only
RESOLUTIONS = (0, 1, 50, 99, 100, 199, 200, 300, 600, 1200, 10_000, 10_001, 4_294_967_295)
SCALES = (0, 1, 134_217_727, 134_217_728, 4_294_967_295)
FIRST_BYTES = (0, 255, 1, 254)
LAST_BYTES = (0, 1, 127, 128, 255)
RANDOM_WORDS = 25  # for each scale and first byte
RANDOM_WIDTHS = 5000
LONGEST_FILE = 16_777_216
MOST_PAGES = 65_535
GREATEST = 4_294_967_295  # of 32 bits
VERY_LONG = 1 << 20  # numbers of a list
VERY_LONG_NAME = 70_000
CHECK_SUM, SCALE = 0, 655_360  # of all fonts that share one key
REFUSALS = range(1, 25)
REFUSALS_OF = {"cut": (*range(1, 12), 17, 23), "table": (14,), "look": (14,), "widen": (14, 17), "narrow": (14, 24, 17)}


class Different(Exception):
    pass


class Comparing:
    def __init__(self, readers):
        self.readers, self.codes = readers, collections.Counter()
        self.codes_of = collections.defaultdict(collections.Counter)

    def outcome(self, reader, job, answer_length):
        answer = (ctypes.c_int64 * ANSWER)(*[0x5A5A5A5A5A5A5A5A] * ANSWER)
        area = (ctypes.c_uint8 * (job.area_length + 2 * GUARD))()
        ctypes.memset(area, 0xA5, len(area))
        question = self.readers.question(job, ctypes.addressof(area) + GUARD)
        code = self.readers.ask(reader, question, answer, answer_length)
        return code, list(answer), bytes(area)

    def compare(self, job, answer_length=ANSWER):
        """The outcome of both, where it is one."""
        proved, plain = (self.outcome(reader, job, answer_length) for reader in (PROVED, PLAIN))
        self.codes[proved[0]] += 1
        self.codes_of[job.entry][proved[0]] += 1
        if proved != plain:
            raise Different(told(job, proved, plain))
        return proved


def told(job, proved, plain):
    lines = [f"different: {job.entry}, {job.group}: {job.name}"]
    if job.entry == "scale":
        lines.append(f"  scale {job.scale}, fix word {list(job.word)}")
    if job.entry in ("look", "table", "widen", "narrow"):
        lines.append(f"  table {job.table[:320].hex()} of {len(job.table)} bytes, an area of {job.area_length}")
    if job.entry == "look":
        lines.append(f"  check sum {job.checksum}, scale {job.scale}, name {job.font_name[:40].hex()} of {len(job.font_name)} bytes, code {job.code}")
    if job.entry == "cut":
        lines.append(f"  a list of {len(job.pages)} pages: {', '.join(map(str, job.pages[:20]))}; an area of {job.area_length} bytes")
    for name, (code, answer, _) in (("proved", proved), ("plain C", plain)):
        lines.append(f"  {name}: code {code}, answer {answer}")
    at = next((at for at, (one, other) in enumerate(zip(proved[2], plain[2])) if one != other), None)
    if at is not None:
        lines.append(f"  area from byte {at - GUARD}: {proved[2][at]} and {plain[2][at]}")
    return "\n".join(lines)


def with_area(job, area_length):
    changed = copy.copy(job)
    changed.area_length = area_length
    return changed


def compare_with_areas(comparing, job):
    """As it is; and where records or a file are written, with an area just long enough, and a byte shorter."""
    code, answer, _ = comparing.compare(job)
    if job.entry in RECORDS and code == 0:
        enough = RECORDS[job.entry] * answer[0]
        comparing.compare(with_area(job, enough))
        if enough > 0:
            comparing.compare(with_area(job, enough - 1))


def compare_short_arrays(comparing, jobs):
    """The first job of each entry, with answer arrays up to just long enough."""
    for entry, enough in ANSWER_LENGTHS.items():
        for job in [job for job in jobs if job.entry == entry][:1]:
            for answer_length in range(enough + 1):
                comparing.compare(job, answer_length)


def compare_too_long(comparing):
    """Refusal 1, and a file as long as one may be."""
    for length in (LONGEST_FILE, LONGEST_FILE + 1):
        for start in (b"", b"\xff"):
            file = start.ljust(length, b"\x8a")
            comparing.compare(Job("check", "long", f"{length} bytes", file=file))
            comparing.compare(Job("cut", "long", f"{length} bytes", file=file, area_length=0))


def compare_scaling(comparing, rng):
    """Scales at the edges of their range and where they are halved once more, with fix words of edge bytes and random ones, and random lawful widths;
    each with answer arrays long enough and too short."""
    scales = [*SCALES, *questions.made_up.SCALES_AROUND_HALVINGS]
    widths = []
    for scale, first in itertools.product(scales, FIRST_BYTES):
        widths += [(scale, first, *last) for last in itertools.product(LAST_BYTES, repeat=3)]
        widths += [(scale, first, *rng.randbytes(3)) for _ in range(RANDOM_WORDS)]
    widths += [(rng.randrange(1, 1 << rng.randrange(1, 28)), rng.choice((0, 255)), *rng.randbytes(3)) for _ in range(RANDOM_WIDTHS)]
    for numbers in widths:
        job = Job("scale", "scaling", "a width", numbers=numbers)
        for answer_length in (ANSWER, ANSWER_LENGTHS["scale"], 0):
            comparing.compare(job, answer_length)


# ---- names


def names_of_every_kind():
    """Of no byte, of 1, 15, 16, 17, 255 and very many; alike up to the 8th, the 15th and the 16th byte; with a zero at each place."""
    alike = bytes(range(97, 97 + LONGEST_NAME))
    whole = [alike[:length] for length in (0, 1, 7, 8, 9, 15, 16)]
    other = [alike[: at - 1] + b"\xff" for at in (1, 8, 9, 15, 16)]
    long = [alike + b"z", alike + b"y", (alike * 16)[:255], (alike * VERY_LONG_NAME)[:VERY_LONG_NAME]]
    with_zeros = [alike[:at] + b"\0" + alike[at + 1 : length] for length in (1, 2, 8, 9, 16, 17) for at in range(length)]
    return [*whole, *other, *long, *with_zeros]


def sayable(name):
    return len(name) <= LONGEST_NAME and 0 not in name


def tables_of_names(rng, names):
    """Tables for the one key that all fonts share: codes for any name and for own names, apart and mixed, each record with metrics of its own."""
    keys = sorted({name.ljust(LONGEST_NAME, b"\0") for name in names if sayable(name)})

    def table(is_there):
        rows = [(name, code) for name in keys for code in range(0, 256, 17) if is_there(name, code)]
        return b"".join(width_record(CHECK_SUM, SCALE, code, at, 1000 * at, name) for at, (name, code) in enumerate(rows, 1))

    own = [key for key in keys if any(key)]
    yield table(lambda name, code: True)
    yield table(lambda name, code: not any(name))
    yield table(lambda name, code: any(name))
    yield table(lambda name, code: any(name) == (code % 4 == 0))
    for _ in range(8):
        left_out = {(name, code) for name in keys for code in range(256) if rng.random() < 0.5}
        yield table(lambda name, code: (name, code) not in left_out)
    for name in rng.sample(own, 4):
        yield table(lambda key, code: key == name)


def page_of_names(names, area=b"", check_sum=CHECK_SUM):
    """A file whose fonts have one check sum and one scale and these names; each of them sets the same characters."""
    fonts = [questions.dvi.Font(number, check_sum, SCALE, area=area, name=name) for number, name in enumerate(names)]
    text = bytes(range(0, 128, 17)) + b"ABC" + b"".join(questions.dvi.character(code) for code in (136, 153, 255))
    page = [part for font in fonts for part in (questions.dvi.select(font.number), text)]
    return questions.dvi.volume(questions.dvi.TEX_UNITS, [font.definition() for font in fonts] + questions.dvi.page(page), fonts)


def compare_names(comparing, rng):
    """Every name looked up in tables that have it, that have it for some codes, and that have it not; and pages of fonts that share one key, also with
    areas by which area and name read alike."""
    names = names_of_every_kind()
    in_files = [name for name in names if len(name) <= 255][:MOST_FONTS]
    files = [page_of_names(in_files), page_of_names([b"b", b"ab"]), page_of_names([b"b", b"ab", b""], b"a")]
    for table in tables_of_names(rng, [*names, b"b", b"ab"]):
        comparing.compare(Job("table", "names", "a table", table=table))
        for name in [*names, b"b", b"ab"]:
            for code in (0, 17, 68, 1, 255, 256 + 17, -256 + 17, -1):
                for numbers in ((CHECK_SUM, SCALE, code), (CHECK_SUM, SCALE + 1, code), (CHECK_SUM + 1, SCALE, code)):
                    comparing.compare(Job("look", "names", "a look-up", table=table, numbers=numbers, font_name=name))
        for file in files:
            compare_with_areas(comparing, Job("place", "names", "a page", file=file, table=table, numbers=(300, 1)))
        compare_with_areas(comparing, Job("narrow", "names", "a table", table=table))


# ---- both forms of tables


def small_tables():
    """Three records each, so that one of them has a neighbour on both sides: codes, names, scales and check sums that differ; a name in one of them. Then
    one record each, whose key is all zeros and all ones but for the scale: no value can stand for the record before the first."""
    record = width_record
    yield b"".join(record(7, SCALE, code, -code, 300_000 + code) for code in (65, 66, 67))
    yield b"".join(record(7, SCALE, 65, 5, 300_000, name) for name in (b"", b"cmr10", b"cmr10 at sixteen"))
    yield record(7, SCALE, 66, 5, 1) + record(7, SCALE, 65, 5, 2, b"n" * 8) + record(7, SCALE, 65, 5, 3, b"n" * 9)
    yield record(6, SCALE, 255, 5, 1) + record(7, 1, 0, 5, 2) + record(7, SCALE, 65, 5, 3)
    yield record(7, SCALE, 65, 5, 1, b"n") + record(7, SCALE + 1, 65, 5, 2) + record(8, 1, 65, 5, 3)
    for scale, code in itertools.product((0, 1, 134_217_727, GREATEST), (0, 65, 255)):
        yield record(0, scale, code, 5, 1)
        yield record(GREATEST, scale, code, 5, 1, b"\xff" * LONGEST_NAME)


def with_bytes_changed(table):
    """Each byte made some others, one at a time; and the table with some bytes more or fewer."""
    for at, byte in enumerate(table):
        for other in {0, 1, 127, 128, 254, 255, (byte + 1) % 256, (byte - 1) % 256} - {byte}:
            yield table[:at] + bytes([other]) + table[at + 1 :]
    for length in (1, 7, 8, 9, 15, 16, 17, 24, 25, 31):
        yield table + table[:length]
        yield table[:-length]


def compare_changed_records(comparing):
    """By every entry that judges a table."""
    file = page_of_names([b"cmr10", b"n", b""], check_sum=7)
    for right in small_tables():
        for table in (right, *with_bytes_changed(right)):
            comparing.compare(Job("table", "changed records", "a table", table=table))
            comparing.compare(Job("look", "changed records", "a look-up", table=table, numbers=(7, SCALE, 65), font_name=b"cmr10"))
            comparing.compare(Job("place", "changed records", "a page", file=file, table=table, numbers=(300, 1)))
            compare_with_areas(comparing, Job("narrow", "changed records", "a table", table=table))
        old = in_old_form(right)
        for table in (old, *with_bytes_changed(old)):
            compare_with_areas(comparing, Job("widen", "changed records", "a table", table=table))


def made_up_table(rng, records):
    """A right table for any names: check sums of edges and others, codes here and there."""
    keys = {(rng.choice([0, 1, GREATEST, rng.randrange(GREATEST)]), rng.choice([1, 134_217_727, rng.randrange(1, 134_217_728)]), rng.randrange(256))
            for _ in range(records)}
    rows = [width_record(*key, rng.randrange(-32768, 32768), rng.choice([0, 255]) << 24 | rng.randrange(1 << 24)) for key in sorted(keys)]
    return b"".join(rows)


def written(outcome, record):
    """What an accepted question wrote into the area."""
    code, answer, area = outcome
    return area[GUARD : GUARD + record * answer[0]] if code == 0 else None


def compare_forms(comparing, rng):
    """Both ways and back, of tables of no record to very many, with areas of every kind; a name here and there, which the way back refuses; answer arrays too
    short."""
    for records in (0, 1, 2, 3, 100, 5000, 300_000):
        table = made_up_table(rng, records)
        old = in_old_form(table)
        there, back = Job("widen", "forms", f"{records} records", table=old), Job("narrow", "forms", f"{records} records", table=table)
        for job, known in ((there, table), (back, old)):
            compare_with_areas(comparing, job)
            comparing.compare(with_area(job, 0))
            comparing.compare(job, 0)
            longer = comparing.compare(with_area(job, job.area_length + 1000))
            if written(longer, RECORDS[job.entry]) != known:
                raise Different(f"{job.entry} of {records} records: not the bytes that were widened or narrowed here")
        rows = records_of(table)
        for at in {0, len(rows) // 2, len(rows) - 1} if rows else ():
            named = rows[at][:8] + rng.choice([b"n", b"n" * LONGEST_NAME]).ljust(LONGEST_NAME, b"\0") + rows[at][8 + LONGEST_NAME :]
            for tail in (b"", b"\0"):
                for area_length in (None, 0):
                    changed = b"".join([*rows[:at], named, *rows[at + 1 :], tail])
                    comparing.compare(Job("narrow", "forms", f"a name among {records} records", table=changed, area_length=area_length))


def lists_for(rng, pages):
    """Lists of pages of a file that has so many: right ones; then lists that are empty, not strictly rising, or name a page that is not there."""
    everything = range(1, pages + 1)
    right = [everything, everything[::2], everything[1::2], [1], [pages], sorted(rng.sample(everything, rng.randrange(1, pages + 1)))]
    wrong = [
        [], [0], [pages + 1], [pages + 65_536], [GREATEST], [1, 1], [pages, pages], [pages, 1], [1, 0], [1, GREATEST], [GREATEST, 1], range(pages + 1),
        range(1, pages + 2), everything[::-1], [*everything, pages], [*everything, 1], [*everything, 0], [*everything, GREATEST], [1, *everything],
        range(1, VERY_LONG), [1] * VERY_LONG, [0] * VERY_LONG,
    ]  # fmt: skip
    return [*right, *wrong]


def compare_lists(comparing, rng):
    """Lists of every kind, of one page and of as many as there may be, with areas long enough, just long enough, a byte too short, and empty; and with
    an answer array too short."""
    for pages in (1, 2, 3, 300, MOST_PAGES):
        file = questions.file_of_pages(pages)
        for numbers in lists_for(rng, pages):
            job = Job("cut", "lists", f"of {pages} pages", file=file, numbers=numbers)
            compare_with_areas(comparing, job)
            comparing.compare(with_area(job, 0))
            comparing.compare(job, 0)


def damaged(rng, data):
    """A few bytes changed, taken out or put in, or the end cut off; near both ends as often as elsewhere."""
    data = bytearray(data)
    for _ in range(rng.randrange(1, 4)):
        if not data:
            break
        near = min(len(data), 120)
        at = rng.choice([rng.randrange(near), len(data) - 1 - rng.randrange(near), rng.randrange(len(data))])
        change = rng.randrange(8)
        if change == 0:
            del data[at:]
        elif change == 1:
            del data[at]
        elif change == 2:
            data.insert(at, rng.randrange(256))
        elif change == 3:
            data[at] = (data[at] + 1) % 256
        elif change == 4:
            data[at] = rng.randrange(128, 250)
        else:
            data[at] = rng.randrange(256)
    return bytes(data)


def variant(rng, job, number):
    """A job with its file or table damaged, and other numbers asked now and then."""
    changed = copy.copy(job)
    changed.name = f"{job.name}, variant {number}"
    if job.file and rng.random() < 0.8:
        changed.file = damaged(rng, job.file)
    if job.table and (not job.file or rng.random() < 0.15):
        changed.table = damaged(rng, job.table)
    if job.entry == "place":
        if rng.random() < 0.25:
            changed.resolution = rng.choice(RESOLUTIONS)
        if rng.random() < 0.25:
            changed.page = rng.randrange(job.page + 3)
        if rng.random() < 0.25:
            changed.area_length = rng.randrange(job.area_length // 4 + 1)
    elif job.entry == "look":
        if rng.random() < 0.5:
            changed.code = rng.randrange(-(2**31), 2**31)
        if rng.random() < 0.25:
            changed.font_name = rng.choice([b"", b"n", job.font_name + b"\0", job.font_name[:-1], rng.randbytes(rng.randrange(1, 20))])
    elif job.entry in ("widen", "narrow"):
        if rng.random() < 0.25:
            changed.area_length = rng.randrange(job.area_length + 1)
    elif job.entry == "widths":
        if rng.random() < 0.1:
            changed.scale = rng.choice(SCALES)
        if rng.random() < 0.25:
            changed.area_length = rng.randrange(job.area_length + 1)
    elif job.entry == "cut":
        if rng.random() < 0.5:
            changed.pages = listed(changed_list(rng, job.pages[:]))
        if rng.random() < 0.25:
            changed.area_length = rng.randrange(job.area_length + 1)
    return changed


def changed_list(rng, numbers):
    """Some of the numbers; now and then one of them another, twice or gone."""
    numbers = sorted(rng.sample(numbers, rng.randrange(len(numbers) + 1)))
    if numbers and rng.random() < 0.5:
        at = rng.randrange(len(numbers))
        numbers[at : at + 1] = rng.choice([[], [numbers[at]] * 2, [rng.randrange(numbers[-1] + 3)], [GREATEST]])
    return numbers


def compare_all(comparing, seed, asked, variants, manifests):
    compare_scaling(comparing, random.Random(f"{seed} scaling"))
    compare_names(comparing, random.Random(f"{seed} names"))
    compare_changed_records(comparing)
    compare_forms(comparing, random.Random(f"{seed} forms"))
    compare_lists(comparing, random.Random(f"{seed} lists"))
    if asked:
        compare_too_long(comparing)
        questions.ask_all(comparing.compare, seed, asked)
    jobs = [job for manifest in manifests for work in works_of(manifest) for job in work]
    for job in jobs:
        compare_with_areas(comparing, job)
    compare_short_arrays(comparing, jobs)
    rng = random.Random(seed)
    with_bytes = [job for job in jobs if job.entry != "scale"]  # a width has none to damage
    small = [job for job in with_bytes if len(job.file) <= SMALL and len(job.table) <= SMALL]
    for number in range(variants if small else 0):
        comparing.compare(variant(rng, rng.choice(small), number))


def main():
    shared_object, seed, asked, variants, *manifests = sys.argv[1:]
    comparing = Comparing(Readers(shared_object))
    try:
        compare_all(comparing, int(seed), int(asked), int(variants), manifests)
    except Different as difference:
        print(difference)
        sys.exit(1)
    codes = comparing.codes
    refused = ", ".join(f"{code}: {codes[code]}" for code in sorted(codes) if code not in (0, 255))
    print(f"equal: {codes.total()} answers, {codes[0]} results; refusals by number {refused}")
    lacking = [number for number in REFUSALS if codes[number] == 0]
    lacking += [f"{number} of {entry}" for entry, numbers in REFUSALS_OF.items() for number in numbers if comparing.codes_of[entry][number] == 0]
    if int(asked) and lacking:
        print(f"never occurred: {lacking}")
        sys.exit(1)


if __name__ == "__main__":
    main()
