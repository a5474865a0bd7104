"""The proved reader and plain C, asked alike: one shared object (bench/build) with both behind the door of bench/time.c."""

import ctypes
from pathlib import Path

PROVED, PLAIN = 0, 1
ENTRIES = ("check", "place", "scale", "table", "look", "widths", "cut", "widen", "narrow")
ANSWER_LENGTHS = {"check": 4, "place": 3, "scale": 1, "table": 1, "look": 6, "widths": 1, "cut": 1, "widen": 1, "narrow": 1}
NUMBERS = {"check": 0, "place": 2, "scale": 5, "table": 0, "look": 3, "widths": 1, "widen": 0, "narrow": 0}  # behind the files; cut has a list
WIDTH_RECORD, OLD_WIDTH_RECORD = 32, 16  # bytes
RECORDS = {  # bytes, of the entries that write into an area; a file is counted in bytes
    "place": 20, "widths": WIDTH_RECORD, "cut": 1, "widen": WIDTH_RECORD, "narrow": OLD_WIDTH_RECORD,
}
CODES = 256


class Question(ctypes.Structure):
    """The fields of `struct question`."""

    _fields_ = [
        ("entry", ctypes.c_uint64),
        ("file", ctypes.c_char_p),
        ("file_length", ctypes.c_size_t),
        ("table", ctypes.c_char_p),
        ("table_length", ctypes.c_size_t),
        ("area", ctypes.c_void_p),
        ("area_length", ctypes.c_size_t),
        ("pages", ctypes.c_void_p),
        ("pages_length", ctypes.c_size_t),
        ("name", ctypes.c_char_p),
        ("name_length", ctypes.c_size_t),
        ("resolution", ctypes.c_uint32),
        ("page", ctypes.c_uint32),
        ("checksum", ctypes.c_uint32),
        ("scale", ctypes.c_uint32),
        ("code", ctypes.c_int32),
        ("word", ctypes.c_uint8 * 4),
    ]


class Job:
    """A question to one entry: where it comes from, its files, a font's name, and its numbers."""

    def __init__(self, entry, group, name, size=0, file=b"", table=b"", numbers=(), area_length=None, font_name=b""):
        self.entry, self.group, self.name, self.size = entry, group, name, size
        self.file, self.table, self.font_name = file, table, font_name
        self.resolution = self.page = self.checksum = self.scale = self.code = 0
        self.word = bytes(4)
        self.pages = listed(())
        if entry == "place":
            self.resolution, self.page = numbers
        elif entry == "scale":
            self.scale, *word = numbers
            self.word = bytes(word)
        elif entry == "look":
            self.checksum, self.scale, self.code = numbers
        elif entry == "widths":
            (self.scale,) = numbers
        elif entry == "cut":
            self.pages = listed(numbers)
        self.area_length = self.enough() if area_length is None else area_length

    def enough(self):
        """An area that any page of the file fits into: a record takes a command, and a command a byte; or any font's records, one a code; or a
        file of any pages, which has three 223s more than the old one at most; or all records of the table."""
        most = {
            "place": len(self.file), "widths": CODES, "cut": len(self.file) + 3,
            "widen": len(self.table) // OLD_WIDTH_RECORD, "narrow": len(self.table) // WIDTH_RECORD,
        }  # fmt: skip
        return RECORDS.get(self.entry, 0) * most.get(self.entry, 0)


def listed(numbers):
    return (ctypes.c_uint32 * len(numbers))(*numbers)


def spelled(name):
    """A font's name as lines and manifests have it."""
    return name.hex() or "-"


def read_name(word):
    """The bytes that `spelled` writes so; a line has bytes, a manifest a text."""
    text = word.decode() if isinstance(word, bytes) else word
    return b"" if text == "-" else bytes.fromhex(text)


def job_of(words, files, group, name, size=0):
    """ENTRY, its files, its numbers; for place, widths, widen and narrow the length of the area may follow. Of cut the length of the area comes first,
    then the list of pages; of look the font's name stands before the code."""
    entry, *words = words
    file = files(words.pop(0)) if entry in ("check", "place", "widths", "cut") else b""
    table = files(words.pop(0)) if entry in ("place", "table", "look", "widen", "narrow") else b""
    font_name = read_name(words.pop(2)) if entry == "look" else b""
    numbers = [int(word) for word in words]
    if entry == "cut":
        return Job(entry, group, name, size, file, numbers=numbers[1:], area_length=numbers[0])
    area_length = numbers.pop() if len(numbers) > NUMBERS[entry] else None
    return Job(entry, group, name, size, file, table, numbers, area_length, font_name)


def in_full(word):
    """The words that a word of the manifest stands for: FIRST..LAST/STEP for the numbers of a range, any other for itself."""
    first, dots, rest = word.partition("..")
    if not dots:
        return [word]
    last, _, step = rest.partition("/")
    return range(int(first), int(last) + 1, int(step or 1))


def works_of(manifest):
    """A line a work: ENTRY GROUP NAME SIZE, then the entry's files, in the manifest's folder, and numbers. A work is one job, or several
    alike: a file, a number or a range may be a list with commas between, one for each job; what is no list is the same for all."""
    folder, known = Path(manifest).parent, {}

    def files(name):
        if name not in known:
            known[name] = (folder / name).read_bytes()
        return known[name]

    for line in Path(manifest).read_text().splitlines():
        entry, group, name, size, *words = line.split()
        lists = [word.split(",") for word in words]
        alike = max(map(len, lists))
        full = [given * alike if len(given) == 1 else given for given in lists]
        given = ([said for word in words for said in in_full(word)] for words in zip(*full, strict=True))
        yield [job_of([entry, *words], files, group, name, int(size)) for words in given]


class Readers:
    def __init__(self, shared_object):
        self.library = ctypes.CDLL(str(shared_object))
        self.library.ask.restype = ctypes.c_uint32
        self.library.ask.argtypes = [ctypes.c_uint32, ctypes.POINTER(Question), ctypes.c_void_p, ctypes.c_size_t]
        self.library.seconds_of.restype = ctypes.c_double
        self.library.seconds_of.argtypes = [ctypes.c_uint32, ctypes.POINTER(Question), ctypes.c_uint64, ctypes.c_uint64]

    @staticmethod
    def question(job, area):
        return Question(
            ENTRIES.index(job.entry), job.file, len(job.file), job.table, len(job.table), area, job.area_length,
            ctypes.addressof(job.pages), len(job.pages), job.font_name, len(job.font_name), job.resolution, job.page, job.checksum, job.scale, job.code, tuple(job.word),
        )  # fmt: skip

    def ask(self, reader, question, answer, answer_length):
        return self.library.ask(reader, question, answer, answer_length)

    def seconds_of(self, reader, questions, calls):
        """The processor time of so many calls, the questions of an array in turn."""
        return self.library.seconds_of(reader, questions, len(questions), calls)
