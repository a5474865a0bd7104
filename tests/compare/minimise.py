"""Making a failing line's files smaller while it still fails, and keeping the smallest."""

import dvi
import pk
from asking import ask_both, differs
from tables import NEW, OLD, records_of

MOST_ROUNDS = 80
MOST_TRIES = 400  # candidates that one run of the two programs is asked about
FILE_WORDS = {
    b"read": (1,), b"check": (1,), b"name": (1,), b"table": (1,), b"look": (1,), b"place": (1, 2), b"widths": (1,), b"widen": (1,), b"narrow": (1,), b"cut": (1,),
}
TABLES_FIRST = (b"table", b"look", b"widen", b"narrow")  # the questions whose first word is a table


def without(runs, left_out):
    return [item for i, run in enumerate(runs) if i not in left_out for item in run]


def bound_together(commands):
    """The indices of the commands, in tuples of those that stand or fall together: a *push* and its *pop*, a *bop* and its
    *eop*, a font's two definitions."""
    partner, stack, defined, begun = {}, [], {}, None
    for index, command in enumerate(commands):
        if command[0] == dvi.PUSH:
            stack.append(index)
        elif command[0] == dvi.POP and stack:
            partner[index] = stack.pop()
        elif command[0] == dvi.BOP:
            begun = index
        elif command[0] == dvi.EOP and begun is not None:
            partner[index], begun = begun, None
        elif dvi.FNT_DEF1 <= command[0] < dvi.PRE:
            first = defined.setdefault(dvi.Font.read(command).number, index)
            if first != index:
                partner[index] = first
    bound = {index: [index] for index in range(len(commands)) if index not in partner}
    for index, other in partner.items():
        bound[other].append(index)
    return [tuple(bound[index]) for index in sorted(bound)]


class Case:
    """A failing line, and the bytes of the files that it names."""

    def __init__(self, line):
        self.words = line.split(b" ")
        self.files = {}
        for at in FILE_WORDS.get(self.words[0], ()):
            try:
                with open(self.words[at], "rb") as file:
                    self.files[at] = file.read()
            except (OSError, IndexError, ValueError):
                continue  # no file of that name is what the line is about

    def line(self, names):
        return b" ".join(names.get(at, word) for at, word in enumerate(self.words))


class Minimiser:
    def __init__(self, sides, folder):
        self.sides, self.folder, self.rounds = sides, folder, 0

    def failing(self, case, at, candidates):
        """For each of these candidates for the file at this word, whether the line still fails with it."""
        names = {word: self.written(f"case-{word}", data) for word, data in case.files.items()}
        lines = [case.line({**names, at: self.written(f"try-{i}", data)}) for i, data in enumerate(candidates)]
        (firsts, seconds), _ = ask_both(self.sides, lines, self.folder)
        self.rounds += 1
        return [differs(line, first, second) for line, first, second in zip(lines, firsts, seconds)]

    def written(self, name, data):
        path = self.folder / name
        path.write_bytes(data)
        return str(path).encode()

    def shorten(self, case, at, items, joined):
        """Leaves out runs of items, half of them first and then ever fewer, as long as the line still fails."""
        run = max(1, len(items) // 2)
        while items and self.rounds < MOST_ROUNDS:
            runs = [items[start : start + run] for start in range(0, len(items), run)]
            tried = list(range(len(runs)))[:MOST_TRIES]
            fails = self.failing(case, at, [joined(without(runs, {i})) for i in tried])
            spare = [i for i, failed in zip(tried, fails) if failed]
            if spare:
                # Of the runs that can each be left out, as many at once as still fail: the first, or 2, 4, 8 ... of them, or all.
                together = [spare[: 1 << k] for k in range(len(spare).bit_length() + 1)]
                fails = self.failing(case, at, [joined(without(runs, set(some))) for some in together])
                most = max((some for some, failed in zip(together, fails) if failed), key=len, default=spare[:1])
                items = without(runs, set(most))
                case.files[at] = joined(items)
            elif run == 1:
                return
            run = max(1, min(run, len(items)) // 2) if not spare or run > len(items) // 2 else run

    def minimise(self, line):
        """The case with files as small as they get."""
        case = Case(line)
        for at in case.files:
            if case.words[0] == b"widths":
                commands, tail = pk.commands_of(case.files[at])
                self.shorten(case, at, commands, lambda some, tail=tail: b"".join(some) + tail)
                data = case.files[at]
                if len(data) < 4000:
                    self.shorten(case, at, [data[i : i + 1] for i in range(len(data))], b"".join)
            elif at == 1 and case.words[0] not in TABLES_FIRST:
                commands, tail = dvi.commands_of(case.files[at])

                def mended_file(bound):
                    return b"".join(dvi.mended([commands[i] for i in sorted(i for one in bound for i in one)])) + tail

                # Commands first, pointers mended, so that a valid file stays one; then plain bytes.
                self.shorten(case, at, bound_together(commands), mended_file)
                data = case.files[at]
                if len(data) < 4000:
                    self.shorten(case, at, [data[i : i + 1] for i in range(len(data))], b"".join)
            else:
                self.shorten(case, at, records_of(case.files[at], OLD if case.words[0] == b"widen" else NEW), b"".join)
        return case


def keep_case(sides, case, folder, scratch, note):
    """Writes the smallest case, a line that names its files, and both answers into a folder to stay."""
    folder.mkdir(parents=True, exist_ok=True)
    names = {}
    for at, data in case.files.items():
        path = folder / ("file.pk" if case.words[0] == b"widths" else "file.dvi" if at == 1 and case.words[0] not in TABLES_FIRST else "table")
        path.write_bytes(data)
        names[at] = str(path).encode()
    line = case.line(names)
    answers, complaints = ask_both(sides, [line], scratch)
    (folder / "line").write_bytes(line + b"\n")
    for side, answer in zip(sides, answers):
        (folder / f"{side.name}.answers").write_bytes(answer[0] + b"\n")
    (folder / "note").write_text("\n".join([note, *complaints]) + "\n")
    return line, answers[0][0], answers[1][0]
