"""Asking both programs the same lines, and telling their answers apart.

A line is bytes without its line end. One process of a side answers many thousands of lines; lines and answers go
through files, so that neither side waits for the other.
"""

import contextlib
import os
import re
import signal
import subprocess
import time

from tables import NEW, OLD

ANSWERS = {
    b"read": rb"command \d+ \d+ \d+",
    b"check": rb"accepted \d+ \d+ \d+ \d+",
    b"name": rb"name \d+ \d+",
    b"spell": rb"spelled (?:-|(?:[0-9a-f]{2})+)",
    b"round": rb"rounded -?\d+",
    b"scale": rb"width -?\d+",
    b"table": rb"right \d+",
    b"look": rb"(?:found -?\d+ \d+ \d+ \d+ \d+|absent)",
    b"place": rb"end \d+ \d+ \d+",
    b"widths": rb"end \d+",
    b"widen": rb"end \d+",
    b"narrow": rb"end \d+",
    b"cut": rb"end \d+",
}
FORMS = {word: re.compile(rb"(?:refused \d+ at \d+|no input|" + form + rb")\Z") for word, form in ANSWERS.items()}
NO_INPUT = re.compile(rb"no input\Z")
# The questions whose answers have records, a row each before the last: how such a row looks, and what is enough to know it.
NEW_RECORD, OLD_RECORD = (re.compile(rb"[0-9a-f]{%d}\Z" % (2 * form.size)) for form in (NEW, OLD))
RECORDS = {
    b"place": re.compile(rb"[cr] \d+ \d+ -?\d+ -?\d+ -?\d+ -?\d+\Z"), b"widths": NEW_RECORD, b"widen": NEW_RECORD, b"narrow": OLD_RECORD,
    b"cut": re.compile(rb"(?:[0-9a-f]{2}){1,32}\Z"),
}
STARTS = {**RECORDS, b"place": re.compile(rb"[cr] ")}
MOST_RESTARTS = 12
MOST_BYTES = 1_000_000_000  # of one run's answers; a side that writes more has gone wrong


class Hung(Exception):
    """A side did not end. Asking it again would take as long again, so the comparison stops at once."""


class Side:
    """One of the two programs."""

    def __init__(self, name, command, directory, seconds):
        self.name, self.command, self.directory, self.seconds = name, command, directory, seconds

    def __str__(self):
        return " ".join(self.command)

    def start(self, lines, folder):
        """Starts a process on these lines."""
        questions = folder / f"{self.name}.questions"
        questions.write_bytes(b"".join(line + b"\n" for line in lines))
        output, complaints = folder / f"{self.name}.answers", folder / f"{self.name}.complaints"
        with questions.open("rb") as given, output.open("wb") as taken, complaints.open("wb") as said:
            # A process group of its own, so that whatever it starts can be ended with it.
            process = subprocess.Popen(self.command, cwd=self.directory, stdin=given, stdout=taken, stderr=said, start_new_session=True)
        return process, output, complaints

    def finish(self, started):
        """What the process wrote, and how it ended if that was not as it should be."""
        process, output, complaints = started
        try:
            self.wait(process, output)
        except BaseException:
            self.end(process)
            raise
        text = complaints.read_bytes().decode(errors="replace").strip()[-300:]
        ending = f"exit status {process.returncode} {text}".strip() if process.returncode else None
        return output.read_bytes(), ending

    def wait(self, process, output):
        until = time.monotonic() + self.seconds
        while True:
            try:
                process.wait(timeout=0.5)
                return
            except subprocess.TimeoutExpired:
                if time.monotonic() > until:
                    raise Hung(f"{self.name}: no end within {self.seconds} s") from None
                if output.stat().st_size > MOST_BYTES:
                    raise Hung(f"{self.name}: more than {MOST_BYTES} bytes of answers") from None

    def end(self, process):
        with contextlib.suppress(ProcessLookupError):
            os.killpg(process.pid, signal.SIGKILL)
        process.wait()


def split_answers(lines, output):
    """One answer a line asked: the answers that are whole, in order, and the rows left over after them."""
    rows = output.split(b"\n")
    rows.pop()  # what stands after the last line end is no whole row
    answers, at = [], 0
    for line in lines:
        start = at
        record = STARTS.get(line.split(b" ", 1)[0])
        while record and at < len(rows) and record.match(rows[at]):
            at += 1
        if at == len(rows):
            return answers, rows[start:]
        at += 1
        answers.append(b"\n".join(rows[start:at]))
    return answers, rows[at:]


def ask_one(side, lines, folder, started):
    """The answers of one side; b"" stands for one that did not come. A side that stops is started again after the
    line it stopped at, so that one crash does not hide what comes after it."""
    answers, complaints = [], []
    for _ in range(MOST_RESTARTS):
        asked = lines[len(answers) :]
        try:
            output, ending = side.finish(started)
        except Hung as fault:
            with started[1].open("rb") as output:
                number = len(split_answers(asked, output.read(MOST_BYTES // 20))[0])
            raise Hung(f"{fault}; {number} whole answers, then this line: {asked[number : number + 1]}") from None
        given, left = split_answers(asked, output)
        answers += given
        if len(given) < len(asked):
            complaints.append(f"no answer ({ending or 'it ended as if all were answered'})")
            answers.append(b"")
        elif ending or left:
            complaints.append(ending or f"{len(left)} rows more than were asked for")
            answers[-1:] = [b""]
        if len(answers) == len(lines):
            break
        started = side.start(lines[len(answers) :], folder)
    else:
        side.finish(started)
        answers += [b""] * (len(lines) - len(answers))
    return answers, complaints


def ask_both(sides, lines, folder):
    """The answers of both sides to these lines, and what either complained of."""
    if not lines:
        return [[], []], []
    started = [side.start(lines, folder) for side in sides]
    try:
        pairs = [ask_one(side, lines, folder, process) for side, process in zip(sides, started)]
    finally:
        for side, (process, *_) in zip(sides, started):
            if process.poll() is None:  # the other side hung
                side.end(process)
    complaints = [f"{side.name}: {text}" for side, (_, texts) in zip(sides, pairs) for text in texts]
    return [pair[0] for pair in pairs], complaints


def well_formed(line, answer):
    """Whether an answer has the form that the line asks for. Both sides giving the same rubbish is no agreement."""
    rows = answer.split(b"\n")
    word = line.split(b" ", 1)[0]
    if not FORMS.get(word, NO_INPUT).match(rows[-1]):
        return False
    if len(rows) == 1 and not rows[0].startswith(b"end "):
        return True
    records = int(rows[-1].split(b" ")[1]) if rows[-1].startswith(b"end ") else -1
    if word == b"cut":  # bytes, 32 a row but for the last
        records = -(-records // 32) if 2 * records == sum(map(len, rows[:-1])) else -1
    return records == len(rows) - 1 and (not records or bool(RECORDS[word].match(rows[0]) and RECORDS[word].match(rows[-2])))


def differs(line, first, second):
    """Whether these two answers fail the comparison."""
    return first != second or not well_formed(line, first)
