#!/usr/bin/env python3
"""The works of a manifest timed, both readers in turn.

    measure.py READERS.so MANIFEST SECONDS

The readers take turns in short slices (as many calls as take some milliseconds, each job of a work once at least), until each has had SECONDS; the
least slice counts: a short slice is the likelier to run undisturbed. A line a work: ENTRY GROUP NAME SIZE PROVED-NANOSECONDS PLAIN-NANOSECONDS, of one call.
Where pages are cut out, the check of the same files takes its turns too, and two numbers more follow: its nanoseconds, proved and plain.
"""

import ctypes
import sys

from readers import PLAIN, PROVED, Job, Question, Readers, works_of


SLICE = 0.004  # seconds
FEWEST_TURNS = 5


def calls_for(readers, reader, questions):
    """How many calls make a slice: each question as often as the others."""
    calls = len(questions)
    while (took := readers.seconds_of(reader, questions, calls)) < SLICE / 20:
        calls *= 8
    return len(questions) * max(1, round(calls / len(questions) * SLICE / took))


def least(readers, sides, seconds):
    """The least time of a call, of each side, which is a reader and its questions; who goes first changes from turn to turn."""
    calls = [calls_for(readers, *side) for side in sides]
    best, spent = [float("inf")] * len(sides), [0.0] * len(sides)
    order = list(range(len(sides)))
    turn = 0
    while turn < FEWEST_TURNS or min(spent) < seconds:
        for which in order if turn % 2 == 0 else order[::-1]:
            took = readers.seconds_of(*sides[which], calls[which])
            spent[which] += took
            best[which] = min(best[which], took / calls[which])
        turn += 1
    return best


def questions_of(readers, work, area):
    return (Question * len(work))(*(readers.question(job, ctypes.addressof(area)) for job in work))


def main():
    shared_object, manifest, seconds = sys.argv[1:]
    readers = Readers(shared_object)
    for work in works_of(manifest):
        area = (ctypes.c_uint8 * max(1, *(job.area_length for job in work), 1))()
        first = work[0]
        asked = [work]
        if first.entry == "cut":
            asked.append([Job("check", job.group, job.name, file=job.file) for job in work])
        sides = [(reader, questions) for questions in (questions_of(readers, some, area) for some in asked) for reader in (PROVED, PLAIN)]
        times = least(readers, sides, float(seconds))
        print(first.entry, first.group, first.name, first.size, " ".join(f"{time * 1e9:.2f}" for time in times), flush=True)


if __name__ == "__main__":
    main()
