#!/usr/bin/env python3
"""DVItype beside the check, for whole files; nothing where it is not installed.

    dvitype.py LINES FILE...      the lines of measure.py, of which the check of these files is taken

DVItype does more than the check: it reads the fonts' TFM files, and prints a line a page and a font at its lowest level (0), a line a command
with all registers and pixels at its highest (4). It is a whole process that starts and reads its file; the check is a call on bytes in memory.
"""

import os
import shutil
import subprocess
import sys
from pathlib import Path

RUNS = 3


def processor_seconds(command):
    """The processor time of one run, its own and the system's for it."""
    process = subprocess.Popen(command, stdout=subprocess.DEVNULL, stderr=subprocess.DEVNULL)
    _, _, used = os.wait4(process.pid, 0)
    return used.ru_utime + used.ru_stime


def main():
    lines, files = Path(sys.argv[1]).read_text().splitlines(), [Path(name) for name in sys.argv[2:]]
    program = shutil.which("dvitype")
    print()
    if program is None:
        print("dvitype is not installed: no comparison with it")
        return
    version = subprocess.run([program, "-version"], capture_output=True, text=True, check=False).stdout.splitlines()[0]
    print(f"{version}, processor time of a whole run, least of {RUNS}; beside the check it starts, reads file and TFM files, and prints")
    checked = {words[2]: float(words[4]) * 1e-9 for words in map(str.split, lines) if words[0] == "check"}
    for file in files:
        name, length = file.stem, file.stat().st_size
        for level, does in ((0, "a line a page and a font"), (4, "a line a command, with positions")):
            took = min(processor_seconds([program, f"-output-level={level}", str(file)]) for _ in range(RUNS))
            times = f", {took / checked[name]:.0f} times the proved check" if name in checked else ""
            print(f"{name:20} level {level} ({does}): {took:8.3f} s {took / length * 1e9:9.2f} ns/byte{times}")


if __name__ == "__main__":
    main()
