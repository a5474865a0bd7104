#!/usr/bin/env python3
"""The lines of measure.py, from standard input, as a table: time a call and a unit of size, the ratio, and how time grows inside each group; of
pages that are cut out also how many times as long as the check of the same file that takes."""

import math
import sys

UNITS = {
    "check": "byte", "place": "record", "scale": "width", "table": "record", "look": "record", "widths": "byte", "cut": "byte", "widen": "record",
    "narrow": "record",
}
OTHER_UNITS = {
    "moves": "move", "still": "move", "levels": "level", "empty-page": "page", "pk-packets": "packet",
    **{f"published-pages{names}": "byte" for names in ("", "-own", "-mixed")},
}


def exponent(points):
    """The slope of log time over log size, by least squares."""
    xs, ys = [math.log(size) for size, _ in points], [math.log(time) for _, time in points]
    x, y = sum(xs) / len(xs), sum(ys) / len(ys)
    spread = sum((one - x) ** 2 for one in xs)
    return sum((one - x) * (other - y) for one, other in zip(xs, ys)) / spread


def time_text(nanoseconds):
    for unit, size in (("s", 1e9), ("ms", 1e6), ("us", 1e3)):
        if nanoseconds >= size:
            return f"{nanoseconds / size:.2f} {unit}"
    return f"{nanoseconds:.1f} ns"


def row(entry, group, name, size, proved, plain, checks=()):
    each = f"{proved / size:9.2f} {plain / size:9.2f} ns/{OTHER_UNITS.get(group, UNITS[entry])}"
    checked = "".join(f" {time / check:9.2f}" for time, check in zip((proved, plain), checks))
    return f"{entry:6} {name:34} {size:>10} {time_text(proved):>11} {time_text(plain):>11} {each:29} {proved / plain:6.2f}{checked}"


def spread(ratios):
    return f"{min(ratios):.2f} to {max(ratios):.2f}" if len(ratios) > 1 else f"{ratios[0]:.2f}"


def main():
    groups = {}
    print(f"{'entry':6} {'work':34} {'size':>10} {'proved':>11} {'plain C':>11} {'proved':>9} {'plain C':>9} {'':9} {'ratio':>6}"
          f" {'times check: proved, plain C':>9}")
    for line in sys.stdin:
        entry, group, name, *numbers = line.split()
        size, (proved, plain, *checks) = int(numbers[0]), map(float, numbers[1:])
        print(row(entry, group, name, size, proved, plain, checks), flush=True)
        groups.setdefault((entry, group), []).append((size, proved, plain, *checks))
    print()
    print(f"{'entry':6} {'group':24} {'exponent: proved':>17} {'plain C':>9} {'ratios':>15} {'times check: proved':>20} {'plain C':>15}")
    for (entry, group), points in groups.items():
        spreads = [spread([proved / plain for _, proved, plain, *_ in points])]
        if len(points[0]) > 3:
            spreads += [spread([point[which] / point[which + 2] for point in points]) for which in (1, 2)]
        sizes = [size for size, *_ in points]
        if len(points) > 1 and sizes == sorted(sizes):
            grown = [f"{exponent([(size, times[which]) for size, *times in points]):.3f}" for which in (0, 1)]
        else:
            grown = ["", ""]
        print(f"{entry:6} {group:24} {grown[0]:>17} {grown[1]:>9} {spreads[0]:>15}" + "".join(f" {one:>{width}}" for one, width in zip(spreads[1:], (20, 15))))


if __name__ == "__main__":
    main()
