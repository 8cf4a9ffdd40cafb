#!/usr/bin/python3
"""Work out the table of risings and settings of a span file by looking at
every tick, in exact whole numbers.

A span file is a text with one span per line, four whole numbers `a b c d`,
each from -2^24 to 2^24, and at most 4,096 spans. Lines that start with `#`
are comments. A span has 1,024 ticks; ticks count from 0 through the file,
span by span. In tick u of a span the height, in thousandths of a degree, is

    a + b (u/1024) + c (u/1024)^2 + d (u/1024)^3

and 2^30 times that is a whole number. The body is above the line in a tick
if its height is not below it (on the line counts as above). It rises in a
tick if it is above there and was not in the tick before; it sets in a tick
if it is not above there and was in the tick before. In tick 0 it does
neither.

Printed is one line per event, in order: `rise T` or `set T`, or `none` if
there is no event. No search is made: each tick is looked at.
"""

import argparse
import re
import sys

import numpy as np

TICKS = 1024            # ticks in a span
MOST_SPANS = 4096       # spans in a file, at most
LIMIT = 2 ** 24         # the size of each of the four numbers, at most
UNIT = 2 ** 30          # heights are held as whole numbers of 1/2^30 thousandth

FOUR_NUMBERS = re.compile(r"[ \t]*(-?[0-9]+)[ \t]+(-?[0-9]+)[ \t]+(-?[0-9]+)[ \t]+(-?[0-9]+)[ \t]*")


def read_spans(path):
    """The spans of a file, a list of four-number tuples; refuses a bad line."""
    spans = []
    with open(path, encoding="ascii", errors="replace", newline="\n") as file:
        for number, line in enumerate(file, 1):
            line = line.rstrip("\n")
            if line.startswith("#"):
                continue
            match = FOUR_NUMBERS.fullmatch(line)
            if match is None:
                raise ValueError(f"{path}, line {number}: not four whole numbers")
            span = tuple(int(word) for word in match.groups())
            if max(abs(x) for x in span) > LIMIT:
                raise ValueError(f"{path}, line {number}: a number is beyond 2^24")
            spans.append(span)
            if len(spans) > MOST_SPANS:
                raise ValueError(f"{path}, line {number}: more than {MOST_SPANS} spans")
    return spans


def heights(spans):
    """The heights of all ticks, times 2^30, exactly.

    Each of the four terms is at most 2^54 in size, so their sum is below
    2^57 and sixty-four bits are enough.
    """
    a, b, c, d = (np.array([span[i] for span in spans], dtype=np.int64)[:, None]
                  for i in range(4))
    u = np.arange(TICKS, dtype=np.int64)[None, :]
    return (a * 2 ** 30 + b * u * 2 ** 20 + c * (u * u) * 2 ** 10 + d * (u * u * u)).ravel()


def table(high, line):
    """The events as a list of ("rise" or "set", tick), in order."""
    # No height reaches 2^27 thousandths, so a line beyond that can be brought
    # nearer without changing any answer; then line * 2^30 fits in 64 bits.
    line = max(-2 ** 27, min(2 ** 27, line))
    above = high >= line * UNIT
    ticks = np.flatnonzero(above[1:] != above[:-1]) + 1
    return [("rise" if above[t] else "set", int(t)) for t in ticks]


def highest(high, rise, set_):
    """The first tick with the largest height from a rising to the setting
    after it, and that height to the nearest whole thousandth, halves up."""
    tick = rise + int(np.argmax(high[rise:set_]))     # argmax gives the first
    return tick, (int(high[tick]) + UNIT // 2) // UNIT


def main():
    parser = argparse.ArgumentParser(
        description=__doc__, formatter_class=argparse.RawDescriptionHelpFormatter)
    parser.add_argument("file", help="the span file")
    parser.add_argument("--line", type=int, default=0, metavar="N",
                        help="the line, in whole thousandths of a degree (0 if not given)")
    parser.add_argument("--span", type=int, metavar="S",
                        help="print only the lines whose tick is in span S (from 0)")
    parser.add_argument("--highest", action="store_true",
                        help="between each rising and the setting after it print also "
                             "`highest T H`: the first tick with the largest height, and "
                             "that height to the nearest thousandth, halves up")
    args = parser.parse_args()

    try:
        spans = read_spans(args.file)
    except (OSError, ValueError) as error:
        sys.exit(f"every_tick.py: {error}")
    if args.span is not None and not 0 <= args.span < len(spans):
        sys.exit(f"every_tick.py: there is no span {args.span}; the file has {len(spans)}")

    lines = []
    if spans:
        high = heights(spans)
        rise = None
        for what, tick in table(high, args.line):
            if what == "set" and rise is not None and args.highest:
                top, height = highest(high, rise, tick)
                lines.append((top, f"highest {top} {height}"))
            rise = tick if what == "rise" else None
            lines.append((tick, f"{what} {tick}"))
    if args.span is not None:
        lines = [(tick, text) for tick, text in lines if tick // TICKS == args.span]
    print("\n".join(text for _, text in lines) if lines else "none")


if __name__ == "__main__":
    main()
