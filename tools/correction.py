#!/usr/bin/python3
"""Make the refraction correction that belongs to a span file.

The air lifts what is seen near the horizon by about half a degree. For each
span of the given file this writes a span of the same ticks which is near the
refraction, in thousandths of a degree, at the file's own heights. The two
files added number by number (a + a, b + b, c + c, d + d) are a file of
apparent heights.

The refraction is Saemundsson's formula for true heights (1010 hPa, 10 degrees
C). It is kept down to one degree below the horizon, where nothing is seen any
more, and from there falls smoothly to 0 at twelve degrees below: that part
has no meaning but to let a cubic follow. Each cubic has the refraction of its
two ends, to the nearest thousandth, so that no join has a step. In between it
is a least-squares fit which counts the ticks near the horizon five times as
much as the others, because there the risings and settings are. A cubic over
thousands of seconds follows the sharp rise of the refraction only roughly;
the largest errors are printed on standard error.
"""

import argparse
import os
import shlex
import sys

import numpy as np

sys.dont_write_bytecode = True
from every_tick import read_spans       # noqa: E402

TICKS = 1024
LIMIT = 2 ** 24
LOWEST = -1000.0        # the formula is used from here up (thousandths of a degree)
ZERO = -12000.0         # from here down the refraction is taken as 0
LIFTED = -575.0         # a body at this height is seen on the horizon
WIDTH = 1500.0          # what counts as near to that


def refraction(high):
    """How much a body at these true heights is lifted; all in thousandths."""
    h = np.maximum(high, LOWEST) / 1000.0
    lift = 1000.0 * 1.02 / 60.0 / np.tan(np.radians(h + 10.3 / (h + 5.11)))
    share = np.clip((high - ZERO) / (LOWEST - ZERO), 0.0, 1.0)
    return np.maximum(lift, 0.0) * share * share * (3.0 - 2.0 * share)


def cubic(spans, s):
    """The values of cubics (rows of four numbers) at the places s."""
    a, b, c, d = (spans[:, i:i + 1].astype(float) for i in range(4))
    return a + s * (b + s * (c + s * d))


def fit(lift, care, s):
    """Whole-number cubics through the rounded ends of each row, with the
    least sum of (care * error)^2 in between."""
    a, end = np.rint(lift[:, 0]), np.rint(lift[:, -1])
    rest = lift - a[:, None] * (1 - s) - end[:, None] * s
    bends = np.stack([s ** 2 - s, s ** 3 - s], axis=1)      # both are 0 at both ends
    square = np.einsum("mk,sm,ml->skl", bends, care ** 2, bends)
    right = np.einsum("mk,sm,sm->sk", bends, care ** 2, rest)
    c, d = np.rint(np.linalg.solve(square, right[..., None])[..., 0]).T
    return np.stack([a, end - a - c - d, c, d], axis=1).astype(np.int64)


def events(high):
    """The ticks in which a row of heights goes above or below 0."""
    above = high.ravel() >= 0
    return np.flatnonzero(above[1:] != above[:-1]) + 1


def main():
    parser = argparse.ArgumentParser(
        description=__doc__, formatter_class=argparse.RawDescriptionHelpFormatter)
    parser.add_argument("file", help="the span file of true heights")
    parser.add_argument("--out", metavar="FILE", help="the file to write (standard output)")
    args = parser.parse_args()
    try:
        spans = np.array(read_spans(args.file), dtype=np.int64)
        with open(args.file, encoding="ascii", errors="replace") as file:
            kept = [line for line in file
                    if line.startswith(("# place:", "# year:", "# begins:", "# tick:"))]
    except (OSError, ValueError) as error:
        sys.exit(f"correction.py: {error}")
    if not len(spans):
        sys.exit(f"correction.py: {args.file} has no spans")
    if args.out and not os.path.isdir(os.path.dirname(args.out) or "."):
        sys.exit(f"correction.py: there is no folder for {args.out}")

    s = np.arange(TICKS + 1) / TICKS        # the last place, s = 1, is the end of the span
    high = cubic(spans, s)
    if np.abs(high).max() > 100000:
        sys.exit("correction.py: a height is beyond 100 degrees; these are no heights of a body")
    lift = refraction(high)
    found = fit(lift, 1.0 + 4.0 / (1.0 + ((high - LIFTED) / WIDTH) ** 4), s)
    if np.abs(found).max() > LIMIT or np.abs(found + spans).max() > LIMIT:
        sys.exit("correction.py: a number is beyond 2^24")

    high, lift, error = high[:, :-1], lift[:, :-1], np.abs(cubic(found, s) - lift)[:, :-1]
    largest = [f"over every tick {error.max():.0f}"]
    for text, where in (("where the body is above the horizon", high >= 0),
                        ("where it is seen within half a degree of the horizon",
                         np.abs(high + lift) <= 500)):
        if where.any():
            largest.append(f"{text} {error[where].max():.0f}")
    print("largest error in thousandths of a degree: " + ", ".join(largest), file=sys.stderr)
    wanted, got = events(high + lift), events(cubic(found + spans, s)[:, :-1])
    print(f"risings and settings on line 0: {len(wanted)} with the refraction itself, "
          f"{len(got)} with the correction file", file=sys.stderr)
    if len(wanted) == len(got) > 0:
        apart = np.abs(wanted - got)
        print(f"they are at most {apart.max()} ticks apart, {apart.mean():.2f} in the mean",
              file=sys.stderr)

    again = ["tools/correction.py", args.file] + (["--out", args.out] if args.out else [])
    text = ("# refraction, in thousandths of a degree, to be added number by number\n"
            f"# to the spans of: {os.path.basename(args.file)}\n" + "".join(kept) +
            "# by Saemundsson's formula (1010 hPa, 10 degrees C) from 1 degree below the\n"
            "# horizon upwards; from there smoothly to 0 at 12 degrees below\n"
            f"# largest error {largest[0]}" + "".join(f",\n# {part}" for part in largest[1:]) +
            f"\n# made by: {shlex.join(again)}\n")
    text += "".join(f"{a} {b} {c} {d}\n" for a, b, c, d in found.tolist())
    if args.out:
        with open(args.out, "w", encoding="ascii") as file:
            file.write(text)
    else:
        sys.stdout.write(text)


if __name__ == "__main__":
    main()
