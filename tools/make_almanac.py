#!/usr/bin/python3
"""Make a span file: the height of a body above the horizon of a place, for
one year.

The heights are those of the library PyEphem (Debian's python3-ephem): of the
body's centre, seen from the place itself, without refraction unless it is
asked for. Time is cut into ticks, 1,024 ticks make a span, and each span is
written as four whole numbers a b c d so that in its tick u, with s = u/1024,

    a + b s + c s^2 + d s^3

is near the height in thousandths of a degree. The end of each cubic (s = 1)
is exactly the beginning of the next one, so that no join has a step. The
last span goes past the end of the year. The largest error, in thousandths of
a degree, is printed on standard error.

A year of 10-second ticks takes a minute for the sun and two for the moon.
"""

import argparse
import datetime
import math
import os
import shlex
import sys

import ephem
import numpy as np

TICKS = 1024            # ticks in a span
MOST_SPANS = 4096       # spans in a file, at most
LIMIT = 2 ** 24         # the size of each of the four numbers, at most
BODIES = ["sun", "moon", "mercury", "venus", "mars", "jupiter", "saturn",
          "uranus", "neptune", "pluto"]


def fail(text):
    sys.exit(f"make_almanac.py: {text}")


def true_heights(args, start, count, step):
    """The library's heights, in thousandths of a degree, in `count` moments
    `step` seconds apart from `start`."""
    place = ephem.Observer()
    place.lat = math.radians(args.lat)
    place.lon = math.radians(args.lon)
    place.elevation = args.elevation
    place.pressure = 1010.0 if args.refraction else 0.0     # 0: no refraction
    place.temp = 15.0
    body = getattr(ephem, args.body.capitalize())()
    first = ephem.Date(start)
    found = np.empty(count)
    for i in range(count):
        place.date = first + i * step / 86400.0
        body.compute(place)
        found[i] = body.alt
    return np.degrees(found) * 1000.0


def fit(high, s):
    """Whole-number cubics for rows of heights taken at the places s.

    First each span is fitted alone: least squares with the weight of the
    Chebyshev polynomials, which comes close to the smallest largest error.
    The two spans at a join give it two heights; their mean, rounded, becomes
    the height of the join. With both ends of a span fixed, c and d are left
    (b follows from them): they begin at the best fit, rounded, and are moved
    by whole steps as long as the largest error of the span becomes smaller.
    """
    weight = 1.0 / np.sqrt(np.sqrt(np.maximum(s * (1 - s), 1e-3)))
    powers = np.stack([s ** 0, s, s ** 2, s ** 3], axis=1)
    alone = (high * weight) @ np.linalg.pinv(powers * weight[:, None]).T
    left, right = alone[:, 0], alone.sum(axis=1)
    join = np.rint(np.concatenate([left[:1], (right[:-1] + left[1:]) / 2, right[-1:]]))
    a, rise = join[:-1], np.diff(join)

    rest = high - a[:, None] - rise[:, None] * s
    square, cube = s ** 2 - s, s ** 3 - s       # both are 0 at both ends
    bends = np.stack([square, cube], axis=1)
    c, d = np.rint((rest * weight) @ np.linalg.pinv(bends * weight[:, None]).T).T

    def worst(c, d):
        return np.abs(rest - c[:, None] * square - d[:, None] * cube).max(axis=1)

    best, moved = worst(c, d), True
    while moved:
        moved, middle_c, middle_d = False, c.copy(), d.copy()
        for step_c in range(-3, 4):
            for step_d in range(-3, 4):
                error = worst(middle_c + step_c, middle_d + step_d)
                better = error < best - 1e-9
                best[better] = error[better]
                c[better], d[better] = (middle_c + step_c)[better], (middle_d + step_d)[better]
                moved = moved or bool(better.any())
    return np.stack([a, rise - c - d, c, d], axis=1).astype(np.int64)


def joins_that_meet(spans):
    """How many neighbouring spans meet: the step from the last tick of one to
    the first tick of the next is at most the larger of their slopes, where
    the slope bounds the change from one tick to the next (times 2^30)."""
    def slope(span):
        return 2 ** 20 * (abs(span[1]) + 2 * abs(span[2]) + 3 * abs(span[3]))

    meet = 0
    for one, two in zip(spans, spans[1:]):
        a, b, c, d = one
        last = a * 2 ** 30 + b * 1023 * 2 ** 20 + c * 1023 ** 2 * 2 ** 10 + d * 1023 ** 3
        meet += abs(two[0] * 2 ** 30 - last) <= max(slope(one), slope(two))
    return meet


def main():
    parser = argparse.ArgumentParser(
        description=__doc__, formatter_class=argparse.RawDescriptionHelpFormatter)
    parser.add_argument("--body", required=True, choices=BODIES)
    parser.add_argument("--lat", required=True, type=float, help="degrees, north positive")
    parser.add_argument("--lon", required=True, type=float, help="degrees, east positive")
    parser.add_argument("--elevation", type=float, default=0.0, help="metres above the sea (0)")
    parser.add_argument("--year", required=True, type=int, help="1900 to 2100")
    parser.add_argument("--tick", type=int, default=10, help="whole seconds in a tick (10)")
    parser.add_argument("--refraction", action="store_true",
                        help="apparent heights, by the library's own refraction at 1010 hPa and "
                             "15 degrees C; it has a hump of more than a degree some degrees "
                             "below the horizon, and a cubic follows it badly: correction.py, "
                             "run on a file without refraction, does better")
    parser.add_argument("--every", type=int, default=1, metavar="N",
                        help="fit and check only every N-th tick, N = 1, 2, 4 ... 64 (1: all)")
    parser.add_argument("--out", metavar="FILE", help="the file to write (standard output)")
    args = parser.parse_args()

    if not -90 <= args.lat <= 90:
        fail("the latitude must be from -90 to 90 degrees")
    if not -180 <= args.lon <= 180:
        fail("the longitude must be from -180 to 180 degrees")
    if not -500 <= args.elevation <= 10000:
        fail("the elevation must be from -500 to 10000 metres")
    if not 1900 <= args.year <= 2100:
        fail("the year must be from 1900 to 2100")
    if args.tick < 1:
        fail("a tick must be at least one second")
    if args.every not in (1, 2, 4, 8, 16, 32, 64):
        fail("--every must be 1, 2, 4, 8, 16, 32 or 64")
    start = datetime.datetime(args.year, 1, 1)
    seconds = (datetime.datetime(args.year + 1, 1, 1) - start).days * 86400
    spans_needed = math.ceil(seconds / (TICKS * args.tick))
    if spans_needed > MOST_SPANS:
        least = math.ceil(seconds / (TICKS * MOST_SPANS))
        fail(f"a year of {args.tick} s ticks is {spans_needed} spans, and a file holds at most "
             f"{MOST_SPANS}: take a tick of at least {least} s")
    if args.tick * TICKS > 43200:
        fail("a span of 1,024 such ticks is longer than half a day: no cubic follows the height")
    if args.out and not os.path.isdir(os.path.dirname(args.out) or "."):
        fail(f"there is no folder for {args.out}")

    # Heights in the ticks that are looked at, span by span; the last column
    # of a row, s = 1, is the first tick of the next span.
    per_span = TICKS // args.every
    count = spans_needed * per_span + 1
    print(f"working out {count} heights", file=sys.stderr)
    flat = true_heights(args, start, count, args.tick * args.every)
    s = np.arange(per_span + 1) / per_span
    high = np.lib.stride_tricks.sliding_window_view(flat, per_span + 1)[::per_span]
    spans = fit(high, s)
    if np.abs(spans).max() > LIMIT:
        fail("a number is beyond 2^24")

    a, b, c, d = (spans[:, i:i + 1].astype(float) for i in range(4))
    error = np.abs(a + s * (b + s * (c + s * d)) - high)[:, :-1]
    looked = "every tick" if args.every == 1 else f"every {args.every}th tick"
    worst = f"{error.max():.2f}"
    low = error[np.abs(high[:, :-1]) <= 5000]
    if low.size:
        worst += f" ({low.max():.2f} within 5 degrees of the horizon)"
    meet = joins_that_meet(spans.tolist())
    print(f"largest error in thousandths of a degree over {looked}, {error.size} heights: {worst}\n"
          f"root of the mean square error: {math.sqrt((error ** 2).mean()):.2f}\n"
          f"joins that meet: {meet} of {len(spans) - 1}", file=sys.stderr)

    lat, lon, elevation = (f"{x:.12g}" for x in (args.lat, args.lon, args.elevation))
    again = ["tools/make_almanac.py", "--body", args.body, "--lat", lat, "--lon", lon,
             "--elevation", elevation, "--year", str(args.year), "--tick", str(args.tick)]
    again += ["--refraction"] if args.refraction else []
    again += ["--every", str(args.every)] if args.every != 1 else []
    again += ["--out", args.out] if args.out else []
    seen = ("with refraction at 1010 hPa and 15 degrees C" if args.refraction
            else "without refraction")
    head = [f"the height of the {args.body}'s centre, in thousandths of a degree"
            if args.body in ("sun", "moon") else
            f"the height of {args.body.capitalize()}, in thousandths of a degree",
            f"seen from the place itself, {seen}",
            f"place: latitude {lat}, longitude {lon} degrees (north and east positive), "
            f"elevation {elevation} m",
            f"year: {args.year}",
            f"begins: {start:%Y-%m-%d %H:%M:%S} UTC",
            f"tick: {args.tick} seconds",
            f"spans: {len(spans)} of {TICKS} ticks, four numbers a b c d each",
            f"heights by PyEphem {ephem.__version__}",
            f"largest error over {looked}: {worst}",
            f"made by: {shlex.join(again)}"]
    text = "".join(f"# {line}\n" for line in head)
    text += "".join(f"{a} {b} {c} {d}\n" for a, b, c, d in spans.tolist())
    if args.out:
        with open(args.out, "w", encoding="ascii") as file:
            file.write(text)
    else:
        sys.stdout.write(text)


if __name__ == "__main__":
    main()
