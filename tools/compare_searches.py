#!/usr/bin/python3
"""Compare ways to find the risings and settings in a span file.

For each file and each line the right table is worked out by looking at every
tick (every_tick.py). Against it stand:

halving at span ends
    looks at the first and the last tick of each span. Where the two differ
    it halves the ticks between them until it has one change; where the last
    tick of a span and the first of the next differ, the change is there.
    A span whose two ends agree is passed over.
Skyfield's find_discrete
    the search of the library Skyfield (Debian's python3-skyfield), run once
    from the first tick of the file to the last. It is given the heights of
    the file itself, exactly, in the tick nearest to the time it asks for, and
    so nothing but the search is compared: no positions of Skyfield's own are
    used. The steps are those which Skyfield gives to its own risings and
    settings; they are read from the source of the installed version. Since
    what is missed depends on where the steps fall, the search is made ten
    times, its beginning moved by tenths of a step.
skipping
    looks at a tick, and leaves out the next n ticks of the span, n being the
    largest number with n * slope < distance, where `distance` is that of the
    height from the line and `slope` = |b| + 2|c| + 3|d| bounds the change from
    one tick to the next (both times 2^30). It never leaves out ticks beyond
    the span's end. Nothing can be missed; counted is how often it looks.

"Looks" are ticks looked at; a tick that is looked at twice counts twice.
(Skyfield's looks are many because it narrows each event to a thousandth of a
second, which is far below a tick.) Days are dates in UTC, by the lines
`# begins:` and `# tick:` at the head of the file.
"""

import argparse
import datetime
import inspect
import re
import sys
import textwrap

import numpy as np

sys.dont_write_bytecode = True
from every_tick import heights, read_spans, table       # noqa: E402

TICKS = 1024


class File:
    """A span file with the time of its ticks."""

    def __init__(self, path):
        self.path = path
        self.spans = read_spans(path)
        self.ticks = TICKS * len(self.spans)
        if not self.ticks:
            raise ValueError(f"{path} has no spans")
        self.high = heights(self.spans)
        with open(path, encoding="ascii", errors="replace") as file:
            head = "".join(line for line in file if line.startswith("#"))
        begins = re.search(r"^# begins: (\d+-\d+-\d+ \d+:\d+:\d+) UTC$", head, re.M)
        tick = re.search(r"^# tick: (\d+) seconds$", head, re.M)
        if not begins or not tick:
            raise ValueError(f"{path} does not say when it begins and how long a tick is")
        self.begins = datetime.datetime.strptime(begins.group(1), "%Y-%m-%d %H:%M:%S")
        self.tick = int(tick.group(1))

    def time(self, tick):
        return self.begins + datetime.timedelta(seconds=tick * self.tick)

    def height(self, tick):
        """The height in one tick, times 2^30, in whole numbers of any size."""
        a, b, c, d = self.spans[tick // TICKS]
        u = tick % TICKS
        return a * 2 ** 30 + b * u * 2 ** 20 + c * u * u * 2 ** 10 + d * u * u * u


def halving(file, line):
    """Events found by looking at span ends and halving; and the looks."""
    events, looks = [], 0

    def above(tick):
        nonlocal looks
        looks += 1
        return file.height(tick) >= line * 2 ** 30

    before = None
    for first in range(0, file.ticks, TICKS):
        low, high = first, first + TICKS - 1
        at_low, at_high = above(low), above(high)
        if before is not None and before != at_low:
            events.append(("rise" if at_low else "set", low))
        if at_low != at_high:
            while high - low > 1:
                middle = (low + high) // 2
                if above(middle) == at_low:
                    low = middle
                else:
                    high = middle
            events.append(("rise" if at_high else "set", high))
        before = at_high
    return events, looks


def skipping(file, line):
    """Events found by skipping; and the looks."""
    events, looks, tick, before = [], 0, 0, None
    while tick < file.ticks:
        looks += 1
        away = file.height(tick) - line * 2 ** 30
        above = away >= 0
        if before is not None and above != before:
            events.append(("rise" if above else "set", tick))
        before = above
        _, b, c, d = file.spans[tick // TICKS]
        slope = 2 ** 20 * (abs(b) + 2 * abs(c) + 3 * abs(d))
        left = TICKS - 1 - tick % TICKS             # ticks of the span after this one
        if away == 0:
            skip = 0
        elif slope == 0:
            skip = left
        else:
            skip = min(left, (abs(away) - 1) // slope)
        tick += skip + 1
    return events, looks


def skyfield_steps():
    """The installed Skyfield's version, and its own steps in days with the
    line of its source that sets them; nothing if it is not installed."""
    try:
        import skyfield
        from skyfield import almanac
    except ImportError:
        return None, []
    steps = []
    for name in ("sunrise_sunset", "risings_and_settings"):
        source = inspect.getsource(getattr(almanac, name))
        found = re.search(r"^ *(\S+\.step_days = ([0-9.]+).*)$", source, re.M)
        if found:
            steps.append((name, float(found.group(2)), found.group(1)))
    return skyfield.__version__, steps


def skyfield_search(file, line, step_days, late_days):
    """Events found by Skyfield's find_discrete; and the looks."""
    from skyfield.api import load
    from skyfield.searchlib import find_discrete
    scale = load.timescale(builtin=True)
    zero = scale.utc(file.begins.year, file.begins.month, file.begins.day, file.begins.hour,
                     file.begins.minute, file.begins.second).tt
    above = file.high >= line * 2 ** 30
    looks = 0

    def nearest(times):
        ticks = np.rint((times.tt - zero) * 86400.0 / file.tick).astype(int)
        return np.clip(ticks, 0, file.ticks - 1)

    def is_above(times):
        nonlocal looks
        looks += np.size(times.tt)
        return above[nearest(times)]

    is_above.step_days = step_days
    times, values = find_discrete(scale.tt_jd(zero + late_days),
                                  scale.tt_jd(zero + (file.ticks - 1) * file.tick / 86400.0),
                                  is_above)
    return [("rise" if value else "set", int(tick))
            for value, tick in zip(values, nearest(times))], looks


def wrap(text):
    print(textwrap.fill(text, 98, initial_indent="  ", subsequent_indent="    ",
                        break_on_hyphens=False))


def show_missed(file, right, found):
    """Print what is missing, and anything that should not be there."""
    missed = sorted(set(right) - set(found), key=lambda event: event[1])
    wrong = sorted(set(found) - set(right), key=lambda event: event[1])
    days = sorted({file.time(tick).date() for _, tick in missed})
    wrap(f"found {len(found) - len(wrong)} of {len(right)}, missed {len(missed)} on "
         f"{len(days)} {'day' if len(days) == 1 else 'days'}"
         + (f", and gave {len(wrong)} that are not there" if wrong else ""))
    if days:
        wrap("days: " + " ".join(str(day) for day in days))
    return missed


def compare(file, line, version, steps, short):
    right = table(file.high, line)
    rises = sum(what == "rise" for what, _ in right)
    print(f"\n{file.path}, line {line}: {file.ticks} ticks of {file.tick} s, "
          f"{len(right)} events ({rises} risings, {len(right) - rises} settings)")

    if short:
        for (what, tick), (_, end) in zip(right, right[1:]):
            minutes = (end - tick) * file.tick / 60
            if minutes < short:
                top = file.high[tick:end].max() if what == "rise" else file.high[tick:end].min()
                print(f"  {'above' if what == 'rise' else 'below'} for {minutes:.1f} minutes: "
                      f"ticks {tick} to {end - 1}, {file.time(tick)} to {file.time(end)} UTC, "
                      f"{'highest' if what == 'rise' else 'lowest'} {top / 2 ** 30:.3f}")

    found, looks = halving(file, line)
    print(f" halving at span ends: {looks} looks")
    show_missed(file, right, found)

    for name, step, source in steps:
        found, looks = skyfield_search(file, line, step, 0.0)
        print(f" Skyfield {version} find_discrete, step of {name} "
              f"({step:g} days, {step * 1440:g} minutes): {looks} looks")
        missed = show_missed(file, right, found)
        counts = [len(missed)]
        for tenth in range(1, 10):
            late = tenth * step / 10
            found, _ = skyfield_search(file, line, step, late)
            after = {e for e in right if e[1] * file.tick > late * 86400.0}
            counts.append(len(after - set(found)))
        wrap("missed with the beginning moved by 0 to 9 tenths of a step: "
             + " ".join(str(count) for count in counts))

    found, looks = skipping(file, line)
    print(f" skipping: {looks} looks, {100 * looks / file.ticks:.3f} % of the ticks, one in "
          f"{file.ticks / looks:.0f}; its table is "
          + ("the same as by every tick" if found == right else "NOT THE SAME as by every tick"))


def main():
    parser = argparse.ArgumentParser(
        description=__doc__, formatter_class=argparse.RawDescriptionHelpFormatter)
    parser.add_argument("files", nargs="+", metavar="FILE")
    parser.add_argument("--lines", nargs="+", type=int, default=[0, -833, -6000], metavar="N",
                        help="the lines in thousandths of a degree (0 -833 -6000)")
    parser.add_argument("--short", type=float, default=0.0, metavar="MINUTES",
                        help="also list the stays above or below the line shorter than this")
    args = parser.parse_args()

    version, steps = skyfield_steps()
    if version is None:
        print("Skyfield is not installed; its search is left out")
    else:
        print(f"Skyfield {version}; its steps, from its source:")
        for name, _, source in steps:
            print(f"  {name}: {source}")
    for path in args.files:
        try:
            file = File(path)
        except (OSError, ValueError) as error:
            sys.exit(f"compare_searches.py: {error}")
        for line in args.lines:
            if abs(line) > 2 ** 27:
                sys.exit("compare_searches.py: a line must be within 2^27")
            compare(file, line, version, steps, args.short)


if __name__ == "__main__":
    main()
