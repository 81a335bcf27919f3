"""What docs/SPEED.md says, from the counts of one benchmark."""
import programs

NAMES = {"a": "(a) trap table a pair", "b": "(b) flip a pair", "c": "(c) one pass a run", "sheet": "our sheet"}
HEAD = """# Speed

Made by `bench/run`; edit that and not this page. It builds all, takes some minutes on one core, and needs a C compiler, Python 3
and, for the counting, {counter}.

What is measured: the x86-64 instructions that a program takes from its start to its end, reading, checks and printing included. They
are counted by {counter}, come out the same each time (in another folder a few more or fewer, since the program's path is read too), and
are not time. `our sheet` is the proved program `sheet`. The peers are
hand-written C for the same job (bench/peers; suite on standard input, whole sheet on standard output, all refusals), built by
`{compiler}` with `{flags}`:

- (a) the published way: the trap table of each occurrence, judged over each run that the requirement holds of;
- (b) the requirement judged once more for each such pair, with the occurrence flipped;
- (c) one pass over each run that judges the requirement and all its flips at once, a bit of a 64-bit word each.

The three share one engine and differ in what they ask of it. `bench/selfcheck` holds them to document 01's definitions by brute force.
In this benchmark all {answers} answers were compared: on each of {suites} suites the four programs said the same, byte for byte.
"""
SIZES_HEAD = """
## Three suites

`nothing` is an empty input: what it costs to start, to read and to refuse. Our program is linked dynamically and the peers are not.

| Suite | Bytes | Reqs | Runs | Occs | Held | (a) | (b) | (c) | our sheet | (a) / (c) | our sheet / (c) | (a) / our sheet |
|---|---|---|---|---|---|---|---|---|---|---|---|---|
"""
SIZES_FOOT = """
Occs: all occurrences of the suite. Held: pairs of requirement and run that hold; only there do (a) and (b) go on to the occurrences.
"""
GROWTH_HEAD = """
## How cost grows

One size of a middling suite doubled alone (4 requirements of 16 rows with 8 occurrences each, 8 runs of 128 steps; where rows are
doubled 2 occurrences, where occurrences are doubled 32 rows). In brackets: times the count before. The last column is our sheet without
what `nothing` takes, which is the same for every suite.

![Instructions against each size, both axes logarithmic](speed.svg)

| Doubled | Size | (a) | (b) | (c) | our sheet | less its start |
|---|---|---|---|---|---|---|
"""
TRUTH = """
## Truth alone

One table of {rows} rows over one run of {steps:,} steps. The peer `truth`, a plain column engine, takes {count:,} instructions, {each:.1f} a
row and step; our operation `truth`, in the program `answers` on one case, {ours:,}: {times:.2f} times as many. Both counts have
starting, reading, checks and printing in them, and both say the same.
"""


def ratio(above, below):
    times = above / below
    return f"{times:.1f}" if times >= 1 else f"{times:.2f}"


def size_line(name, suite):
    by = suite["counts"]
    cells = [name, f"{suite['bytes']:,}", *suite["parts"], *(f"{by[p]:,}" for p in NAMES)]
    cells += [ratio(by["a"], by["c"]), ratio(by["sheet"], by["c"]), ratio(by["a"], by["sheet"])]
    return "| " + " | ".join(map(str, cells)) + " |\n"


def growth_lines(what, series, start):
    before = None
    for size, counts in series:
        by = {**counts, "less": counts["sheet"] - start}
        cells = [f"{count:,}" + (f" (×{count / before[p]:.2f})" if before else "") for p, count in by.items()]
        yield f"| {what} | {size:,} | " + " | ".join(cells) + " |\n"
        before = by


def page(sizes, every_series, truth, suites):
    """sizes: {name: {bytes, parts, counts}}; every_series as plot.svg has it; truth: {count, ours, rows, steps}; suites: how many were run."""
    words = {"counter": programs.counter_name(), "compiler": programs.compiler_version(), "flags": " ".join(programs.FLAGS)}
    text = HEAD.format(**words, suites=suites, answers=suites * len(NAMES)) + SIZES_HEAD
    text += "".join(size_line(name, suite) for name, suite in sizes.items()) + SIZES_FOOT + GROWTH_HEAD
    start = sizes["nothing"]["counts"]["sheet"]
    text += "".join(row for what, series in every_series.items() for row in growth_lines(what, series, start))
    each, times = truth["count"] / truth["rows"] / truth["steps"], truth["ours"] / truth["count"]
    return text + TRUTH.format(**truth, each=each, times=times)


def summary(sizes, truth):
    """The three suites and truth alone in a few short lines."""
    for name, suite in sizes.items():
        by = suite["counts"]
        counts = ", ".join(f"{p} {by[p]:,}" for p in NAMES)
        yield f"{name}: {counts}; a/c {ratio(by['a'], by['c'])}, sheet/c {ratio(by['sheet'], by['c'])}"
    yield f"truth alone: peer {truth['count']:,}, ours {truth['ours']:,}"
