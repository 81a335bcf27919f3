"""A small plot of the benchmark: instructions against each size doubled alone, both axes logarithmic. Plain SVG text."""
from math import ceil, floor, log2, log10

PANEL, GAP, LEFT, TOP, HEIGHT, BOTTOM = 132, 22, 46, 44, 190, 34
COLOURS = {"a": "#b2182b", "b": "#ef8a62", "c": "#2166ac", "sheet": "#1a1a1a"}


def text(x, y, words, anchor="middle", colour="#333"):
    return f'<text x="{x:.1f}" y="{y:.1f}" text-anchor="{anchor}" fill="{colour}">{words}</text>'


def line(x1, y1, x2, y2):
    return f'<path d="M{x1:.1f} {y1:.1f}L{x2:.1f} {y2:.1f}" stroke="#ddd"/>'


def curve(points, colour):
    path = "M" + "L".join(f"{x:.1f} {y:.1f}" for x, y in points)
    dots = "".join(f'<circle cx="{x:.1f}" cy="{y:.1f}" r="2.2" fill="{colour}"/>' for x, y in points)
    return f'<path d="{path}" fill="none" stroke="{colour}" stroke-width="1.5"/>{dots}'


def panel(left, what, series, height_of, decades):
    """One size: series is a list of (size, {program: instructions})."""
    sizes = [size for size, _ in series]
    step = (PANEL - 16) / max(1, log2(sizes[-1] / sizes[0]))
    across = {size: left + 8 + step * log2(size / sizes[0]) for size in sizes}
    parts = [line(left, height_of(10 ** d), left + PANEL, height_of(10 ** d)) for d in decades]
    parts += [text(across[size], TOP + HEIGHT + 14, size) for size in sizes]
    parts.append(text(left + PANEL / 2, TOP + HEIGHT + 28, what))
    for program, colour in COLOURS.items():
        parts.append(curve([(across[size], height_of(counts[program])) for size, counts in series], colour))
    return parts


def legend(names):
    parts, x = [], LEFT
    for program, colour in COLOURS.items():
        parts += [f'<circle cx="{x + 4}" cy="14" r="4" fill="{colour}"/>', text(x + 12, 18, names[program], "start", colour)]
        x += 30 + 6.2 * len(names[program])
    return parts


def svg(every_series, names):
    """every_series: {what: [(size, {program: instructions})]}; names: {program: what the legend says}."""
    counts = [count for series in every_series.values() for _, by in series for count in by.values()]
    low, high = floor(log10(min(counts))), ceil(log10(max(counts)))
    decades = range(low, high + 1)

    def height_of(count):
        return TOP + HEIGHT * (high - log10(count)) / (high - low)

    parts = legend(names) + [text(LEFT, 36, "instructions", "start")]
    parts += [text(LEFT - 6, height_of(10 ** d) + 4, f'10<tspan dy="-4" font-size="8">{d}</tspan>', "end") for d in decades]
    for number, (what, series) in enumerate(every_series.items()):
        parts += panel(LEFT + number * (PANEL + GAP), what, series, height_of, decades)
    width, height = LEFT + len(every_series) * (PANEL + GAP), TOP + HEIGHT + BOTTOM
    head = f'<svg xmlns="http://www.w3.org/2000/svg" viewBox="0 0 {width} {height}" font-family="sans-serif" font-size="11">'
    return "\n".join([head, '<rect width="100%" height="100%" fill="white"/>', *parts, "</svg>"]) + "\n"
