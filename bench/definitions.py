"""Document 01 word for word, slowly and by brute force: what selfcheck holds the programs to. It shares nothing with the peers."""
from itertools import product

NO_FIELD, ONE_CONDITION, ONE_ROW, TWO_ROWS = (0, 1), (2,), (3, 6, 7, 10, 11), (4, 5, 8, 9, 12)
CONDITION, NOT = 2, 3


def holds(rows, steps, reads):
    """The verdict of a table over so many steps; reads(r, i) is what condition row r reads at step i."""
    known = {}

    def at(r, i):
        if (r, i) not in known:
            kind, first, second = rows[r]
            known[r, i] = reads(r, i) if kind == CONDITION else meaning[kind](first, second, i)
        return known[r, i]

    def until(a, b, i):
        return any(at(b, j) and all(at(a, k) for k in range(i, j)) for j in range(i, steps))

    def release(a, b, i):
        return all(at(b, j) or any(at(a, k) for k in range(i, j)) for j in range(i, steps))

    def every(a, i):
        return all(at(a, j) for j in range(i, steps))

    meaning = {
        0: lambda a, b, i: False,
        1: lambda a, b, i: True,
        3: lambda a, b, i: not at(a, i),
        4: lambda a, b, i: at(a, i) and at(b, i),
        5: lambda a, b, i: at(a, i) or at(b, i),
        6: lambda a, b, i: i + 1 < steps and at(a, i + 1),
        7: lambda a, b, i: i + 1 == steps or at(a, i + 1),
        8: until,
        9: release,
        10: lambda a, b, i: any(at(a, j) for j in range(i, steps)),
        11: lambda a, b, i: every(a, i),
        12: lambda a, b, i: until(a, b, i) or every(a, i),
    }
    return at(len(rows) - 1, 0)


def recorded(rows, run):
    return lambda r, i: bool(run[i] >> rows[r][1] & 1)


def held(rows, run):
    return holds(rows, len(run), recorded(rows, run))


def covered(rows, run, p):
    """Held, and false for some sequence that condition row p reads instead: every one of the 2^n is tried."""
    reads = recorded(rows, run)

    def false_for(sequence):
        return not holds(rows, len(run), lambda r, i: sequence[i] if r == p else reads(r, i))

    return held(rows, run) and any(false_for(sequence) for sequence in product((False, True), repeat=len(run)))


def row_is_wrong(row, number, conditions):
    kind, first, second = row
    if kind in NO_FIELD:
        return first != 0 or second != 0
    if kind in ONE_CONDITION:
        return first >= conditions or second != 0
    if kind in ONE_ROW:
        return first >= number or second != 0
    return kind not in TWO_ROWS or first >= number or second >= number


def names(row):
    return {**dict.fromkeys(ONE_ROW, row[1:2]), **dict.fromkeys(TWO_ROWS, row[1:])}.get(row[0], ())


def row_is_misplaced(rows, r):
    """Refusal 9 of row r."""
    times = sum(list(names(row)).count(r) for row in rows)
    over_another_kind = rows[r][0] == NOT and rows[rows[r][1]][0] != CONDITION
    return (r != len(rows) - 1 and times != 1) or over_another_kind


def number_at(file, at, size):
    return int.from_bytes(file[at:at + size], "little")


def head_refusal(file):
    """Refusals 1 to 6."""
    if not 4 <= len(file) <= 65535:
        return 1, 0
    form, conditions, requirements, runs = file[:4]
    if form != 1:
        return 2, 0
    if not (1 <= conditions <= 32 and 1 <= requirements <= 16 and 1 <= runs <= 64):
        return 3, 0
    begin = 4 + 4 * (requirements + runs)
    if len(file) < begin:
        return 4, 0
    for entry in range(requirements + runs):
        most, size = (32, 3) if entry < requirements else (4096, 4)
        start, count = number_at(file, 4 + 4 * entry, 2), number_at(file, 6 + 4 * entry, 2)
        if start != begin or not 1 <= count <= most:
            return 5, 4 + 4 * entry
        begin += size * count
    return None if len(file) == begin else (6, 0)


def parts(file):
    """The requirements and runs of a file that passed 1 to 6, each with the offsets of its rows or steps."""
    requirements, runs = [], []
    for entry in range(file[2] + file[3]):
        start, count = number_at(file, 4 + 4 * entry, 2), number_at(file, 6 + 4 * entry, 2)
        if entry < file[2]:
            offsets = range(start, start + 3 * count, 3)
            requirements.append(([tuple(file[at:at + 3]) for at in offsets], offsets))
        else:
            offsets = range(start, start + 4 * count, 4)
            runs.append(([number_at(file, at, 4) for at in offsets], offsets))
    return requirements, runs


def refusal(file):
    """The first refusal of a file, or None."""
    first = head_refusal(file)
    if first:
        return first
    conditions, (requirements, runs) = file[1], parts(file)
    for rows, offsets in requirements:
        for r, row in enumerate(rows):
            if row_is_wrong(row, r, conditions):
                return 8, offsets[r]
        for r in range(len(rows)):
            if row_is_misplaced(rows, r):
                return 9, offsets[r]
    for run, offsets in runs:
        for i, word in enumerate(run):
            if word >= 2 ** conditions:
                return 11, offsets[i]
    return None


def condition_word(c, places):
    """yes, no or unused, from the places that read a condition and whether each mattered."""
    mine = [mattered for condition, mattered in places if condition == c]
    return "yes" if any(mine) else "no" if mine else "unused"


def sheet(file):
    """What the sheet program prints of a file."""
    refused = refusal(file)
    if refused:
        return "refused %d %d\n" % refused
    requirements, runs = parts(file)
    lines, places = [f"suite {len(requirements)} {len(runs)}"], []
    for q, (rows, _) in enumerate(requirements):
        occurrences = [r for r, row in enumerate(rows) if row[0] == CONDITION]
        lines.append(f"req {q} occ {len(occurrences)} held {sum(held(rows, run) for run, _ in runs)}")
        for o, p in enumerate(occurrences):
            pairs = [j for j, (run, _) in enumerate(runs) if covered(rows, run, p)]
            lines += [f"cov {q} {o} {j}" for j in pairs]
            places.append((rows[p][1], bool(pairs)))
    lines += [f"cond {c} {condition_word(c, places)}" for c in range(file[1])]
    lines.append(f"total {sum(mattered for _, mattered in places)} {len(places)}")
    return "\n".join(lines) + "\n"


def truth(conditions, table, run):
    """What the peer `truth` prints of a lone table and run."""
    rows = [tuple(table[at:at + 3]) for at in range(0, len(table), 3)]
    if not 1 <= conditions <= 32:
        return "refused 3 0\n"
    if len(table) % 3 != 0 or not 1 <= len(rows) <= 224:
        return "refused 7 0\n"
    for r, row in enumerate(rows):
        if row_is_wrong(row, r, conditions):
            return f"refused 8 {r}\n"
    if not 1 <= len(run) <= 4096:
        return "refused 10 0\n"
    for i, word in enumerate(run):
        if word >= 2 ** conditions:
            return f"refused 11 {i}\n"
    return "holds\n" if held(rows, run) else "fails\n"
