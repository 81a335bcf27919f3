#!/usr/bin/env python3
"""Brings the repository's own definitions and lemmas to one spelling: words in snake case, types and modules in camel case.

Run once, at the top, after the toolchain's own script. It goes by text: names of src/, of the library, of Rattle's making and
of comments and strings stay. It prints each old name with its new one, and stops where two names would fall together.
"""
import glob
import re
import sys

WORD = re.compile(r"[^\s(){}\[\],.;:=λ@\"`]+")
FIRST = re.compile(r"[A-Za-z]")
# Names that would fall together with another one of their page.
OTHERWISE = {"rowPlace": "place_of_row", "log-refusal": "log_refusals", "rows-of": "rows_of_lem"}
# Lemmas that have the new name of a definition, and the crates that cite them.
LEMMAS = {"answer_word": ("answer_word_lem", "sheets"), "word_sound": ("word_sound_lem", "log_words recorded")}


def snake(name):
    """The new spelling of a name: a capital first letter stays camel case, else snake case."""
    if name in OTHERWISE:
        return OTHERWISE[name]
    if name[0].isupper():
        if "-" not in name:
            return name
        return "".join(part[:1].upper() + part[1:] for part in name.split("-"))
    name = re.sub(r"(?<=[a-z0-9'])([A-Z])", lambda m: "_" + m.group(1).lower(), name)
    return name.replace("-", "_")


def is_old(name):
    return bool(FIRST.match(name)) and snake(name) != name and not name.startswith(("Need-", "Given-"))


def own(path, crates):
    return path.startswith("Rattle.") and path.split(".")[1] in crates


def use_parts(line):
    """The path, the names in braces and the alias of a use line."""
    m = re.match(r"\s*(?:ghost )?(?:pub )?use ([^\s{;]+?)(?:\.\{(.*)\})?(?: as ([^\s;]+))?;?\s*$", line)
    if not m:
        return None
    names = [n.strip() for n in m.group(2).split(",")] if m.group(2) else []
    return m.group(1), [n for n in names if n], m.group(3)


def pieces(line):
    """A line cut into code and what is no code: a comment or a string."""
    out, i, start = [], 0, 0
    while i < len(line):
        if line.startswith(("--", "//"), i) and (i == 0 or line[i - 1] in " \t"):
            out += [(True, line[start:i]), (False, line[i:])]
            return out
        if line[i] == '"':
            j = line.find('"', i + 1)
            j = len(line) - 1 if j < 0 else j
            out += [(True, line[start:i]), (False, line[i : j + 1])]
            i = start = j + 1
            continue
        i += 1
    return out + [(True, line[start:])]


def turned(text, names, fields):
    """The text with each of these names respelled, but not what Rattle's making names: goals, and steps behind a dot."""
    aliases = {use_parts(line)[2] for line in text.split("\n") if use_parts(line)}

    def one(m):
        word = m.group(0)
        bare = word.rstrip("?")
        if bare not in names:
            return word
        chain = re.search(r"([^\s(){}\[\],;:=λ]*)\.$", piece[: m.start()])
        if chain and bare not in fields:
            first = chain.group(1).split(".")[0]
            if first in ("tie", "goal") or not (first[:1].isupper() or first in aliases):
                return word
        return names[bare] + word[len(bare) :]

    out = []
    for line in text.split("\n"):
        got = ""
        for code, piece in pieces(line):
            got += WORD.sub(one, piece) if code else piece
        out.append(got)
    return "\n".join(out)


def foreign(text, crates):
    """The names that a file takes from the library or from what Rattle makes of the code."""
    taken = set()
    for line in text.split("\n"):
        parts = use_parts(line)
        if parts:
            path, names, _ = parts
            if not own(path, crates) or re.search(r"\.declared\b|[a-z]\w*\.(Given|Goals|Tie)$", path.split(".proofs.")[-1]):
                taken.update(n.split(" as ")[0] for n in names)
    return taken


def old_words(text):
    words = set()
    for line in text.split("\n"):
        for code, piece in pieces(line):
            if code and not re.match(r"\s*use (native|mathlib|borrow|lib|Prim|denote)\b", piece):
                words.update(w.rstrip("?") for w in WORD.findall(piece))
    return {w for w in words if is_old(w)}


def fields_of(text):
    """The names of the fields of a page's records."""
    found, inside = set(), False
    for line in text.split("\n"):
        if re.match(r"\s*(pub )?record ", line):
            inside, depth = True, len(line) - len(line.lstrip())
        elif inside and line.strip() and len(line) - len(line.lstrip()) <= depth:
            inside = False
        elif inside:
            m = re.match(r"\s*(?:pub )?([^\s:]+) :", line)
            if m:
                found.add(m.group(1))
    return found


def main():
    crates = {line.split(":")[0].strip() for line in open("crates.txt") if ":" in line and not line.startswith("#")}
    pages = sorted(glob.glob("crates/*/specs/*.antt") + glob.glob("crates/*/proofs/*.antt"))
    texts = {page: open(page).read() for page in pages}
    declared, fields = {}, set()
    for page, text in texts.items():
        fields |= fields_of(text)
        for name in old_words(text) - foreign(text, crates):
            declared.setdefault(name, set()).add(page)
    names = {name: snake(name) for name in declared}
    together = {}
    for name, new in names.items():
        together.setdefault(new, []).append(name)
    for new, olds in sorted(together.items()):
        if len(olds) > 1:
            # the definition has its name, and the lemma on it another
            for old in olds:
                if "-" in old:
                    names[old] = new + "_lem"
            print("together:", new, "<-", " ".join(olds))
    for new in sorted(set(names.values())):
        here = {p for p in texts if re.search(r"(?<![\w'-])" + re.escape(new) + r"(?![\w'-])", re.sub(r"--.*", "", texts[p]))}
        both = here & {p for old in names if names[old] == new for p in declared[old]}
        if both and new not in LEMMAS:
            print("stands there already:", new, " ".join(sorted(both)))
    if "--look" in sys.argv:
        return
    others = [p for p in glob.glob("crates/*/proofs/**/*.antt", recursive=True) if p not in texts]
    others += glob.glob("crates/*/src/*.rt") + glob.glob("crates/*/must-fail/*.edit")
    for page in pages + sorted(others):
        text = open(page).read()
        for old, (new, where) in LEMMAS.items():
            if "/proofs/" in page and page.split("/")[1] in where.split():
                text = re.sub(r"(?<![\w'.-])" + old + r"(?![\w'.-])", new, text)
        taken = foreign(text, crates)
        turn = turned(text, {old: new for old, new in names.items() if old not in taken}, fields)
        if turn != open(page).read():
            open(page, "w").write(turn)
    for name in sorted(names):
        print("respelled:", name, names[name])


if __name__ == "__main__":
    main()
