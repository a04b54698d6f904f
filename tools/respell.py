#!/usr/bin/env python3
"""Brings the repository's own definitions and lemmas to one spelling: words in snake case, with an apostrophe for a prime.

usage: python3 tools/respell.py      at the top of the repository, once, after the toolchain's own respelling

A name of the repository's own is one that a file of specs/ or proofs/ declares: a definition, a lemma, a constructor or a field.
Names that the toolchain generates (goals, steps) and names of its library are left as they are. What the script changes and what
it leaves is printed. It proves nothing.
"""

import collections
import glob
import re
import sys

# Names whose words are spelled otherwise in the library today.
WORDS = [("natAbs", "nat_abs"), ("getD", "get_or"), ("leZ", "int_le"), ("leb", "nat_le"), ("ltb", "nat_lt"), ("eqb", "nat_eq")]

# A name that is a word of clauses or of tactics today: (file that declares it, name, new name).
RESERVED = [("crates/task/specs/States.antt", "result", "result_of"), ("specs/Worked.antt", "ground", "ground_of"), ("Answering.antt", "some?", "tally_count")]

NAME = r"[^\s(){}\[\];,.:\"|λ∷@]+"
DECLARES = re.compile(r"^(?:(?:pub|abbrev|unfoldable|data|record)\s+)*(" + NAME + r")\s+(?::|\()")
FIELD = re.compile(r"^ +(?:pub )?(" + NAME + r")\s+:\s")


def antt_files():
    found = glob.glob("crates/*/specs/**/*.antt", recursive=True) + glob.glob("crates/*/proofs/**/*.antt", recursive=True)
    return sorted(f for f in found if "/out/" not in f)


def source_files():
    return sorted(f for f in glob.glob("crates/*/src/**/*.rt", recursive=True) if "/out/" not in f)


def read(path):
    with open(path, encoding="utf-8") as f:
        return f.read()


def own_names():
    names = collections.defaultdict(set)
    for path in antt_files():
        for line in read(path).splitlines():
            if line.startswith("--"):
                continue
            top = DECLARES.match(line)
            if top and "goal." not in line.split(":", 1)[-1].strip()[:5]:
                names[top[1]].add(path)
            field = FIELD.match(line)
            if field:
                names[field[1]].add(path)
    return names


def respelled(name):
    # A type's name before a dash stays, as in T-from.
    if re.match(r"^[A-Z]", name) or re.search(r"-[A-Z]", name):
        return name
    for old, new in WORDS:
        name = name.replace(old, new)
    return name.replace("-", "_").replace("′", "'")


def clashes(turned, names):
    """Names that fall together, with one another or with another name of the repository's own."""
    back = collections.defaultdict(set)
    for old, new in turned.items():
        back[new].add(old)
        if new in names:
            back[new].add(new)
    return {new: sorted(olds) for new, olds in back.items() if len(olds) > 1}


def turn(text, turned, path):
    token = re.compile(r"(?<![^\s(){}\[\];,.:\"|λ∷@])" + NAME)

    def names(part):
        return token.sub(lambda m: m[0] if part[:m.start()].endswith("goal.") else turned.get(m[0], m[0]), part)

    return "".join(comment(line, names) if line.lstrip().startswith("--") else names(line) for line in text.splitlines(keepends=True))


def comment(line, names):
    """A comment's prose stays; in a list of definitions the names before the gap are turned, and the gap is kept."""
    m = re.match(r"^(--   )(\S.*?)(  +)(\S.*)$", line, re.S)
    if not m:
        return line
    new = names(m[2])
    return m[1] + new + " " * max(2, len(m[3]) + len(m[2]) - len(new)) + m[4]


def clause_parts(text):
    """The spans of a source file that are not plain code: ghost lines and clauses, by their braces."""
    spans = []
    for m in re.finditer(r"ghost use [^;]*;|\b(?:requires|ensures)\*?(?: \w+)? \{|\bghost \w+(?::| =) \{", text):
        if m[0].startswith("ghost use"):
            spans.append((m.start(), m.end()))
            continue
        deep, i = 1, m.end()
        while deep:
            deep += (text[i] == "{") - (text[i] == "}")
            i += 1
        spans.append((m.end(), i - 1))
    return spans


def turn_source(text, turned, path):
    out, at = [], 0
    for start, end in clause_parts(text):
        if start < at:
            continue
        out += [text[at:start], turn(text[start:end], turned, path)]
        at = end
    return "".join(out) + text[at:]


def reserved(path, text):
    """Turns a reserved name where a file declares it or takes it from the file that does."""
    for home, old, new in RESERVED:
        module = home.rsplit("/", 1)[-1][: -len(".antt")]
        takes = re.search(r"use Rattle\.\w+\.(?:specs|proofs)\." + module + r"\.\{[^}]*(?<![^\s{])" + re.escape(old) + r"[,}]", text)
        if not (path.endswith(home) or takes):
            continue
        word = r"(?<![^\s(){}\[\];,|λ])" + re.escape(old) + r"(?![^\s(){}\[\];,|])"
        if path.endswith(".antt"):
            swap = lambda part: re.sub(word, new, part)
            text = "".join(comment(line, swap) if line.lstrip().startswith("--") else swap(line) for line in text.splitlines(keepends=True))
        else:
            text = re.sub(r"(ghost use [^;]*?[{ ])" + re.escape(old) + r"(?=[,}])", lambda m: m[1] + new, text)
            text = re.sub(r"(?<=≡ )" + re.escape(old) + r"(?= \()", new, text)
    return text


def main():
    names = own_names()
    turned = {n: respelled(n) for n in names if respelled(n) != n}
    together = clashes(turned, names)
    for new, olds in sorted(together.items()):
        print(f"falls together: {new} of {', '.join(olds)}")
    if together:
        return 1
    changed = 0
    for path in antt_files() + source_files():
        text = read(path)
        new = turn(text, turned, path) if path.endswith(".antt") else turn_source(text, turned, path)
        new = reserved(path, new)
        if new != text:
            changed += 1
            with open(path, "w", encoding="utf-8") as f:
                f.write(new)
    print(f"{len(turned)} names of {len(names)} turned, in {changed} files")
    print("left with a dash: " + " ".join(sorted(n for n in names if "-" in n and n not in turned)))
    return 0


if __name__ == "__main__":
    sys.exit(main())
