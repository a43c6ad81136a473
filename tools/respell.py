#!/usr/bin/env python3
"""Brings this repository's own definitions and lemmas to Rattle's spelling: words in snake case, types in camel case.

usage: python3 tools/respell.py [--list]      at the top of the repository, once, after Rattle's own port.py

It reads which names specs/ and proofs/ define, and writes them anew in every .antt file and, outside string literals, in every .rt
file. Names of src/, and the names that Rattle gives to goals, are not touched. --list prints the names and writes nothing.
"""

import glob
import re
import sys

WORD = r"[^\s(){}\[\].,;:=λ→×⊎|\"`?⌜⌝«»!&]+"
HEAD = re.compile(r"\s*(?:(?:abbrev|unfoldable|pub)\s+)*(?:(?:data|record)\s+)?(" + WORD + r")(?=\s*(?::\s|[({].*\)?\s:\s))")
GOAL = re.compile(r"^(?:returns|loop|invariant|decreases|overflow|in-bounds)(?:-|$)|-(?:requires|init|preserved)$")

# Names that would fall together with another (a lemma with the name of its function gets `_lem`), and two that name older words.
SETTLED = {
    "in-record": "in_record_lem",
    "is-book": "is_book_lem",
    "is-mark": "is_mark_lem",
    "kind-of": "kind_of_lem",
    "no-method": "no_method_lem",
    "reached-in": "reached_in_lem",
    "read-on": "read_on_lem",
    "getD-tab": "get_or_tab",
    "to-T": "to_t",
}


def files(kind):
    return sorted(p for k in kind for p in glob.glob(f"crates/*/{k}", recursive=True))


def antt():
    return files(["specs/**/*.antt", "proofs/**/*.antt"])


def own_names():
    """Each defined name that is not spelled as it should be, and the files that define it."""
    found = {}
    for path in antt():
        with open(path, encoding="utf-8") as f:
            for line in f:
                m = HEAD.match(line)
                if m and not line.lstrip().startswith(("--", "use ", "module ")):
                    found.setdefault(m.group(1), set()).add(path)
    return found


def aliases():
    """The names that src/ gives to definitions where it brings them in."""
    found = set()
    for path in files(["src/**/*.rt"]):
        with open(path, encoding="utf-8") as f:
            for line in f:
                if line.startswith("ghost use "):
                    found.update(re.findall(r" as ([\w'-]+)", line))
    return sorted(found)


def respelled(name):
    if name in SETTLED:
        return SETTLED[name]
    if name[0].isupper():
        return re.sub(r"-([a-z])", lambda m: m.group(1).upper(), name)
    return re.sub(r"([a-z0-9])([A-Z])", lambda m: m.group(1) + "_" + m.group(2).lower(), name).replace("-", "_")


def wrong(name):
    return not GOAL.search(name) and re.search(r"[a-zA-Z0-9][-][a-zA-Z0-9]|^[a-z].*[a-z][A-Z]", name)


def table():
    return {n: respelled(n) for n in list(own_names()) + aliases() if wrong(n)}


def main():
    names = table()
    if "--list" in sys.argv:
        for old in sorted(names):
            print(old, names[old])
        return 0
    by_name = re.compile(r"(?<![\w'-])(?:" + "|".join(sorted(map(re.escape, names), key=len, reverse=True)) + r")(?![\w'-])")
    whole = re.compile(r'"(?:\\.|[^"\\])*"|' + by_name.pattern)
    for path in antt() + files(["src/**/*.rt"]):
        with open(path, encoding="utf-8") as f:
            text = f.read()
        # a name of Rattle's own library that this file brings in stays
        std = {n for names_of in re.findall(r"^(?:ghost )?use Rattle\.std\.[^{\n]*\{([^}]*)\}", text, re.M) for n in re.split(r",\s*| as ", names_of.strip())}
        new = (whole if path.endswith(".rt") else by_name).sub(lambda m: m.group(0) if m.group(0) in std else names.get(m.group(0), m.group(0)), text)
        if new != text:
            with open(path, "w", encoding="utf-8") as f:
                f.write(new)
    print(f"respell: {len(names)} names")
    return 0


if __name__ == "__main__":
    raise SystemExit(main())
