#!/usr/bin/env python3
"""Brings this repository's own definitions and lemmas to the spelling of its Rattle: words in snake case, types in camel case.

usage: tools/respell.py [--list]    at the top of the repository, once, after the toolchain's own script

A name with a dash that is declared in a crate's specs/ or proofs/ is respelled wherever it stands: 'pat-copy' becomes 'pat_copy', 'First-in' (a type
or a fact) becomes 'FirstIn'. Not respelled are names of goals, steps and invariants, which Rattle makes, names of its libraries, functions of src/,
strings, and words of comments that are not in backticks. It stops, and writes nothing, where two names would fall together.
"""

import os
import re
import sys

CRATES = "crates"
SKIP = re.compile(r'"(?:\\.|[^"\\])*"|b?\'(?:\\.|[^\'\\\n])\'')
NAME = re.compile(r'[^\s(){}\[\],;.«»"`]+')
SIGNATURE = re.compile(r"^(\s*)((?:abbrev |unfoldable |pub |mutual |ruleset )*)(record |data )?([^\s(){}:,;\[\].]+)((?: \([^()]*\)| \{[^{}]*\})*) :(?: (.*))?$")
KEYWORDS = {"use", "mod", "where", "unfolding", "open", "let", "in", "elim"}


def files(ends):
    for folder, dirs, names in os.walk(CRATES):
        dirs[:] = sorted(d for d in dirs if d != "out")
        for name in sorted(names):
            if name.endswith(ends):
                yield os.path.join(folder, name)


def declared():
    """Each name that a specs/ or proofs/ file declares, but the goals, invariants and measures that a function's proof answers."""
    own = set()
    for path in files(".antt"):
        with open(path, encoding="utf-8") as f:
            for line in f:
                m = SIGNATURE.match(line.rstrip("\n"))
                if not m or m.group(4) in KEYWORDS or m.group(4).startswith("--"):
                    continue
                if re.match(r"(goal|given|need)\.", m.group(6) or ""):
                    continue
                own.add(m.group(4))
    return own


def library():
    """Names that files take from modules which are not this repository's, and from those that Rattle makes of its functions."""
    crates = set(os.listdir(CRATES))
    found = set()
    for path in files((".antt", ".rt")):
        with open(path, encoding="utf-8") as f:
            text = f.read()
        for m in re.finditer(r"\buse ([^\s{};]+?)\.\{([^}]*)\}", text):
            parts = m.group(1).split(".")
            ours = parts[0] == "Rattle" and len(parts) > 2 and parts[1] in crates and "declared" not in parts
            if ours and parts[-1] not in ("Goals", "Given"):
                continue
            found |= {n.strip().split(" as ")[0] for n in m.group(2).split(",")}
    return found


def respelled(name):
    if re.search(r"[^\w'-]", name):
        return name
    if name[0].isupper():
        return "".join(p[:1].upper() + p[1:] for p in name.split("-"))
    return name.replace("getD", "get_or").replace("orOther", "or_other").replace("-", "_")


def turned(text, names, comment):
    """The text with each name respelled, but in strings, and in comments outside backticks."""

    def words(part):
        return NAME.sub(lambda m: names.get(m.group(0), m.group(0)), part)

    def code(part):
        out, at = [], 0
        for m in SKIP.finditer(part):
            out += [words(part[at : m.start()]), m.group(0)]
            at = m.end()
        return "".join(out) + words(part[at:])

    lines = []
    for line in text.split("\n"):
        m = re.search(comment, line)
        body, said = (line[: m.start()], line[m.start() :]) if m else (line, "")
        lines.append(code(body) + re.sub(r"`[^`]*`", lambda q: words(q.group(0)), said))
    return "\n".join(lines)


def main(argv):
    own, taken = declared(), library()
    names = {n: respelled(n) for n in own if "-" in n and n not in taken and respelled(n) != n}
    faults = [n for n in own if "-" in n and n in taken]
    if faults:
        print("a library or Rattle has these names too, which stay: " + " ".join(sorted(faults)))
    back = {}
    for old, new in sorted(names.items()):
        if new in own or new in taken or new in back:
            print(f"{old} and {back.get(new, new)} would fall together as {new}")
            return 1
        back[new] = old
    if "--list" in argv:
        print("\n".join(f"{old} {new}" for old, new in sorted(names.items())))
        return 0
    for path in files((".antt", ".rt")):
        with open(path, encoding="utf-8") as f:
            old = f.read()
        new = turned(old, names, r"(?<![^\s])--(?=\s|$)" if path.endswith(".antt") else r"//")
        if new != old:
            with open(path, "w", encoding="utf-8") as f:
                f.write(new)
    print(f"{len(names)} names respelled")
    return 0


if __name__ == "__main__":
    sys.exit(main(sys.argv[1:]))
