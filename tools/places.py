#!/usr/bin/env python3
"""Counts the places of each point of docs/DESIGN-PASS.md in crates/*/src.

    tools/places.py          counts, a line for each command
    tools/places.py -v       and where each place is
    tools/places.py -v 3a    one command alone
"""
import collections
import glob
import re
import sys

FILES = {f: open(f).read() for f in sorted(glob.glob("crates/*/src/**/*.rt", recursive=True))}
PROOFS = {f: open(f).read() for f in sorted(glob.glob("crates/*/proofs/**/*.antt", recursive=True))}


def found(pattern, files=FILES):
    """Every match of a pattern, as (file, line, text)."""
    out = []
    for name, text in files.items():
        for m in re.finditer(pattern, text, re.M):
            out.append((name, text.count("\n", 0, m.start()) + 1, " ".join(m.group(0).split())))
    return out


def signatures():
    """Every function: (file, line, name, its parameters)."""
    for name, text in FILES.items():
        for m in re.finditer(r"^\s*(?:pub(?:\(crate\))? )?fn (\w+)[^(]*\(([^)]*)\)", text, re.M):
            yield name, text.count("\n", 0, m.start()) + 1, m.group(1), m.group(2)


def named_twice(pattern, besides=()):
    """Names that a pattern declares in more than one crate."""
    places = collections.defaultdict(list)
    for file, line, text in found(pattern):
        places[re.search(pattern, text).group(1)].append((file, line, text))
    for name, at in sorted(places.items()):
        if name not in besides and len({f.split("/")[1] for f, _, _ in at}) > 1:
            yield from at


def repeated_clauses():
    """Clauses that stand in three or more contracts of one crate."""
    places = collections.defaultdict(list)
    for file, line, text in found(r"^\s*(?:requires|ensures)[* ][^{\n]*\{.*\}$"):
        body = re.sub(r"^\w+\*? [^{]*", "", text)
        places[file.split("/")[1], body].append((file, line, text))
    for at in places.values():
        if len(at) >= 3:
            yield from at


def together():
    """Functions that share three or more parameters, by name and type, with two or more others of their crate."""
    params = {}
    for file, line, name, text in signatures():
        names = {" ".join(p.split()) for p in text.split(",") if ":" in p and "HostRuntime" not in p and "Global" not in p}
        params[file, line, name] = names
    for (file, line, name), mine in params.items():
        crate = file.split("/")[1]
        like = [o for (f, _, _), o in params.items() if f.split("/")[1] == crate and len(o & mine) >= 3]
        if len(like) >= 3:
            yield file, line, name


FROM_TRAITS = {"new", "from", "fmt", "main", "run", "put", "empty", "read", "free", "capacity", "held", "moment"}
COMMANDS = {
    "1a": ("enums of up to three variants (judged by reading)", lambda: [
        p for p in found(r"enum \w+(?:<\w+>)? \{[^}]*(?:\{[^}]*\}[^}]*)*\}") if 2 <= len(re.findall(r"\b[A-Z]\w*(?= [{(]|\(|,|\s*\})", re.sub(r"//.*", "", p[2]))) <= 4]),
    "1b": ("a match or if that only hands a Some, None, Ok or Err on", lambda:
        found(r"\bNone => (?:None|(?:return )?Err\([^\n]*),?$")
        + found(r"\bErr\(\w*\) => (?:return )?(?:Err\(|None)[^\n]*")
        + found(r"\bOk\((\w+|\(\))\) => (?:Ok\(\1\)|Some\(\1\))")),
    "1c": ("let .. else that only hands a None or Err on", lambda:
        found(r"let (?:Some|Ok)\([^\n]*\) = [^;]*? else \{\s*return (?:Err\([^;]*\)|None|Ok\(None\));\s*\}")),
    "1d": ("a function that answers bool for success, with a place that it writes", lambda:
        found(r"fn \w+(?:<[^>]*>)?\([^)]*&mut [^)]*\) -> bool")),
    "1e": ("a bool beside a value, as parameter or field", lambda: found(r"\b\w+: bool\b,?")),
    "1f": ("a number for a kind or a refusal", lambda: found(r"fn \w*number\w*\([^)]*\) -> u\d+")),
    "2a": ("functions of one name in several crates (judged by reading)", lambda:
        list(named_twice(r"fn (\w+)", FROM_TRAITS))),
    "2b": ("constants of one name in several crates", lambda: list(named_twice(r"(?:const|static) (\w+)"))),
    "2c": ("types of one name in several crates", lambda: list(named_twice(r"(?:enum|struct) (\w+)"))),
    "3a": ("while and loop", lambda: found(r"^\s*(?:while|loop)\b[^\n]*")),
    "3b": ("for over a range of numbers", lambda: found(r"for \w+ in [^\n{]*\.\.[^\n{]*")),
    "4a": ("a chain of comparisons with words", lambda: found(r"(?:if|else if) (?:same\(|\w+\.as_str\(\) ==)[^\n]*")),
    "4b": ("a function that gives a case its word, number or bytes", lambda:
        found(r"fn \w+\([^)]*\) -> &'static str") + found(r"fn (?:tell|show)\w*[(<]")),
    "4c": ("a function that makes a value of a word, number or bytes", lambda:
        found(r"fn (?:of|named|kind|read_kind|carrier_kind|parent|place|of_\w+)\([^)]*\) -> (?:Option|Result)?[^\n]*")),
    "5a": ("a clause that stands in three or more contracts of a crate", lambda: list(repeated_clauses())),
    "5b": ("functions that share three or more parameters with two others", lambda: list(together())),
    "6a": ("a length or place beside a buffer, an array in a struct", lambda:
        found(r"^\s*(?:pub(?:\(crate\))? )?(?:len|used|filled|held|at|count|first|size|pending|index): (?:usize|u8|u64),?$")
        + found(r"^\s*(?:pub(?:\(crate\))? )?\w+: \[[^\]]*; [^\]]*\],?$")),
    "6b": ("sorted, or searched by hand", lambda: found(r"\.sort\w*\([^\n]*|fn are_with[^\n]*|fn record_of[^\n]*|fn find_row[^\n]*")),
    "7a": ("a match on which kind or step is at hand", lambda:
        found(r"match (?:\w+\.)*(?:kind|verb|next|option|what|step)(?:\(\))? \{") + found(r"match \((?:self|next|known), [^\n]*")),
    "8a": ("answers and invariants in proofs", lambda: found(r"^(?:abbrev )?pub [^\n]*: goal\.[^\n]*", {f: t for f, t in PROOFS.items() if f.count("/") > 3})),
    "8b": ("lemmas and terms in proofs", lambda: found(r"^(?:abbrev |unfoldable )?(?:pub )?[^\s(:]+ : [^\n]*", {f: t for f, t in PROOFS.items() if f.count("/") == 3})),
}


def main():
    verbose = "-v" in sys.argv
    wanted = [a for a in sys.argv[1:] if a != "-v"]
    for key, (what, count) in COMMANDS.items():
        if wanted and key not in wanted:
            continue
        places = count()
        print(f"{key}  {len(places):4}  {what}")
        if verbose:
            for file, line, text in places:
                print(f"          {file}:{line}: {text[:110]}")


main()
