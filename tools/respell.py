#!/usr/bin/env python3
"""Brings the repository's own names to one spelling, once, after the toolchain's own script has turned the library's.

usage: python3 tools/respell.py [--list]      at the top; --list prints the names and changes nothing

Types, records and facts are in upper camel case; everything else is in snake case, in which a dash joins two names, as
in the lemma `take-length` of `take` and `length`. Functions of src/, comments, strings, goals and the names that the
toolchain makes keep their spelling.
"""
import glob
import os
import re
import sys

# words that a lemma's name joins by a dash although no definition here has that name
OPERATIONS = set("add sub mul neg pow zero one abs pos le lt eq xor append length take drop map push ++ suc cons".split())
# names of definitions that would fall together with another name in scope
OTHERWISE = {
    "inverse-of": "inverse_byte",
    "getD-among": "get_or-among",
    "getD-inj": "get_or-inj",
    "getD-nodes": "get_or-nodes",
}
LEMMA, FIELD, DEFINITION = 0, 1, 2
TOKEN = re.compile(r"[^\s(){}\[\],;.|\"@⟦⟧]+")


def antt_files():
    return sorted(glob.glob("crates/*/specs/**/*.antt", recursive=True) + glob.glob("crates/*/proofs/**/*.antt", recursive=True))


def code(line, mark):
    """The line without its comment, and the comment."""
    m = re.search(r"(^|\s)" + mark + r"(\s|$)", line)
    return (line, "") if not m else (line[: m.start()], line[m.start():])


def declared():
    """What each own name is, LEMMA, FIELD (or constructor) or DEFINITION; and the names of goals."""
    found, goals = {}, set()
    for path in antt_files():
        inside = False  # below the head of a record or a family of types
        for line in open(path, encoding="utf-8"):
            text, _ = code(line.rstrip("\n"), "--")
            if text.strip() and not text.startswith(" "):
                inside = bool(re.match(r"(pub )?(record|data)\b.*\bwhere$", text))
            m = re.match(r"(\s*)((?:abbrev |unfoldable |pub |record |data |ruleset )*)([^\s:(){}]+)(?:\s*[({].*)?\s*:(?!=)", text)
            if not m or m.group(3) in ("module", "use", "let", "in", "elim"):
                continue
            name, words = m.group(3), m.group(2)
            if re.search(r": (goal|need)\.", text):
                goals.add(name)
                continue
            kind = DEFINITION if re.search(r"abbrev|unfoldable|record|data|ruleset", words) else FIELD if inside else LEMMA
            found[name] = max(found.get(name, LEMMA), kind)
    return found, goals


def respelled(name, kinds):
    if name in OTHERWISE:
        return OTHERWISE[name]
    parts = name.split("-")
    if name[0].isupper():
        return parts[0] + "".join(p[:1].upper() + p[1:] for p in parts[1:])
    if kinds[name] != LEMMA:
        return "_".join(parts)
    known = lambda word: word in OPERATIONS or kinds.get(word) == DEFINITION
    out = parts[0]
    for i, part in enumerate(parts[1:], 1):
        left, right = known("-".join(parts[:i])) or known(parts[i - 1]), known("-".join(parts[i:])) or known(part)
        out += ("-" if left and right else "_") + part
    return out


def imported():
    """The names that a file takes from the library, whose spelling is right as it is."""
    own = "|".join(sorted(os.listdir("crates")))
    found = set()
    for path in antt_files() + sorted(glob.glob("crates/*/src/*.rt")):
        for line in open(path, encoding="utf-8"):
            m = re.match(r"\s*(?:ghost )?use (?!Rattle\.(?:" + own + r")\.)[^{]*\{(.*)\}", line)
            if m:
                found |= {word.strip().split(" as ")[0] for word in m.group(1).split(",")}
    return found


def names():
    found, goals = declared()
    left = goals | imported()
    return {n: respelled(n, found) for n in found if "-" in n and n not in left and not n.startswith(("returns-", "loop-"))}


def turned(text, table, mark):
    out = []
    for line in text.split("\n"):
        own, comment = code(line, mark)
        pieces = re.split(r'("(?:[^"\\]|\\.)*")', own)
        out.append("".join(p if p.startswith('"') else TOKEN.sub(lambda m: table.get(m.group(), m.group()), p) for p in pieces) + comment)
    return "\n".join(out)


def main(argv):
    table = {a: b for a, b in names().items() if a != b}
    if argv == ["--list"]:
        print("\n".join(f"{a}\t{b}" for a, b in sorted(table.items())))
        return 0
    sources = sorted(glob.glob("crates/*/src/*.rt"))
    for path in antt_files() + sources:
        text = open(path, encoding="utf-8").read()
        new = turned(text, table, "//" if path.endswith(".rt") else "--")
        if new != text:
            open(path, "w", encoding="utf-8").write(new)
    return 0


if __name__ == "__main__":
    raise SystemExit(main(sys.argv[1:]))
