#!/usr/bin/env python3
"""Brings this repository's own definitions and lemmas to today's spelling: words in snake case, facts and types in
upper camel case.

usage: respell.py [--list]      at the top of the repository, once, right after port.py
A name is respelled if a file of specs/ or proofs/ defines it (a definition, a lemma, a field of a record). It is then
respelled wherever it stands in .antt and .rt files. Functions of src/ keep their names, and so do strings.
"""
import collections
import glob
import re
import sys

# What would fall together with another name gets a name of its own.
BY_HAND = {
    "in-range": "range_kept",
    "bytes-of": "bytes_at_width",
    "of-key": "of_key_lem",
    "of-any": "of_any_lem",
    "keyed-all": "keyed_all_lem",
}
WORD = re.compile(r"[A-Za-z_Α-Ωα-ωℕℤ][A-Za-z0-9_'Α-Ωα-ωℕℤ]*(?:-[A-Za-z0-9_'Α-Ωα-ωℕℤ]+)*")


def snake(name):
    """One name in today's spelling."""
    if name in BY_HAND:
        return BY_HAND[name]
    if name[0].isupper():
        return "".join(w[:1].upper() + w[1:] for w in name.split("-"))
    name = name.replace("-", "_")
    return re.sub(r"(?<=[a-z0-9])[A-Z]", lambda m: "_" + m[0].lower(), name)


def files():
    for kind in ("specs/**/*.antt", "proofs/**/*.antt", "src/**/*.rt"):
        yield from sorted(glob.glob("crates/*/" + kind, recursive=True))


def defined(text):
    """The names that a file of specs/ or proofs/ defines, without the answers to goals."""
    for line in text.splitlines():
        m = re.match(r"\s*(?:(?:abbrev|unfoldable|pub|instance) )*(\S+)\s*(?:[({].*?[)}]\s*)*:\s*(.*)", line)
        if m and not line.strip().startswith(("use ", "mod ", "--", "let ", "(")):
            if not re.match(r"(goal|given)\.", m[2]):
                yield m[1]
        m = re.match(r"\s*(?:pub )?(?:data|record) (\S+)", line)
        if m:
            yield m[1]


def outside_strings(line, f):
    """The line with f applied to what stands outside strings and comments of code."""
    parts = re.split(r'(b?"(?:[^"\\]|\\.)*")', line)
    return "".join(p if i % 2 else f(p) for i, p in enumerate(parts))


def main():
    names = {}
    for path in files():
        if path.endswith(".antt"):
            for name in defined(open(path, encoding="utf-8").read()):
                if snake(name) != name and WORD.fullmatch(name):
                    names[name] = snake(name)
    words = collections.defaultdict(set)
    for path in files():
        for w in WORD.findall(open(path, encoding="utf-8").read()):
            words[w].add(path)
    back = collections.defaultdict(list)
    for old, new in names.items():
        back[new].append(old)
        if words[new]:
            both = sorted(words[new] & words[old])
            print(f"look: {old} -> {new}: stands already in {sorted(words[new])[:4]}" + (f"; TOGETHER in {both}" if both else ""))
    for new, olds in back.items():
        if len(olds) > 1:
            print(f"fall together: {olds} -> {new}")
    if "--list" in sys.argv:
        return
    n = 0
    for path in files():
        text = open(path, encoding="utf-8").read()
        turn = lambda part: WORD.sub(lambda m: names.get(m[0], m[0]), part)
        new = "\n".join(outside_strings(l, turn) for l in text.split("\n"))
        if new != text:
            n += 1
            open(path, "w", encoding="utf-8").write(new)
    print(f"{len(names)} names, {n} files")


main()
