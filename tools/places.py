#!/usr/bin/env python3
"""The places in src/ that docs/DESIGN-PASS.md counts, point by point.

    tools/places.py            the working tree
    tools/places.py COMMIT     a commit
    tools/places.py -c [..]    the counts alone

Each row is a pattern over the lines of crates/*/src; a place is a line that it matches. It finds candidates: the page says
of each what became of it. Comment lines are passed over.
"""
import re, subprocess, sys
from collections import defaultdict

ITEM = r"^\s*(?:pub(?:\(crate\))? )?(?:const )?(?:fn|struct|enum|const|trait) ([A-Za-z_]\w*)"

POINTS = [
    ("1 a fault or a refusal as an Option", r"(->|:) (Result<)?Option<&?(mut )?\w*(Fault|Refusal)>"),
    ("1 a fault handed on by hand", r"(Some|None|Err|Ok\(_\)|Ok\(\(\)\)).*=> *(Some|Err|Ok|None|refusal_of|put_refusal)\b|return Some\(|return Err\(fault\)"),
    ("1 a number for a kind or a refusal", r"\b(number|code|product): u8|fn (tag|size)\(\)"),
    ("1 a flag, and a value that stands for none", r"^\s*(pub(\(crate\))? )?\w+: bool,|\bNONE\b"),
    ("3 an index or a count that is kept by hand", r"^\s*for \w+ in \w+\.\.|^\s*while\b|^\s*loop\b|\.enumerate\(\)"),
    ("4 equality by hand", r"^\s*match (self\.register\.)?state|^\s*let \w+::\w+ = self\.\w+\.\w+ else|fn (is_standing|is_such|may_change)\b"),
    ("4 conversion by hand", r"fn (of|refusal|refusal_of|place|name|tag|size|plain|with)\(|\w+ as [iu](\d+|size)\b"),
    ("4 printing by hand", r"fn (put_(text|unsigned|signed|digits)|name|show_\w+)\b"),
    ("5 page and place, slots and used together", r"\b(page: &mut \[u8\]|slots: &\[Slot<R>\]|used: usize)"),
    ("6 a buffer with a length beside it", r"\[[\w:]+; (64|ROOM|2100)\]|: \[u8; 2100\]|len: usize|let mut (input|list|line|bytes) = (vec!)?\["),
    ("7 a switch on a step", r"^\s*match (command|step|header\.code|bytes\[place\])|Ok\(header\) => match"),
]

def lines(commit):
    run = lambda *a: subprocess.run(["git", *a], capture_output=True, text=True, check=True).stdout
    tree = ["ls-tree", "-r", "--name-only", commit] if commit else ["ls-files"]
    for name in run(*tree, "--", "crates").split():
        if re.match(r"crates/\w+/src/.*\.rt$", name):
            text = run("show", f"{commit}:{name}") if commit else open(name).read()
            for n, line in enumerate(text.split("\n"), 1):
                if not re.match(r"\s*//", line):
                    yield name, n, line

def clause_key(line):
    m = re.match(r"\s*(requires|ensures)\*?\s*\w*\s*\{(.*)\}\s*$", line)
    return m and re.sub(r"\b\w+(\.(old|new|now|entry))\b", "_", m.group(2)).strip()

def main():
    counts = "-c" in sys.argv
    rest = [a for a in sys.argv[1:] if a != "-c"]
    commit = rest[0] if rest else None
    all_lines = list(lines(commit))
    def row(title, places):
        print(f"{title}: {len(places)}")
        if not counts:
            for p in places:
                print("   ", p)
    for title, pattern in POINTS[:4]:
        row(title, [f"{f}:{n}: {l.strip()}" for f, n, l in all_lines if re.search(pattern, l)])
    names = defaultdict(list)
    for f, n, l in all_lines:
        m = re.match(ITEM, l)
        if m and not re.match(r"\s*fn (refusal|main)\b", l):
            names[m.group(1)].append(f"{f}:{n}")
    twice = {k: v for k, v in names.items() if len(v) > 1}
    row("2 a name that is declared in two or more places", [f"{k}: {' '.join(v)}" for k, v in sorted(twice.items())])
    for title, pattern in POINTS[4:9]:
        row(title, [f"{f}:{n}: {l.strip()}" for f, n, l in all_lines if re.search(pattern, l)])
    facts = defaultdict(list)
    for f, n, l in all_lines:
        if clause_key(l):
            facts[clause_key(l)].append(f"{f}:{n}")
    row("5 a fact in three or more contracts", [f"{k}: {' '.join(v)}" for k, v in sorted(facts.items()) if len(v) > 2])
    for title, pattern in POINTS[9:]:
        row(title, [f"{f}:{n}: {l.strip()}" for f, n, l in all_lines if re.search(pattern, l)])

main()
