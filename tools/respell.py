#!/usr/bin/env python3
"""Brings this repository's own definitions and lemmas to the spelling of today's Rattle.

Run once, at the top of the repository, right after /opt/rattle/port/port.py:

    python3 tools/respell.py

Definitions, lemmas, record fields and ghost members that are written in camel case or with dashes get snake case
(`firstFrom` and `first-from` become `first_from`), wherever they stand in the crates' sources, specs, proofs and must-fail edits.
Functions of src/ are in snake case already; inputs and outputs are not read; and the names that Rattle makes for the goals of a
function (proofs/F/Answers.antt, Invariants.antt) are not among those that are respelled. Where snake case would give a definition
the name of something else, OTHER says what it is called instead. In README.md and docs/ only words in backticks change. Names that
port.py had respelled itself are not known here, so pages that name those are mended by hand.
"""
import glob
import re
import sys

# Names that would fall together with another in snake case: the definition, and the file where it stands.
OTHER = {
    # a weight read from three numbers; `cable_weight` and `drive_weight` are functions that make one
    "cableWeight": "cable_reading",
    "driveWeight": "drive_reading",
    "tail-getD": "tail_get_or",
}

# Names that port.py put in snake case itself, and that fall together with functions of src/; and a fact spelled as a value.
# In each file whose path matches: the pattern, and what stands for it.
PORTED = [
    # the noted place of a point, which the function `noted_at` tells; `place_of` is a function that finds the place where it stands
    (r"crates/queue/(specs|proofs)/.*\.antt$", r"(?<![\w'.-])place_of(?![\w'-])", "noted_at"),
    (r"crates/queue/src/heaps/slots\.rt$", r"(?<![\w'.-])place_of(?![\w'-])", "noted_at"),
    # the entry of a point among some slots; `entry_of` is a function on the first slots of a heap
    (r"crates/queue/(specs|proofs)/.*\.antt$", r"(?<![\w'.-])entry_of(?![\w'-])", "entry_among"),
    # that a set has a zone is a fact
    (r"crates/gauge/specs/Zones\.antt$", r"(?<![\w'.-])zone(?= (?:[abc] k\b|: ℕ))", "HasZone"),
]

NAME = re.compile(r"[A-Za-z_][\w'-]*")
DECLARED = re.compile(
    r"^\s*(?:unfoldable )?(?:abbrev )?(?:pub )?(?:(?:data|record) )?(?:pub )?(" + NAME.pattern + r") ?:(?: |$)"
)
GHOST = re.compile(r"^\s*ghost (" + NAME.pattern + r")\s*[:=]")
SUBSCRIPT = re.compile(r"^(.*?)([₀-₉']*)$")


def odd(name):
    return "-" in name or re.match(r"[a-z_][a-z0-9_]*[A-Z]", name) is not None


def snake(name):
    return re.sub(r"(?<=[a-z0-9])([A-Z])", lambda m: "_" + m.group(1).lower(), name).replace("-", "_")


def files(*patterns):
    return sorted({f for p in patterns for f in glob.glob(p, recursive=True)})


def read(path):
    with open(path, encoding="utf-8", newline="") as f:
        return f.read()


def table():
    """The names to respell: those declared in specs/ and in the lemma files of proofs/, and ghost members."""
    own = set()
    for path in files("crates/*/specs/*.antt", "crates/*/proofs/*.antt"):
        own |= {m.group(1) for m in map(DECLARED.match, read(path).splitlines()) if m}
    for path in files("crates/*/src/**/*.rt"):
        own |= {m.group(1) for m in map(GHOST.match, read(path).splitlines()) if m}
    return {n: OTHER.get(n, snake(n)) for n in own if odd(n)}


def respell(text, names):
    def one(m):
        base, tail = SUBSCRIPT.match(m.group(0)).groups()
        if m.group(0) in names:
            return names[m.group(0)]
        return names[base] + tail if base in names else m.group(0)

    return NAME.sub(one, text)


def main():
    names = table()
    changed = 0
    for path in files("crates/*/specs/*.antt", "crates/*/proofs/**/*.antt", "crates/*/src/**/*.rt", "crates/*/must-fail/*.edit"):
        before = read(path)
        after = before
        for where, pattern, other in PORTED:
            if re.search(where, path):
                after = re.sub(pattern, other, after)
        after = respell(after, names)
        if after != before:
            changed += 1
            with open(path, "w", encoding="utf-8", newline="") as f:
                f.write(after)
    for path in files("README.md", "docs/*.md"):
        before = read(path)
        after = re.sub(r"`[^`\n]+`", lambda m: respell(m.group(0), names), before)
        if after != before:
            changed += 1
            with open(path, "w", encoding="utf-8", newline="") as f:
                f.write(after)
    print(f"{len(names)} names respelled in {changed} files")
    clash = {}
    for old, new in names.items():
        clash.setdefault(new, []).append(old)
    for new, old in sorted(clash.items()):
        if len(old) > 1:
            print(f"look: {', '.join(sorted(old))} are all {new} now", file=sys.stderr)


main()
