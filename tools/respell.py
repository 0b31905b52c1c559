#!/usr/bin/env python3
"""Brings the repository's own definitions and lemmas to the spelling of the installed Rattle.

usage: python3 tools/respell.py     at the top of the repository, once, right after the kit's port script

A definition, lemma, record field or local name `some-name` of specs/ and proofs/ becomes `some_name`, a
type or a statement `Some-name` becomes `SomeName`. A definition that would then have the name of a Rust
item of its crate gets another name (table OTHERS). Untouched: names of std (whatever a `use` line takes
from std), names that the check generates for goals and steps, strings, and all code outside clauses.
In docs/ and README.md the same names are turned where they stand between backquotes.
"""

import glob
import os
import re

# Names that are no case of the rule, and names that, spelled by it, would be those of a Rust function or field.
OTHERS = {
    "first-false": "first_false_row",
    "pair-count": "count_of_pairs",
    "line-length": "length_of_line",
    "in-force": "rules_in_force",
    "lot-named": "lot_of_named",
    "over-lots": "tree_over_lots",
    "D-turn": "dashed_turn",
    "goesOn": "continues",
    "rightOf": "right_level",
    "joinNode": "join_node",
    "layerOf": "layer_of",
    "Walks_to": "WalksTo",
}

NAME = r"[^\s(){}\[\],;.:λ→×«»|⌜⌝\"`]+"
GOAL = re.compile(
    r"^(invariant|decreases|loop|returns|overflow|bounds|nonzero|offset|then|else|in|if)-"
    r"|-requires(-|$)|-init$|-preserved$|-smaller$"
)
HEAD = re.compile(r"((?:(?:abbrev|unfoldable|pub|data|record|ruleset) )*)(%s)(?:\s*[({].*?)?\s*:(?!=)" % NAME)
FIELD = re.compile(r"^\s+(?:pub )?(%s)\s+:\s" % NAME)


def antt_files():
    found = glob.glob("crates/*/specs/*.antt") + glob.glob("crates/*/proofs/**/*.antt", recursive=True)
    return sorted(found)


def rt_files():
    return sorted(glob.glob("crates/*/src/**/*.rt", recursive=True))


def text_of(path):
    with open(path, encoding="utf-8") as f:
        return f.read()


def is_old(name):
    return name in OTHERS or "-" in name[1:]


def respelled(name):
    if name in OTHERS:
        return OTHERS[name]
    parts = name.split("-")
    if parts[0][:1].isupper() and len(parts[0]) > 1:
        return "".join(part[:1].upper() + part[1:] for part in parts)
    return "_".join(parts)


def is_proof_of_a_function(path):
    return os.path.basename(path) in ("Answers.antt", "Invariants.antt")


def own_names():
    """Every dashed name that a file of specs/ or proofs/ defines at its top, or as a field."""
    names = set()
    for path in antt_files():
        for line in text_of(path).split("\n"):
            if line.startswith(("--", "use ")):
                continue
            head = None if line.startswith(" ") else HEAD.match(line)
            if head and not (is_proof_of_a_function(path) and GOAL.search(head.group(2))):
                names.add(head.group(2))
            field = FIELD.match(line)
            if field:
                names.add(field.group(1))
    return {name for name in names if is_old(name)}


def std_names(text):
    taken = set()
    for uses in re.finditer(r"^(?:ghost )?use (?:Rattle\.std|borrow|mathlib|Prim)[^{\n]*\{([^}]*)\}", text, re.M):
        taken.update(re.findall(NAME, uses.group(1)))
    return taken


def turn_antt(path, text, names):
    std = std_names(text)
    generated = is_proof_of_a_function(path)

    def turned(found):
        before, name = found.group(1), found.group(2)
        if name in std or not is_old(name) or not re.match(r"\w", name):
            return found.group(0)
        if generated and (GOAL.search(name) or before == "."):
            # after a dot only the fields of the repository's own records
            known = before == "." and name in names and not re.match(r"(in|if|then|else|loop|match)-", name)
            return before + respelled(name) if known else found.group(0)
        if before == "." and name not in names:
            return found.group(0)
        return before + respelled(name)

    def named(found):
        name = found.group(0)
        return respelled(name) if name in names else name

    lines = []
    for line in text.split("\n"):
        if re.match(r"use (Rattle\.std|borrow|mathlib|Prim)", line):
            lines.append(line)
            continue
        parts = re.split(r'("[^"]*")', line)
        if line.lstrip().startswith("--"):
            parts = [re.sub(NAME, named, part) for part in parts]
        else:
            parts = [part if part.startswith('"') else re.sub(r"(\.?)(%s)" % NAME, turned, part) for part in parts]
        lines.append("".join(parts))
    return "\n".join(lines)


def turn_rt(text, names):
    aliases = {name for name in re.findall(r" as (%s)" % NAME, text) if "-" in name}

    def turned(found):
        name = found.group(0)
        return respelled(name) if name in names or name in aliases else name

    ghost = re.compile(r"^\s*(ghost |requires|ensures)")
    inside = False
    lines = []
    for line in text.split("\n"):
        if ghost.match(line) or inside:
            if not re.match(r"\s*ghost use Rattle\.std", line):
                line = re.sub(NAME, turned, line)
            inside = line.count("{") > line.count("}") if not inside else line.count("{") >= line.count("}")
        lines.append(line)
    return "\n".join(lines)


def turn_page(text, names):
    def turned(found):
        return re.sub(NAME, lambda m: respelled(m.group(0)) if m.group(0) in names else m.group(0), found.group(0))

    return re.sub(r"`[^`\n]*`", turned, text)


def main():
    names = own_names()
    for path in antt_files() + rt_files() + ["README.md"] + sorted(glob.glob("docs/*.md")):
        text = text_of(path)
        if path.endswith(".antt"):
            new = turn_antt(path, text, names)
        elif path.endswith(".rt"):
            new = turn_rt(text, names)
        else:
            new = turn_page(text, names)
        if new != text:
            with open(path, "w", encoding="utf-8") as f:
                f.write(new)


if __name__ == "__main__":
    main()
