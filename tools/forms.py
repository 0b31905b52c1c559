#!/usr/bin/env python3
"""Lists the places of src/ that may read like an older form; `forms.py [POINT]`, at the top of a checkout.

What it prints are candidates: docs/DESIGN-PASS.md says which of them are places, and what became of them.
"""
import collections
import difflib
import glob
import itertools
import os
import re
import sys

POINTS = {
    1: "sentinels, flags and number codes",
    2: "twins",
    3: "loops that are written out",
    4: "equality, order, conversion and printing",
    5: "facts that stand in several contracts, and parameters that travel together",
    6: "arrays with a count beside, and vectors by reference",
    7: "switches on a step, and tables of functions",
    8: "proofs",
}


def sources():
    for path in sorted(glob.glob("crates/*/src/**/*.rt", recursive=True)):
        yield path, open(path).read()


def lines(pattern, skip=None):
    for path, text in sources():
        for number, line in enumerate(text.split("\n"), 1):
            if line.lstrip().startswith("//"):
                continue
            if re.search(pattern, line) and not (skip and re.search(skip, line)):
                yield f"{path}:{number}: {line.strip()}"


def functions():
    """Crate, name, parameters and body (in words) of each function."""
    for path, text in sources():
        crate = path.split("/")[1]
        for m in re.finditer(r"\bfn (\w+)(?:<[^>{]*>)?\(([^)]*)\)", text, re.S):
            end = re.search(r"\n( {0,4})\}", text[m.end():])
            body = text[m.end(): m.end() + end.end()] if end else ""
            names = [p.split(":")[0].replace("mut ", "").strip() for p in m.group(2).split(",") if ":" in p]
            code = "\n".join(l for l in body.split("\n") if not re.match(r"\s*(//|ensures|requires|ghost)", l))
            yield crate, m.group(1), names, re.findall(r"\w+|[^\w\s]", code)


def twins():
    found = [f for f in functions() if len(f[3]) >= 25]
    for a, b in itertools.combinations(found, 2):
        like = difflib.SequenceMatcher(None, a[3], b[3], autojunk=False).ratio()
        if like >= 0.72:
            yield f"{like:.2f} {a[0]}::{a[1]} / {b[0]}::{b[1]}"


def facts():
    count = collections.Counter()
    for _, text in sources():
        for m in re.finditer(r"requires(?: \w+)? \{([^}]*)\}", text):
            count[m.group(1).strip()] += 1
    return [f"{n} times: {fact}" for fact, n in count.most_common() if n >= 2]


def travelling():
    where = collections.defaultdict(list)
    for crate, name, parameters, _ in functions():
        for group in itertools.chain.from_iterable(itertools.combinations(sorted(parameters), k) for k in (2, 3)):
            where[group].append(f"{crate}::{name}")
    found = {g: w for g, w in where.items() if len(w) >= 3}
    whole = [g for g in found if not any(set(g) < set(h) and found[g] == found[h] for h in found)]
    return [f"{len(found[g])} times: {', '.join(g)}: {' '.join(found[g])}" for g in sorted(whole, key=lambda g: -len(found[g]))]


def proofs():
    for crate in sorted(glob.glob("crates/*")):
        files = glob.glob(f"{crate}/proofs/**/*.antt", recursive=True)
        answers = [f for f in files if f.endswith("Answers.antt")]
        inner = [f for f in files if os.path.dirname(f) == f"{crate}/proofs" and not f.endswith("Lib.antt")]
        count = lambda fs: sum(len(open(f).read().split("\n")) - 1 for f in fs)
        goals = sum(len(re.findall(r"(?m)^pub [\w+-]+ : goal\.", open(f).read())) for f in answers)
        lemmas = sum(len(re.findall(r"(?m)^ *(?:pub )?[a-z][\w'-]* (?:\{[^}]*\} *)*(?:\([^)]*\) *)*:", open(f).read())) for f in inner)
        yield f"{crate}: {count(files)} lines, {len(answers)} files of answers with {goals} answers, {len(inner)} files with {lemmas} lemmas"


def candidates(point):
    if point == 1:
        yield from lines(r"^(pub(\(crate\))? )?enum ")
        yield from lines(r"== 0\b|return 0;|^ {4}0$|len\(\) \+ 1$|^ {4}\w+\.len\(\)$|if \w+ [<>]=? \w+\.len\(\)")
        yield from lines(r"&mut .*-> bool|-> u8|-> State")
    if point == 2:
        yield from twins()
    if point == 3:
        yield from lines(r"^\s*(for|while|loop)\b", skip=r"^\s*for<|^impl")
    if point == 4:
        yield from lines(r"fn (is|same_\w+|eq|cmp|known|decided|number|carried|layer|word|place|from|fmt|index_of|clone)\b|\bas (usize|u8|u16|u32|u64)\b")
    if point == 5:
        yield from facts()
        yield from travelling()
    if point == 6:
        yield from lines(r"^\s*(pub(\(crate\))? )?\w+: \[.*; ?\w+\],|^\s*(pub(\(crate\))? )?(count|len|given|lots|variables|decoded|written): usize,$")
        yield from lines(r"&(mut )?Vec<")
    if point == 7:
        yield from lines(r"\bdyn\b|: fn\(|\[fn\(|match .*(status|step|phase)")
    if point == 8:
        yield from proofs()


def main():
    wanted = [int(a) for a in sys.argv[1:]] or sorted(POINTS)
    for point in wanted:
        found = list(candidates(point))
        print(f"{point}. {POINTS[point]}: {len(found)}")
        for line in found:
            print("   ", line)


main()
