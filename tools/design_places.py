#!/usr/bin/env python3
"""Lists the places in crates/*/src that docs/DESIGN-PASS.md counts, point by point:  tools/design_places.py [ROOT] [POINT]

It goes by text, so it lists candidates: the page says of each what became of it, or why it stays."""
import collections
import glob
import itertools
import re
import sys

root = sys.argv[1] if len(sys.argv) > 1 else "."
asked = sys.argv[2] if len(sys.argv) > 2 else ""
texts = {f[len(root) + 8:]: open(f).read() for f in sorted(glob.glob(f"{root}/crates/*/src/*.rt"))}
starts = re.compile(r"( *)(?:pub(?:\(crate\))? )?(?:extern \"C\" )?(fn|enum|struct) (\w+)")


def items(kind):
    """Each item of a kind: its file, its name and its text, from its first line to the line that closes it."""
    found = []
    for file, text in texts.items():
        rows = text.splitlines()
        for i, row in enumerate(rows):
            start = starts.match(row)
            if start and start.group(2) == kind:
                ends = (j for j in range(i, len(rows)) if rows[j] in (start.group(1) + "}", start.group(1) + "{}") or j == i and row[-1] in ";}")
                found.append((file, start.group(3), "\n".join(rows[i:next(ends) + 1])))
    return found


FUNCTIONS, ENUMS, STRUCTS = items("fn"), items("enum"), items("struct")


def body(function):
    """A function's text behind its signature and clauses."""
    return re.split(r"\n *\{\n|\) (?:-> [^{]*)?\{\n", function, maxsplit=1)[-1]


def lines(pattern):
    return [f"{f}:{t[:m.start()].count(chr(10)) + 1}: {m.group(0).strip().splitlines()[0]}"
            for f, t in texts.items() for m in re.finditer(pattern, t, re.M)]


def own_options():
    """Enums with a variant for 'none', 'refused' or 'ends' beside variants with a value; structs with one flag beside a value; numbers that stand for none or a kind."""
    empty = re.compile(r"^    (Refused|Barred|Broken|Offence|Malformed|Nowhere|Nothing|No[A-Z]\w+|Unspecified,|Ends|Admitted)", re.M)
    found = [f"{f}: enum {n}" for f, n, e in ENUMS if empty.search(e) and re.search(r"[({].*[)}]|\{$", e.split("\n", 1)[1], re.M)]
    found += [f"{f}: struct {n}, flag {m}" for f, n, s in STRUCTS
              for m in re.findall(r"(\w+): bool,", s) if m in ("there", "whole", "good", "refused", "known", "found", "valid")]
    return found + lines(r"^(?:pub(?:\(crate\))? )?const NO_\w+: u\w+ = .*") + lines(r"^    (?:pub )?letter: u8,")


def twins():
    """Functions whose text is the same but for names, numbers and types: groups of two or more."""
    groups = collections.defaultdict(list)
    for f, n, t in FUNCTIONS:
        inner = body(t)
        if inner.count("\n") >= 1:
            shape = re.sub(r"\b[A-Za-z_]\w*(::\w+)*\b", lambda m: m.group(0) if m.group(0) in
                           ("let", "mut", "if", "else", "while", "for", "in", "return", "match", "as", "loop", "break") else "x", inner)
            groups[re.sub(r"0x\w+|\d+|b'.'|b\"[^\"]*\"", "1", shape)].append(f"{f}: {n}")
    return [" = ".join(g) for g in groups.values() if len(g) > 1]


def index_loops():
    """Loops that count an index by hand: `while` over a comparison, with a counter that goes up by one in the loop."""
    found = []
    for f, n, t in FUNCTIONS:
        for m in re.finditer(r"^( *)while ([^\n]*)\{\n(.*?)^\1\}", t, re.M | re.S):
            for counter in re.findall(r"\b(\w+)\b", m.group(2)):
                if re.search(rf"\b{counter} (\+= 1|= {counter} \+ 1);", m.group(3)):
                    found.append(f"{f}: {n}: while {m.group(2).strip()}")
                    break
    return found


def by_hand():
    """Fields written `x: x`, records copied field by field from another, and conversions or comparisons spelled out."""
    copies = [f"{f}: {n}: copies {len(g)} fields of {v}" for f, n, t in FUNCTIONS
              for v in sorted(set(re.findall(r"^ *(?:\w+): (\w+)\.\w+,$", t, re.M)))
              for g in [re.findall(rf"^ *(\w+): {v}\.\1,$", t, re.M)] if len(g) > 2]
    named = [f"{f}: {n}" for f, n, _ in FUNCTIONS if re.fullmatch(r"copied|same\w*|number|\w+_number|larger|smaller|bit_value|wide|is_set|agree_status", n)]
    return copies + named + lines(r"^ +(\w+): \1,$")


def together():
    """Three parameters or more that travel together through three functions or more, and facts that three contracts or more ask."""
    seen, facts = collections.defaultdict(set), collections.Counter()
    for f, n, t in FUNCTIONS:
        crate, names = f.split("/")[0], re.findall(r"(\w+): ", re.sub(r"\s+", " ", t[:t.index(")")]))
        for size in range(3, len(names) + 1):
            for group in itertools.combinations(names, size):
                seen[crate, group].add(n)
        for clause in re.findall(r"^ *requires (?:\w+ )?\{ (.*) \}$", t, re.M):
            for fact in re.split(r" × ", clause):
                facts[crate, fact.strip("() ")] += 1
    often = {k: v for k, v in seen.items() if len(v) > 2}
    largest = [(c, g, v) for (c, g), v in often.items() if not any(c == d and set(g) < set(h) for d, h in often)]
    return [f"{c}: {', '.join(g)} in {len(v)} functions: {', '.join(sorted(v))}" for c, g, v in largest] + \
        [f"{c}: {g} asked by {k} contracts" for (c, g), k in facts.items() if k > 2]


def buffers():
    """A buffer with its length, place or depth beside it, in a record or as parameters."""
    beside = r"(count|length|len|at|depth|size|done)"
    found = [f"{f}: struct {n}" for f, n, s in STRUCTS if re.search(r": (&\w* ?(mut )?)?\[", s) and re.search(rf"\b{beside}: usize", s)]
    found += [f"{f}: {n}" for f, n, t in FUNCTIONS
              if re.search(rf"(\w+): &(mut )?\[[^\]]*\],\s*{beside}: usize", t[:t.index("{")])]
    return found + lines(r"^const ROWS_\d+: .*")


def switches():
    """A `match` or chain of tests all of whose arms call a function of the step: which one to run."""
    return [f"{f}: {n}: match {m.group(2)}" for f, n, t in FUNCTIONS
            for m in re.finditer(r"^( *)match (\w+) \{\n(.*?)^\1\}", t, re.M | re.S)
            if len(re.findall(r"=> [\w:]+\(", m.group(3))) > 1 and len(re.findall(r"=> [\w:]+\(", m.group(3))) + 1 >= m.group(3).count("=>")]


def proofs():
    """Proof files of functions, and lemma files, with their lines."""
    found = []
    for crate in sorted(glob.glob(f"{root}/crates/*")):
        answers = glob.glob(f"{crate}/proofs/*/**/*.antt", recursive=True)
        lemmas = glob.glob(f"{crate}/proofs/*.antt")
        count = lambda files: sum(open(f).read().count("\n") for f in files)
        found.append(f"{crate.split('/')[-1]}: {len(answers)} files of functions, {count(answers)} lines; {len(lemmas)} of lemmas, {count(lemmas)} lines")
    return found


for number, point in enumerate((own_options, twins, index_loops, by_hand, together, buffers, switches, proofs), 1):
    if asked in ("", str(number)):
        places = point()
        print(f"point {number}: {len(places)}  ({point.__doc__.split('.')[0]})")
        if asked:
            print("\n".join(places))
