#!/usr/bin/env python3
"""Spells this repository's own definitions and lemmas as today's Rattle does: words in snake case. Types, modules and what Rattle makes keep their names.

usage: tools/snake_names.py            at the top of a checkout in which port.py ran; it rewrites files in place. A second run changes nothing.

A name is turned where a file of specs/ or of proofs/ (a function's own Proof.antt aside) declares it: `gaveBy` to `gave_by`, `took-x` to `took_x`, `rowsR` to `rows_r`.
A few values that were spelled like types are in OTHERS, each with the folders that say it. In a file that imports a name from a library, that name stays.
It turns .antt and .rt files, must-fail edits and the code spans of pages. It prints names that would fall together, and leaves those.
"""

import collections
import os
import re
import sys

WORD = re.compile(r'[^\s(){}.;,@"«»`]+')
DECLARED = re.compile(r"(?m)^ *(?:(?:pub|abbrev|unfoldable|pattern|private|infixl?|infixr) +)*([^\s(){}.;,@\"«»]+)((?: \{[^{}\n]*\})*) :(?=\s)")
QUIET = re.compile(r'"(?:[^"\\\n]|\\.)*"|(?<![^\s(){}.;,@"«»])--[^\n]*|(?<![:"])//[^\n]*')
SPAN = re.compile(r"`[^`\n]*`")
USE = re.compile(r"(?m)^ *(?:pub |ghost )*use ([^\s;{]+?)\.\{([^{}]*)\}")
# the files that say R, B and D for the built-in systems
SYSTEMS = tuple(f"crates/{it}.antt" for it in ("meaning/proofs/Premise", "meaning/proofs/Laws", "meaning/proofs/WorkedSession", "two_meaning/proofs/WorkedPairs"))
# values that were spelled like types: (folders, old, new)
OTHERS = [
    (("crates/",), "Det", "det_e"),
    (("crates/bilinear/", "crates/giving/"), "OnTwo", "on_two_e"),
    (("crates/expanding/",), "Form", "form_e"),
    (("crates/expanding/",), "Growth", "growth_e"),
    (("crates/expanding/",), "Sum", "sum_e"),
    (("crates/expanding/",), "Far", "far_e"),
    (("crates/whole/proofs/",), "C", "const_h"),
    (("crates/whole/proofs/",), "X", "plus_x"),
    (SYSTEMS, "R", "system_r"),
    (SYSTEMS, "B", "system_b"),
    (SYSTEMS, "D", "system_d"),
]
PAGES = (".md",)


def snake(name):
    out = re.sub(r"(?<=[a-z0-9'?])([A-Z])", lambda m: "_" + m[1].lower(), name)
    out = out.replace("-", "_")
    if out[:1].islower():
        out = re.sub(r"[A-Z]", lambda m: m[0].lower(), out)
    return out


def files(root):
    for top, folders, names in os.walk(root):
        folders[:] = sorted(f for f in folders if f not in (".git", "out", "target"))
        for n in sorted(names):
            if n.endswith((".antt", ".rt", ".edit") + PAGES):
                yield os.path.relpath(os.path.join(top, n), root)


def read(p):
    with open(p, encoding="utf-8") as f:
        return f.read()


def of_function(path):
    return bool(re.search(r"/proofs/.+/(Proof|Answers|Invariants)\.antt$", path))


def code_of(text):
    return QUIET.sub(" ", text)


def imported(text):
    """The names that a file brings from a library that is not this repository's."""
    own = set(os.listdir("crates"))
    out = set()
    for path, items in USE.findall(text):
        parts = path.split(".")
        if parts[0] == "Rattle" and len(parts) > 1 and parts[1] in own:
            continue
        if parts[0][:1].isupper() and parts[0] not in ("Rattle", "Prim"):
            continue
        for item in items.split(","):
            out.update(item.split()[:1])
    return out


def main():
    texts = {p: read(p) for p in files(".")}
    declared = set()
    for p, t in texts.items():
        if p.endswith(".antt") and not of_function(p):
            for m in DECLARED.finditer(code_of(t)):
                declared.add(m[1])
    table = {}
    for name in declared:
        if not name[:1].islower() or "◌" in name:
            continue
        new = snake(name)
        if new != name:
            table[name] = new
    crates = set(os.listdir("crates"))
    functions = {n for p, t in texts.items() if p.endswith(".rt") for n in re.findall(r"\bfn (\w+)", t)}
    by_new = collections.defaultdict(set)
    for old, new in table.items():
        by_new[new].add(old)
    # where two would be one, the lemma, which was spelled with dashes, or which port.py has turned already, ends in _lem
    for new, olds in by_new.items():
        words = sorted(o for o in olds if "-" not in o)
        lemmas = sorted(o for o in olds if "-" in o)
        if new in declared:
            lemmas.append(new) if words else None
        if len(words) == 1 and lemmas:
            for o in lemmas:
                table[o] = new + "_lem"
                print(f"lemma: {o} is {new}_lem beside {words[0]}, which is {new}")
        elif len(words) == 0 and new in declared:
            for o in lemmas:
                table[o] = new + "_lem"
                print(f"lemma: {o} is {new}_lem beside {new}")
        if new in crates:
            for o in words:
                table[o] = new + "_of"
                print(f"crate: {o} is {new}_of, beside the crate {new}")
    words = {p: set(WORD.findall(code_of(t))) for p, t in texts.items() if p.endswith((".antt", ".rt"))}
    bad = {}
    for old, new in table.items():
        met = [p for p, ws in words.items() if old in ws and new in ws and not of_function(p)]
        if (met and new not in functions and new not in table) or sum(n == new for n in table.values()) > 1 or (new in declared and new not in table):
            bad[old] = f"{new} stands in {met[:3]}, or is declared: {new in declared}"
    for old, why in sorted(bad.items()):
        print(f"left: {old}: {why}")
        table.pop(old)
    changed = 0
    for p, t in texts.items():
        here = dict(table)
        for folders, old, new in OTHERS:
            if p.startswith(folders):
                here[old] = new
        for name in imported(t):
            here.pop(name, None)

        # in edits and pages a name may stand that port.py has turned in the code alone
        later = p.endswith((".edit",) + PAGES)

        def one(m):
            bare = m[0]
            if later and bare not in here and bare not in declared and bare[:1].islower() and snake(bare) in declared:
                return table.get(snake(bare), snake(bare)) if snake(bare) != bare else bare
            return here.get(bare, bare)

        def spans(s):
            return SPAN.sub(lambda m: WORD.sub(one, m[0]), s)

        if p.endswith(PAGES):
            new = spans(t)
        elif p.endswith(".edit"):
            new = WORD.sub(one, t)
        else:
            out, at = [], 0
            for m in QUIET.finditer(t):
                out.append(WORD.sub(one, t[at : m.start()]))
                out.append(m[0] if m[0][0] == '"' else spans(m[0]))
                at = m.end()
            out.append(WORD.sub(one, t[at:]))
            new = "".join(out)
        if new != t:
            changed += 1
            with open(p, "w", encoding="utf-8") as f:
                f.write(new)
    print(f"{len(table)} names, {changed} files")
    if "--table" in sys.argv:
        for old in sorted(table):
            print(f"{old}\t{table[old]}")


if __name__ == "__main__":
    main()
