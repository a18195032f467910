#!/usr/bin/env python3
"""Respells this repository's own definitions, fields and lemmas as the installed Rattle spells names: words in snake case, types and
modules with their capitals.

usage: python3 tools/respell.py          at the top of the repository, once, after port.py
       python3 tools/respell.py --list   prints the table and writes nothing

It turns the names that specs/ and the lemma files of proofs/ declare, wherever they stand in crates/. Functions of src/, strings, and what
the folders of functions (proofs/F/) declare for themselves keep their names.
"""

import os
import re
import sys

TOKEN = re.compile(r"[^\s(){};,.@\"`\[\]:]+")
HEAD = re.compile(r"^\s*(?:abbrev |unfoldable |pub )*(?:(?:data|record) )?(?:pub )?([A-Za-z][^\s:(){};,.@\"]*)(?: [({][^:]*: .*[)}])*(?: [a-z]\w*)*(?: :(?: |$)| where$)")

# Names that would fall together with another one: a lemma beside its definition gets _lem.
OTHER = {
    # two names with a dash between: std has `bit_and` and its like as functions
    "flow-through": "flow-through",
    "bit-and": "bit-and",
    "bit-or": "bit-or",
    "bit-xor": "bit-xor",
    "allowed-test": "allowed_test_lem",
    "cell-of": "cell_of_lem",
    "first-at": "first_at_lem",
    "good-row": "good_row_lem",
    "kept-count": "kept_count_is",
    "lands-in": "lands_in_lem",
    "last-round": "last_round_lem",
    "length-wrong": "length_wrong_lem",
    "levels-of": "levels_of_lem",
    "marked-in": "marked_in_width",
    "move-of": "move_of_lem",
    "range-wrong": "range_wrong_lem",
    "reason-by": "reason_by_lem",
    "some-group": "some_group_lem",
    "some-on": "some_on_lem",
    "sound-in": "sound_in_lem",
    "verdict-of": "verdict_of_lem",
}
# Named by a `let`, a λ, a module's parameter or over two lines.
LOCAL = """isGood isHit no-letter found-outcome told-n told-out told-stock top-length true-length there-too of-rows for-x for-y meets-a meets-b some-b
r-is w-is x-made rounds-is built-says move-tests reason-tests no-seen reads-many visited-some from-i from-j""".split()
# Names that stand in one or two files: words of comments and strings elsewhere, or a lemma that port.py spelled as a definition is spelled now.
IN_FILES = {
    "crates/demands/specs/Cases.antt": {"flow-through": "flow_through"},
    "crates/rules/proofs/Passes.antt": {"flow-through": "flow_through"},
    "crates/build/proofs/AllRounds.antt": {"kept_in": "kept_in_lem"},
    "crates/calls/proofs/After.antt": {"held_after": "held_after_lem"},
    "crates/calls/proofs/Accepted.antt": {"held_after": "held_after_lem"},
    "crates/listings/proofs/Whole.antt": {"text_at": "text_at_lem"},
    "crates/listings/specs/Pages.antt": {"text_at": "text_at_lem"},
    "crates/rules/proofs/Tools/Reasoned.antt": {"kept_test": "kept_test_lem"},
}


def files(*ends):
    for folder, dirs, names in os.walk("crates"):
        dirs[:] = sorted(d for d in dirs if d != "out")
        for n in sorted(names):
            if n.endswith(ends):
                yield os.path.join(folder, n)


def declares(path):
    """A file of specs/, or one of proofs/ that stands in no function's folder."""
    parts = path.split(os.sep)
    return parts[2] == "specs" or parts[2] == "proofs" and all(p[0].isupper() for p in parts[3:])


def snake(part):
    return part if part[:1].isupper() else re.sub(r"(?<=[a-z0-9])([A-Z])", lambda m: "_" + m.group(1).lower(), part)


def respelled(name):
    return OTHER.get(name) or "_".join(snake(p) for p in name.split("-"))


def table():
    names = {n: respelled(n) for n in LOCAL}
    for path in files(".antt"):
        if declares(path):
            with open(path, encoding="utf-8") as f:
                for m in filter(None, map(HEAD.match, f)):
                    names[m.group(1)] = respelled(m.group(1))
    return {n: m for n, m in sorted(names.items()) if n != m}


def theirs(text):
    """What a file imports from the kit's own libraries: those names are not ours."""
    lists = re.findall(r"^use (?:mathlib|lib|borrow|native|Prim)[\w.]*\.\{([^}]*)\}", text, re.M)
    return {n.strip() for names in lists for n in names.split(",")}


def main(argv):
    names = table()
    if argv:
        print("\n".join(f"{n} {m}" for n, m in names.items()))
        return 0
    for path in files(".antt", ".rt", ".edit"):
        with open(path, encoding="utf-8") as f:
            old = f.read()
        kept = theirs(old)
        here = {n: m for n, m in (names | IN_FILES.get(path, {})).items() if n not in kept}
        new = TOKEN.sub(lambda m: here.get(m.group(0), m.group(0)), old)
        if new != old:
            with open(path, "w", encoding="utf-8") as f:
                f.write(new)
    print(f"respelled: {len(names)} names")
    return 0


if __name__ == "__main__":
    raise SystemExit(main(sys.argv[1:]))
