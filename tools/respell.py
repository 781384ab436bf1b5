#!/usr/bin/env python3
"""Brings the repository's own definitions and lemmas to today's spelling: words in snake case, types and facts in camel case.

usage: python3 tools/respell.py       at the top, once, right after the kit's port.py

A definition of specs/ or proofs/ whose name has a capital after a small letter is renamed wherever it is named: in crates/ (sources, definitions, proofs, wrong programs)
and in the pages. Where its type is `Type 0` it is a fact, and begins with a capital. Functions of src/, strings, inputs and outputs are left as they are: none of them
has such a name. Before anything is written, each new name is looked for in the sources: where it stands already, the script says so and stops, unless the two names
are known to be able to stand beside each other (BESIDE).
"""
import glob
import re
import sys

NAME = r"[^\W\d][\w'-]*"
# Names of functions, or of the kit's own words in proofs that walk the code: neither is ever named where the definition may be.
BESIDE = set("""access_at access_of answer_body bad_size body_fits bulk_read bulk_write code_mode code_spf first_place form_at form_for form_of head_of
    hexadecimal_digit lock_bars lock_of lock_size lock_unfitted lock_word look_in low_mode mode_code no_room password_word port_bars port_of request_body room_of
    size_told status_of told_of""".split())
# Lemmas named for a word of the library that has another name now.
WORDS = {"getD-mid": "get_or-mid", "get_d_sets": "get_or-sets"}
# Lemmas that port.py gave a name which a definition beside them takes now: they keep the name that they had.
LEMMAS = {
    "goes_on": ("goes-on", ["crates/log/proofs/Theorems.antt"]),
    "rows_in": ("rows-in", ["crates/rows/proofs/Rows.antt"]),
    "read_done": ("read-done", ["crates/responder/proofs/Shown.antt", "crates/responder/proofs/serve_read/Proof.antt", "crates/store/proofs/Ways.antt",
                                "crates/store/proofs/read/Proof.antt"]),
    "write_done": ("write-done", ["crates/store/proofs/Ways.antt", "crates/store/proofs/write/Proof.antt"]),
}


def definitions():
    for path in sorted(glob.glob("crates/*/specs/*.antt") + glob.glob("crates/*/proofs/**/*.antt", recursive=True)):
        with open(path, encoding="utf-8") as f:
            for line in f:
                found = re.match(rf"^(?: +)?(?:(?:abbrev|unfoldable|pub|record|data) +)*({NAME})(?=[ :])[^=]*:(.*)$", line.rstrip("\n"))
                if found and not line.lstrip().startswith("--"):
                    yield found.group(1), line.startswith(" "), found.group(2).strip()


def respelled():
    new = {}
    for name, inner, kind in definitions():
        if name in WORDS:
            to = WORDS[name]
        elif not re.search(r"[a-z][A-Z]", name) or name[0].isupper():
            continue
        elif not inner and re.search(r"(^|→ )Type 0$", kind):
            to = name[0].upper() + name[1:]
        else:
            to = re.sub(r"(?<=[a-z])([A-Z])", lambda m: "_" + m.group(1).lower(), name)
        if new.get(name, to) != to:
            sys.exit(f"respell: {name} would become {new[name]} and {to}")
        new[name] = to
    return new


def main():
    new = respelled()
    sources = sorted(glob.glob("crates/*/src/*.rt") + glob.glob("crates/*/specs/*.antt") + glob.glob("crates/*/proofs/**/*.antt", recursive=True))
    texts = {p: open(p, encoding="utf-8").read() for p in sources + sorted(glob.glob("crates/*/must-fail/*.edit") + glob.glob("docs/*.md") + ["README.md"])}
    for lemma, (kept, where) in LEMMAS.items():
        for p in where:
            texts[p] = re.sub(rf"(?<![\w'-]){lemma}(?![\w'-])", kept, texts[p])
    words = {}
    for p in sources:
        for w in set(re.findall(NAME, re.sub(r"(--|//).*", "", texts[p]))):
            words.setdefault(w, []).append(p)
    clash = [(old, to, words[to][:4]) for old, to in sorted(new.items()) if to in words and to not in BESIDE]
    for old, to, where in clash:
        print(f"respell: {old} would fall together with {to} of {', '.join(where)}", file=sys.stderr)
    if clash:
        sys.exit(1)
    turn = re.compile(rf"(?<![\w'-])({'|'.join(sorted(map(re.escape, new), key=len, reverse=True))})(?![\w'-])")
    for p, text in texts.items():
        with open(p, "w", encoding="utf-8") as f:
            f.write(turn.sub(lambda m: new[m.group(1)], text))
    print(f"respell: {len(new)} names")
    for old, to in sorted(new.items()):
        print(f"{old} {to}")


main()
