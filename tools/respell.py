#!/usr/bin/env python3
"""Respells the definitions and lemmas of specs/ and proofs/: words in snake case, a dash only before the name of another definition.

usage: python3 tools/respell.py [--check]      at the top of the repository, after the kit's own port script; --check prints the table

A name is split at its dashes, and a part such as `shiftRows` becomes `shift_rows`. A dash stays before a part that names a definition
(`shift_rows-inv_shift_rows`); before a plain word it becomes an underscore (`tab_cong`). Only names that specs/*.antt and proofs/*.antt
declare are turned, wherever they stand in .rt and .antt files; the names of src/ stay, and so do the names of goals in proofs/F/. It stops at
no name: it says on standard error where a new name stands already, or where two names become one. Run it once, on what the port script leaves.
"""
import collections
import glob
import re
import sys

WORD = re.compile(r'[^\s(){}.;,@"«»\x60]+')
SIGNATURE = re.compile(r"^\s*(?:(?:unfoldable|abbrev|pub|record)\s+)*([^\s:(){}λ;]+)\s*(?:(?:\{[^}]*\}|\([^)]*\))\s*)*:\s")
# words of std and of src/ that a lemma's name may name
WORDS = "append map take drop add mul get_or add_round_key shift_rows inv_shift_rows mix_columns inv_mix_columns rows_from_bytes bytes_from_rows".split()
# what the general rule does not give: `getD` is `get_or` today,
# and a lemma that would have its function's name ends in `_lem`
GIVEN = {
    "get_d_part": "get_or-part",
    "mixed-byte": "mixed_byte_lem",
    "inv-mixed-byte": "inv_mixed_byte_lem",
    "si-part": "si_part_lem",
    "sii-part": "sii_part_lem",
}


def snake(part):
    if part == "getD":
        return "get_or"
    if part[:1].islower():
        return re.sub("[A-Z]", lambda m: "_" + m[0].lower(), part)
    return part


def declared():
    found = collections.defaultdict(set)
    for path in sorted(glob.glob("crates/*/specs/*.antt") + glob.glob("crates/*/proofs/*.antt")):
        with open(path, encoding="utf-8") as f:
            for line in f:
                m = SIGNATURE.match(line)
                if m and not re.match(r"\s*(let|--)", line):
                    found[m[1]].add(path)
    return found


def joined(name, known):
    """The name with a dash before each part, or run of parts, that is known, and an underscore before any other."""
    parts = [snake(p) for p in name.split("-")]
    out, i = "", 0
    while i < len(parts):
        for n in range(len(parts) - i, 0, -1):
            if "_".join(parts[i : i + n]) in known:
                run, dash = "_".join(parts[i : i + n]), True
                break
        else:
            run, dash, n = parts[i], False, 1
        out += ("" if i == 0 else "-" if dash else "_") + run
        i += n
    return out


def table(found):
    known = {snake(k) for k in found if "-" not in k and len(k) > 1} | set(WORDS)
    turned = {k: GIVEN.get(k) or joined(k, known) for k in found}
    return {k: v for k, v in turned.items() if k != v}


def main():
    found = declared()
    turned = table(found)
    files = [p for p in sorted(glob.glob("crates/**/*", recursive=True)) if p.endswith((".rt", ".antt")) and "/out/" not in p]
    words = set()
    texts = {}
    for p in files:
        with open(p, encoding="utf-8") as f:
            texts[p] = f.read()
        words |= set(WORD.findall(texts[p]))
    back = collections.defaultdict(list)
    for old, new in turned.items():
        back[new].append(old)
    for new, olds in sorted(back.items()):
        if len(olds) > 1 or new in words:
            where = [p for p in files if new in WORD.findall(texts[p])]
            print("look:", new, "from", olds, "stands already in", where[:6], file=sys.stderr)
    if "--check" in sys.argv:
        for old, new in sorted(turned.items()):
            print(old, new, sep="\t")
        return
    for p, text in texts.items():
        new = WORD.sub(lambda m: turned.get(m[0], m[0]), text)
        if new != text:
            with open(p, "w", encoding="utf-8") as f:
                f.write(new)


main()
