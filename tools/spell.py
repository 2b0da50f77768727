#!/usr/bin/env python3
"""Brings the repository's own definitions and lemmas to snake case, as `tooLong` to `too_long`: usage: python3 tools/spell.py [--dry], at the top, once, after port.py.

A word is turned where a file of specs/ or proofs/ of this repository defines it, in clauses and ghost lines of src/, in specs/ and in proofs/, and in nothing else: no
function of src/, exported name, string, comment of a page, input or output. Where the new name is taken already, OTHER says the name that is given in its place.
"""
import glob
import re
import sys

WORD = re.compile(r"(?<![\w'-])[a-z][\w']*(?:-[\w']+)*")
DEFINED = re.compile(r"^\s*(?:abbrev |unfoldable |mutual )*(?:pub )?(?:record )?([a-z][\w']*(?:-[\w']+)*) :", re.M)
BOUND = re.compile(r"[({]([^(){}:]*) : ")
ALIAS = re.compile(r"\bas ([a-z][\w']*)")
# new names that were taken: a field of a struct has that very name
OTHER = {"packetType": "type_of_packet"}
# lemmas of one file that have the new name of a definition which they speak of: they get another name first, in the files that begin so
LEMMAS = {
    "crates/frame_reading/proofs/": {"too_long": "when_too_long", "too_small": "when_too_small"},
    "crates/parity_laws/proofs/Padded": {"row_word": "padded_row_word"},
}


def snake(word):
    return re.sub(r"(?<=[a-z0-9])([A-Z])|([A-Z])(?=[a-z])", lambda m: "_" + m[0].lower(), re.sub(r"([a-z0-9])([A-Z]+)(?=[A-Z][a-z]|\b|_|-|')", lambda m: m[1] + "_" + m[2].lower(), word)).lower()


def camel(word):
    return bool(re.match(r"[a-z]", word) and re.search(r"[A-Z]", word))


def own(paths):
    """The camel words that our antt defines or binds."""
    found = set()
    for path in paths:
        text = re.sub(r"--.*", "", open(path, encoding="utf-8").read())
        found |= set(DEFINED.findall(text)) | set(ALIAS.findall(text))
        for names in BOUND.findall(text):
            found |= set(names.split())
        found |= set(re.findall(r"λ ([a-z]\w*)\.|let ([a-z]\w*)\b", text) and [w for pair in re.findall(r"λ ([a-z]\w*)\.|let ([a-z]\w*)\b", text) for w in pair if w])
    return {w for w in found if camel(w)}


def ghost_parts(text):
    """The spans of a source file that contracts are written in: ghost lines, clauses, and their comments not."""
    spans = [m.span() for m in re.finditer(r"^[ \t]*(?:pub )?ghost [^;]*;", text, re.M)]
    for m in re.finditer(r"^[ \t]*(?:requires|ensures)\*? ?\w* ?\{", text, re.M):
        deep, i = 1, m.end()
        while deep:
            deep += (text[i] == "{") - (text[i] == "}")
            i += 1
        spans.append((m.start(), i))
    return sorted(spans)


def turned(text, names):
    return WORD.sub(lambda m: names.get(m[0], m[0]), text)


def main(argv):
    dry = "--dry" in argv
    antt = sorted(glob.glob("crates/*/specs/**/*.antt", recursive=True) + glob.glob("crates/*/proofs/**/*.antt", recursive=True))
    source = sorted(glob.glob("crates/*/src/**/*.rt", recursive=True))
    words = own(antt)
    names = {w: OTHER.get(w, snake(w)) for w in words}
    if dry:
        every = {}
        for path in antt + source:
            for w in set(WORD.findall(re.sub(r"(--|//).*", "", open(path, encoding="utf-8").read()))):
                every.setdefault(w, []).append(path)
        taken = {}
        for w, n in sorted(names.items()):
            if n in every:
                print(f"{w} -> {n}: taken in {len(every[n])} files: {' '.join(sorted(every[n])[:6])}")
            if n in taken:
                print(f"{w} and {taken[n]} fall together")
            taken[n] = w
        print(len(names), "words")
        rest = {w for w in every if camel(w) and w not in names}
        print("left:", " ".join(sorted(rest)))
        return 0
    for path in antt:
        first = {k: v for start, turns in LEMMAS.items() if path.startswith(start) for k, v in turns.items()}
        old = open(path, encoding="utf-8").read()
        old_names = re.sub(r"(?<![\w'.-])[a-z][\w']*(?:-[\w']+)*", lambda m: first.get(m[0], m[0]), old) if first else old
        new = "".join(turned(code, names) + rest for code, rest in (re.match(r"(.*?)((?:--.*)?\n?)$", line, re.S).groups() for line in old_names.splitlines(True)))
        if new != old:
            open(path, "w", encoding="utf-8").write(new)
    for path in source:
        old = open(path, encoding="utf-8").read()
        new, last = [], 0
        for a, b in ghost_parts(old):
            new += [old[last:a], turned(old[a:b], names)]
            last = b
        new = "".join(new) + old[last:]
        if new != old:
            open(path, "w", encoding="utf-8").write(new)
    return 0


if __name__ == "__main__":
    sys.exit(main(sys.argv[1:]))
