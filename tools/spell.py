#!/usr/bin/env python3
"""Spells the names that this repository's own antt texts declare in snake case.

usage: tools/spell.py [--look] [TOP]

A definition, a lemma, a field or a variable in lower camel case or with dashes gets underscores: `longAt` is `long_at`, and
`used-within` is `used_within`. Names of a library stay, and so do names in capitals, what Rattle makes, Rust's own words and
text in quotation marks. In pages, in edits that must fail and in comments only code in backquotes, or a whole line of code, turns.
--look writes nothing and lists the names that would fall together in some file.
"""
import collections
import os
import re
import sys

WORD = re.compile(r"[^\s(){}.;,@\"«»`]+")
NAME = re.compile(r"[+μ]?[a-z][A-Za-z0-9_']*(?:-[A-Za-z0-9_'μ]+)*")
QUIET = re.compile(r'"(?:[^"\\\n]|\\.)*"|(?<![^\s(){}.;,@"«»])--[^\n]*|\{-.*?-\}', re.S)
RUST_QUIET = re.compile(r'//[^\n]*|b?"(?:[^"\\]|\\.)*"', re.S)
SPAN = re.compile(r"`[^`\n]*`")
DECLARED = re.compile(r"(?m)^ *(?:\w+ )*([^\s(){}.;,@\"«»]+) :")
USE = re.compile(r"\buse ([^\s;{]+)\.\{([^}]*)\}")
KIT = {"std", "core", "io", "libc", "os", "std_alloc", "std_collections", "std_heap", "std_io"}
# lemmas and fields in snake case whose names a definition takes, in which files, and whether behind a dot too
BESIDE = {
    "call_ok": (["round_trips/proofs/Back"], False),
    "count_by": (["round_trips/proofs/RewritePoints"], False),
    "index_ok": (["demands/proofs/IndexPromises", "edits/proofs/Indexed", "edits/proofs/Steps"], False),
    "place_ok": (["round_trips/proofs/Own.antt"], False),
    "room_by": (["totals/proofs/Descent"], False),
    "same_above": (["faults/proofs/ExactMarks"], False),
    "size_ok": (["edits/proofs/Marks", "edits/proofs/Demand", "edits/proofs/Tested", "edits/proofs/Start", "dgn_record/proofs/Small", "dgn_record/proofs/Ends", "dgn_sessions/proofs/History"], True),
    "stored_ok": (["blocks/proofs/Damage"], False),
    "word_ok": (["names/proofs/Stored"], False),
}


def texts(top, endings):
    for folder, dirs, files in os.walk(top):
        dirs[:] = sorted(d for d in dirs if d not in ("out", ".git", "target"))
        for f in sorted(files):
            if f.endswith(endings):
                yield os.path.join(folder, f)


def read(path):
    with open(path, encoding="utf-8") as f:
        return f.read()


def snake(name):
    words = re.sub(r"(?<=[a-z0-9'])[A-Z]", lambda m: "_" + m[0].lower(), name)
    words = re.sub(r"(?<=_)[A-Z](?=[a-z])", lambda m: m[0].lower(), words)
    return words.replace("-", "_")


def is_library(module):
    steps = module.split(".")
    return steps[0] != "Rattle" or len(steps) > 1 and steps[1] in KIT


def quiet(pattern, text, turn):
    out, at = [], 0
    for m in pattern.finditer(text):
        out.append(turn(text[at : m.start()]))
        out.append(SPAN.sub(lambda s: turn(s[0]), m[0]) if m[0][:2] in ("--", "//", "{-") else m[0])
        at = m.end()
    out.append(turn(text[at:]))
    return "".join(out)


def main(argv):
    look = "--look" in argv
    argv = [a for a in argv if a != "--look"]
    top = argv[0] if argv else os.path.dirname(os.path.dirname(os.path.realpath(__file__)))
    inside = os.path.join(top, "crates")
    library, words, bare, declared = set(), collections.defaultdict(set), collections.defaultdict(set), set()
    for path in texts(inside, (".antt", ".rt")):
        text = read(path)
        for m in USE.finditer(text):
            if is_library(m[1]):
                library |= {x.strip().split(" as ")[0] for x in m[2].split(",")}
        if path.endswith(".antt"):
            code = QUIET.sub(" ", text)
            declared |= set(DECLARED.findall(code))
            for m in WORD.finditer(code):
                words[m[0]].add(path)
                if code[m.start() - 1 : m.start()] != "." and code[m.end() : m.end() + 1] != ".":
                    bare[m[0]].add(path)
    table = {w: snake(w) for w in words if NAME.fullmatch(w) and w not in library and snake(w) != w}
    met = collections.defaultdict(set)
    for w in words:
        met[table.get(w, w)].add(w)
    for new, olds in sorted(met.items()):
        # a lemma that would have its function's name gets `_lem`, and so does a variable beside it
        for a in sorted(olds):
            if "-" in a and a not in library and (new in library or any(b != a and bare[a] & bare[b] for b in olds)):
                table[a] = new + "_lem"
    met = collections.defaultdict(set)
    for w in words:
        met[table.get(w, w)].add(w)
    for new, olds in sorted(met.items()):
        pairs = [(a, b) for a in olds for b in olds if a < b and bare[a] & bare[b]]
        if pairs:
            print("meet:", new, sorted(olds), sorted(os.path.relpath(p, top) for p in set.union(*(bare[a] & bare[b] for a, b in pairs)))[:4])
        if new in library and olds != {new}:
            print("library:", sorted(olds), new)
        if new.endswith("_lem") and new not in olds:
            print("lemma:", sorted(olds), new, [o for o in olds if o in declared])
    for path in texts(inside, (".rt",)):
        code = RUST_QUIET.sub(" ", read(path))
        own = set(re.findall(r"\b(\w+):(?!:)", code))
        for w in set(WORD.findall(code)) & set(table):
            if table[w] in own:
                print("hidden:", os.path.relpath(path, top), w)
    if look:
        print(len(table), "names")
        return 0

    def turn(text):
        return WORD.sub(lambda m: table.get(m[0], m[0]), text)

    for path in texts(inside, (".antt", ".rt", ".edit")):
        text = read(path)
        # a lemma that has its function's name already
        for lemma, (places, dotted) in BESIDE.items():
            if path.endswith(".antt") and any(p in path for p in places):
                behind = r"(?<![\w-])" if dotted else r"(?<![\w.-])"
                text = re.sub(behind + lemma + r"(?![\w-]|\.\w)", lemma + "_lem", text)
        new = quiet(QUIET if path.endswith(".antt") else RUST_QUIET, text, turn)
        if new != text:
            with open(path, "w", encoding="utf-8") as f:
                f.write(new)
    for path in texts(top, (".md",)):
        text = read(path)
        new = SPAN.sub(lambda m: turn(m[0]), text)
        if new != text:
            with open(path, "w", encoding="utf-8") as f:
                f.write(new)
    print(len(table), "names")
    return 0


if __name__ == "__main__":
    raise SystemExit(main(sys.argv[1:]))
