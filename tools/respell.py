#!/usr/bin/env python3
"""Brings the names that specs/ and proofs/ declare to the spelling of today's Rattle.

usage: python3 tools/respell.py      at the top of the repository, once, right after the toolchain's port.py

A word in camel case or with a dash becomes one in snake case: `finiteClear` is `finite_clear`, `so-far` is `so_far`.
Types, facts and modules keep their capital; names of Rust items, of C, of files and of goals stay. A lemma that would
get the name of a definition ends in `_lem`; BY_HAND has what would fall together with something else.
In prose a name with a dash is turned only between backticks.
"""
import collections
import os
import re
import sys

NAME = r"[^\s(){}.;,@\"«»|]+"
DECLARED = re.compile(
    r"(?m)^( *)((?:pub |abbrev |unfoldable |data |record )*)([^\s(){}.;,@\"«»:=|]+)(?: [({][^\n]*)? :(?= |$)"
)
BY_HAND = {
    "hasLoop": "has_loop_word",  # a field of Saved
    "loopCommand": "loop_command_of",  # a field of CableowlCommands
    "sliceStart": "start_of_slice",  # a field of CableowlState
    "sliceLength": "length_of_slice",
    "timeStep": "is_time_step",  # a field of the records of trace_inputs
    "givenFrame": "frame_given",  # `given-frame` of resampler
    "threeFrames": "bytes_of_three_frames",  # a promise is `three-frames`
    "bit-xor": "bit_xor_lem",  # a word of the library
    "loop-start": "loop_start_word",  # fields of SavedSettings
    "loop-end": "loop_end_word",
    "takes_all": "takes_all_lem",  # a lemma; `takesAll` is a definition
}
# Names that Rattle makes in a walk of a function, spelled like a lemma of ours.
MADE = {"frame-steps", "entry-of", "is-sealed", "unless-stopped", "read-commands", "setup-of", "given-frame"}


def files(folder, endings):
    for top, dirs, names in os.walk(folder):
        dirs[:] = sorted(d for d in dirs if d not in ("out", "target"))
        for name in sorted(names):
            if name.endswith(endings):
                yield os.path.join(top, name)


def read(path):
    with open(path, encoding="utf-8") as f:
        return f.read()


def in_snake_case(name):
    return re.sub(r"(?<=[a-z0-9])[A-Z]", lambda m: "_" + m[0].lower(), name).replace("-", "_")


def is_walk(path):
    return path.endswith("/Proof.antt")


def tables():
    declared, local = collections.defaultdict(set), collections.defaultdict(set)
    for path in files("crates", ".antt"):
        for m in DECLARED.finditer(re.sub(r"--[^\n]*", "", read(path))):
            (local if is_walk(path) else declared)[m[3]].add(path)
    plain = set(declared)
    table = {}
    for name in sorted(declared):
        new = BY_HAND.get(name, in_snake_case(name))
        if not name[0].islower() or new == name:
            continue
        if name in BY_HAND:
            table[name] = new
            continue
        if "-" in name and (new in plain or any(new == in_snake_case(n) for n in declared if "-" not in n and n != name)):
            new += "_lem"
        table[name] = new
    return declared, table


def turn_code(text, table, path):
    def one(m):
        name = m[0]
        if name in MADE and m.start() and text[m.start() - 1] == ".":
            return name
        return table.get(name, name)

    return re.sub(NAME, one, text)


def turn_prose(text, table):
    camel = {n: t for n, t in table.items() if "-" not in n}
    text = re.sub(r"(?<![\w-])\w+(?![\w-])", lambda m: camel.get(m[0], m[0]), text)
    inside = lambda m: re.sub(r"(?<![\w/.-])[\w'-]+(?![\w/-])", lambda n: table.get(n[0], n[0]), m[0])
    return re.sub(r"`[^`\n]*`", inside, text)


def turn_file(path, table, comment):
    text = read(path)
    lines = []
    for line in text.split("\n"):
        at = line.find(comment) if comment else 0
        if at < 0:
            lines.append(turn_code(line, table, path))
        else:
            lines.append(turn_code(line[:at], table, path) + turn_prose(line[at:], table))
    new = "\n".join(lines)
    if new != text:
        with open(path, "w", encoding="utf-8") as f:
            f.write(new)
        return True
    return False


def main():
    declared, table = tables()
    # No two names of one file may fall together.
    bad = 0
    for path in list(files("crates", ".antt")) + list(files("crates", ".rt")):
        words = set(re.findall(NAME, re.sub(r"--[^\n]*|//[^\n]*", "", read(path))))
        seen = {}
        for word in words:
            new = table.get(word, word)
            if new in seen and seen[new] != word:
                print(f"together: {path}: {seen[new]} and {word} are {new}")
                bad += 1
            seen.setdefault(new, word)
    print(f"{len(table)} names")
    if "--say" in sys.argv:
        for old, new in sorted(table.items()):
            print(old, new)
        return
    n = 0
    for path in files("crates", (".antt",)):
        n += turn_file(path, table, "--")
    for path in files("crates", (".rt",)):
        n += turn_file(path, table, "//")
    for path in list(files("crates", (".edit",))) + list(files("tools/controls", (".edit",))):
        n += turn_file(path, table, "#")
    for path in list(files("docs", (".md",))) + ["README.md"]:
        text = read(path)
        new = turn_prose(text, table)
        if new != text and not path.endswith(("LANDINGS.md", "PORT.md")):
            with open(path, "w", encoding="utf-8") as f:
                f.write(new)
            n += 1
    print(f"{n} files turned; {bad} pairs fall together")


main()
