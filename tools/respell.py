#!/usr/bin/env python3
"""Respells this repository's own definitions and lemmas: words in snake case (column-count: column_count), types and facts in camel case
(Slice-is: SliceIs). Names of the kit, names that the checker makes and the prose of comments keep their spelling.

usage: tools/respell.py [FOLDER]     the folder that has crates/; without it, the one that this file's folder is in

A name is the repository's own where a file of specs/ or proofs/ defines it. It stays where a file imports the same name from the kit.
"""

import collections
import os
import re
import sys

WORD = re.compile(r"[^\s(){}\[\],;.\"@:`]+")
USE = re.compile(r"^\s*(?:pub |ghost )*use\s+([^\s{;]+?)\.?(?:\{([^}]*)\}|(?:\s+as\s+\S+)?)\s*;?\s*$")
DEFINES = re.compile(r"^\s*(?:(?:pub|abbrev|unfoldable|infix[lr]?\s+\d+)\s+)*(?:record|data)?\s*([^\s(){}\[\],;.\"@:]+)\s*(?::|\(|\{)")


def files(root):
    for folder, dirs, names in os.walk(os.path.join(root, "crates")):
        dirs[:] = sorted(d for d in dirs if d != "out")
        for name in sorted(names):
            if name.endswith((".antt", ".rt")):
                yield os.path.join(folder, name)


def is_walk(path):
    """A proof of one function, whose other names the checker makes."""
    return os.path.basename(path) == "Proof.antt"


def code_of(line, path):
    at = line.find("--" if path.endswith(".antt") else "//")
    return (line, "") if at < 0 else (line[:at], line[at:])


def respelled(name):
    parts = re.split("[-_]" if name[0].isupper() else "-", name)
    if name[0].isupper():
        return parts[0] + "".join(p[:1].upper() + p[1:] for p in parts[1:])
    return "_".join(parts)


def hyphened(word):
    if re.fullmatch(r"[A-Z][a-z]\w*_[a-z]\w*", word):
        return True
    return "-" in word and re.fullmatch(r"[^\W\d_][^\s]*-[^\s]*", word) and not word.endswith("-") and ">" not in word and "--" not in word


def imported(text, crates):
    """The hyphened names that a file takes from the kit."""
    kit = set()
    for path, names in re.findall(r"^\s*(?:pub |ghost )*use\s+([^\s{;]+?)\.?\{([^}]*)\}", text, re.M):
        head = path.split(".")
        if len(head) > 1 and head[0] == "Rattle" and head[1] in crates:
            continue
        for n in names.split(","):
            kit.update(w for w in n.split() if "-" in w)
    return kit


def main(argv):
    root = argv[0] if argv else os.path.join(os.path.dirname(os.path.realpath(__file__)), "..")
    crates = set(os.listdir(os.path.join(root, "crates")))
    texts = {p: open(p, encoding="utf-8").read() for p in files(root)}
    own, seen = set(), collections.defaultdict(set)
    for p, text in texts.items():
        kit = imported(text, crates)
        for line in text.split("\n"):
            code, _ = code_of(line, p)
            if p.endswith(".antt") and not is_walk(p):
                if not re.match(r"\s*(pub )?use ", code):
                    own.update(w for w in WORD.findall(code) if hyphened(w) and w not in kit)
    new = {w: respelled(w) for w in own}
    back = collections.defaultdict(set)
    for w, n in new.items():
        back[n].add(w)
    for n, ws in sorted(back.items()):
        if len(ws) > 1:
            print("respell: one spelling of several:", n, *sorted(ws))
    there = set()
    for p, text in texts.items():
        kit = imported(text, crates)
        out = []
        for line in text.split("\n"):
            code, rest = code_of(line, p)
            there.update(w for w in WORD.findall(code) if w in back)
            out.append(WORD.sub(lambda m: new.get(m.group(0), m.group(0)) if m.group(0) not in kit else m.group(0), code) + rest)
        text = "\n".join(out)
        if text != texts[p]:
            with open(p, "w", encoding="utf-8") as f:
                f.write(text)
    for n in sorted(there):
        print("respell: already there:", n, "beside", *sorted(back[n]))
    print("respell:", len(new), "names")
    return 0


if __name__ == "__main__":
    raise SystemExit(main(sys.argv[1:]))
