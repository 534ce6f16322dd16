#!/usr/bin/env python3
"""Brings names that are defined in specs/ and proofs/ to the language's spelling: words in snake case, types and modules in camel case.

usage: python3 tools/respell.py      at the top of the repository, once, after the toolchain's port.py

A name, or a part of one between dashes, that begins with a small letter and has a capital further on is written in snake case: readNet is
read_net. Names of types keep their capitals, and source names have none. The crate `bytes`, which has the name of a library of the
toolchain, is `octets`. Two names that would fall together in one file get names of their own (OTHER).
"""

import os
import re
import subprocess

OTHER = {"noneOf": "shares_none_of"}
PART = re.compile(r"(?<![\w'])[a-z][\w']*[a-z0-9][A-Z][\w']*")
CRATE = [
    (re.compile(r"\bRattle\.bytes\."), "Rattle.octets."),
    (re.compile(r"(?<![\w:.])bytes::(?=[\w{])"), "octets::"),
]


def snake(word):
    if word in OTHER:
        return OTHER[word]
    return re.sub(r"(?<=[a-z0-9])[A-Z]", lambda m: "_" + m[0].lower(), word)


def respelled(text):
    out = []
    # what stands between quotes stays
    for i, piece in enumerate(re.split(r'("(?:[^"\\\n]|\\.)*")', text)):
        if i % 2 == 0:
            piece = PART.sub(lambda m: snake(m[0]), piece)
            for pattern, name in CRATE:
                piece = pattern.sub(name, piece)
        out.append(piece)
    return "".join(out)


def main():
    for folder, dirs, files in os.walk("crates"):
        dirs[:] = [d for d in dirs if d != "out"]
        for name in files:
            if name.endswith((".rt", ".antt")):
                path = os.path.join(folder, name)
                with open(path, encoding="utf-8") as f:
                    old = f.read()
                new = respelled(old)
                if new != old:
                    with open(path, "w", encoding="utf-8") as f:
                        f.write(new)
    if os.path.isdir("crates/bytes"):
        os.rename("crates/bytes", "crates/octets")
    with open("crates.txt", encoding="utf-8") as f:
        lines = f.read()
    with open("crates.txt", "w", encoding="utf-8") as f:
        f.write(re.sub(r"\bbytes\b", "octets", lines))
    for crate in sorted(os.listdir("crates")):
        subprocess.run(["rt", "fmt"], cwd=os.path.join("crates", crate), check=True, stdout=subprocess.DEVNULL)


if __name__ == "__main__":
    main()
