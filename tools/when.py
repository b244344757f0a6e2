#!/usr/bin/env python3
"""Calls the choice of `texts/specs/Choice` when◌then◌else◌, once: `rt ci` keeps the name if◌then◌else◌ for the library's, which groups otherwise.

usage: tools/when.py   at the top of the repository; a second run changes nothing
"""

import glob
import re

TOKEN = re.compile(r"--[^\n]*|//[^\n]*|\"(?:[^\"\\]|\\.)*\"|[A-Za-z_◌][\w'₀-₉◌-]*|.", re.S)


def turned(text):
    out, before = [], ""
    for m in TOKEN.finditer(text):
        t = m.group(0)
        if before != "." and t in ("if", "if◌then◌else◌"):
            t = "when" + t[2:]
        out.append(t)
        before = t[-1:]
    return "".join(out)


def clauses(text):
    """A source: its ghost lines and clauses alone."""
    out, depth, inside = [], 0, False
    for line in text.split("\n"):
        begins = re.match(r"\s*(ghost use|requires|ensures|ghost )", line)
        if begins:
            inside, depth = True, 0
        if inside:
            code = line
            out.append(turned(line))
            depth += code.count("{") - code.count("}")
            inside = depth > 0
        else:
            out.append(line)
    return "\n".join(out)


def edit(text):
    of_source = re.search(r"(?m)^file: \S+\.rt$", text)
    return "\n".join(
        l[:5] + turned(l[5:]) if re.match(r"(old|new): ", l) and not (of_source and not re.search(r"\bthen\b|◌", l)) else l for l in text.split("\n")
    )


def main():
    n = 0
    jobs = [(p, turned) for part in ("specs", "proofs") for p in glob.glob(f"crates/*/{part}/**/*.antt", recursive=True)]
    jobs += [(p, clauses) for p in glob.glob("crates/*/src/**/*.rt", recursive=True)]
    jobs += [(p, edit) for p in glob.glob("crates/*/must-fail/*.edit")]
    for p, f in jobs:
        with open(p, encoding="utf-8") as it:
            t = it.read()
        k = f(t)
        if k != t:
            with open(p, "w", encoding="utf-8") as it:
                it.write(k)
            n += 1
    print(f"when: {n} files")


if __name__ == "__main__":
    main()
