#!/usr/bin/env python3
"""Spells the repository's own definitions and lemmas in snake case, once, behind the kit's port.py.

usage: tools/respell.py [--names FOLDER]   at the top of the repository; --names: take the names from that copy of it

    isOnset, onset-count, is-sound beside isSound  ->  is_onset, onset_count, is_sound_lem beside is_sound

A lemma that would get the name of a definition, or of another name of its own file, ends in _lem. Types, modules, functions of src/,
exported names, strings, the names of goals and the names of other libraries stay. Documents and must-fail edits are turned with it.
"""

import collections
import glob
import os
import re
import sys

TOKEN = re.compile(r"--[^\n]*|\"(?:[^\"\\]|\\.)*\"|[A-Za-z_][\w'₀-₉-]*|.", re.S)
NAME = re.compile(r"[A-Za-z_][\w'₀-₉-]*")
DECL = re.compile(r"^(\s*)((?:(?:pattern|unfoldable|abbrev|pub)\s+)*)([^\s:(){}\[\]]+) :")
CAMEL = re.compile(r"[a-z][a-z0-9]*[A-Z]")


def snake(n):
    n = re.sub(r"([a-z0-9])([A-Z])", lambda m: m.group(1) + "_" + m.group(2).lower(), n)
    return n.replace("-", "_")


def read(p):
    with open(p, encoding="utf-8") as f:
        return f.read()


def proof_files(root):
    out = []
    for part in ("specs", "proofs"):
        out += glob.glob(f"{root}/crates/*/{part}/**/*.antt", recursive=True)
    return sorted(out)


def declared(text):
    """Yields (mark, name, what follows) of each declaration, record fields and constructors too."""
    for line in text.split("\n"):
        m = DECL.match(line)
        if m and not line.lstrip().startswith("--"):
            yield m.group(2), m.group(3), line[m.end():]


def own_names(root):
    """The new name of each own name: definitions first, then lemmas, which give way."""
    defs, lemmas, others = set(), set(), set()
    crates = set(os.listdir(f"{root}/crates"))
    for p in proof_files(root):
        for mark, n, rest in declared(read(p)):
            if rest.strip().startswith("tie.") or " statement " in rest + " " or not NAME.fullmatch(n):
                continue
            if "abbrev" in mark or "unfoldable" in mark or CAMEL.match(n):
                defs.add(n)
            else:
                lemmas.add(n)
        code = re.sub(r"--[^\n]*|\"[^\"\n]*\"", "", read(p))
        for crate, names in re.findall(r"(?m)^ *(?:pub )?use (?:Rattle\.)?(\w+)\S*\.\{([^}]*)\}", code):
            if crate not in crates:
                others |= {n.split(" as ")[0].strip() for n in names.split(",")}
        defs |= {n for n in re.findall(r"[A-Za-z_][\w'₀-₉-]*", code) if CAMEL.match(n) and "-" not in n}
    for p in glob.glob(f"{root}/crates/*/src/**/*.rt", recursive=True):
        for n in re.findall(r" as ([a-z][A-Za-z0-9]*)", read(p)):
            if CAMEL.match(n):
                defs.add(n)
    new, taken = {}, collections.defaultdict(set)
    for n in sorted(defs - others):
        if n[0].islower():
            new[n] = snake(n)
        taken[new.get(n, n)].add(n)
    for n in sorted(lemmas):
        s = snake(n) if n[0].islower() or "-" in n else n
        if n[0].isupper() and "-" in n:
            s = n.replace("-", "_")
        if s in taken and taken[s] != {n} or s != n and s in others:
            s += "_lem"
        new[n] = s
        taken[s].add(n)
    for s, ns in taken.items():
        if len(ns) > 1 and not ns <= defs and not s.endswith("_lem"):
            print(f"look: {s} of {sorted(ns)}", file=sys.stderr)
    return {a: b for a, b in new.items() if a != b}


def said(n, new):
    """A name in a comment or a document: there only what is no plain word."""
    return new.get(n, n) if CAMEL.match(n) or "-" in n else n


def turned(text, new, fields, aliases, comments=True):
    out, behind = [], ""
    for m in TOKEN.finditer(text):
        t = m.group(0)
        if t.startswith("--"):
            t = re.sub(NAME, lambda m: said(m.group(0), new), t) if comments else t
        elif NAME.fullmatch(t) and t in new:
            if not behind.endswith("."):
                t = new[t]
            else:
                owner = re.search(r"([\w'₀-₉-]+)\.$", behind)
                if t in fields or (owner and owner.group(1) in aliases):
                    t = new[t]
        out.append(t)
        behind = (behind + t)[-80:]
    return "".join(out)


def fields_of(root):
    """Fields of the repository's own records."""
    out = set()
    for p in proof_files(root):
        for block in re.findall(r"(?ms)^ *(?:pub )?record [^\n]*where\n((?:[ \t]+[^\n]*\n|\n)*)", read(p)):
            out |= {n for _, n, _ in declared(block)}
    return out


def source(text, new):
    """A file of src/: ghost lines, clauses and comments."""
    out = []
    for line in text.split("\n"):
        code, cut, comment = line.partition("//")
        if re.match(r"\s*(ghost use|requires|ensures|ghost )", code) or out and out[-1] and in_braces(out):
            code = turned(code, new, FIELDS, set())
        if cut:
            comment = re.sub(NAME, lambda m: said(m.group(0), new), comment)
        out.append(code + cut + comment)
    return "\n".join(out)


def in_braces(lines):
    """Whether the lines end inside a clause that began on an earlier line."""
    depth = 0
    for line in reversed(lines[-12:]):
        depth += line.count("{") - line.count("}")
        if re.match(r"\s*(ghost use|requires|ensures|ghost )", line):
            return depth > 0
        if line.strip() == "" or re.match(r"\s*(pub )?fn ", line):
            return False
    return False


def document(text, new, spelled):
    """Names in a document; port.py turned some of them in the files alone, and these go by what is declared now."""
    def word(m):
        n = m.group(0)
        quoted = text[m.start() - 1 : m.start()] == "`" or text[m.end() : m.end() + 1] == "`"
        if CAMEL.match(n) or "-" in n and quoted:
            return new.get(n, snake(n) if snake(n) in spelled else n)
        return n

    return re.sub(NAME, word, text)


def main(argv):
    global FIELDS
    root = argv[1] if argv[:1] == ["--names"] else "."
    new, FIELDS = own_names(root), fields_of(root)
    spelled = {new.get(n, n) for p in proof_files(root) for _, n, _ in declared(read(p))}
    changed = 0
    jobs = [(p, "antt") for p in proof_files(".")]
    jobs += [(p, "rt") for p in glob.glob("crates/*/src/**/*.rt", recursive=True)]
    jobs += [(p, "edit") for p in glob.glob("crates/*/must-fail/*.edit")]
    jobs += [(p, "md") for p in ["README.md", *glob.glob("docs/*.md"), *glob.glob("*/README.md")] if os.path.exists(p)]
    for p, kind in sorted(jobs):
        t = read(p)
        if kind == "antt":
            aliases = set(re.findall(r"(?m)^use \S+ as (\S+)", t))
            n = turned(t, new, FIELDS, aliases)
        elif kind == "rt":
            n = source(t, new)
        elif kind == "edit":
            of_rt = re.search(r"(?m)^file: \S+\.rt$", t)
            n = "\n".join(
                turned(l, new, FIELDS, set()) if re.match(r"(old|new): ", l) and not (of_rt and not re.search(r"ensures|requires|ghost use", l)) else l
                for l in t.split("\n")
            )
        else:
            n = document(t, new, spelled)
        if n != t:
            with open(p, "w", encoding="utf-8") as f:
                f.write(n)
            changed += 1
    print(f"respell: {len(new)} names, {changed} files")


if __name__ == "__main__":
    main(sys.argv[1:])
