#!/usr/bin/env python3
"""Moves the theorems of crates from specs/ to proofs/, statements and proofs unchanged, once, behind tools/respell.py.

usage: tools/to_proofs.py CRATE ..   at the top of the repository

A must-fail edit of a definition is tried only if specs/ can still be read with it, so what rests on the definition stands in proofs/. What
moves is what has no mark `abbrev` or `unfoldable` and is no type, unless a definition names it. Imports of all crates follow.
docs/MOVED.txt gets each statement that moved; the list stands at the end of docs/PORT.md.
"""

import glob
import os
import re
import sys

ID = r"[A-Za-z_\u0370-\u03ff\u2070-\u209fℕℤ][\w'₀-₉-]*"
START = re.compile(r"(?:(?:pattern|unfoldable|abbrev|pub)\s+)*(?:(record|data|module|open)\b|(" + ID + r")(?=\s*:|\s*$))")


def read(p):
    with open(p, encoding="utf-8") as f:
        return f.read()


def write(p, t):
    os.makedirs(os.path.dirname(p), exist_ok=True)
    with open(p, "w", encoding="utf-8") as f:
        f.write(t)


class Decl:
    def __init__(self, lines):
        self.lines = lines
        first = next(l for l in lines if not l.lstrip().startswith("--"))
        m = START.match(first.strip())
        self.word = m.group(1) if m else None
        self.name = m.group(2) if m else None
        if self.word in ("record", "data"):
            self.name = re.match(r"\s*(?:(?:pub|abbrev)\s+)*(?:record|data)\s+(\S+)", first).group(1)
        marks = first.strip().split(" : ")[0]
        self.marked = bool(re.match(r"(?:pub\s+)?(?:pattern|unfoldable|abbrev)\b", marks)) or self.word in ("record", "data")
        local = first.startswith(" ") and not re.search(r"\bpub\b", marks)
        self.stays = self.marked and not local

    def text(self):
        return "\n".join(self.lines)

    def names(self):
        """What the declaration names, without fields, binders and itself."""
        t = re.sub(r"--[^\n]*|\"[^\"\n]*\"", "", self.text())
        found = set(re.findall(r"(?<![.\w'-])" + ID, t))
        bound = {n for ns in re.findall(r"[({]([^(){}:]+) : ", t) for n in ns.split()}
        if self.word in ("record", "data"):
            bound |= set(re.findall(r"(?m)^\s+(?:pub )?(" + ID + r") :", t))
        return found - bound - {self.name}


def blocks(lines, depth=0):
    """Declarations at this indentation: comments go with what follows them."""
    out, cur = [], []
    pad = " " * depth
    begun = False
    for l in lines:
        own = l.startswith(pad) and len(l) > depth and l[depth] != " "
        if own and begun:
            body = l[depth:]
            m = START.match(body)
            prev = next((x for x in reversed(cur) if x.strip()), "")
            name = cur_name(cur, depth)
            fresh = body.startswith("--") and prev.strip() != "" and not prev.strip().startswith("--")
            sig = m and (m.group(1) or (" : " in body or body.rstrip().endswith(":") or body.strip() == m.group(2) or re.match(r"(pub|abbrev|unfoldable)\b", body)))
            if fresh or (sig and not body.startswith("unfolding") and not (name and re.match(re.escape(name or "?") + r"(?![\w'-]) (?!:)", body)) and not prev.strip().startswith("--")):
                out.append(cur)
                cur = []
        cur.append(l)
        if l.strip():
            begun = True
    if any(x.strip() for x in cur):
        out.append(cur)
    return [strip(b) for b in out]


def cur_name(cur, depth):
    for l in cur:
        if l.strip() and not l.strip().startswith("--"):
            m = START.match(l.strip())
            return m.group(2) if m else None
    return None


def strip(b):
    while b and not b[0].strip():
        b = b[1:]
    while b and not b[-1].strip():
        b = b[:-1]
    return b


class File:
    def __init__(self, path):
        self.path = path
        lines = read(path).split("\n")
        i = 0
        self.head = []
        while i < len(lines) and lines[i].startswith("--"):
            self.head.append(lines[i])
            i += 1
        self.uses, rest = [], []
        for l in lines[i:]:
            if re.match(r"(pub )?use ", l) and not any(x.strip() for x in rest):
                self.uses.append(l)
            else:
                rest.append(l)
        self.items = tree(rest, 0)

    def decls(self):
        return [d for d, _ in flat(self.items, [])]

    def part(self, stays):
        return laid(self.items, stays)


class Module:
    def __init__(self, head, items):
        self.head, self.items = head, items


def tree(lines, depth):
    """The declarations at this indentation, and those of its modules below theirs."""
    out = []
    for b in blocks(lines, depth):
        first = next((l for l in b if l.strip() and not l.lstrip().startswith("--")), None)
        if first is None:
            continue
        if re.match(r" *module\b", first):
            k = next(j for j, l in enumerate(b) if not l.lstrip().startswith("--") and re.search(r"\bwhere$", l))
            out.append(Module(b[: k + 1], tree(b[k + 1 :], depth + 2)))
        else:
            out.append(Decl(b))
    return out


def flat(items, heads):
    for it in items:
        if isinstance(it, Module):
            yield from flat(it.items, heads + it.head)
        else:
            yield it, heads


def laid(items, stays):
    out = []
    for it in items:
        if isinstance(it, Module):
            inside = laid(it.items, stays)
            if inside.strip():
                out.append("\n".join(it.head) + "\n" + inside)
        elif it.stays == stays:
            out.append(it.text())
    return "\n\n".join(out)


def pruned(uses, body, drop=()):
    """The use lines, with the names that the body has."""
    code = re.sub(r"--[^\n]*|\"[^\"\n]*\"", "", body)
    words = set(re.findall(ID, code))
    out = []
    for u in uses:
        m = re.match(r"((?:pub )?use \S+\.\{)(.*)\}$", u)
        if not m:
            out.append(u)
            continue
        keep = []
        for n in m.group(2).split(", "):
            as_ = n.split(" as ")[-1].strip()
            core = as_.replace("◌", " ").split()
            if u.startswith("pub use") or all(c in code for c in core) and (not re.fullmatch(ID, as_) or as_ in words):
                keep.append(n)
        if keep:
            out.append(m.group(1) + ", ".join(keep) + "}")
    return out


def main(crates):
    moved_all, listing = {}, []
    for crate in crates:
        top = f"crates/{crate}/specs"
        files = {os.path.relpath(p, top)[:-5].replace("/", "."): File(p) for p in sorted(glob.glob(top + "/**/*.antt", recursive=True)) if os.path.basename(p) != "Lib.antt" and not is_node(p)}
        for mod, f in files.items():
            if mod.startswith("Laws.") and not asked(crate, mod, f, files):
                for d in f.decls():
                    d.stays = False
        while True:
            more = [d for mod, f in files.items() for d in f.decls() if not d.stays and named(d.name, crate, mod, files)]
            if not more:
                break
            for d in more:
                d.stays = True
        moved = {}
        for mod, f in files.items():
            for d in f.decls():
                if not d.stays:
                    moved.setdefault(mod, []).append(d.name)
                    if d.word == "data":
                        moved[mod] += re.findall(r"(?m)^\s+(?:pub )?(" + ID + r") :", d.text())
                    listing.append((crate, mod, d))
        for mod, f in files.items():
            if mod not in moved:
                continue
            rel = mod.replace(".", "/") + ".antt"
            stay, go = f.part(True), f.part(False)
            own = [d.name for d in f.decls() if d.stays]
            if stay.strip():
                write(f"{top}/{rel}", "\n".join(f.head + pruned(f.uses, stay)) + "\n\n" + stay + "\n")
                head = ["-- Theorems about `" + f"specs/{rel}`: " + f.head[0][3:]] + f.head[1:]
                extra = [f"use Rattle.{crate}.specs.{mod}.{{{', '.join(inner(own, f))}}}"] if own else []
            else:
                os.remove(f"{top}/{rel}")
                head, extra = f.head, []
            write(f"crates/{crate}/proofs/{rel}", "\n".join(head + pruned(f.uses + extra, go)) + "\n\n" + go + "\n")
        moved_all[crate] = moved
        nodes(crate)
        # in a file that stays whole, or of another crate, imports follow
    for p in glob.glob("crates/*/specs/**/*.antt", recursive=True) + glob.glob("crates/*/proofs/**/*.antt", recursive=True):
        t = read(p)
        n = follow(t, moved_all)
        if n != t:
            write(p, n)
    with open("docs/MOVED.txt", "a", encoding="utf-8") as f:
        for crate, mod, d in listing:
            f.write(f"{crate}: specs/{mod.replace('.', '/')}.antt -> proofs/: {statement(d)}\n")
    print(f"to_proofs: {len(listing)} theorems of {len(crates)} crates")


def asked(crate, mod, f, files):
    """Whether a contract, or a file of definitions, names a definition of this file of laws."""
    own = {d.name for d in f.decls() if d.marked}
    lines = []
    for other, g in files.items():
        if not other.startswith("Laws."):
            said = {n for d, heads in flat(g.items, []) if d.stays for n in d.names() | set(re.findall(ID, " ".join(heads)))}
            lines += [re.sub(r"\{.*", "{" + ", ".join(n for n in re.sub(r".*\{|\}$", "", u).split(", ") if n.split(" as ")[-1].strip() in said) + "}", u) for u in g.uses if "{" in u]
    for p in glob.glob("crates/*/src/**/*.rt", recursive=True):
        lines += [l[6:].rstrip(";") for l in read(p).split("\n") if l.startswith("ghost use")]
    for u in lines:
        if u.startswith(f"use Rattle.{crate}.specs.{mod}.{{"):
            if own & {n.split(" as ")[0].strip() for n in re.sub(r".*\{|\}$", "", u).split(", ")}:
                return True
    return False


def named(name, crate, mod, files):
    """Whether a definition that stays names the theorem: in its own file, or in one that imports it."""
    for other, f in files.items():
        if other != mod and not any(u.startswith(f"use Rattle.{crate}.specs.{mod}.{{") and name in re.split(r"[{, }]+", u) for u in f.uses):
            continue
        for d, heads in flat(f.items, []):
            if d.stays and d.name != name and (name in d.names() or name in set(re.findall(ID, " ".join(heads)))):
                return True
    return False


def inner(own, f):
    """What the theorems may name of their file's definitions: constructors too, unless an import has the name."""
    taken = {n.split(" as ")[-1].strip() for u in f.uses for n in re.sub(r".*\{|\}$", "", u).split(", ")}
    out = list(own)
    for d in f.decls():
        if d.word == "data" and d.stays:
            for l in d.lines[1:]:
                m = re.match(r"\s+(?:pub )?(" + ID + r") :", l)
                if m and m.group(1) not in taken:
                    out.append(m.group(1))
    return out


def statement(d):
    if d.name is None:
        print("look:", d.word, d.lines[:3])
    lines = [l for l in d.lines if not l.lstrip().startswith("--")]
    name = d.name
    out = []
    for l in lines:
        if out and (re.match(r"\s*unfolding\b", l) or re.match(r"\s*" + re.escape(name or "?") + r"(?![\w'-])(?! :)", l)):
            break
        out.append(l.strip())
    return " ".join(out)


def is_node(p):
    return all(re.match(r"(pub )?mod |--|$", l.strip()) for l in read(p).split("\n"))


def nodes(crate):
    """Lib.antt and node files: of specs/ without what is gone, of proofs/ with what is there."""
    for p in glob.glob(f"crates/{crate}/specs/**/*.antt", recursive=True):
        if os.path.basename(p) != "Lib.antt" and not is_node(p):
            continue
        base = os.path.dirname(p) if os.path.basename(p) == "Lib.antt" else p[:-5]
        out = []
        for l in read(p).split("\n"):
            m = re.match(r"(?:pub )?mod (\S+)", l)
            if m and not os.path.exists(f"{base}/{m.group(1)}.antt"):
                continue
            out.append(l)
        write(p, "\n".join(out))
    # a node with no module left goes
    again = True
    while again:
        again = False
        for p in glob.glob(f"crates/{crate}/specs/**/*.antt", recursive=True):
            if is_node(p) and not re.search(r"(?m)^(pub )?mod ", read(p)):
                os.remove(p)
                again = True
                name = os.path.basename(p)[:-5]
                up = os.path.dirname(p)
                node = up + "/Lib.antt" if up.endswith("/specs") else up + ".antt"
                if os.path.exists(node):
                    write(node, "\n".join(l for l in read(node).split("\n") if not re.match(r"(?:pub )?mod " + name + r"$", l)))
        for d, _, fs in os.walk(f"crates/{crate}/specs", topdown=False):
            if not os.listdir(d) and not d.endswith("/specs"):
                os.rmdir(d)
    root = f"crates/{crate}/proofs"
    for p in sorted(glob.glob(root + "/**/*.antt", recursive=True)):
        rel = os.path.relpath(p, root)[:-5].split("/")
        if rel[-1] == "Lib" or rel[-1] in ("Answers", "Invariants", "Proof") or not rel[-1][0].isupper():
            continue
        for k in range(len(rel)):
            node = root + "/Lib.antt" if k == 0 else root + "/" + "/".join(rel[:k]) + ".antt"
            t = read(node) if os.path.exists(node) else {0: "-- Theorems and laws.\n"}.get(k, "-- Laws that only proofs use.\n")
            if not re.search(rf"(?m)^(?:pub )?mod {rel[k]}$", t):
                write(node, t.rstrip("\n") + f"\npub mod {rel[k]}\n")


def follow(t, moved_all):
    out = []
    for l in t.split("\n"):
        m = re.match(r"((?:pub )?use )Rattle\.(\w+)\.specs\.([\w.]+?)\.\{(.*)\}$", l)
        if not m or m.group(2) not in moved_all or m.group(3) not in moved_all[m.group(2)]:
            out.append(l)
            continue
        gone = set(moved_all[m.group(2)][m.group(3)])
        names = m.group(4).split(", ")
        stay = [n for n in names if n.split(" as ")[0].strip() not in gone]
        go = [n for n in names if n.split(" as ")[0].strip() in gone]
        if stay:
            out.append(f"{m.group(1)}Rattle.{m.group(2)}.specs.{m.group(3)}.{{{', '.join(stay)}}}")
        if go:
            out.append(f"{m.group(1)}Rattle.{m.group(2)}.proofs.{m.group(3)}.{{{', '.join(go)}}}")
    return "\n".join(out)


if __name__ == "__main__":
    main(sys.argv[1:])
