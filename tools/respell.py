#!/usr/bin/env python3
"""Spells the repository's own definitions and lemmas as Rattle's library spells its own.

usage: python3 tools/respell.py        once, at the top of the repository, right after the kit's port.py

A name with dashes becomes snake case; a type with dashes, or in lower case, becomes camel case. The names stay that Rattle
makes of the code (labels of goals and of steps), those of the library, and those of the code itself. A name that would meet
another one of its file is printed, and nothing is written then.
"""

import collections
import os
import re
import sys

DASHED = re.compile(r"(?<![^\s(){}.;,@\"«»])([A-Za-z][A-Za-z0-9_'μ≢≡ℕℤ]*(?:-[A-Za-z0-9_'μ≢≡ℕℤ]+)+)(?![^\s(){}.;,@\"«»:])")
TYPE = re.compile(r"^\s*(?:(?:abbrev|unfoldable|pub|record|data)\s+)*([^\s(){}.;,@\"«»:]+)[^:]*:\s(?:.*→ )?Type [0-9](?: where)?$")
GOAL = re.compile(r"^(?:abbrev )?(?:pub )?([^\s:]+) : (?:goal|given)\.")
USED = re.compile(r"^\s*(?:pub )?use ([^\s{;]+)\.\{([^}]*)\}")
OF_CODE = re.compile(r"/proofs/(?:.*/)?(?:Answers|Invariants)\.antt$")
HEADS = ("goal", "given", "c", "w", "l", "g")
# Types in lower case, which no dash shows, and a name that would meet one of the library's.
OTHERWISE = {"lex": "Lex", "dec-lt": "dec_lt_z"}
# Fields of records of their own, which may be named as fields of the code's structs are.
FIELDS = {"start_marks", "start_cuts", "left_marks"}


def files(ending):
    for folder, dirs, names in os.walk("crates"):
        dirs[:] = sorted(d for d in dirs if d != "out")
        for name in sorted(names):
            if name.endswith(ending):
                yield os.path.join(folder, name)


def read(path):
    with open(path, encoding="utf-8") as f:
        return f.read()


def own_crates():
    return {d for d in os.listdir("crates")}


def of_library(text, ours):
    """The names that a text takes from a library, and those that it brings in by `as`."""
    found = set()
    for m in re.finditer(r"use ([^\s{;]+)\.\{([^}]*)\}", text):
        steps = m.group(1).split(".")
        if steps[0] != "Rattle" or steps[1] not in ours:
            for item in m.group(2).split(","):
                found.update(item.split(" as "))
    return {x.strip() for x in found}


def snake(name):
    return re.sub(r"(?<=[a-z0-9_])[A-Z]", lambda m: "_" + m[0].lower(), name.replace("-", "_")).replace("__", "_")


def camel(name):
    return "".join(w[:1].upper() + w[1:] for w in name.split("-"))


def code_part(line, mark):
    """The line up to a comment."""
    m = re.search(r"(^|\s)" + mark + r"(\s|$)", line)
    return (line[: m.start()], line[m.start():]) if m else (line, "")


def main():
    ours = own_crates()
    texts = {p: read(p) for p in list(files(".antt")) + list(files(".rt"))}
    types, own = set(), set()
    for p, t in texts.items():
        if not p.endswith(".antt"):
            continue
        library = of_library(t, ours)
        goals = {m.group(1) for m in map(GOAL.match, t.splitlines()) if m}
        for line in t.splitlines():
            line = code_part(line, "--")[0]
            m = TYPE.match(line)
            m = m or re.match(r"^\s*(?:pub )?(?:record|data) ([^\s(){}.;,:]+)", line)
            if m and "-" in m.group(1):
                types.add(m.group(1))
            if not OF_CODE.search("/" + p):
                own.update(n for n in DASHED.findall(line) if n not in library)
            else:
                # helpers that stand beside the answers
                m = re.match(r"^\s*(?:(?:abbrev|pub)\s+)*([^\s(){}.;,:]+)(?:\s+[({][^:]*)? : (?!goal\.|given\.)", line)
                if m and "-" in m.group(1) and m.group(1) not in goals:
                    own.add(m.group(1))
                own.update(re.findall(r"\blet ([^\s:=]*-[^\s:=]*) [:=]", line))
    own = {n for n in own if not n.startswith("Rattle")}
    new = {n: (camel(n) if n in types else snake(n)) for n in own if n in types or n[0].islower() or n.startswith("μ")}
    camels = set()
    for p, t in texts.items():
        if p.endswith(".antt"):
            camels.update(re.findall(r"(?<![\w.'-])([a-z]+[A-Z]\w*'?)(?= (?:: |\{))", t))
    new.update({n: snake(n) for n in camels if n not in ("kM", "kC")})
    new.update(OTHERWISE)

    written, clashes, count = {}, [], collections.Counter()
    for p, t in texts.items():
        library = of_library(t, ours)
        of_code = bool(OF_CODE.search("/" + p))
        antt = p.endswith(".antt")
        goals = {m.group(1) for m in map(GOAL.match, t.splitlines()) if m} if antt else set()
        before = set()
        out = []

        def turn(m):
            name = m.group(0)
            if not re.match(r"[ \t]*(?:pub |ghost )?use [^{]*$", m.string[: m.start()]):
                before.add(name)
            if name not in new or name in library:
                return name
            if of_code:
                if name in goals:
                    return name
                head = re.search(r"(?<![\w.'-])([\w']+)\.$", m.string[: m.start()])
                if head and head.group(1) in HEADS:
                    return name
            count[name] += 1
            return new[name]

        inside = False
        for line in t.split("\n"):
            code, comment = code_part(line, "--" if antt else "//")
            if not antt:
                # only clauses, ghost members and imports
                ghost = re.match(r"\s*(?:ghost |requires|ensures)", code)
                if ghost:
                    inside = True
                if not inside:
                    out.append(line)
                    continue
                if code.count("{") <= code.count("}") or code.rstrip().endswith(";"):
                    inside = False
            out.append(re.sub(r"(?<![^\s(){}.;,@«»])[A-Za-z][^\s(){}.;,@\"«»:]*(?![^\s(){}.;,@«»:])", turn, code) + comment)
        after = "\n".join(out)
        if after != t:
            written[p] = after
        turned = {n for n in before if n in new and n not in library and n not in goals}
        names = collections.defaultdict(set)
        for n in turned:
            names[new[n]].add(n)
        for n in before - turned:
            names[n].add(n)
        clashes += [f"{p}: {' and '.join(sorted(ns))} would both be {n}" for n, ns in sorted(names.items()) if len(ns) > 1 and n not in FIELDS]

    if clashes:
        print("\n".join(clashes))
        return 1
    for p, t in written.items():
        with open(p, "w", encoding="utf-8") as f:
            f.write(t)
    print(f"{len(count)} names spelled anew in {len(written)} files")
    return 0


if __name__ == "__main__":
    sys.exit(main())
