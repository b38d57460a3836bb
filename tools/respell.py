#!/usr/bin/env python3
"""Brings this repository's own definitions and lemmas to one spelling: words in snake case, types in upper camel case.

usage: python3 tools/respell.py          at the top of the repository, once, right after the kit's port.py

- In specs/ and in the lemma files of proofs/, each name with a dash that does not come from a library is respelled.
- In the files of a function's proof, names of our own are respelled likewise, and a name that the kit makes from the source keeps its
  dashes between the parts, while a part that is a name of the source has its underscores again.
- In src/, only the names of our own in clauses are respelled. Comments, strings, inputs and outputs stay.
It prints the names that fall together with another of the same file, and writes nothing else.
"""

import collections
import os
import re

WORD = r"[^\W\d][\w'?]*(?:-[\w'?*]+)+"
TOKEN = re.compile(WORD)
NAME = re.compile(r"[^\W\d][\w'?]*(?:-[\w'?*]+)*")
SIGNATURE = re.compile(r"^\s*(?:(?:pub|abbrev|unfoldable|pattern|axiom)\s+)*(" + WORD + r")(?:\s*\{[^}]*\})?\s+:(?:\s+(.*))?$")
RECORD = re.compile(r"^\s*(?:pub\s+)?(?:record|data)\s+(" + WORD + r")")
OUTSIDE = re.compile(r"^\s*(?:pub\s+)?(?:ghost\s+)?use\s+(?:Rattle\.std|mathlib|lib|Prim|logic)\b")
OWN_USE = re.compile(r"^\s*(?:pub\s+)?(?:ghost\s+)?use\s+Rattle\.(\w+)\.(specs|proofs)\.(.*)")
TYPES = {"v-shaped": "VShaped"}
OLDER = {"getD-set-zero": "get_or_set_zero"}

# words of the kit that have two parts
MADE = [
    ["in", "ok"], ["in", "err"], ["in", "default"], ["invariant", "of"], ["overflow", "add"], ["overflow", "sub"], ["overflow", "mul"],
    ["overflow", "cast"], ["overflow", "step"], ["overflow", "shl"], ["overflow", "shr"], ["nonzero", "div"], ["nonzero", "rem"],
    ["slice", "bounds"], ["offset", "bounds"],
]
STD = ["extend_from_slice", "as_slice", "is_some", "is_none", "is_empty", "from_slice", "swap_remove", "as_str", "as_bytes", "to_string"]


def respelled(name):
    if name in TYPES:
        return TYPES[name]
    if name in OLDER:
        return OLDER[name]
    if name[0].isupper():
        return "".join(w[:1].upper() + w[1:] for w in name.split("-"))
    return name.replace("-", "_")


def texts(ending):
    for folder, dirs, files in os.walk("crates"):
        dirs[:] = sorted(d for d in dirs if d != "out")
        for f in sorted(files):
            if f.endswith(ending):
                yield os.path.join(folder, f)


def parted(line, mark):
    """The line without its comment, and the comment."""
    if mark == "--":
        m = re.search(r"(^|\s)--(\s|$)", line)
        at = m.start() if m else len(line)
    else:
        at = line.find("//")
        at = len(line) if at < 0 else at
    return line[:at], line[at:]


def source_names():
    """Each name of src/ with an underscore, by its parts."""
    found = set(STD)
    for p in texts(".rt"):
        with open(p, encoding="utf-8") as f:
            for line in f:
                code = parted(line, "//")[0]
                found.update(n for n in re.findall(r"[A-Za-z]\w*", code) if "_" in n.strip("_"))
    return sorted((tuple(n.split("_")) for n in found), key=len, reverse=True)


def rejoined(name, names):
    parts, out, at = name.split("-"), [], 0
    while at < len(parts):
        for known in names:
            if tuple(parts[at : at + len(known)]) == known:
                out.append("_".join(known))
                at += len(known)
                break
        else:
            out.append(parts[at])
            at += 1
    parts, out2, at = out, [], 0
    while at < len(parts):
        if parts[at : at + 2] in MADE:
            out2.append("_".join(parts[at : at + 2]))
            at += 2
        else:
            out2.append(parts[at])
            at += 1
    return "-".join(out2)


def is_of_function(path):
    parts = path.split(os.sep)
    return parts[2] == "proofs" and len(parts) > 4


def main():
    declared = collections.defaultdict(set)
    for p in texts(".antt"):
        with open(p, encoding="utf-8") as f:
            for line in f:
                code = parted(line, "--")[0]
                m = RECORD.match(code) or SIGNATURE.match(code)
                if m and not is_of_function(p):
                    declared[m.group(1)].add(p)
    clash = collections.defaultdict(set)
    for n in declared:
        clash[respelled(n)].add(n)
    for new, olds in sorted(clash.items()):
        if len(olds) > 1:
            print(f"one spelling for {sorted(olds)}: {new}")
    names = source_names()
    for p in texts(".antt"):
        with open(p, encoding="utf-8") as f:
            lines = f.readlines()
        outside, own = set(), set()
        for line in lines:
            if OUTSIDE.match(line):
                outside.update(TOKEN.findall(line))
            m = OWN_USE.match(line)
            if m and not re.search(r"\.(Goals|Given|Needs|Lts)\b", m.group(3)):
                own.update(TOKEN.findall(line[m.end(2):]))
        in_function = is_of_function(p)
        local = set()
        if in_function:
            for line in lines:
                code = parted(line, "--")[0]
                m = SIGNATURE.match(code)
                if m and not (m.group(2) or "").strip().startswith(("goal.", "need.")):
                    local.add(m.group(1))
                local.update(re.findall(r"\blet (" + WORD + r")\s*[:=]", code))
        before = set()
        for line in lines:
            before.update(n for n in NAME.findall(parted(line, "--")[0]) if "-" not in n)

        def turn(m):
            n = m.group(0)
            if n in outside:
                return n
            if in_function and n not in own and n not in local and (n not in declared or rejoined(n, names) != n):
                return rejoined(n, names)
            return respelled(n)

        out, new_names = [], {}
        for line in lines:
            code, comment = parted(line, "--")
            if OUTSIDE.match(code):
                out.append(line)
                continue
            for n in TOKEN.findall(code):
                new_names[n] = turn(TOKEN.match(n))
            out.append(TOKEN.sub(turn, code) + comment)
        for old, new in sorted(new_names.items()):
            if old != new and new in before:
                print(f"{p}: {old} falls together with {new}")
        with open(p, "w", encoding="utf-8") as f:
            f.writelines(out)
    for p in texts(".rt"):
        with open(p, encoding="utf-8") as f:
            lines = f.readlines()
        out, own, outside = [], set(), set()
        for line in lines:
            if OUTSIDE.match(line):
                outside.update(TOKEN.findall(line))
            m = OWN_USE.match(line)
            if m:
                own.update(TOKEN.findall(m.group(3)))
        own -= outside

        def turn_clause(m):
            n = m.group(0)
            return respelled(n) if n not in outside and (n in declared or n in own) else n

        for line in lines:
            code, comment = parted(line, "//")
            if OUTSIDE.match(code):
                out.append(line)
                continue
            pieces = re.split(r'("(?:[^"\\]|\\.)*")', code)
            for i in range(0, len(pieces), 2):
                pieces[i] = TOKEN.sub(turn_clause, pieces[i])
            out.append("".join(pieces) + comment)
        with open(p, "w", encoding="utf-8") as f:
            f.writelines(out)


if __name__ == "__main__":
    main()
