#!/usr/bin/env python3
"""Counts the places of the design pass: python3 tools/places.py [ROOT] [-v].

For each point it lists what has the form of the point in crates/*/src, tests left out. A place that is listed is a candidate:
docs/DESIGN-PASS.md says of each whether it was changed or why it stays.
"""
import collections
import pathlib
import re
import sys

args = [a for a in sys.argv[1:] if a != "-v"]
root = pathlib.Path(args[0] if args else ".")
verbose = "-v" in sys.argv

files = {}
for path in sorted(root.glob("crates/*/src/*.rt")):
    name = f"{path.parts[-3]}/{path.name}"
    if path.name == "tests.rt" or path.parts[-3] == "store_tests" and path.name != "turns.rt":
        continue
    files[name] = [re.sub(r"//.*", "", line) for line in path.read_text().split("\n")]


def lines(pattern, ghost=False):
    """The lines that match, clauses left out."""
    clause = r"^\s*(ensures|requires|→|≡|×|\+\+|\(|ghost)"
    return [(f, n + 1, line.strip()) for f, ls in files.items() for n, line in enumerate(ls)
            if re.search(pattern, line) and (ghost or not re.match(clause, line))]


def functions():
    """Each function: its place, name, parameters, clauses and body."""
    for f, ls in files.items():
        text = "\n".join(ls)
        for m in re.finditer(r"\bfn (\w+)", text):
            head = text[m.start():]
            stop = re.search(r"\n\s*\{\n|\n?\s*\{\}|;\n|\{\n", head)
            if not stop:
                continue
            sign, rest = head[:stop.start()], head[stop.start():]
            depth, end = 0, 0
            for i, c in enumerate(rest):
                depth += c == "{"
                depth -= c == "}"
                if depth == 0 and c == "}":
                    end = i + 1
                    break
            flat = sign
            while "<" in flat.replace("->", ""):
                less = re.sub(r"<[^<>]*>", "", flat.replace("->", "  "))
                if less == flat:
                    break
                flat = less
            inside = re.search(r"\((.*?)\)", flat, re.S)
            params = re.findall(r"(?:^|,)\s*(?:mut )?(\w+):", inside.group(1) if inside else "")
            clauses = re.findall(r"(?:requires|ensures)\s*\w*\s*\{(.*?)\}(?=\s*(?:requires|ensures|$))", sign, re.S)
            body = rest[:end] if rest.lstrip().startswith("{") else ""
            yield f, text[:m.start()].count("\n") + 1, m.group(1), params, clauses, body


FUNCTIONS = list(functions())


def alike():
    """Groups of functions whose bodies are the same once names and numbers are taken away."""
    shapes = collections.defaultdict(list)
    for f, n, name, _, _, body in FUNCTIONS:
        flat = re.sub(r"\s+", " ", body)
        seen = {}
        keep = {"match", "if", "else", "let", "return", "for", "in", "while", "None", "Some", "Ok", "Err", "true", "false", "mut", "as"}
        flat = re.sub(r"[A-Za-z_]\w*", lambda m: m.group() if m.group() in keep else seen.setdefault(m.group(), f"v{len(seen)}"), flat)
        flat = re.sub(r"\b\d+\b", "N", flat)
        flat = re.sub(r'b?"[^"]*"', "S", flat)
        if len(flat) > 12:
            shapes[flat].append((f, n, name))
    return [group for group in shapes.values() if len(group) > 1]


def facts():
    """Facts that stand in the clauses of three or more functions, results and equations with a rule left out."""
    count = collections.defaultdict(list)
    for f, n, name, _, clauses, _ in FUNCTIONS:
        for clause in {re.sub(r"\s+", " ", c).strip() for c in clauses}:
            if "result" in clause or "OnOk" in clause:
                continue
            short = re.sub(r"\b(\w+)\.(old|new|now)\b", r"\1", clause)
            count[short].append((f, n, name))
    return [(c, where) for c, where in count.items() if len(where) > 2]


def together():
    """Groups of three or more parameters that travel together in three or more functions."""
    count = collections.defaultdict(list)
    for f, n, name, params, _, _ in FUNCTIONS:
        names = tuple(p for p in params if p != "self")
        for size in (3, 4, 5, 6):
            for i in range(len(names) - size + 1):
                count[names[i:i + size]].append((f, n, name))
    groups = {g: w for g, w in count.items() if len(w) > 2}
    most = [g for g in groups if not any(g != h and len(h) > len(g) and " ".join(g) in " ".join(h) and len(groups[h]) == len(groups[g]) for h in groups)]
    return [(" ".join(g), groups[g]) for g in most]


def show(point, what, places):
    print(f"{point:4} {len(places):4}  {what}")
    if verbose:
        for place in places:
            print("         ", *place if isinstance(place, tuple) else (place,))


show("1a", "enums of our own", lines(r"^\s*(pub(\([a-z]+\))? )?enum \w+"))
show("1b", "functions that answer a plain number of no kind", lines(r"\bfn \w+.*-> u(8|16|32|size)\b"))
show("1c", "matches whose arms are None or Some alone", lines(r"^\s*None => "))
show("2a", "groups of functions with bodies of one shape", alike())
names = collections.defaultdict(list)
for f, n, name, *_ in FUNCTIONS:
    names[name].append((f, n))
for f, n, line in lines(r"^\s*(pub(\([a-z]+\))? )?(struct|enum|trait) \w+"):
    names[re.search(r"(struct|enum|trait) (\w+)", line).group(2)].append((f, n))
show("2b", "names that stand for two or more functions or types", [(k, *v) for k, v in sorted(names.items()) if len(v) > 1])
show("3a", "while loops", lines(r"^\s*while "))
show("3b", "loops over a range of places", lines(r"^\s*for \w+ in .*\.\."))
show("4a", "plain types without PartialEq", [t for t in lines(r"^\s*#\[derive\(") if "PartialEq" not in t[2]])
show("4b", "arms that only answer true or false", lines(r"=> (true|false),"))
show("4c", "texts compared one after another", lines(r"is_same\("))
show("4d", "functions that append text", [(f, n, name) for f, n, name, *_ in FUNCTIONS if name.startswith("push_")])
show("5a", "facts in the clauses of three or more functions", facts())
show("5b", "parameters that travel together, three or more in three or more functions", together())
show("6a", "fields that are arrays", lines(r"^\s*(pub(\([a-z]+\))? )?\w+: \[.*; \d+\],"))
show("6b", "parameters `used` beside a slice", [(f, n, name) for f, n, name, p, *_ in FUNCTIONS if "used" in p])
show("7a", "types that are a function: one method under a trait", lines(r"^impl.* (Test|Edit)<"))
show("7b", "switches on which step to run", lines(r"match ask\b"))
proofs = [p for p in root.glob("crates/*/proofs/**/*.antt")]
print(f"8    {len(proofs):4}  files in proofs/, {sum(len(p.read_text().splitlines()) for p in proofs)} lines")
print(f"     {len(FUNCTIONS):4}  functions in all")
