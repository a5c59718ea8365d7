#!/usr/bin/env python3
"""places.py [-v] [TREE]  counts in crates/*/src (and proofs/ for point 8) the places that docs/DESIGN-PASS.md speaks of, point by point; -v lists them."""
import os
import re
import sys

show = "-v" in sys.argv
tree = ([a for a in sys.argv[1:] if a != "-v"] or ["."])[0]
KEYWORDS = set("let mut if else match while for in return fn pub use as break continue true false loop ref move impl struct enum const".split())


def sources(part, ending):
    for at, folders, files in os.walk(f"{tree}/crates"):
        folders.sort()
        if f"/{part}" in at + "/" and "/out/" not in at and "keccak_tables_c/" not in at + "/":
            for name in sorted(files):
                if name.endswith(ending):
                    with open(f"{at}/{name}", encoding="utf-8") as it:
                        yield f"{at}/{name}"[len(tree) + 8:], it.read()


def functions(text):
    """name, head up to the body, body, line of each function of a file"""
    for m in re.finditer(r"^( *)(?:pub )?(?:extern \"C\" )?fn (\w+)", text, re.M):
        end = re.compile(rf"^{m[1]}\}}$", re.M).search(text, m.end())
        whole = text[m.start() : end.end() if end else len(text)]
        cut = re.search(r"^ *\{$|\{\n(?! *(?:requires|ensures))", whole, re.M)
        k = cut.start() if cut else len(whole)
        yield m[2], whole[:k], whole[k:], text[: m.start()].count("\n") + 1


SRC = list(sources("src", ".rt"))
FNS = [(path, *f) for path, text in SRC for f in functions(text)]
found = {}


def add(point, path, line, what):
    found.setdefault(point, []).append(f"{path}:{line}: {what}")


def line_of(text, at):
    return text[:at].count("\n") + 1


# 1: enums of the shape of Option or Result, where a function answers one, and where a refusal is handed on by hand
own = {}
for path, text in SRC:
    for m in re.finditer(r"^pub enum (\w+) \{\n(.*?)^\}", text, re.M | re.S):
        arms = re.findall(r"^    (\w+)", m[2], re.M)
        if "Refused" in arms or "Nowhere" in arms:
            own[m[1]] = path
            add("1a own enums of the shape of Option or Result", path, line_of(text, m.start()), m[1])
    for m in re.finditer(r"^pub struct (\w+) \{\n(.*?)^\}", text, re.M | re.S):
        if re.search(r"^    pub (shown|uneven|done|holds|same|yes|reading|refusal|kind|segments): (u64|bool|\w*Kind)", m[2], re.M):
            add("1c structs of a flag or kind with values beside it", path, line_of(text, m.start()), m[1])
for path, name, head, body, line in FNS:
    m = re.search(r"-> (\w+)\s*$|-> (\w+)\n", head)
    if m and (m[1] or m[2]) in own:
        add("1b functions that answer one, refusals handed on by hand", path, line, name)
    for m in re.finditer(r"if let \w+::Refused\((\w+)\) = [^{]*\{\n *return \w+::Refused\(\1\)|::Refused\((\w+)\) => (?:\{\n *return )?\w+::Refused\(\2\)|Err\((\w+)\) => (?:return )?Err\(\3\)", body):
        add("1b functions that answer one, refusals handed on by hand", path, line + head.count("\n") + line_of(body, m.start()) - 1, "handed on")
    for m in re.finditer(r"\b(kind|bus|side|mark|table|op): (u64|usize|u8|u32)\b", head):
        add("1d numbers for kinds among the parameters", path, line, f"{name}({m[0]})")

# 2: functions that are one text but for names and numbers
shapes = {}
for path, name, head, body, line in FNS:
    code = re.sub(r"//.*", "", body)
    if code.count("\n") < 7:
        continue
    tokens = re.findall(r"[A-Za-z_]\w*|\d+|[^\s\w]", code)
    shape = " ".join(t if t in KEYWORDS or not re.match(r"\w", t) else "n" if t.isdigit() else "x" for t in tokens)
    shapes.setdefault(shape, []).append((path, line, name))
for group in shapes.values():
    if len(group) > 1:
        add("2 functions alike but for names and numbers (groups)", group[0][0], group[0][1], " = ".join(f"{n} ({p}:{l})" for p, l, n in group))

# 3: loops that count an index by hand
for path, text in SRC:
    for m in re.finditer(r"^ *while ([^\n]*) \{$", text, re.M):
        add("3 `while` loops", path, line_of(text, m.start()), m[1])

# 4: a match or a chain of tests between an enum and numbers; equality, copying and printing written out
for path, name, head, body, line in FNS:
    arms = re.findall(r"^\s*(?:(?:\w+::)+\w+(?:\(\w+\))?|\d+|_) => ((?:\w+::)+\w+(?:\(\w*\))?|\d+|\w+),$", body, re.M)
    if len(arms) >= 2 and len(arms) >= body.count("=>") and body.count("\n") <= len(arms) + 5:
        add("4 equality, conversion, copying, printing by hand", path, line, name)
    elif re.match(r"(same|equal)_|is_same|put_(part|words|zeros|bytes)$|copy_", name):
        add("4 equality, conversion, copying, printing by hand", path, line, name)

# 5: facts asked by three or more functions, and parameters that travel together
facts, pairs = {}, {}
for path, name, head, body, line in FNS:
    for m in re.finditer(r"requires \{ (.*) \}", head):
        for fact in m[1].split(" × "):
            facts.setdefault(fact.strip("() "), []).append((path, line, name))
    ps = re.findall(r"(\w+): (&(?:'a )?(?:mut )?\[\w+\]|\w+)[,)\n]", head.split("requires")[0].split("ensures")[0])
    for i in range(len(ps)):
        for j in range(i + 1, len(ps)):
            pairs.setdefault((ps[i], ps[j]), []).append((path, line, name))
for fact, at in sorted(facts.items()):
    if len(at) >= 3:
        add("5a facts asked by three or more functions", at[0][0], at[0][1], f"{fact}: {len(at)} functions")
for (a, b), at in sorted(pairs.items()):
    if len(at) >= 5:
        add("5b pairs of parameters in five or more functions", at[0][0], at[0][1], f"{a[0]}: {a[1]}, {b[0]}: {b[1]}: {len(at)} functions")

# 6: a slice with a length or a place beside it
for path, name, head, body, line in FNS:
    sig = head.split("requires")[0].split("ensures")[0]
    if re.search(r": &(?:'a )?(?:mut )?\[", sig) and re.search(r"\b(n|m|count|needed|rows|height|h|end|from|at): usize", sig):
        add("6 functions with a length or a place beside a slice", path, line, name)

# 7: a parameter that says which step to run
for path, name, head, body, line in FNS:
    sig = head.split("requires")[0].split("ensures")[0]
    for m in re.finditer(r"\b(\w+): (Check|Op|Operand|Port|bool|AddKind|Cond)\b", sig):
        if re.search(rf"match {m[1]}\b|if !?{m[1]}\b", body):
            add("7 parameters that say which step to run", path, line, f"{name}({m[0]})")

# 8: proofs in the older form, and answers that say nothing but the search's words
for path, text in sources("proofs", ".antt"):
    if path.endswith("/Proof.antt"):
        add("8a proofs in the older form", path, 1, "")
    if path.endswith(("/Answers.antt", "/Proof.antt")):
        for m in re.finditer(r"^[\w-]+ c(?: κs)? = (omega arith|search rules|tt)$", text, re.M):
            add("8b answers of the search's own words", path, line_of(text, m.start()), m[1])

for point in sorted(found):
    print(f"{len(found[point]):5} {point}")
    if show:
        print("".join(f"        {it}\n" for it in found[point]), end="")
