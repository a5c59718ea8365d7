"""The definitions of the sources and the names that each rests on, resolved as the language does.

A definition is one of an .antt file (a signature with its clauses, a record, a data type), a struct or an enum of an .rt file, or the contract of a
function there. `parsed(path)` has those of a file; `Definition.rests_on()` the definitions that one names, and what it names of the kit.
Followed are types, records' fields, and the bodies of definitions; of a proof (a name of proofs/ without `abbrev` or `unfoldable`) its type alone.
Local names (arguments, λ, let, a module's parameters, earlier fields) hide those of the file, these those of `use` lines. A field `x.f` leads to
no record: the type of x, which names it, is followed.
"""

import re
from dataclasses import dataclass, field
from functools import cache
from pathlib import Path

ROOT = Path(__file__).resolve().parent.parent
# What does not begin with `Rattle` is the kit's, and so is a library that crates.txt does not list.
KIT = ("Prim", "mathlib", "native", "lib", "contract", "denote", "borrow")
# What needs no `use`: the language's words and signs, and what the kit gives every file.
LANGUAGE = set("→ × : = _ in elim Type".split())
GIVEN = set("Unit ⊥ ¬ Dec yes no tt absurd refl".split())
# Constructors of the kit, which a pattern does not bind.
CONSTRUCTORS = set("zero suc [] ∷ true false some none inl inr yes no refl tt".split())
# Fields of the kit's records and of what a contract lends.
KIT_FIELDS = set("0 1 2 now old new Denot".split())


@dataclass(eq=False)
class Definition:
    """One definition: where it stands, the comment above it, its text by parts, and what is in scope around it."""

    path: str
    line: int
    name: str
    kind: str  # definition, proof, record, data, type (of an .rt file) or contract
    lines: list = field(default_factory=list)  # (number, text without comment)
    comment: list = field(default_factory=list)
    modules: list = field(default_factory=list)
    members: list = field(default_factory=list)
    public: bool = False

    @property
    def length(self):
        """The lines to be read, without blank lines and comments: of a proof its type."""
        text = items(self)[0] if self.kind == "proof" else self.text
        return sum(1 for line in text.splitlines() if line.strip())

    @property
    def crate(self):
        return self.path.split("/")[1]

    @property
    def place(self):
        return f"{self.path.removeprefix('crates/')}:{self.line}"

    @property
    def text(self):
        return "\n".join(text for _, text in self.lines)

    def rests_on(self):
        """What it names: `found` are definitions, `kit` the kit's names, `fields` fields, `lost` names that nothing resolves."""
        return rests_on(self)


# ---- files


def bare(line):
    return re.sub(r"--(?=\s|$).*", "", line).rstrip()


def indent(text):
    return len(text) - len(text.lstrip())


HEAD = re.compile(r"\s*((?:abbrev |unfoldable )?)((?:pub )?)(?:(record|data) (\S+)|(\S+) :(?=\s|$))")


def head(text):
    """The parts of a line that begins a definition: keyword, `pub`, `record` or `data`, name; none where it begins none."""
    found = HEAD.match(text)
    return found and (found[1], found[2], found[3] or "", found[4] or found[5])


@dataclass
class Module:
    """A `module _ .. where` or an `open`: its indent, its head, the comment above it, and the names that it opens."""

    indent: int
    text: str
    comment: list = field(default_factory=list)
    opened: dict = field(default_factory=dict)


@dataclass
class File:
    path: str
    uses: dict
    aliases: dict
    definitions: dict = field(default_factory=dict)  # by name, in the order of lines
    parts: dict = field(default_factory=dict)  # a mixfix name by each of its parts
    comment: list = field(default_factory=list)

    def add(self, definition):
        for name in [definition.name, *(definition.members if definition.kind == "data" else [])]:
            self.definitions.setdefault(name, []).append(definition)
            if self.path.endswith(".antt"):
                self.note(name)

    def note(self, name):
        self.parts.update({part: name for part in parts(name)})

    def find(self, name, line=None):
        """The definition of a name, the last one above a line where there are several."""
        found = self.definitions.get(name, [])
        above = [one for one in found if line is None or one.line <= line]
        return (above or found or [None])[-1]


def parts(name):
    """The words of a mixfix name, as `+` of `◌+◌`; none where it is none."""
    return [part for part in name.split("◌") if part] if "◌" in name else []


USE = re.compile(r"^\s*(?:pub |ghost )*use ([^\s{;]+?)(?:\.\{([^}]*)\}| as ([^\s;]+))?;?\s*$", re.M)


def read_uses(path, text):
    """The names that a file's `use` lines give it, each with its module; and the modules that have another name."""
    file = File(path, {}, {})
    for module, names, alias in USE.findall(text):
        if alias:
            file.aliases[alias] = module
        for name in filter(None, (part.strip() for part in names.split(","))):
            old, _, new = name.partition(" as ")
            file.uses[new or old] = (module, old)
            file.note(new or old)
    return file


@cache
def parsed(path):
    """A file's `use` lines and definitions; of an .rt file its structs, enums and contracts; none where there is no such file."""
    if not (ROOT / path).is_file():
        return None
    text = (ROOT / path).read_text()
    return read_rt(path, text) if path.endswith(".rt") else read_antt(path, text)


def read_antt(path, text):
    code = [bare(line) for line in text.splitlines()]
    file = read_uses(path, "\n".join(code))
    file.comment = above(text.splitlines(), next((at for at, line in enumerate(code) if line), 0))
    modules, at = [], 0
    while at < len(code):
        line, start = code[at], at
        at += 1
        while at < len(code) and (not code[at] or indent(code[at]) > indent(line) and line):
            at += 1
        if not line:
            continue
        modules = [module for module in modules if module.indent < indent(line) or module.opened and module.indent == indent(line)]
        if line.split()[0] == "module":
            last = next(number for number in range(start, len(code)) if code[number].endswith("where"))
            modules.append(Module(indent(line), "\n".join(code[start:last + 1]), above(text.splitlines(), start)))
            at = last + 1
        elif line.split()[0] == "open":
            modules.append(opening(line, modules))
        elif head(line):
            at = add_definition(file, text.splitlines(), code, start, at, list(modules))
    return file


def opening(line, modules):
    """`open D use {a, b as c}`: fields, by their names, of the record that a module around it says D is."""
    opened, names = re.match(r"\s*open (\S+) use \{(.*)\}", line).groups()
    record = next(filter(None, (re.search(rf"[({{ ]{re.escape(opened)} : (\S+)", module.text) for module in reversed(modules))))[1]
    short = [name.split(" as ")[-1].strip() for name in names.split(",")]
    return Module(indent(line), "", [], dict.fromkeys([*short, *(part for name in short for part in parts(name))], record))


def add_definition(file, text, code, start, at, modules):
    """The definition that begins at a line: with the clauses that follow at the same indent. Answers the line behind it."""
    keyword, public, shape, name = head(code[start])
    while not shape and at < len(code) and code[at] and indent(code[at]) == indent(code[start]) and not begins(code[at]):
        at += 1
        while at < len(code) and (not code[at] or indent(code[at]) > indent(code[start])):
            at += 1
    while not code[at - 1]:
        at -= 1
    lines = [(number + 1, code[number]) for number in range(start, at)]
    proof = "/proofs/" in file.path and not keyword
    kind = shape.strip() or ("proof" if proof else "definition")
    members = re.findall(r"^\s+(?:pub )?(\S+) :(?=\s|$)", "\n".join(code[start + 1:at]), re.M) if shape else []
    file.add(Definition(file.path, start + 1, name, kind, lines, above(text, start), modules, members, bool(public)))
    return at


def begins(line):
    return head(line) or line.split()[0] in {"module", "use", "open", "infixl", "infixr", "infix", "mod", "pub"}


def above(lines, at):
    """The comment that stands right above a line, or where the line begins the file, at its head."""
    found = []
    while at and re.match(r"\s*(--|//)(\s|$)", lines[at - 1]):
        at -= 1
        found.insert(0, re.sub(r"^\s*(--|//) ?", "", lines[at]).rstrip())
    return found


# ---- .rt files


TYPE = re.compile(r"^(?:pub )?(struct|enum) (\w+)[^;{]*\{.*?^\}", re.M | re.S)
FUNCTION = re.compile(r'^pub (?:extern "C" )?fn (\w+)(.*?)^\{', re.M | re.S)


def read_rt(path, text):
    file = read_uses(path, text)
    for kind, pattern in [("type", TYPE), ("contract", FUNCTION)]:
        for found in pattern.finditer(text):
            line = text.count("\n", 0, found.start()) + 1
            body = found[0].removesuffix("{").rstrip()
            lines = [(line + at, re.sub(r"//.*", "", one)) for at, one in enumerate(body.splitlines())]
            members = re.findall(r"^\s+(?:pub )?(\w+)(?=[,:({ ])", "\n".join(one for _, one in lines[1:]), re.M) if kind == "type" else []
            name = found[2] if kind == "type" else found[1]
            start = line - 1
            while text.splitlines()[start - 1].startswith("#["):
                start -= 1
            file.add(Definition(path, line, name, kind, lines, above(text.splitlines(), start), [], members, True))
    return file


@cache
def declared(crate, name):
    """The struct or enum of a crate."""
    for path in sorted((ROOT / "crates" / crate / "src").glob("**/*.rt")):
        found = parsed(str(path.relative_to(ROOT))).find(name)
        if found and found.kind == "type":
            return found
    return None


def rust_types(definition, text):
    """The structs and enums that Rust's part of a text names: of the crate itself, or of the crate that its `use` line names."""
    source = (ROOT / definition.path).read_text()
    for name in re.findall(r"\b[A-Z]\w*", text):
        crates = re.findall(rf"^use (\w+)::(?:\w+::)*(?:{name}|\{{[^}}]*\b{name}\b[^}}]*\}});", source, re.M)
        owner = crates[0] if crates and crates[0] not in {"super", "crate"} else definition.crate
        yield declared(owner, name)


# ---- names


def module_file(module):
    """The file that a module's path leads to; or the struct or enum; or, for what the toolchain reads of a contract, that contract."""
    found = re.match(r"Rattle\.(\w+)\.(specs|proofs)\.(.*)$", module)
    if not found:
        return None
    crate, folder, rest = found.groups()
    names = rest.split(".")
    if names[0] == "declared":
        return declared(crate, names[1])
    file = parsed(f"crates/{crate}/{folder}/{'/'.join(names)}.antt")
    if file or len(names) == 1:
        return file
    source = parsed(f"crates/{crate}/src/{'/'.join(names[:-2]) or 'lib'}.rt")
    return source and next((one for one in source.definitions.get(names[-2], []) if one.kind == "contract"), None)


@cache
def is_kit(module):
    """Whether a module is the kit's: of its logic, or of a library that is no crate here."""
    first, *rest = module.split(".")
    return first in KIT or first == "Rattle" and not (ROOT / "crates" / rest[0]).is_dir()


class Names:
    """Collects what a definition's text names."""

    def __init__(self, definition):
        self.of, self.file = definition, parsed(definition.path)
        self.opened = {name: record for module in definition.modules for name, record in module.opened.items()}
        self.found, self.kit, self.fields, self.lost = [], set(), set(), set()

    def add(self, definition, name):
        if definition is None:
            self.lost.add(name)
        elif definition is not self.of and definition not in self.found:
            self.found.append(definition)

    def imported(self, module, name):
        """A name of a module: the kit's, or a definition."""
        if is_kit(module):
            self.kit.add(f"{module}.{name}")
            return None
        target = module_file(module)
        return target.find(name) if isinstance(target, File) else target

    def lookup(self, name):
        """The definition that a name stands for, or True where it is the kit's, or None."""
        if "." in name.strip("."):
            alias, _, plain = name.partition(".")
            module = self.file.aliases.get(alias)
            return module and (self.imported(module, plain) or is_kit(module))
        if name in self.opened:
            return self.lookup(self.opened[name])
        for one in filter(None, [name, self.file.parts.get(name)]):
            if self.file.find(one, self.of.lines[-1][0]):
                return self.file.find(one, self.of.lines[-1][0])
            if one in self.file.uses:
                module, old = self.file.uses[one]
                return self.imported(module, old) or is_kit(module)
        return name in GIVEN or None

    def take(self, name):
        target = self.lookup(name)
        if isinstance(target, Definition):
            self.add(target, name)
        elif not target:
            self.lost.add(name)
        elif name in GIVEN:
            self.kit.add(name)

    def is_constructor(self, name):
        if name in CONSTRUCTORS:
            return True
        target = self.lookup(name)
        return isinstance(target, Definition) and target.kind in {"data", "type"} and target.name != name


# ---- terms


def tree(text):
    """A term as nested lists of words, by its brackets; the first word of an inner list is its bracket."""
    stack = [["("]]
    for word in re.findall(r"[(){};,]|[^\s(){};,⌜⌝]+", text):
        if word in "({[":
            stack.append([word])
        elif word in ")}]":
            closed = stack.pop()
            stack[-1].append(closed)
        else:
            stack[-1].append(word.replace("«", "").replace("»", ""))
    return stack[0][1:]


def binder(group):
    """The names of `(x y : A)`, and A; none where the group is none."""
    at = group.index(":") if ":" in group else 0
    names = group[1:at]
    return (names, group[at + 1:]) if names and all(isinstance(name, str) for name in names) else None


def walk(words, bound, names):
    """Takes the names of a term that are not bound in it. Answers what is bound behind it."""
    bound, at = set(bound), 0
    while at < len(words):
        word = words[at]
        at += 1
        if isinstance(word, list):
            bound |= group(word, bound, names)
        elif word == "λ":
            at = lambdas(words, at, bound, names)
        elif word == "let":
            end = next(place for place in range(at, len(words)) if words[place] == "=")
            bound |= pattern(words[at:end], bound, names)
            at = end + 1
        elif word == "record" and at < len(words) and isinstance(words[at], list):
            literal(words[at], bound, names)
            at += 1
        elif word.startswith(".") and len(word) > 1:
            names.fields.update(word[1:].split("."))
        elif not (word in bound or word in LANGUAGE or word in ",;" or re.fullmatch(r"\d+|0x\w+", word)):
            projected(word, bound, names)
    return bound


def projected(word, bound, names):
    """`x.f.g`: fields of a local name or of a definition. `a.x.f`: of a name of the module that is called a."""
    name, *fields = word.split(".") if "." in word.strip(".") else [word]
    if name not in bound:
        if fields and name in names.file.aliases:
            name += "." + fields.pop(0)
        names.take(name)
    names.fields.update(fields)


def group(words, bound, names):
    """A group in brackets: where it is `(x : A)`, x is bound behind it."""
    found = binder(words)
    if found:
        walk(found[1], bound, names)
        return set(found[0])
    if words[0] == "[":
        cases(words[1:], bound, names)
    else:
        walk(words[1:], bound, names)
    return set()


def cases(words, bound, names):
    """`pattern ↦ term | ..`."""
    while "↦" in words:
        arrow = words.index("↦")
        end = words.index("|") if "|" in words else len(words)
        walk(words[arrow + 1:end], bound | pattern(words[:arrow], bound, names), names)
        words = words[end + 1:]


def literal(words, bound, names):
    """`{ field = term; .. }`."""
    part = []
    for word in [*words[1:], ";"]:
        if word == ";":
            walk(part[part.index("=") + 1:] if "=" in part else part, bound, names)
            names.fields.update(part[:1] if "=" in part else [])
            part = []
        else:
            part.append(word)


def lambdas(words, at, bound, names):
    """`λ x y. `: binds up to the word that ends in a point. Answers the place behind it."""
    while True:
        word = words[at]
        at += 1
        if isinstance(word, list):
            bound |= pattern([word], bound, names)
        else:
            bound.add(word.rstrip("."))
            if word.endswith("."):
                return at


def pattern(words, bound, names):
    """The variables of a pattern; its constructors are named."""
    found = set()
    for word in words:
        if isinstance(word, list):
            inner = binder(word)
            if inner:
                walk(inner[1], bound, names)
            found |= set(inner[0]) if inner else pattern(word[1:], bound, names)
        elif word == ":":
            break
        elif names.is_constructor(word):
            names.take(word)
        elif word not in LANGUAGE and word not in ",;" and not word.isdigit():
            found.add(word)
    return found


# ---- what a definition rests on


def outer(definition, names):
    """What the modules around a definition bind."""
    bound = set()
    for module in definition.modules:
        bound = walk(tree(re.sub(r"^\s*module _|where$", "", module.text)), bound, names)
    return bound


def items(definition):
    """A definition's signature and then its clauses, as texts: each begins at the indent of the first line."""
    return re.split(rf"\n(?= {{{indent(definition.lines[0][1])}}}[^\s)}}\]])", definition.text)


@cache
def rests_on(definition):
    names = Names(definition)
    if definition.path.endswith(".rt"):
        of_rust(definition, names)
    elif definition.kind in {"record", "data"}:
        of_record(definition, names)
    else:
        of_clauses(definition, names)
    return names


def of_record(definition, names):
    """The parameters and then the fields, each of which the later ones see."""
    shape = r"^\s*(?:abbrev |unfoldable )?(?:pub )?(?:record|data) \S+"
    start, *fields = members(definition)
    bound = walk(tree(re.sub(shape, "", start).replace(" where", "")), outer(definition, names), names)
    for one in fields:
        name, _, kind = re.sub(r"^\s*(?:pub )?", "", one).partition(" :")
        walk(tree(kind), bound, names)
        bound.add(name)


def members(definition):
    """A record's head and then its fields, as texts."""
    found = [""]
    headed = False
    for _, text in definition.lines:
        least = indent(definition.lines[0][1]) + 2
        if headed and text and indent(text) == least:
            found.append(text)
        else:
            found[-1] += "\n" + text
        headed = headed or text.endswith("where")
    return [re.sub(r"^\n", "", text) for text in found]


def of_clauses(definition, names):
    """The type and, but of a proof, each clause with what its left side binds."""
    signature, *clauses = items(definition)
    bound = outer(definition, names)
    walk(tree(signature.partition(" :")[2]), bound, names)
    own = {*parts(definition.name), definition.name}
    for clause in clauses if definition.kind == "definition" else []:
        words = tree(clause)
        if words and words[0] != "unfolding":
            end = words.index("=") if "=" in words else len(words)
            left = [word for word in words[:end] if isinstance(word, list) or word not in own]
            walk(words[end + 1:], bound | own | pattern(left, bound, names), names)


def of_rust(definition, names):
    """A struct's or an enum's types; a contract's types, and what its clauses name."""
    signature, *clauses = re.split(r"\b(?:ensures|requires)\b(?: \w+)?", definition.text)
    own = {definition.name, *definition.members}
    for found in rust_types(definition, signature):
        if found and found.name not in own:
            names.add(found, found.name)
    parameters = {"result", *re.findall(r"(\w+):", signature)}
    for clause in clauses:
        walk(tree(clause), parameters, names)


def closure(roots):
    """Every definition that the roots rest on, and the roots."""
    found, left = [], list(roots)
    while left:
        one = left.pop()
        if one not in found:
            found.append(one)
            left += one.rests_on().found
    return found
