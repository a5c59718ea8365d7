"""Every table of refusals against the definitions: which numbers there are, which calls give which, and in which order they are checked.

The definitions are `refusal_number` (crates/answer/specs/Refusal.antt) and what the contracts of the exports name. A contract is read as a term:
a definition that it names is put in its place, with its arguments, and the refusals that are then named, from left to right, are the checks in
their order, because each check has those after it as its last argument.
"""

import re
from functools import cache
from pathlib import Path

ROOT = Path(__file__).resolve().parent.parent
HEADER = "include/keccak_tables.h"
HOST = "host/README.md"
BINDING = "host/src/refusal.rs"
MATRIX = "host/compare/src/refusals.rs"
CHANGES = "docs/CHANGES.md"
PROOFS = "docs/PROOFS.md"

# What a definition answers that refusals are read from.
ANSWERS = r"Option Refusal|Result .* Refusal|Verdict"
# Calls with a reader, whose faults come byte by byte: what a file and a floor can be refused for.
READERS = {"tally_start": [], "tally_feed": [1, 6, 4], "tally_finish": [9, 1, 6, 4]}
# Calls that leave the order of the list: docs/DECISIONS.md says why.
OTHER_ORDER = {"verdict_line", "read_operations", "same_operations", "tally_feed", "tally_finish"}
# What the comparison can't try, or tries elsewhere: its comment says where.
UNTRIED = {
    **dict.fromkeys(["same_operations", "tally_feed", "tally_finish", "read_operations"], {1}),
    **dict.fromkeys(["lookup_byte_op", "lookup_single_byte", "lookup_halfword"], {1}),
}


def text_of(path):
    return (ROOT / path).read_text()


@cache
def numbers():
    """The number of each refusal, by its name."""
    found = re.findall(r"^refusal_number \((\w+) \w+\) = (\d+)$", text_of("crates/answer/specs/Refusal.antt"), re.M)
    return {name: int(number) for name, number in found}


def snake(name):
    return re.sub(r"(?<!^)(?=[A-Z])", "_", name).upper()


# ---- definitions as terms


def term(text):
    """A term as nested lists of words, by its brackets."""
    stack = [[]]
    for word in re.findall(r"[()]|[^\s(),;{}]+", text):
        if word == "(":
            stack.append([])
        elif word == ")" and len(stack) > 1:
            closed = stack.pop()
            stack[-1].append(closed)
        elif word != ")":
            stack[-1].append(word)
    return stack[0]


@cache
def imports(path):
    """Where a file's names come from: the file of each name, and of each alias."""
    found = {}
    for crate, file, names, alias in re.findall(
        r"use Rattle\.(\w+)\.specs\.(\w+)(?:\.\{([^}]*)\}| as ([\w-]+))?", text_of(path)
    ):
        target = f"crates/{crate}/specs/{file}.antt"
        for name in [*re.split(r",\s*", names), alias]:
            if name:
                found[name] = target
    return found


@cache
def definitions(path):
    """The definitions of a file that answer a refusal or what may be one: parameters and body of each clause."""
    if not (ROOT / path).is_file():
        return {}
    code = re.sub(r"--(?=\s|$).*", "", text_of(path))
    found = {}
    for name, kind in re.findall(r"^\s*(?:abbrev |unfoldable )?(?:pub )?([\w-]+) : (.*(?:\n(?!\s*[\w-]+ .*=).*→.*)*)$", code, re.M):
        if re.fullmatch(ANSWERS, kind.split("→")[-1].strip()):
            clauses = re.findall(rf"^( *){re.escape(name)}((?: [^=\n]*)?) =((?:.*\n)(?:\1 +.*\n)*)", code, re.M)
            found[name] = [(term(parameters), term(body)) for _, parameters, body in clauses]
    return found


def find(path, name):
    """The file of a definition that a file names, and its clauses."""
    alias, _, plain = name.rpartition(".")
    place = imports(path).get(alias or name, path)
    return place, definitions(place).get(plain)


def told(expression, path, bound, above):
    """The refusals that a term names, from left to right."""
    if isinstance(expression, str):
        if expression.split(".")[0] in bound:
            return bound[expression.split(".")[0]]
        return [numbers()[expression]] if expression in numbers() else applied(expression, [], path, bound, above)
    if expression and isinstance(expression[0], str) and expression[0] not in bound and expression[0] not in numbers():
        return applied(expression[0], expression[1:], path, bound, above)
    return [number for part in expression for number in told(part, path, bound, above)]


def applied(name, arguments, path, bound, above):
    """What a name says of its arguments: by its definition, where it has one clause; else what they say, and then its clauses."""
    said = [told(argument, path, bound, above) for argument in arguments]
    place, clauses = find(path, name)
    if not clauses or (place, name) in above:
        return sum(said, [])
    above = above | {(place, name)}
    if len(clauses) == 1 and all(isinstance(parameter, str) for parameter in clauses[0][0]):
        parameters, body = clauses[0]
        inner = {parameter: said[at] if at < len(said) else [] for at, parameter in enumerate(parameters)}
        return told(body, place, inner, above) + sum(said[len(parameters):], [])
    own = [number for parameters, body in clauses for number in told(body, place, dict.fromkeys(flat(parameters), []), above)]
    return sum(said, []) + own


def flat(words):
    return [word for part in words for word in (flat(part) if isinstance(part, list) else [part])]


@cache
def checks():
    """The refusals of each call in the order of its checks, each once, where it is checked first."""
    found = {}
    for file in sorted((ROOT / "crates/keccak_tables/src").glob("*.rt")):
        path = str(file.relative_to(ROOT))
        for name, contract in re.findall(r'extern "C" fn keccak_tables_(\w+)(.*?)^\{', file.read_text(), re.M | re.S):
            answer = " ".join(re.findall(r"ensures \w*\s*\{ (result\b.*?)\}\s*(?=ensures|requires|\Z)", contract, re.S))
            found[name] = READERS.get(name, list(dict.fromkeys(told([[], *term(answer)], path, {}, frozenset()))))
    return found


# ---- the tables


@cache
def order():
    """The numbers in the order of the checks, as host/README.md has them."""
    return [int(number) for number, _ in re.findall(r"^\| (\d+) \| `(\w+)` \|", text_of(HOST), re.M)]


def rank(number):
    """The place of a number in that order, behind all where it is missing."""
    return order().index(int(number)) if int(number) in order() else len(order())


def named(wrong, place, found, key=lambda name: name):
    """Holds a table of names and numbers against the definitions."""
    wanted = {key(name): number for name, number in numbers().items()}
    for name in sorted(set(found) | set(wanted)):
        if found.get(name) != wanted.get(name):
            wrong(place, f"refusal {name} is {found.get(name, 'missing')}, by the definitions {wanted.get(name, 'none')}")


def check_host(wrong):
    found = {name: int(number) for number, name in re.findall(r"^\| (\d+) \| `(\w+)` \|", text_of(HOST), re.M)}
    named(wrong, HOST, found)
    for call, given in checks().items():
        ordered = given == [number for number in order() if number in given]
        if ordered == (call in OTHER_ORDER):
            wrong(HOST, f"{call} checks {given}, which is{'' if ordered else ' not'} the order of the table (OTHER_ORDER in .ci/refusals.py)")


def check_binding(wrong):
    text = text_of(BINDING)
    named(wrong, BINDING, {name: int(number) for name, number in re.findall(r"const (\w+): u64 = (\d+);", text)}, snake)
    enum = text[text.index("pub enum Refusal"):text.index("impl Refusal")]
    named(wrong, BINDING, {name: int(number) for number, name in re.findall(r"^    /// (\d+): (?:.*\n    ///)*.*\n    (\w+) \{", enum, re.M)})


def check_header(wrong):
    text = text_of(HEADER)
    defined = re.findall(r"#define KECCAK_TABLES_REFUSAL_(\w+) (\d+)", text)
    named(wrong, HEADER, {name: int(number) for name, number in defined if name != "NONE"}, snake)
    listed = [int(number) for number in re.findall(r"^ \* {2,3}(\d+)  \w", text, re.M)]
    if listed != sorted(numbers().values()):
        wrong(HEADER, f"the list of refusals has {listed}")
    rows = re.findall(r"^ \* {2,3}(\d+)  (\w.*(?:\n \*      .*)*)", text, re.M)
    for number, words in rows:
        said = re.search(r"after (\d+) and before (\d+)", re.sub(r"\s{2,}[^\n]*\n \*\s+|\n \*\s+", " ", words))
        if said and not rank(said[1]) < rank(number) < rank(said[2]):
            wrong(HEADER, f"{number} is not checked after {said[1]} and before {said[2]} ({HOST})")


def header_calls():
    """The refusals that the comment of each call of the header lists, in its order."""
    for comment, name in re.findall(r"/\*((?:(?!\*/).)*)\*/\nKECCAK_TABLES_MUST_USE\n\w+ keccak_tables_(\w+)\(", text_of(HEADER), re.S):
        words = " ".join(re.sub(r"^\s*\* ?", "", line) for line in comment.splitlines())
        heads = [re.match(r"(?:then )?([1-9]\d*(?:(?:, | and )\d+)*)(?= [a-z`]|$)", clause.strip()) for clause in re.split(r"[.;:] +", words)]
        yield name, [int(number) for head in heads if head for number in re.findall(r"\d+", head[1])]


def check_calls(wrong):
    """What the header says of each call, and what the comparison tries it with, is what its contract's definitions have."""
    matrix = {name: {int(number) for number in given.split(",")} - {0} for name, given in
              re.findall(r'^    \("(\w+)", &\[([\d, ]+)\]\),$', text_of(MATRIX), re.M)}
    header = dict(header_calls())
    for call, given in checks().items():
        if set(header.get(call, [])) != set(given):
            wrong(HEADER, f"{call} is said to be refused by {sorted(set(header.get(call, [])))}, by its definitions {sorted(given)}")
        if matrix.get(call, set()) | UNTRIED.get(call, set()) != set(given):
            wrong(MATRIX, f"{call} is tried with {sorted(matrix.get(call, set()))}, its definitions have {sorted(given)}")
    for call in sorted((header.keys() | matrix.keys()) - checks().keys()):
        wrong(HEADER, f"there is no export {call}")


def check_proofs(wrong):
    """The numbers that stand behind a definition in the tables of docs/PROOFS.md, where all of them are listed."""
    for number, line in enumerate(text_of(PROOFS).splitlines(), 1):
        cells = line.strip("| ").split(" | ")
        said = re.search(r": (\d+(?:, \d+)+)(?=;|, else|$)", cells[1]) if len(cells) == 4 else None
        calls = [checks()[name] for name in re.findall(r"`(\w+)`", cells[0]) if name in checks()]
        shared = [shared_checks(*found) for found in re.findall(r"^`(\w+_refusal)`.*\(`(\w+/specs/\w+\.antt)`\)", cells[0])]
        for given in (calls[:1] + shared) if said else []:
            if list(dict.fromkeys(int(one) for one in said[1].split(", "))) != given:
                wrong(f"{PROOFS}:{number}", f"{said[1]} is said, {given} checked")


def shared_checks(name, path):
    return list(dict.fromkeys(told([name], f"crates/{path}", {}, frozenset())))


def check_changes(wrong, sentences):
    """The refusal that each request brings is the one of its sentence."""
    for item, said in re.findall(r"^\| (\d+), [^|]* \| ([\d, ]+|none) \|", text_of(CHANGES), re.M):
        of = " ".join(sentence for title, all_of in sentences.items() if title.startswith(f"Item {item}.") for sentence in all_of)
        asked = re.findall(r"Refused: (\d+),", of) + re.findall(r"(?:; |and )(\d+), (?:message|timestamps)", of)
        if re.findall(r"\d+", said) != asked:
            wrong(CHANGES, f"Item {item} is said to bring refusal {said}, its sentences {', '.join(asked) or 'none'}")


def check(wrong, sentences):
    check_host(wrong)
    check_binding(wrong)
    check_header(wrong)
    check_calls(wrong)
    check_proofs(wrong)
    check_changes(wrong, sentences)
    return len(checks())
