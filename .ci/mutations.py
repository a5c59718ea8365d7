"""Small changes to a crate's sources, for .ci/mutants: what stands where, and which other text could stand there.

A change is an area (code, contract, definition), a kind, a file below the crate and the text from `start` to `end` that becomes `new`. Code is
what stands in src/ outside the contracts; contracts are the braces behind `requires` and `ensures`; definitions are the right sides of
equations and the fields of records in specs/. What would need a name that the file does not import is imported with it or not offered.
"""

import re
from collections import namedtuple

Change = namedtuple("Change", "area kind file start end new")

ATOM = r"(?:[\w.«»'₀-₉-]+|\([^()\n]*\))"
HOME = "Rattle.std.specs.Prelude"  # of the operators and names of terms
NOTHING = "Unit {0}"  # what is left of a statement that is left out: the place stays, so that nothing is missing a name
# What stands for an operator of a term, and the kind of that change.
TERM_OPERATORS = {
    **{old: (new, "comparison") for old, new in [("≤", "<"), ("<", "≤")]},
    **{old: (new, "operator") for old, new in [("+", "-"), ("-", "+"), ("*", "+"), ("/", "%"), ("%", "/"), ("&&", "||"), ("||", "&&")]},
}
TERM_NAMES = {
    **{old: (f"{HOME}.{new}", "comparison") for old, new in [("ltb", "leb"), ("leb", "ltb"), ("eqb", "leb")]},
    **{old: (f"{HOME}.{new}", "operator") for old, new in [("take", "drop"), ("drop", "take"), ("true", "false"), ("false", "true")]},
}
CODE_OPERATORS = {
    **{old: (new, "comparison") for old, new in [("<", "<="), ("<=", "<"), (">", ">="), (">=", ">"), ("==", "!="), ("!=", "==")]},
    **{old: (new, "operator") for old, new in [("+", "-"), ("-", "+"), ("*", "+"), ("/", "%"), ("%", "/"), ("^", "&"), ("&", "|"), ("|", "^")]},
    **{old: (new, "operator") for old, new in [("&&", "||"), ("||", "&&"), ("<<", ">>"), (">>", "<<")]},
}
# Functions whose last of so many arguments is what holds where they are left out.
CHECKS = {"refuse_if": 3, "refuse_at": 3, "too_short": 3, "not_rounds": 2, "not_floor": 2, "past_end": 3, "over_limit": 2}


def without_remarks(text, mark):
    """The text with every remark, and every line that imports, as spaces, so that places stay what they are."""
    blank = lambda m: re.sub(r"[^\n]", " ", m.group(0))  # noqa: E731
    text = re.sub(rf"(?m)(?<!\S){mark}.*$", blank, text)
    return re.sub(r"(?m)^(?:ghost |pub )*(?:use|mod) .*$", blank, text)


def closing(text, start):
    """The place behind the bracket that closes the one at `start`."""
    depth = 0
    for place in range(start, len(text)):
        depth += (text[place] in "({") - (text[place] in ")}")
        if depth == 0:
            return place + 1
    return len(text)


def parts(text, start, end, mark):
    """The parts of text[start:end] between the marks that stand in no bracket, as places."""
    found, depth, begun = [], 0, start
    for place in range(start, end):
        depth += (text[place] in "({") - (text[place] in ")}")
        if depth == 0 and text.startswith(mark, place):
            found.append((begun, place))
            begun = place + len(mark)
    return found + [(begun, end)]


def arguments(text, place, end):
    """The arguments of a function from a place on, up to the first operator, as places."""
    found, pattern = [], re.compile(r"\s*((?:\((?:[^()]|\((?:[^()]|\([^()]*\))*\))*\)|[\w«»'₀-₉-]+)(?:\.[\w«»-]+)*)(?=[\s)]|$)")
    while match := pattern.match(text, place, end):
        found.append(match.span(1))
        place = match.end(1)
    return found


def numerals(text, start, end):
    """Every number of a text, one more and one less."""
    for match in re.finditer(r"(?<![\w.«'₀-₉-])(\d+)(?=(?:u8|u16|u32|u64|usize)?(?![\w.'-]))", text[start:end]):
        place, value = start + match.start(1), int(match.group(1))
        for other in (value + 1, value - 1):
            if other >= 0:
                yield "constant", place, place + len(match.group(1)), str(other)


def operators(text, start, end, table, exchanged):
    """Another operator in place of each, and the operands of one that does not commute exchanged."""
    for match in re.finditer(r"(?<= )([^\w\s()]{1,2})(?= )", text[start:end]):
        if match.group(1) in table:
            new, kind = table[match.group(1)]
            yield kind, start + match.start(1), start + match.end(1), new
    for match in re.finditer(rf"(?<![^\s(])({ATOM}) ({exchanged}) ({ATOM})(?![^\s);,])", text[start:end]):
        left, sign, right = match.groups()
        if left != right:
            yield "operands", start + match.start(), start + match.end(), f"{right} {sign} {left}"


def conjuncts(text, start, end):
    """A conjunct left out, of a statement that has several."""
    found = parts(text, start, end, " × ")
    for begun, ended in found if len(found) > 1 else []:
        piece = text[begun:ended]
        if not re.match(r"\s*\(\S+(?: \S+)* : ", piece) and len(parts(text, begun, ended, " → ")) == 1:
            yield "conjunct", begun + len(piece) - len(piece.lstrip()), begun + len(piece.rstrip()), NOTHING


def picks(text, start, end):
    """One branch of a choice in place of the choice, and what follows a check in place of the check."""
    for match in re.finditer(r"(?<![\w.-])([\w]+)(?= )", text[start:end]):
        name, begun = match.group(1), start + match.start()
        found = arguments(text, start + match.end(), end) if name == "pick" or name in CHECKS else []
        for index in (1, 2) if name == "pick" and len(found) == 3 else ():
            yield "branch", begun, found[2][1], text[slice(*found[index])]
        if len(found) == CHECKS.get(name):
            yield "branch", begun, found[-1][1], text[slice(*found[-1])]


def neighbours(text, start, end, names):
    """Two arguments that stand side by side exchanged, where both are parameters of one type, and elements of a list that does."""
    for match in re.finditer(r"(?<=[ (])(?=([^\s()]+) ([^\s()]+)(?=[\s)]|$))", text[start:end]):
        left, right = match.groups()
        if left != right and names.get(left, left) == names.get(right, right):
            yield "operands", start + match.start(1), start + match.end(2), f"{right} {left}"
    for match in re.finditer(r"(?<![^\s(])([^\s()∷]+) ∷ ([^\s()∷]+)(?= ∷)", text[start:end]):
        if match.group(1) != match.group(2):
            yield "operands", start + match.start(), start + match.end(), f"{match.group(2)} ∷ {match.group(1)}"


def terms(text, start, end, names):
    """Every change of a term of the logic."""
    yield from numerals(text, start, end)
    yield from operators(text, start, end, TERM_OPERATORS, "[-/%≤<]")
    yield from conjuncts(text, start, end)
    yield from picks(text, start, end)
    yield from neighbours(text, start, end, names)
    for match in re.finditer(r"(?<![\w.-])([a-z]+)(?![\w.-])", text[start:end]):
        if match.group(1) in TERM_NAMES:
            new, kind = TERM_NAMES[match.group(1)]
            yield kind, start + match.start(), start + match.end(), new


def contract_spans(text):
    """The braces behind `requires` and `ensures`, as places inside them."""
    for match in re.finditer(r"\b(?:requires|ensures)(?: \w+)? \{", text):
        yield match.end(), closing(text, match.end() - 1) - 1


def code_changes(text):
    """Every change of what runs: the contracts count as spaces here."""
    for start, end in contract_spans(text):
        text = text[:start] + re.sub(r"[^\n]", " ", text[start:end]) + text[end:]
    text = re.sub(r"(?m)^\s*#!?\[.*$|^.*\bfn .*$|b?\"[^\"\n]*\"", lambda m: re.sub(r"[^\n]", " ", m.group(0)), text)
    yield from numerals(text, 0, len(text))
    yield from operators(text, 0, len(text), CODE_OPERATORS, "-|/|%|<|<=|>|>=")
    for match in re.finditer(r"(?<=[(\s])(?=([\w.]+), ([\w.]+)[,)])", text):
        if match.group(1) != match.group(2):
            yield "operands", match.start(1), match.end(2), f"{match.group(2)}, {match.group(1)}"
    for match in re.finditer(r"\bif (?!let )([^{}\n]+?) \{", text):
        for new in ("true", "false"):
            yield "branch", match.start(1), match.end(1), new
    for match in re.finditer(r"\b(true|false)\b", text):
        yield "constant", *match.span(), {"true": "false", "false": "true"}[match.group(1)]
    for match in re.finditer(r"(?m)^ +(?! )((?!let |return|break|continue)[\w:.\[\]* ]+(?:\(.*\)| [-+*/%^|&]?= [^;]*);)$", text):
        yield "statement", match.start(1), match.end(1), ""


def contract_changes(text):
    """Every change of a contract: a whole clause left out, or a change of its term."""
    for start, end in contract_spans(text):
        inner = text[start:end]
        span = (start + len(inner) - len(inner.lstrip()), start + len(inner.rstrip()))
        yield "clause", *span, NOTHING
        yield from terms(text, *span, {})


def equations(text):
    """The right side of every equation, as places, with the types of its plain parameters."""
    kept = None
    for match in re.finditer(r"(?m)^( *)((?:(?:unfoldable|abbrev|pub|private) )*)(\S+)( : | )(.*(?:\n\1 +\S.*)*)", text):
        indent, marks, name, sign, rest = match.groups()
        if sign == " : ":
            kept = (indent, name, [rest[a:b].strip() for a, b in parts(rest, 0, len(rest), " → ")])
        elif kept and not marks and kept[:2] == (indent, name) and (equal := re.search(r"(?:^|\s)=\s", rest)):
            words = rest[: equal.start()].split() if "(" not in rest[: equal.start()] else []
            yield match.start(5) + equal.end(), match.end(), dict(zip(words, kept[2])) if len(words) < len(kept[2]) else {}


def fields(text):
    """The type of every field of a record that is a statement, as places."""
    for record in re.finditer(r"(?m)^pub record .* where\n((?:(?: .*)?\n)*)", text):
        for match in re.finditer(r"(?m)^  pub \S+ : (.*(?:\n {3,}\S.*)*)", record.group(1)):
            start, end = parts(match.group(1), 0, len(match.group(1)), " → ")[-1]
            if re.search(r"[≡≤<]|^\s*[A-Z][\w-]+ (?<!List )(?<!Option )", match.group(1)[start:end]):
                yield record.start(1) + match.start(1), record.start(1) + match.end(1)


def definition_changes(text):
    """Every change of a definition: a change of an equation's right side or of a field, or a field left out."""
    for start, end, names in equations(text):
        yield from terms(text, start, end, names)
    for start, end in fields(text):
        yield "field", start, end, NOTHING
        yield from terms(text, start, end, {})


def changes(crate):
    """Every change of a crate's sources, in the order of its files."""
    found = {}
    for path in sorted(crate.glob("src/**/*.rt")):
        text = without_remarks(path.read_text(), "//")
        for area, source in (("code", code_changes), ("contract", contract_changes)):
            for kind, start, end, new in source(text):
                found[Change(area, kind, str(path.relative_to(crate)), start, end, new)] = path
    for path in sorted(crate.glob("specs/**/*.antt")):
        text = without_remarks(path.read_text(), "--")
        for kind, start, end, new in definition_changes(text):
            found[Change("definition", kind, str(path.relative_to(crate)), start, end, new)] = path
    return [change for change, path in found.items() if changed(path.read_text(), change) is not None]


def changed(text, change):
    """The text with the change, and the operator that it needs imported; none where the file imports nothing from the operator's home."""
    new = text[: change.start] + change.new + text[change.end :]
    sign = change.new if change.area != "code" and change.new in TERM_OPERATORS else None
    if sign is None or f"◌{sign}◌" in text:
        return new
    line = re.search(rf"(?m)^(?:ghost )?use {re.escape(HOME)}\.\{{", text)
    return None if line is None else new[: line.end()] + f"◌{sign}◌, " + new[line.end() :]
