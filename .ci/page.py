"""The statements on the page (crates/statements/proofs), in its order, and which demand, request or part of the scope each is on."""

import re
from functools import cache

import antt
import quotations

FOLDER = "crates/statements/proofs"
# The crates that one request brought. A file whose first line cites one is on its request; so is a statement that names one and says nothing else.
CITED = {"verdict_line": 2, "job": 10, "message": 13}
BROUGHT = {"registers": 8, "job": 10, "partners": 12, "same_operations": 12, "sha3": 13, "message": 13, "month": 14}


@cache
def files():
    """The files of the page in the order of Lib.antt."""
    names = re.findall(r"^pub mod (\w+)$", (antt.ROOT / FOLDER / "Lib.antt").read_text(), re.M)
    return [antt.parsed(f"{FOLDER}/{name}.antt") for name in names]


def standing(file):
    """The definitions of a file, by line."""
    return sorted({one for all_of in file.definitions.values() for one in all_of}, key=lambda one: one.line)


@cache
def statements():
    """What the page states: each public name."""
    return [one for file in files() for one in standing(file) if one.public]


def sentence(definition):
    """The comment above a definition; where it has none, that of the innermost module around it which has one."""
    around = [module.comment for module in reversed(definition.modules) if module.comment]
    return definition.comment or (around[0] if around else [])


def comments(definition):
    """All that is said above a definition and the modules around it, as one line."""
    around = [line for module in definition.modules for line in module.comment]
    return " ".join([*around, *definition.comment])


def item(number):
    return next(title for title in quotations.sections() if title.startswith(f"Item {number}."))


def named(text):
    """The requests that a comment names outside its quotations."""
    return [item(number) for number in re.findall(r"\bItems? (\d+)(?:[,: ]|$)", re.sub(r'"[^"]*"', "", text))]


def said(text, before):
    """The sections that a comment names or quotes; of several that have a quotation those that it was on before."""
    found = named(text)
    for quotation in re.findall(r'"([^"]*)"', text):
        titles = [title for title, sentences in quotations.sections().items() if quotations.stands(quotation, " ".join(sentences))]
        found += [title for title in titles if title in before + found] or titles
    return list(dict.fromkeys(found))


def heading(file, line):
    """The comment that begins with the last `-- ----` above a line; empty where there is none."""
    lines = (antt.ROOT / file.path).read_text().splitlines()
    first = next((at for at in reversed(range(line)) if re.match(r"\s*-- ----", lines[at])), None)
    if first is None:
        return ""
    last = next(at for at in range(first, len(lines)) if not lines[at].lstrip().startswith("--"))
    return " ".join(text.strip(" -") for text in lines[first:last])


def items(titles):
    return [title for title in titles if title.startswith("Item ")]


@cache
def sections():
    """The sections that each definition of the page is on: those that the comments above it name or quote. One without a comment is on what the
    one before it is on; one whose comment neither names nor quotes any, on what the run of statements is on that it stands in."""
    found = {}
    for file in files():
        of_file = [item(number) for crate, number in CITED.items() if f"({crate}/specs/" in file.comment[0]]
        run, over, last = of_file, "", []
        for one in standing(file):
            if heading(file, one.line) != over:
                over = heading(file, one.line)
                last = run = said(over, of_file) or of_file
            titles = said(comments(one), run)
            if items(run) and items(titles) and not set(run) & set(titles):
                run = items(titles)
            run = named(comments(one)) or run
            last = titles or (run if one.comment or not last else last)
            found[one] = list(dict.fromkeys([*of_file, *last])) or by_crate(one)
    return found


def by_crate(definition):
    """The requests whose crates a definition names."""
    numbers = {BROUGHT[other.crate] for other in definition.rests_on().found if other.crate in BROUGHT}
    return [item(number) for number in sorted(numbers)]


def requests():
    """The statements on each request, and those on none by the file that they stand in."""
    found = {title: [] for title in quotations.sections() if title.startswith("Item ")}
    for one in statements():
        for title in items(sections()[one]) or [f"On no request: {one.path.removeprefix('crates/')}"]:
            found.setdefault(title, []).append(one)
    return found
