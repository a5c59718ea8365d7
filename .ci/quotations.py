"""Quotation marks on the page of statements and in docs/PROOFS.md stand for sentences of the papers alone.

The papers (demands, scope, change requests) are no part of the repository. `.ci/sentences` has those of their sentences that are quoted, each
on a line, in the papers' order, in a section for each demand, each request and each part of the scope. Of demands and requests it has every
sentence, and docs/PROOFS.md has a row for each. `..` in a quotation leaves something out.
"""

import re
from functools import cache
from pathlib import Path

ROOT = Path(__file__).resolve().parent.parent
SENTENCES = ".ci/sentences"
TABLE = "docs/PROOFS.md"
# Where a name is still to be filled in.
OPEN = "TODO-JOIN"


@cache
def sections():
    """The sentences by their section's title, in the file's order."""
    found, title = {}, None
    for line in (ROOT / SENTENCES).read_text().splitlines():
        if line.startswith("# "):
            title = line[2:]
            found[title] = []
        elif line:
            found[title].append(line)
    return found


def asked(title):
    """Whether each sentence of the section is to have a row."""
    return title.startswith(("Demand ", "Item "))


@cache
def page():
    """The files of the page of statements."""
    return sorted(path for path in (ROOT / "crates/statements/proofs").glob("*.antt") if path.name != "Lib.antt")


def comments(text):
    """Runs of comment lines, each with the number of its first line."""
    first, run = 0, []
    for number, line in enumerate(text.splitlines() + [""], 1):
        comment = re.match(r"\s*--(?:\s(.*))?$", line)
        if comment:
            first = first if run else number
            run.append((comment[1] or "").strip())
        elif run:
            yield first, "\n".join(run)
            run = []


def quotations(number, text):
    """What stands in quotation marks, with its line; none where a mark is left over."""
    for quoted in re.finditer(r'"([^"]*)"', text):
        yield number + text.count("\n", 0, quoted.start()), " ".join(quoted[1].split())


def parts(quotation):
    """What a quotation has of its sentence, without the marks at either end."""
    stripped = [part.strip(" .,;:") for part in re.split(r"(?:^|\s)\.\.(?=\s|$|[,;:)])", quotation)]
    return [part for part in stripped if part]


def stands(quotation, text):
    """Whether the parts of a quotation stand in the text one after the other."""
    at = 0
    for part in parts(quotation):
        at = text.find(part, at)
        if at < 0:
            return False
        at += len(part)
    return bool(parts(quotation))


def every_quotation(wrong):
    """The quotations of the page and of docs/PROOFS.md, with their places."""
    texts = [(str(path.relative_to(ROOT)), comments(path.read_text())) for path in page()]
    texts.append((TABLE, enumerate((ROOT / TABLE).read_text().splitlines(), 1)))
    for name, runs in texts:
        for first, text in runs:
            if text.count('"') % 2:
                wrong(f"{name}:{first}", "a quotation mark is left over")
            for number, quotation in quotations(first, text):
                yield f"{name}:{number}", quotation


def check(wrong):
    """Names quotations that are none, sentences without a row and sentences that nobody quotes. Answers how many quotations there are."""
    joined = {title: " ".join(sentences) for title, sentences in sections().items()}
    found = list(every_quotation(wrong))
    for place, quotation in found:
        if not any(stands(quotation, text) for text in joined.values()):
            wrong(place, f'no sentence of the papers ({SENTENCES}): "{quotation}"')
    rows = {quotation for place, quotation in found if place.startswith(TABLE)}
    for title, sentences in sections().items():
        for sentence in sentences:
            if asked(title) and sentence not in rows:
                wrong(TABLE, f"has no row for a sentence of {title}: {sentence}")
            elif not asked(title) and not any(stands(quotation, joined[title]) and shares(quotation, sentence) for _, quotation in found):
                wrong(SENTENCES, f"nobody quotes: {sentence}")
    for number, line in enumerate((ROOT / TABLE).read_text().splitlines(), 1):
        for _ in range(line.count(OPEN)):
            wrong(f"{TABLE}:{number}", f"{OPEN}: a statement is still to be named")
    return len(found)


def shares(quotation, sentence):
    """Whether a quotation has some of a sentence."""
    return any(part in sentence or sentence in part or sentence.strip(".") in part for part in parts(quotation))
