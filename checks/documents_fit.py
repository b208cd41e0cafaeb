"""Looks over README.md and docs/: no line but one of a block of code has more than 120 characters, each document that the
README's table names is there and each that is there is named, and the README says how many crates the program stands on."""

import re
import sys

from sources import TOP, read_crates


def long_lines(document):
    """The numbers of the lines with more than 120 characters, outside of blocks of code."""
    code = False
    for number, line in enumerate(document.read_text().splitlines(), 1):
        if line.startswith("```"):
            code = not code
        elif not code and len(line) > 120:
            yield number


def stands_on(name, crates, found):
    """The crates of the repository that a crate stands on, itself among them."""
    if name in crates and name not in found:
        found.add(name)
        for below in crates[name].stands_on:
            stands_on(below, crates, found)
    return found


def faults():
    documents = sorted((TOP / "docs").glob("*.md"))
    readme = (TOP / "README.md").read_text()
    for document in [TOP / "README.md", *documents]:
        for number in long_lines(document):
            yield f"{document.relative_to(TOP)}: line {number} has more than 120 characters"
    named = set(re.findall(r"^\| `docs/([A-Z]+\.md)` \|", readme, re.M))
    for name in named ^ {document.name for document in documents}:
        yield f"docs/{name} is not both there and in the README's table"
    count = len(stands_on("deltak", read_crates(), set()))
    if f"the {count} crates that it is made" not in " ".join(readme.split()):
        yield f"README.md doesn't say that the program is made of {count} crates"


found = list(faults())
print("\n".join(found) if found else "README.md and docs/ fit")
sys.exit(1 if found else 0)
