"""Finds the lemmas that docs/PROVING.md names in proofs/ of the crates.

It names a module, as `dk_model.proofs.Clear`, or lemmas of it, as `dk_model.proofs.Clear.text_clear`. What stands right behind, parted by
commas, is a lemma of the same module, or a module beside it, as `Puts` or `Puts.put_adds_commit`. In the section of some crates such a name
is of their modules. A lemma to cite is declared `pub`, since other modules are to use it."""

import re
import sys

from sources import CRATES, TOP

DOCUMENT = TOP / "docs" / "PROVING.md"
TO_CITE = "Lemmas to cite"
QUOTED = re.compile(r"`([^`]+)`")
WHOLE = re.compile(r"^(dk_\w+)\.proofs\.([A-Z]\w*)(?:\.(.+))?$")
BESIDE = re.compile(r"^([A-Z]\w*)(?:\.([a-z][\w-]*|\{.*\}))?$")
NAME = re.compile(r"^[A-Za-z][\w-]*$")
# between two names of a list, and between a module and the list of what it has
GOES_ON, BEGINS = re.compile(r"^(?: and kin)?[,;]\s*$"), re.compile(r"^\s*\($")
DECLARED = re.compile(r"^\s*(?:(?:abbrev|unfoldable|record|data) )?(pub )?(?:(?:record|data|abbrev|unfoldable) )?([^\s:(){}]+)(?: [({].*)? :(?: |$)")


def declared(crate, module):
    """The names that a module of proofs/ declares, each with whether it is public; None where there is no such module."""
    path = CRATES / crate / "proofs" / f"{module}.antt"
    if not path.exists():
        return None
    found = [match for line in path.read_text().splitlines() if (match := DECLARED.match(line))]
    return {match.group(2): bool(match.group(1)) for match in found}


def items(text):
    """The items and paragraphs, each with the crates of the heading above it, and whether what it names is to be cited."""
    crates, cites, item = [], False, ""
    for line in text.splitlines() + [""]:
        if item and (line.startswith(("- ", "#")) or not line.strip()):
            yield crates, cites or item.startswith(f"- {TO_CITE}"), item
            item = ""
        if line.startswith("#"):
            crates, cites = re.findall(r"dk_\w+", line), TO_CITE in line
        else:
            item += line + "\n"


def citations(crates, item):
    """What an item names: as it is said, the crates of which one has the module, the module, and names in it."""
    module, names, end = None, "", 0
    for found in QUOTED.finditer(item):
        said, between = found.group(1), item[end : found.start()]
        follows = module and (GOES_ON.match(between) or (not names and BEGINS.match(between)))
        whole, beside = WHOLE.match(said), BESIDE.match(said)
        is_module = beside and any(declared(crate, beside.group(1)) is not None for crate in crates)
        if whole:
            crates, module, names = [whole.group(1)], whole.group(2), whole.group(3) or ""
        elif is_module or (follows and beside and beside.group(2)):
            module, names = beside.group(1), beside.group(2) or ""
        elif follows and NAME.match(said):
            names = said
        else:
            module = None
            continue
        end = found.end()
        yield said, crates, module, re.findall(r"[^{},\s]+", names)


def misses(crates, cites, item):
    """Why what an item names can't be found, or can't be cited."""
    for said, around, module, names in citations(crates, item):
        there = [found for crate in around if (found := declared(crate, module)) is not None]
        if not there:
            yield f"`{said}`: proofs/ of {', '.join(around)} has no module {module}"
        for name in names if there else []:
            if not any(name in found for found in there):
                yield f"`{said}`: {module} has no {name}"
            elif cites and not any(found.get(name) for found in there):
                yield f"`{said}`: {name} of {module} isn't public"


def main():
    missing = [miss for item in items(DOCUMENT.read_text()) for miss in misses(*item)]
    for line in missing:
        print(f"docs/PROVING.md: {line}", file=sys.stderr)
    return 1 if missing else 0


if __name__ == "__main__":
    sys.exit(main())
