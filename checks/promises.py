"""Finds what docs/PROMISES.md names in the sources: crates, functions, clauses, types, definitions, laws, lemmas and files.

Names stand in backquotes. One is looked for in the crates that its section's heading names, and in those that they stand
on; a name with a path, as `laws::one` or `Reader::skip`, has its last part in that module or on that type. The name of a clause is
one of a function that stands in the same row or item, by itself or by its type, or in the section's heading. In brackets that
hold nothing but names, as (`same`), the name of a clause is never taken for something else that crates below declare."""

import re
import sys

from sources import CRATES, TOP, read_crates

DOCUMENT = TOP / "docs" / "PROMISES.md"
QUOTED = re.compile(r"`([^`]+)`")
NAME = re.compile(r"^[A-Za-z_][\w-]*$")
PATH = re.compile(r"^(?:[A-Za-z_][\w-]*(?:::|\.))+[A-Za-z_][\w-]*$")
BRACKETS = re.compile(r"\((?:clauses? )?((?:`[^`]+`(?:, | and )?)+)\)")
# words of the command line and of tools, and names of files that other tables explain
OTHERS = {"rt", "None", "Some", "Ok", "Err", "From", "Display", "Error", "show", "commit"}
# a feature or a field of the formats
FORMAT_WORD = re.compile(r"^[a-z]+[A-Z]\w*$")


def items(text):
    """The rows, items and paragraphs of a section."""
    item = ""
    for line in text.splitlines():
        if line.startswith(("|", "- ")) or not line.strip():
            if item:
                yield item
            item = ""
        item += line + "\n"
    if item:
        yield item


def functions_in(item, own):
    """The functions of these crates that an item names by themselves or by their type; where it names none, all."""
    names = {re.split(r"::|\.", said.split()[0])[-1] for said in QUOTED.findall(item)}
    every = [f for crate in own for f in crate.functions]
    return [f for f in every if f.name in names or f.owner in names] or every


def is_file(said, own):
    """Whether a path is there, from the top or in one of the crates."""
    return (TOP / said).exists() or any((CRATES / crate.name / said).exists() for crate in own)


def has_path(said, around, crates):
    """Whether the last part of a path is declared in the module, on the type or in the crate before it."""
    *before, last = re.split(r"::|\.", said)
    if before[0] in crates:
        return crates[before[0]].declares(last)
    return any((before[-1], last) in crate.within for crate in around)


def misses(item, function, own, around, crates):
    """The names of an item that aren't in the sources."""
    functions = functions_in(item, own) + function
    clauses = {clause for f in functions for clause in f.clauses} | {name for f in functions for name in f.parameters}
    every_clause = {clause for crate in own for f in crate.functions for clause in f.clauses}
    in_brackets = {said for found in BRACKETS.findall(item) for said in QUOTED.findall(found)}
    kit = {name for crate in around for name in crate.stands_on} | set(crates) | OTHERS
    for said in QUOTED.findall(item):
        word = said.split()[0]
        if FORMAT_WORD.match(word):
            continue
        if NAME.match(word) and word not in kit and word not in clauses:
            near = own if said in in_brackets and word in every_clause else around
            if not any(crate.declares(word) for crate in near):
                yield f"`{said}` is no clause of a function named beside it, and not declared in the crates around"
        elif "/" in word or word.endswith((".rt", ".antt")):
            if not is_file(word, own):
                yield f"`{said}` isn't there"
        elif PATH.match(word) and not has_path(word, around, crates):
            yield f"`{said}` isn't declared"


def main():
    crates = read_crates()
    named, missed = 0, 0
    for section in re.split(r"^## ", DOCUMENT.read_text(), flags=re.M)[1:]:
        heading, _, text = section.partition("\n")
        own = [crates[name] for name in re.findall(r"\w+", heading) if name in crates] or list(crates.values())
        below, todo = list(own), list(own)
        while todo:
            for name in todo.pop().stands_on:
                if name in crates and crates[name] not in below:
                    below.append(crates[name])
                    todo.append(crates[name])
        function = [f for name in QUOTED.findall(heading) for crate in own for f in crate.functions if f.name == name and f.public]
        for item in items(text):
            named += len(QUOTED.findall(item))
            for said in misses(item, function, own, below, crates):
                missed += 1
                print(f"{heading}: {said}: {' '.join(item.split())[:60]}..")
    print(f"{named} names in docs/PROMISES.md, {missed} not found")
    return 1 if missed or not named else 0


sys.exit(main())
