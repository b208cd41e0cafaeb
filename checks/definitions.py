"""Draws the entries of docs/DEFINITIONS.md from the comments above the definitions in specs/: each definition that a clause of
a public function names has one, in the block of its crate, and so has each that one of these names and that has a comment
of its own. definitions.py compares; definitions.py --write writes them.

A crate's block stands in the document between the lines `<!-- drawn from crates/NAME/specs -->` and `<!-- end -->`; what
stands outside is written by hand."""

import re
import sys
import textwrap

from sources import TOP, read_crates

DOCUMENT = TOP / "docs" / "DEFINITIONS.md"
# modules of worked logs and their events, which define nothing that others build on
WORKED = re.compile("Example|BrokenRules")
BLOCK = re.compile(r"<!-- drawn from crates/(\w+)/specs -->\n(.*?)<!-- end -->\n", re.S)


def cited(crates):
    """The definitions that clauses of public functions name, and those that these name, as (crate, module, name)."""
    names = set()
    for crate in crates.values():
        for function in crate.functions:
            if function.public:
                names |= function.cites
    for crate in crates.values():
        for definition in crate.definitions:
            if (crate.name, definition.module, definition.name) in names:
                names = names | {name for name in definition.cites if has_comment(crates, name)}
    return names


def has_comment(crates, name):
    """Whether this definition is one of the repository with a comment of its own."""
    crate, module, said = name
    return crate in crates and any(
        d.name == said and d.module == module and d.leader is d and d.comment for d in crates[crate].definitions
    )


def entries(crate, names):
    """The entries of a crate: the definitions that share a comment stand in one."""
    together = {}
    for definition in crate.definitions:
        if (crate.name, definition.module, definition.name) in names and not WORKED.search(definition.module):
            together.setdefault(id(definition.leader), (definition.leader, []))[1].append(definition)
    text = ""
    for leader, definitions in together.values():
        said = ", ".join(dict.fromkeys(f"`{d.name}`" for d in definitions))
        line = f"{said} (`{definitions[0].module}`): {leader.comment}"
        text += "\n".join(textwrap.wrap(line, 118, initial_indent="- ", subsequent_indent="  ", break_on_hyphens=False)) + "\n"
    return text


def with_section(document, name, order):
    """The document with a section for a crate, before that of the next crate in the order of crates.txt that has one."""
    section = f"## {name}\n\n<!-- drawn from crates/{name}/specs -->\n<!-- end -->\n"
    for later in order[order.index(name) + 1 :]:
        before, heading, behind = document.partition(f"\n## {later}\n")
        if heading:
            return f"{before}\n{section}{heading}{behind}"
    return f"{document}\n{section}"


def main(write):
    crates = read_crates()
    names = cited(crates)
    document = DOCUMENT.read_text()
    behind = 0
    drawn = {name: entries(crate, names) for name, crate in crates.items()}
    found = [name for name, _ in BLOCK.findall(document)]
    for name in sorted({name for name in found if found.count(name) > 1}):
        behind += 1
        print(f"docs/DEFINITIONS.md has more than one block drawn from crates/{name}/specs")
    blocks = dict(BLOCK.findall(document))
    for name, text in drawn.items():
        if name not in blocks and text:
            behind += 1
            print(f"docs/DEFINITIONS.md has no block drawn from crates/{name}/specs")
            document = with_section(document, name, list(crates))
        elif blocks.get(name, "") != text:
            behind += 1
            old, new = set(blocks[name].split("\n- ")), set(text.split("\n- "))
            print(f"docs/DEFINITIONS.md has fallen behind crates/{name}/specs: {len(new - old)} entries to come, {len(old - new)} to go")
    for name in blocks:
        if name not in crates:
            behind += 1
            print(f"docs/DEFINITIONS.md has a block of {name}, which is no crate")
    if not write:
        count = sum(text.count("- `") for text in drawn.values())
        print(f"{count} entries of definitions, {behind} blocks behind")
        return 1 if behind else 0
    document = BLOCK.sub(lambda b: f"<!-- drawn from crates/{b.group(1)}/specs -->\n{drawn.get(b.group(1), '')}<!-- end -->\n", document)
    DOCUMENT.write_text(document)
    return 0


sys.exit(main("--write" in sys.argv[1:]))
