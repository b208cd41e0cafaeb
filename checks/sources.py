"""What the sources of the repository declare: crates, functions with their clauses, types, and the definitions of specs/
and lemmas of proofs/ with the comments above them. It reads line by line, in the layout of rt fmt."""

import pathlib
import re

TOP = pathlib.Path(__file__).resolve().parent.parent
CRATES = TOP / "crates"

FUNCTION = re.compile(r"^\s*(pub(?:\(crate\))? )?(?:const )?fn (\w+)")
CLAUSE = re.compile(r"^\s*(?:ensures|requires)(?: (\w+))? \{(.*)")
TYPE = re.compile(r"^\s*(?:pub(?:\(crate\))? )?(struct|enum|trait|type|const|mod) (\w+)")
GHOST = re.compile(r"^\s*ghost (\w+)\b")
OWNER = re.compile(r"^(?:impl(?:<[^>]*>)? (?:.* for )?|(pub )?trait )(\w+)")
MEMBER = re.compile(r"^\s+(?:pub )?(\w+)(?:,| \{| \(|\(|:)")
IMPORT = re.compile(r"^\s*ghost use Rattle\.(\w+)\.specs\.([\w.]+)\.\{(.*)\};")
DEFINED = re.compile(r"^(pub )?(?:(?:abbrev|unfoldable|record|data) (?:pub )?)*(pub )?(?:record |data )?([^\s:(){}]+)(?: [({].*)? :(?: |$)")
USED = re.compile(r"^(?:pub )?use Rattle\.(\w+)\.specs\.([\w.]+)\.\{(.*)\}")
FIELD = re.compile(r"^\s+(?:pub )?(\w+) :")
PARAMETER = re.compile(r"(\w+): ")
WORD = re.compile(r"[A-Za-z_][\w-]*")


class Function:
    """A function: whether others may call it, the type or trait that it is of, its parameters, and its clauses by name. `cites`
    has the definitions that the clauses name, each as (crate, module, name)."""

    def __init__(self, owner, name, public):
        self.owner = owner
        self.name = name
        self.public = public
        self.parameters = set()
        self.clauses = {}
        self.cites = set()


class Definition:
    """A definition or lemma: its module, its name, and the comment above it. One without a comment of its own goes with the
    one before it, which is then its `leader`. `words` are those of its text, and `cites` the definitions that they name."""

    def __init__(self, module, name, comment, leader):
        self.module = module
        self.name = name
        self.comment = comment
        self.leader = leader or self
        self.words = set()
        self.cites = set()


class Crate:
    """What a crate declares. `names` are types, variants, fields, constants and modules; `within` pairs what is declared with
    the module, type or trait that it is declared in."""

    def __init__(self, name, stands_on):
        self.name = name
        self.stands_on = stands_on
        self.functions = []
        self.names = set()
        self.within = set()
        self.definitions = []
        self.lemmas = []

    def declares(self, name):
        """Whether something of this name is declared here."""
        return (
            name in self.names
            or any(name == f.name for f in self.functions)
            or any(name == d.name for d in self.definitions + self.lemmas)
        )


def read_code(crate, path):
    """Takes the functions, with their clauses, and the names of a source file."""
    crate.names.add(path.stem)
    imports, owner, in_trait, function, clause, in_type = {}, None, False, None, None, None
    for line in path.read_text().splitlines():
        found = IMPORT.match(line)
        if found:
            for name in found.group(3).split(","):
                imports[name.split(" as ")[-1].strip()] = (found.group(1), found.group(2), name.split(" as ")[0].strip())
            continue
        found = OWNER.match(line)
        if found:
            owner, in_trait = found.group(2), " trait " in f" {line}" and "impl" not in line
        if line.startswith("}"):
            owner, in_trait, in_type, function = None, False, None, None
        for found in (TYPE.match(line), GHOST.match(line)):
            if found and found.group(found.lastindex) != "use":
                crate.names.add(found.group(found.lastindex))
        if in_type and MEMBER.match(line):
            crate.names.add(MEMBER.match(line).group(1))
            crate.within.add((in_type, MEMBER.match(line).group(1)))
        found = TYPE.match(line)
        if found and found.group(1) in ("struct", "enum") and line.endswith("{"):
            in_type = found.group(2)
        found = FUNCTION.match(line)
        if found:
            function = Function(owner, found.group(2), found.group(1) == "pub " or in_trait)
            crate.functions.append(function)
            crate.within.update([(path.stem, function.name), (owner, function.name)])
            clause = None
            function.parameters.update(PARAMETER.findall(line))
            continue
        if function is None:
            continue
        found = CLAUSE.match(line)
        if found:
            clause = found.group(1) or ""
            function.clauses.setdefault(clause, "")
        if line.strip() == "{":
            function = None
        elif clause is None:
            function.parameters.update(PARAMETER.findall(line))
        elif not line.lstrip().startswith("//"):
            function.clauses[clause] += line
            function.cites.update(imports[word] for word in WORD.findall(line) if word in imports)


def read_definitions(crate, path, folder, into):
    """Takes the definitions of a file of specs/ or proofs/, each with the comment right above it."""
    module = ".".join(path.relative_to(CRATES / crate.name / folder).with_suffix("").parts)
    comment, leader, head, imports, own = [], None, True, {}, []
    for line in path.read_text().splitlines():
        found = USED.match(line)
        if found:
            for name in found.group(3).split(","):
                imports[name.split(" as ")[-1].strip()] = (found.group(1), found.group(2), name.split(" as ")[0].strip())
        if line.startswith("-- ---- "):
            leader, comment = Definition(module, "", line[8:], None), []
            continue
        if line.startswith("--"):
            comment.append(line[2:].strip())
            continue
        if head and line and not line.startswith("--"):
            head = False
            leader = Definition(module, "", " ".join(comment), None)
        found = DEFINED.match(line)
        if found and not line.startswith(("use ", "pub use ", "pub mod ", "mod ")):
            definition = Definition(module, found.group(3), " ".join(comment), None if comment else leader)
            leader = definition.leader
            own.append(definition)
            crate.within.add((path.stem, definition.name))
        elif FIELD.match(line):
            crate.names.add(FIELD.match(line).group(1))
            crate.within.add((path.stem, FIELD.match(line).group(1)))
        if own and not line.startswith(("use ", "pub use ")):
            own[-1].words.update(WORD.findall(line))
        comment = []
    imports.update({definition.name: (crate.name, module, definition.name) for definition in own})
    for definition in own:
        definition.cites = {imports[word] for word in definition.words if word in imports}
    into.extend(own)


def read_crates():
    """All crates by their names, in the order of crates.txt."""
    crates = {}
    for line in (TOP / "crates.txt").read_text().splitlines():
        name, _, below = line.split("#")[0].partition(":")
        if not name.strip():
            continue
        crate = Crate(name.split()[0], below.split())
        crates[crate.name] = crate
        folder = CRATES / crate.name
        for path in sorted(folder.glob("src/**/*.rt")):
            read_code(crate, path)
        for kind, into in (("specs", crate.definitions), ("proofs", crate.lemmas)):
            for path in sorted(folder.glob(f"{kind}/**/*.antt")):
                if path.name not in ("Lib.antt", "Answers.antt", "Invariants.antt"):
                    crate.names.add(path.stem)
                    read_definitions(crate, path, kind, into)
    return crates
