"""Runs the worked cases of a table over the built program: cases.py PROGRAM TABLE FOLDER.

The head of the table says how a case is written. Prints what differs, and then how many runs were as wanted."""

import pathlib
import subprocess
import sys


class Run:
    """The words of one run, its input, and what it is to print, to say on standard error and to end with."""

    def __init__(self, case, words, objects):
        self.case = case
        self.words = words
        self.objects = objects
        self.input = b""
        self.prints = b""
        self.error = b""
        self.status = 0


def read_table(text):
    """The runs of a table, each with the objects that are made before it."""
    lines, runs, case, objects, content = {}, [], None, {}, None
    for line in text.splitlines():
        if content is not None and (line.startswith("  ") or not line):
            put_line(lines, content, line.strip())
            continue
        if line.startswith("#") or not line:
            continue
        word, _, rest = line.partition(" ")
        if word == "line":
            name, _, said = rest.partition(" ")
            lines[name] = said
        elif word == "case":
            case, objects, content = rest, {}, None
        elif word in ("commit", "object"):
            path, _, cut = rest.partition(" ")
            if word == "commit":
                path = f"_delta_log/{int(path):020}.json"
            content = objects[path] = {"lines": [], "cut": cut == "cut"}
        elif word == "run":
            content = Run(case, rest.split(), objects)
            objects = {}
            runs.append(content)
        elif word == "ends":
            status, _, answer = rest.partition(" ")
            runs[-1].status = int(status)
            runs[-1].error = f"deltak: {answer}\n".encode()
        else:
            sys.exit(f"no such word: {line}")
    return runs


def put_line(lines, content, line):
    """Puts one more line to an object's lines, or to a run's input or output."""
    if isinstance(content, dict):
        content["lines"].append(lines.get(line, line))
    elif line:
        sign, _, said = line.partition(" ")
        text = (lines.get(said, said) + "\n").encode()
        if sign == "<":
            content.input += text
        else:
            content.prints += text


def bytes_of(made):
    """The bytes of an object. Blank lines behind its last one only part the table's blocks."""
    lines = list(made["lines"])
    while lines and not lines[-1]:
        lines.pop()
    return ("\n".join(lines) + ("" if made["cut"] else "\n")).encode()


def try_run(program, run, folder):
    """What differs in a run over a folder, or nothing."""
    for path, made in run.objects.items():
        target = folder / path
        target.parent.mkdir(parents=True, exist_ok=True)
        target.write_bytes(bytes_of(made))
    got = subprocess.run([program, folder, *run.words], input=run.input, capture_output=True, timeout=60)
    wanted = (run.status, run.prints, run.error)
    if (got.returncode, got.stdout, got.stderr) == wanted:
        return None
    return (
        f"{run.case}: {' '.join(run.words)}\n"
        f"  wanted {run.status} {run.error.decode()!r}\n{run.prints.decode()}"
        f"  got {got.returncode} {got.stderr.decode()!r}\n{got.stdout.decode(errors='replace')}"
    )


def main(program, table, work):
    runs = read_table(pathlib.Path(table).read_text())
    differ = 0
    for run in runs:
        folder = pathlib.Path(work) / run.case
        folder.mkdir(exist_ok=True)
        said = try_run(program, run, folder)
        if said is not None:
            differ += 1
            print(said)
    cases = len({run.case for run in runs})
    print(f"{len(runs)} runs of {cases} cases, {differ} not as wanted")
    sys.exit(1 if differ or not runs else 0)


main(*sys.argv[1:])
