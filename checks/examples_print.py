"""Runs the commands that the README shows, in their order, and compares what they print with what stands behind them there.

A command is a line that begins with `$ ` in a block of text; an input behind `<<'END'` goes to the line `END`; the lines up to
the next command are what is printed, on standard output and on standard error. The program is run in place of `./deltak`, and a
folder of its own in place of `/tmp`. Commands that are neither `mkdir` nor the program aren't run."""

import pathlib
import re
import subprocess
import sys

README = pathlib.Path(__file__).resolve().parent.parent / "README.md"
BLOCK = re.compile(r"^```text\n(.*?)^```$", re.S | re.M)


def commands(block):
    """The commands of a block, each with its input and what it is to print."""
    lines = block.splitlines()
    while lines:
        command, given = lines.pop(0).removeprefix("$ "), ""
        if command.endswith(" <<'END'"):
            command = command.removesuffix(" <<'END'")
            end = lines.index("END")
            given, lines = "".join(line + "\n" for line in lines[:end]), lines[end + 1 :]
        printed = ""
        while lines and not lines[0].startswith("$ "):
            printed += lines.pop(0) + "\n"
        yield command, given, printed


def main(program, work):
    run, differ = 0, 0
    for block in BLOCK.findall(README.read_text()):
        if not block.startswith("$ "):
            continue
        for command, given, wanted in commands(block):
            if command.split()[0] not in ("mkdir", "./deltak"):
                continue
            words = [word.replace("/tmp", work, 1) for word in command.split()]
            words[0] = program if words[0] == "./deltak" else words[0]
            done = subprocess.run(words, input=given, stdout=subprocess.PIPE, stderr=subprocess.STDOUT, text=True, cwd=README.parent)
            run += 1
            if done.stdout != wanted:
                differ += 1
                print(f"README.md, `{command}` prints something else than stands there:\n{done.stdout}")
    print(f"{run} commands of the README, {differ} print something else")
    return 1 if differ or not run else 0


sys.exit(main(*sys.argv[1:]))
