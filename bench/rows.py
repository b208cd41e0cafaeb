"""rows.py OURS FOLDER PEER: has files made in the folder that look like checkpoints, and prints how long dk_bench and a plain Rust program take
to read their rows, and then how long to write these."""
import os
import shutil
import subprocess
import sys

from measure import least

TIMES = 3

# So many rows are written in a run, in as many files as these make.
WRITTEN = 500_000


def number(command):
    """The number that a program prints."""
    return int(subprocess.run(command, check=True, stdout=subprocess.PIPE).stdout)


def reading(ours, peer, path):
    print(f"{'rows':>7} {'groups':>6} {'pages':>5} {'how':>10} {'bytes':>10} {'ours':>10} {'plain Rust':>10} {'ratio':>6}")
    for rows, groups, pages in ((10_000, 1, 1), (100_000, 1, 1), (100_000, 1, 100), (100_000, 10, 10)):
        for how in ("plain", "dictionary"):
            subprocess.run([peer, "make", path, str(rows), str(groups), str(pages), how], check=True)
            mine = least([ours, "rows", "0", "0", str(TIMES), path]) / TIMES
            other = least([peer, "read", path, str(TIMES)]) / TIMES
            size = os.path.getsize(path)
            print(f"{rows:7} {groups:6} {pages:5} {how:>10} {size:10} {mine * 1e3:7.1f} ms {other * 1e3:7.1f} ms {mine / other:6.2f}")


def written(ours, peer, path, rows, word):
    """The size of the file that ours writes, which the plain program must read as so many rows."""
    own = f"{path}.ours"
    shutil.copyfile(path, own)
    size = number([ours, f"re{word}", "0", "0", "1", own])
    if number([peer, "read", own, "1"]) != rows:
        sys.exit(f"rows.py: what dk_bench {word} makes of {rows} rows is read as others")
    return size


def each(command, times):
    """The time of one writing: a run with none reads the rows alone."""
    return (least(command(str(times))) - least(command("0"))) / times


def writing(ours, peer, path):
    print(f"{'rows':>7} {'how':>10} {'bytes':>10} {'plain Rust':>10} {'ours':>10} {'plain Rust':>10} {'ratio':>6}")
    for rows in (10_000, 100_000):
        for how, word in (("plain", "write"), ("dictionary", "write_coded")):
            subprocess.run([peer, "make", path, str(rows), "1", "1", how], check=True)
            sizes = f"{written(ours, peer, path, rows, word):10} {os.path.getsize(path):10}"
            mine = each(lambda times: [ours, word, "0", "0", times, path], WRITTEN // rows)
            other = each(lambda times: [peer, "write", path, times, how], WRITTEN // rows)
            print(f"{rows:7} {how:>10} {sizes} {mine * 1e3:7.1f} ms {other * 1e3:7.1f} ms {mine / other:6.2f}")


def main():
    ours, folder, peer = sys.argv[1:]
    path = f"{folder}/data"
    print("reading")
    reading(ours, peer, path)
    print("writing: the bytes by each, and the times of one file without that of reading the rows")
    writing(ours, peer, path)


main()
