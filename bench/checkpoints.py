"""checkpoints.py OURS FOLDER PEER: has classic checkpoints made in the folder, and a commit of the same actions, and prints the time and the memory
that dk_bench and a plain Rust program take to read the actions of a checkpoint, and to write the checkpoint of the state that they lead to."""
import os
import subprocess
import sys

from measure import least, peak

LOG = "_delta_log/00000000000000000000"

# A small checkpoint is read and written so many times in a run.
TIMES = {100_000: 5, 1_000_000: 1}


def number(command):
    """The number that a program prints."""
    return int(subprocess.run(command, check=True, stdout=subprocess.PIPE).stdout)


def row(what, rows, mine, other, times):
    """The time of one call by each, and the memory of one run that makes it once."""
    seconds = [(least(command(str(times))) - (least(command("0")) if what == "classic" else 0)) / times for command in (mine, other)]
    bytes_held = [peak(command("1")) for command in (mine, other)]
    print(f"{what:>10} {rows:8}"
          f" {seconds[0] * 1e3:8.1f} ms {seconds[1] * 1e3:8.1f} ms {seconds[0] / seconds[1]:6.2f}"
          f" {bytes_held[0] / 1e6:8.1f} MB {bytes_held[1] / 1e6:8.1f} MB {bytes_held[0] / bytes_held[1]:6.2f}", flush=True)


def main():
    ours, folder, peer = sys.argv[1:]
    os.makedirs(f"{folder}/_delta_log")
    path = f"{folder}/{LOG}.checkpoint.parquet"
    print(f"{'':>10} {'rows':>8} {'ours':>11} {'plain Rust':>11} {'ratio':>6} {'ours':>11} {'plain Rust':>11} {'ratio':>6}")
    for rows in TIMES:
        subprocess.run([peer, "make", path, str(rows), "1", "1", "plain"], check=True)
        subprocess.run([peer, "commit", path, f"{folder}/{LOG}.json"], check=True)
        for what, word in (("checkpoint", "read_actions"), ("classic", "classic")):
            mine = lambda times: [ours, what, "0", "0", times, folder]
            other = lambda times: [peer, word, path, times]
            if number(mine("1")) == 0 or what == "checkpoint" and number(mine("1")) != number(other("1")):
                sys.exit(f"checkpoints.py: dk_bench {what} of {rows} rows is another")
            row(what, rows, mine, other, TIMES[rows])


main()
