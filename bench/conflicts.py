"""conflicts.py OURS FOLDER: makes texts of commits in the folder, and prints how long dk_bench takes to find that none of those that came in
between is in the way of one's own, and for each action and each path of one's own."""
import json
import sys

from measure import least, write

TIMES = 5
WINNER = 1000


def line(kind, **fields):
    return json.dumps({kind: fields}, separators=(",", ":"))


def text(own, winners):
    """Files that are removed; and commits that add and remove other files, a half each."""
    lines = [line("remove", path=f"part-{i:08d}.parquet", deletionTimestamp=5, dataChange=True) for i in range(own)]
    for i in range(winners * WINNER // 2):
        lines.append(line("remove", path=f"gone-{i:08d}.parquet", deletionTimestamp=5, dataChange=True))
        lines.append(line("add", path=f"come-{i:08d}.parquet", partitionValues={}, size=1, modificationTime=5, dataChange=True))
    return "\n".join(lines).encode()


def main():
    ours, folder = sys.argv[1:]
    print(f"{'winners':>8} {'actions':>9} {'own':>7} {'time':>10} {'each':>9}")
    for winners, own in ((125, 10_000), (250, 10_000), (500, 10_000), (1000, 10_000), (1000, 20_000), (1000, 40_000), (10, 10_000), (10, 100_000)):
        path = write(folder, text(own, winners))
        once = least([ours, "conflicts", "0", str(own), "1", path])
        many = least([ours, "conflicts", "0", str(own), str(1 + TIMES), path])
        mine = (many - once) / TIMES
        print(f"{winners:8} {winners * WINNER:9} {own:7} {mine * 1e3:7.2f} ms {mine / (winners * WINNER + own) * 1e9:6.1f} ns")


main()
