"""runs.py OURS FOLDER PEER: makes files of runs in the folder, and prints how long each program takes to decode them once."""
import random
import sys

from measure import least, varint, write

LEVELS = 10_000_000
TIMES = 10


def packed(count, width):
    """One run of so many random values, a multiple of eight."""
    bits = count * width
    return varint(2 * (count // 8) + 1) + random.getrandbits(bits).to_bytes(bits // 8, "little")


def repeated(count, width):
    return varint(2 * count) + random.getrandbits(width).to_bytes((width + 7) // 8, "little")


def runs_of_504(width):
    """As other writers pack: 63 groups a run."""
    return b"".join(packed(504, width) for _ in range(0, LEVELS, 504))


def mixed(width):
    """Short and long runs of both kinds in turn."""
    out, count = bytearray(), 0
    while count < LEVELS:
        groups, copies = random.choice((8, 16, 64, 504)), random.choice((8, 20, 100, 1000))
        out += packed(groups, width) + repeated(copies, width)
        count += groups + copies
    return bytes(out)


def main():
    ours, folder, peer = sys.argv[1:]
    random.seed(1)
    cases = [(f"one packed run, width {w}", w, packed(LEVELS, w)) for w in (1, 2, 3)]
    cases += [(f"packed runs of 504, width {w}", w, runs_of_504(w)) for w in (1, 2, 3)]
    cases += [(f"short runs of both kinds, width {w}", w, mixed(w)) for w in (1, 2, 3)]
    cases.append(("ten long runs of one value, width 1", 1, b"".join(repeated(LEVELS // 10, 1) for _ in range(10))))
    cases += [(f"one packed run, width {w}", w, packed(LEVELS, w)) for w in (12, 20)]
    print(f"{'':38} {'dk_bench':>10} {'Rust':>10} {'Rust / dk_bench':>16}")
    for name, width, runs in cases:
        words = ["runs", str(width), str(LEVELS), str(TIMES), write(folder, runs)]
        mine, theirs = least([ours, *words]) / TIMES, least([peer, *words]) / TIMES
        print(f"{name:38} {mine * 1e3:7.1f} ms {theirs * 1e3:7.1f} ms {theirs / mine:16.2f}")


main()
