"""pages.py OURS FOLDER: makes files of pages with bodies of many sizes in the folder, and prints how long dk_bench takes to find and split one
page. What copies nothing takes as long for a page of any size."""
import sys

from measure import least, whole, write

PAGES = 8
TIMES = 100_000


def page(size):
    """A data page of the first version: a run of definition levels behind its length, and zeros for values."""
    levels = b"\2\0\0\0" + b"\x10\1"
    body = levels + bytes(size - len(levels))
    inner = b"\x15" + whole(8) + b"\x15" + whole(0) + b"\x15" + whole(3) + b"\x15" + whole(3) + b"\0"
    return b"\x15" + whole(0) + b"\x15" + whole(size) + b"\x15" + whole(size) + b"\x2c" + inner + b"\0" + body


def main():
    ours, folder = sys.argv[1:]
    print(f"{'body':>10} {'a page':>10}")
    for size in (100, 10_000, 1_000_000, 8_000_000):
        path = write(folder, page(size) * PAGES)
        once = least([ours, "pages", "0", str(PAGES), "1", path])
        many = least([ours, "pages", "0", str(PAGES), str(TIMES), path])
        print(f"{size:10} {(many - once) / (PAGES * (TIMES - 1)) * 1e9:7.1f} ns")


main()
