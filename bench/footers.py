"""footers.py OURS FOLDER: makes files with footers of many columns and row groups in the folder, and prints how long dk_bench takes to
read each once, and for each byte of it."""
import sys

from measure import least, varint, whole, write

TIMES = 20


def field(step, kind, value=b""):
    return bytes([16 * step + kind]) + value


def text(name):
    return varint(len(name)) + name


def listed(kind, values):
    head = bytes([16 * len(values) + kind]) if len(values) < 15 else bytes([240 + kind]) + varint(len(values))
    return head + b"".join(values)


def element(name):
    """A required INT64."""
    return field(1, 5, whole(2)) + field(2, 5, whole(0)) + field(1, 8, text(name)) + b"\0"


def chunk(name, place):
    """A ColumnChunk with its ColumnMetaData: type, encodings, path, codec, values, sizes, first page."""
    parts = [
        field(1, 5, whole(2)),
        field(1, 9, listed(5, [whole(0), whole(3)])),
        field(1, 9, listed(8, [text(name)])),
        field(1, 5, whole(0)),
        field(1, 6, whole(1000)),
        field(1, 6, whole(8000)),
        field(1, 6, whole(8000)),
        field(2, 6, whole(place)),
    ]
    return field(2, 6, whole(place)) + field(1, 12, b"".join(parts) + b"\0") + b"\0"


def file_of(columns, groups):
    names = [b"column_%06d" % i for i in range(columns)]
    root = field(4, 8, text(b"root")) + field(1, 5, whole(columns)) + b"\0"
    rows = [
        field(1, 9, listed(12, [chunk(n, 4 + 8000 * (i + columns * g)) for i, n in enumerate(names)]))
        + field(1, 6, whole(8000 * columns)) + field(1, 6, whole(1000)) + b"\0"
        for g in range(groups)
    ]
    footer = b"".join([
        field(1, 5, whole(1)),
        field(1, 9, listed(12, [root] + [element(n) for n in names])),
        field(1, 6, whole(1000 * groups)),
        field(1, 9, listed(12, rows)),
        b"\0",
    ])
    return b"PAR1" + footer + len(footer).to_bytes(4, "little") + b"PAR1"


def main():
    ours, folder = sys.argv[1:]
    print(f"{'columns':>8} {'groups':>7} {'bytes':>11} {'time':>10} {'a byte':>9}")
    for columns, groups in ((10, 10), (100, 10), (100, 100), (1000, 10), (1000, 100), (10000, 10), (100, 1000)):
        data = file_of(columns, groups)
        mine = least([ours, "footer", "0", "0", str(TIMES), write(folder, data)]) / TIMES
        print(f"{columns:8} {groups:7} {len(data):11} {mine * 1e3:7.2f} ms {mine / len(data) * 1e9:6.1f} ns")


main()
