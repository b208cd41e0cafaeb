#!/usr/bin/env python3
"""Makes crates/dk_pqfiles/data/styles.jsonl: Parquet files in the styles of several writers, with the rows that they mean or the refusal
that they get, and files that our writer must make byte by byte.

It is written from the format's documents (Apache Parquet: "File format", "Data Pages", "Encodings", parquet.thrift; Thrift: "Compact
protocol") and shares no code with the crates. Run it without words to write the file, and with `--check` to compare.
"""

import json
import os
import struct
import sys

HERE = os.path.dirname(os.path.abspath(__file__))
PLACE = os.path.join(HERE, "..", "crates", "dk_pqfiles", "data", "styles.jsonl")
BROKEN = "broken Parquet file"


def varint(number):
    out = bytearray()
    while number >= 128:
        out.append(number % 128 + 128)
        number //= 128
    out.append(number)
    return bytes(out)


def zigzag(number):
    return varint(2 * number if number >= 0 else -2 * number - 1)


class Whole:
    """A whole number: of 32 bits, or of 64."""

    def __init__(self, number, kind=5):
        self.kind = kind
        self.bytes = zigzag(number)


def long(number):
    return Whole(number, 6)


class Text:
    kind = 8

    def __init__(self, text):
        raw = text.encode() if isinstance(text, str) else text
        self.bytes = varint(len(raw)) + raw


class List:
    kind = 9

    def __init__(self, element, items, head=None):
        count = len(items)
        if head is None:
            head = bytes([16 * count + element]) if count < 15 else bytes([240 + element]) + varint(count)
        self.bytes = head + b"".join(item.bytes for item in items)


class Struct:
    """Fields under their ids; those that are None are left out."""

    kind = 12

    def __init__(self, fields):
        out = bytearray()
        last = 0
        for number in sorted(fields):
            value = fields[number]
            if value is None:
                continue
            delta = number - last
            if 1 <= delta <= 15:
                out.append(16 * delta + value.kind)
            else:
                out.append(value.kind)
                out += zigzag(number)
            out += value.bytes
            last = number
        out.append(0)
        self.bytes = bytes(out)


def little(number, size):
    return (number % 256**size).to_bytes(size, "little")


def repeated(copies, value, width):
    return varint(2 * copies) + little(value, (width + 7) // 8)


def packed(values, width):
    values = values + [0] * (-len(values) % 8)
    number = 0
    for place, value in enumerate(values):
        number |= value << (place * width)
    return varint(len(values) // 8 * 2 + 1) + little(number, len(values) * width // 8)


def sized(body):
    return little(len(body), 4) + body


def plain(value, kind):
    if kind == "int32":
        return little(value, 4)
    if kind == "int64":
        return little(value, 8)
    if kind == "double":
        return struct.pack("<d", value)
    if kind in ("int96", "fixed"):
        return value
    return sized(value.encode() if isinstance(value, str) else value)


def plains(values, kind):
    if kind == "flag":
        number = sum(1 << place for place, value in enumerate(values) if value)
        return little(number, (len(values) + 7) // 8)
    return b"".join(plain(value, kind) for value in values)


def levels(values, greatest):
    """Levels in one run: packed, but where all are equal."""
    return run(values, greatest.bit_length())


def run(values, width):
    if values and all(value == values[0] for value in values):
        return repeated(len(values), values[0], width)
    return packed(values, width) if values else b""


def data_page(count, body, encoding=0, rep=3, definition=3):
    header = {1: Whole(0), 2: Whole(len(body)), 3: Whole(len(body)),
              5: Struct({1: Whole(count), 2: Whole(encoding), 3: Whole(definition), 4: Whole(rep)})}
    return Struct(header).bytes + body


def data_page_v2(count, rows, nulls, rep, definition, values, encoding=0):
    body = rep + definition + values
    header = {1: Whole(3), 2: Whole(len(body)), 3: Whole(len(body)),
              8: Struct({1: Whole(count), 2: Whole(nulls), 3: Whole(rows), 4: Whole(encoding),
                         5: Whole(len(definition)), 6: Whole(len(rep))})}
    return Struct(header).bytes + body


def dictionary_page(values, kind, encoding=0):
    body = plains(values, kind)
    header = {1: Whole(2), 2: Whole(len(body)), 3: Whole(len(body)),
              7: Struct({1: Whole(len(values)), 2: Whole(encoding)})}
    return Struct(header).bytes + body


PHYSICAL = {"flag": 0, "int32": 1, "int64": 2, "int96": 3, "double": 5, "chars": 6, "fixed": 7}


def optional(number):
    return None if number is None else Whole(number)


def element(name, repetition=None, kind=None, children=None, length=None, converted=None):
    return Struct({1: optional(PHYSICAL.get(kind)), 2: optional(length), 3: optional(repetition), 4: Text(name), 5: optional(children),
                   6: optional(converted)})


class Chunk:
    """Pages of a column; the first of them is a dictionary page where `coded` is true."""

    def __init__(self, path, kind, values, pages, coded=False, first=None, dictionary=None, codec=0):
        self.path, self.kind, self.values, self.pages = path, kind, values, pages
        self.coded, self.first, self.dictionary, self.codec = coded, first, dictionary, codec


def file_of(elements, groups, rows=None, group_rows=None, first_group=None):
    """A file of groups, each a number of rows and its chunks. A chunk that names its places is taken at its word."""
    data = bytearray(b"PAR1")
    metas = []
    for count, chunks in groups:
        columns = []
        for chunk in chunks:
            start = len(data)
            data += b"".join(chunk.pages)
            size = len(data) - start
            dictionary = chunk.dictionary
            first = chunk.first
            if first is None:
                first = start
                if chunk.coded:
                    first = start + len(chunk.pages[0])
                    dictionary = start
            meta = {1: Whole(PHYSICAL[chunk.kind]), 2: List(5, [Whole(0), Whole(3)]),
                    3: List(8, [Text(name) for name in chunk.path]), 4: Whole(chunk.codec), 5: long(chunk.values),
                    6: long(size), 7: long(size), 9: long(first),
                    11: None if dictionary is None else long(dictionary)}
            columns.append(Struct({2: long(0), 3: Struct(meta)}))
        metas.append(Struct({1: List(12, columns), 2: long(len(data) - 4), 3: long(count)}))
    if rows is None:
        rows = sum(count for count, _ in groups)
    footer = Struct({1: Whole(1), 2: List(12, elements), 3: long(rows), 4: List(12, metas, first_group),
                     6: Text("a script")}).bytes
    return bytes(data) + footer + little(len(footer), 4) + b"PAR1"


def flat(kind, repetition=1):
    return [element("root", children=1), element("a", repetition, kind)]


def fields(kind, optional=True):
    return [["a", optional, kind]]


def lists_of(kind, repetition=1):
    return [element("root", children=1), element("l", 1, children=1), element("list", 2, children=1), element("element", repetition, kind)]


LISTS = lists_of("chars")
LIST_FIELDS = [["l", True, ["list", ["", True, "chars"]]]]
LIST_PATH = ["l", "list", "element"]
MAPS = [element("root", children=1), element("m", 1, children=1), element("key_value", 2, children=2), element("key", 0, "chars"),
        element("value", 1, "chars")]
MAP_FIELDS = [["m", True, ["map", ["", True, "chars"]]]]
KEY_PATH = ["m", "key_value", "key"]
VALUE_PATH = ["m", "key_value", "value"]

CASES = []


def case(name, data, wanted, rows=None):
    row = {"name": name, "call": "read", "fields": wanted, "file": data.hex()}
    if rows is None:
        row["fault"] = BROKEN
    else:
        row["rows"] = rows
    CASES.append(row)


def flat_chunk(kind, count, body, values=None, encoding=0, definition=3, **more):
    return Chunk(["a"], kind, count if values is None else values, [data_page(count, body, encoding, definition=definition)], **more)


def optional_page(values, kind, encoding=0, stored=None):
    there = [value for value in values if value is not None]
    body = sized(levels([0 if value is None else 1 for value in values], 1)) + (plains(there, kind) if stored is None else stored)
    return data_page(len(values), body, encoding)


def flags():
    values = [True, True, False, True, None, False, False, True, True, True, True]
    there = [value for value in values if value is not None]
    stored = sized(packed([int(value) for value in there], 1))
    page = optional_page(values, "flag", 3, stored)
    case("flags in runs, packed", file_of(flat("flag"), [(11, [Chunk(["a"], "flag", 11, [page])])]), fields("flag"), [[value] for value in values])
    body = sized(repeated(5, 1, 1) + repeated(4, 0, 1))
    case("flags in runs, repeated", file_of(flat("flag", 0), [(9, [flat_chunk("flag", 9, body, encoding=3)])]), fields("flag", False),
         [[True]] * 5 + [[False]] * 4)
    case("flags in runs whose length passes the page", file_of(flat("flag", 0), [(9, [flat_chunk("flag", 9, little(99, 4) + body[4:], encoding=3)])]),
         fields("flag", False))


def dictionaries():
    texts = ["x", "", "yy"]
    indices = [0, 1, 2, 2, 0]
    wanted = [[texts[index]] for index in indices]
    for code in (2, 8):
        pages = [dictionary_page(texts, "chars", code % 8), data_page(5, bytes([2]) + packed(indices, 2), code)]
        case("texts by their places, encoding %d" % code, file_of(flat("chars", 0), [(5, [Chunk(["a"], "chars", 5, pages, True)])]),
             fields("chars", False), wanted)
        case("a dictionary page found by the data page's place, encoding %d" % code,
             file_of(flat("chars", 0), [(5, [Chunk(["a"], "chars", 5, pages, first=4)])]), fields("chars", False), wanted)
    numbers = [7, -7]
    pages = [dictionary_page(numbers, "int64"), data_page(3, bytes([1]) + packed([1, 0, 1], 1), 8)]
    case("numbers by their places", file_of(flat("int64", 0), [(3, [Chunk(["a"], "int64", 3, pages, True)])]), fields("int32", False), [[-7], [7], [-7]])
    wide = bytes([32]) + repeated(1, 2, 32) + packed([0, 1, 2, 0, 1, 2, 0, 1], 32)
    pages = [dictionary_page(texts, "chars"), data_page(9, wide, 8)]
    case("places of 32 bits", file_of(flat("chars", 0), [(9, [Chunk(["a"], "chars", 9, pages, True)])]), fields("chars", False),
         [[texts[index]] for index in [2, 0, 1, 2, 0, 1, 2, 0, 1]])
    pages = [dictionary_page(texts, "chars"), data_page(1, bytes([33]) + repeated(1, 2, 33), 8)]
    case("places of 33 bits", file_of(flat("chars", 0), [(1, [Chunk(["a"], "chars", 1, pages, True)])]), fields("chars", False))
    pages = [dictionary_page(["x"], "chars"), data_page(3, bytes([0]) + repeated(3, 0, 0), 8)]
    case("a dictionary of one text, places of no bits", file_of(flat("chars", 0), [(3, [Chunk(["a"], "chars", 3, pages, True)])]),
         fields("chars", False), [["x"]] * 3)
    pages = [dictionary_page(["x"], "chars"), data_page(3, bytes([0]) + varint(3), 8)]
    case("places of no bits, packed", file_of(flat("chars", 0), [(3, [Chunk(["a"], "chars", 3, pages, True)])]), fields("chars", False), [["x"]] * 3)
    pages = [dictionary_page(["x"], "chars"), data_page(2, bytes([1]) + packed([0, 1], 1), 8)]
    case("a place behind the last entry", file_of(flat("chars", 0), [(2, [Chunk(["a"], "chars", 2, pages, True)])]), fields("chars", False))
    pages = [dictionary_page(["x", "y"], "chars"), optional_page(["y", None, "x"], "chars", 8, bytes([1]) + packed([1, 0], 1)),
             optional_page(["long", None], "chars"), optional_page(["z"], "chars")]
    case("from a dictionary to plain texts within a chunk", file_of(flat("chars"), [(6, [Chunk(["a"], "chars", 6, pages, True)])]), fields("chars"),
         [["y"], [None], ["x"], ["long"], [None], ["z"]])
    pages = [optional_page(["z"], "chars"), dictionary_page(["x"], "chars"), optional_page(["x"], "chars", 8, bytes([0]) + repeated(1, 0, 0))]
    case("a dictionary page that isn't the first", file_of(flat("chars"), [(2, [Chunk(["a"], "chars", 2, pages)])]), fields("chars"))


def pages_of_no_value():
    for name, stored, entries, rows in (
            ("the byte of the width", bytes([0]), [], [[None]] * 3),
            ("no byte", b"", [], [[None]] * 3),
            ("the byte of the width, beside entries", bytes([1]), ["x", "y"], [[None]] * 3),
            ("no byte, beside entries", b"", ["x", "y"], [[None]] * 3),
            ("the byte of the width and others", bytes([1, 9, 9]), ["x", "y"], [[None]] * 3),
            ("a width of 33 bits", bytes([33]), ["x", "y"], None)):
        pages = [dictionary_page(entries, "chars"), optional_page([None] * 3, "chars", 8, stored)]
        case("nulls by a dictionary: " + name, file_of(flat("chars"), [(3, [Chunk(["a"], "chars", 3, pages, True)])]), fields("chars"), rows)
    for first, dictionary in ((10**6, None), (10**6, 10**7), (2**62, None), (0, None)):
        none = Chunk(["a"], "chars", 0, [], first=first, dictionary=dictionary)
        some = Chunk(["a"], "chars", 1, [optional_page(["x"], "chars")])
        case("a chunk of no values at %d" % (dictionary or first), file_of(flat("chars"), [(0, [none])]), fields("chars"), [])
        case("a chunk of no values at %d, and another group" % (dictionary or first), file_of(flat("chars"), [(0, [none]), (1, [some])]),
             fields("chars"), [["x"]])
    case("a chunk of one value beyond the file", file_of(flat("chars"), [(1, [Chunk(["a"], "chars", 1, [], first=10**6)])]), fields("chars"))


def empty_lists():
    for head in (bytes([0]), bytes([12])):
        case("no row groups, in a list with the header %d" % head[0], file_of(flat("chars"), [], first_group=head), fields("chars"), [])


def second_version():
    rep, definition = levels([0, 0, 0, 0], 1), packed([0, 1, 2, 3], 2)
    page = data_page_v2(4, 4, 3, rep, definition, plains(["x"], "chars"))
    rows = [[None], [["list"]], [["list", None]], [["list", "x"]]]
    case("a page of the second version", file_of(LISTS, [(4, [Chunk(LIST_PATH, "chars", 4, [page])])]), LIST_FIELDS, rows)
    page = data_page_v2(3, 3, 0, b"", b"", plains([1, 2, 3], "int32"))
    case("a page of the second version without levels", file_of(flat("int32", 0), [(3, [Chunk(["a"], "int32", 3, [page])])]), fields("int32", False), [[1], [2], [3]])
    page = data_page(3, plains([1, 2, 3], "int32"), rep=4, definition=4)
    case("another level encoding where there are no levels", file_of(flat("int32", 0), [(3, [Chunk(["a"], "int32", 3, [page])])]), fields("int32", False), [[1], [2], [3]])


def lying_counts():
    many = 2**24
    nulls = sized(repeated(many, 0, 1))
    case("a chunk and a page of 2^24 nulls in a group of one row", file_of(flat("chars"), [(1, [flat_chunk("chars", many, nulls)])]), fields("chars"))
    case("a chunk of one value and a page of 2^24 nulls", file_of(flat("chars"), [(1, [flat_chunk("chars", many, nulls, 1)])]), fields("chars"))
    flags = sized(repeated(many, 1, 1))
    case("2^24 flags in one run, in a group of one row", file_of(flat("flag", 0), [(1, [flat_chunk("flag", many, flags, encoding=3)])]), fields("flag", False))
    for name, runs in (("repeated", repeated(many, 0, 0)), ("packed", varint(many // 8 * 2 + 1))):
        pages = [dictionary_page(["x"], "chars"), data_page(many, bytes([0]) + runs, 8)]
        case("2^24 places of no bits, %s, in a group of one row" % name, file_of(flat("chars", 0), [(1, [Chunk(["a"], "chars", many, pages, True)])]), fields("chars", False))
    pages = [dictionary_page(["x" * 2000], "chars"), data_page(100000, bytes([0]) + repeated(100000, 0, 0), 8)]
    case("100,000 places of one text, in a group of one row", file_of(flat("chars", 0), [(1, [Chunk(["a"], "chars", 100000, pages, True)])]), fields("chars", False))
    one = [(1, [Chunk(["a"], "chars", 1, [optional_page(["x"], "chars")])])]
    other = [["b", True, "chars"]]
    case("no wanted column, and a group that says 2^62 rows where the file has none", file_of(flat("chars"), [(2**62, one[0][1])], rows=0), other)
    case("no wanted column, and a file that says 2^62 rows where the group has one", file_of(flat("chars"), one, rows=2**62), other)
    case("no wanted column, and groups whose rows pass 2^64 together", file_of(flat("chars"), [(2**62, [])] * 5, rows=2**62), other)
    case("no wanted column, and as many rows as the groups have", file_of(flat("chars"), one * 2), other, [[None]] * 2)
    case("a list of fewer values than its group has rows", file_of(LISTS, [(5, [Chunk(LIST_PATH, "chars", 4, [list_page([0] * 4, [1] * 4, [])])])]), LIST_FIELDS)
    case("a list of more values than its group has rows", file_of(LISTS, [(2, [Chunk(LIST_PATH, "chars", 4, [list_page([0, 1, 0, 1], [2] * 4, [])])])]), LIST_FIELDS,
         [[["list", None, None]]] * 2)
    case("a list whose rows aren't its group's", file_of(LISTS, [(3, [Chunk(LIST_PATH, "chars", 4, [list_page([0, 1, 0, 1], [2] * 4, [])])])]), LIST_FIELDS)
    rows = list_rows(1000, 0)
    case("1,000 rows of a list in one run, in a group of one row", file_of(LISTS, [(1, [Chunk(LIST_PATH, "chars", 1000, [rows])])]), LIST_FIELDS)
    case("2^24 rows of a list in one run, in a group of one row", file_of(LISTS, [(1, [Chunk(LIST_PATH, "chars", many, [list_rows(many, 0)])])]), LIST_FIELDS)
    page = data_page(many, sized(repeated(1, 0, 1) + repeated(many - 1, 1, 1)) + sized(repeated(many, 2, 2)))
    case("one row of 2^24 elements in one run, in a group of two rows", file_of(LISTS, [(2, [Chunk(LIST_PATH, "chars", many, [page])])]), LIST_FIELDS)
    page = data_page(4, sized(repeated(1, 0, 1) + repeated(3, 1, 1)) + sized(repeated(4, 2, 2)))
    case("one row of four elements in one run", file_of(LISTS, [(1, [Chunk(LIST_PATH, "chars", 4, [page])])]), LIST_FIELDS, [[["list", None, None, None, None]]])
    case("a page of fewer values than its chunk", file_of(flat("chars"), [(3, [Chunk(["a"], "chars", 3, [optional_page(["x", None], "chars")])])]), fields("chars"))
    same = Chunk(["a"], "chars", 1, [optional_page(["x"], "chars")], first=4)
    case("two groups with one page", file_of(flat("chars"), [(1, [same]), (1, [Chunk(["a"], "chars", 1, [], first=4)])]), fields("chars"), [["x"], ["x"]])


def one_row(count):
    """The repetition levels of one row whose list has so many elements, in runs."""
    return repeated(1, 0, 1) + (repeated(count - 1, 1, 1) if count > 1 else b"")


def row_page(count, definition, values, encoding=0):
    """One row whose list has so many elements, all with one definition level."""
    return data_page(count, sized(one_row(count)) + sized(repeated(count, definition, 2)) + values, encoding)


def row_case(name, kind, count, pages, row=None, optional=True, coded=False):
    """A list of one row in a group of one row."""
    data = file_of(lists_of(kind, 1 if optional else 0), [(1, [Chunk(LIST_PATH, kind, count, pages, coded)])])
    case(name, data, [["l", True, ["list", ["", optional, kind]]]], None if row is None else [[["list"] + row]])


def claimed_levels():
    """Levels above their greatest, in columns that repeat."""
    many = 2**24
    page = data_page(many, sized(repeated(1, 0, 1) + repeated(many - 1, 2, 1)) + sized(repeated(many, 2, 2)))
    row_case("2^24 repetition levels above their greatest in one run", "chars", many, [page])
    row_case("2^24 definition levels above their greatest in one run", "chars", many, [row_page(many, 4, b"")])
    page = data_page_v2(many, 1, 0, one_row(many), repeated(many, 255, 2), b"")
    row_case("2^24 definition levels above their greatest in one run, in a page of the second version", "chars", many, [page])
    page = data_page(3, sized(one_row(3)) + sized(packed([1, 2, 3], 2)) + plains([7], "int32"))
    row_case("a packed definition level above its greatest", "int32", 3, [page], optional=False)
    page = data_page(2, sized(one_row(2)) + sized(packed([2, 2, 3, 3], 2)) + plains([7, 8], "int32"))
    row_case("a level above its greatest in the padding", "int32", 2, [page], [7, 8], optional=False)
    page = data_page(4, sized(repeated(1, 0, 1) + repeated(2**40, 1, 1)) + sized(repeated(2**40, 2, 2)))
    row_case("runs of more levels than the page has", "chars", 4, [page], [None] * 4)
    pages = [list_page([0, 1], [3, 2], ["x"]), data_page(2, sized(repeated(2, 1, 1)) + sized(repeated(2, 4, 2)))]
    row_case("definition levels above their greatest in the second page", "chars", 4, pages)


def claimed_values():
    """Plain values for which the bytes have no room, in columns that repeat."""
    many = 2**24
    for kind, size, values in (("flag", 8, [True] * 9), ("int32", 4, [1, -2, 3]), ("int64", 8, [2**40, -2]), ("chars", 4, ["", "", ""])):
        row_case("2^24 elements in one run, and no value of the kind " + kind, kind, many, [row_page(many, 3, b"")])
        stored = plains(values, kind)
        row_case("elements that take all bytes, of the kind " + kind, kind, len(values), [row_page(len(values), 3, stored)], values)
        row_case("elements for which a byte is missing, of the kind " + kind, kind, len(values), [row_page(len(values), 3, stored[:-1])])
    keys = Chunk(KEY_PATH, "chars", many, [row_page(many, 2, b"")])
    nulls = Chunk(VALUE_PATH, "chars", many, [row_page(many, 2, b"")])
    case("2^24 keys of a map in one run, and no text", file_of(MAPS, [(1, [keys, nulls])]), MAP_FIELDS)
    keys = Chunk(KEY_PATH, "chars", 2, [row_page(2, 2, plains(["a", "b"], "chars"))])
    nulls = Chunk(VALUE_PATH, "chars", 2, [row_page(2, 2, b"")])
    case("keys of a map whose values are null", file_of(MAPS, [(1, [keys, nulls])]), MAP_FIELDS, [[["list", ["group", "a", None], ["group", "b", None]]]])
    page = data_page_v2(many, 1, 0, one_row(many), repeated(many, 3, 2), plains([1], "int64"))
    row_case("2^24 numbers of which one is there, in a page of the second version", "int64", many, [page])
    row_case("100 flags in one run, which take fewer bits", "flag", 100, [row_page(100, 3, sized(repeated(100, 1, 1)), 3)], [True] * 100)
    pages = [dictionary_page(["x"], "chars"), row_page(100, 3, bytes([0]) + repeated(100, 0, 0), 8)]
    row_case("100 places of one text, which take no bits", "chars", 100, pages, ["x"] * 100, coded=True)


def list_page(reps, definitions, texts):
    return data_page(len(reps), sized(levels(reps, 1)) + sized(levels(definitions, 3)) + plains(texts, "chars"))


def list_rows(count, definition):
    return data_page(count, sized(repeated(count, 0, 1)) + sized(repeated(count, definition, 2)))


def own_files():
    """Files that our writer has to make, byte by byte."""
    page = data_page(2, sized(packed([0, 0], 1)) + bytes([0]), 8)
    coded = own_file(element("a", 1, "chars"), 2, [dictionary_page([], "chars"), page], 8)
    CASES.append({"name": "nulls only, with a dictionary", "call": "write", "fields": fields("chars"), "rows": [[None]] * 2, "coded": coded.hex()})


def own_file(leaf, rows, pages, code):
    size = sum(len(page) for page in pages)
    leaf = Struct({1: Whole(6), 3: Whole(1), 4: Text("a"), 6: Whole(0)})
    meta = {1: Whole(6), 2: List(5, [Whole(0), Whole(3), Whole(code)]), 3: List(8, [Text("a")]), 4: Whole(0), 5: long(rows), 6: long(size), 7: long(size),
            9: long(4 + len(pages[0])), 11: long(4)}
    group = Struct({1: List(12, [Struct({2: long(0), 3: Struct(meta)})]), 2: long(size), 3: long(rows)})
    footer = Struct({1: Whole(1), 2: List(12, [element("root", children=1), leaf]), 3: long(rows), 4: List(12, [group]), 6: Text("deltak")}).bytes
    return b"PAR1" + b"".join(pages) + footer + little(len(footer), 4) + b"PAR1"


def finish(place, rows):
    """Writes the rows, or compares them with what is written."""
    text = "".join(json.dumps(row, separators=(",", ":")) + "\n" for row in rows)
    if sys.argv[1:] == ["--check"]:
        with open(place, encoding="utf-8") as file:
            return 0 if file.read() == text else 1
    with open(place, "w", encoding="utf-8") as file:
        file.write(text)
    return 0


def main():
    flags()
    dictionaries()
    pages_of_no_value()
    empty_lists()
    second_version()
    lying_counts()
    claimed_levels()
    claimed_values()
    own_files()
    return finish(PLACE, CASES)


if __name__ == "__main__":
    sys.exit(main())
