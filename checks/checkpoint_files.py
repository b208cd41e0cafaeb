#!/usr/bin/env python3
"""Makes crates/dk_ckcases/data/checkpoints.jsonl: checkpoints as known writers leave them, and damaged ones, each with what it means: the
lines of its actions, or why it means none.

It is written from the documents of the formats (Apache Parquet; Delta Lake's PROTOCOL.md, "Checkpoint Schema") and shares no code with the
crates. The answers are written by hand. Run it without words to write the file, and with `--check` to compare.
"""

import json
import os
import sys

import parquet_files as parquet
from parquet_files import Chunk, element

PLACE = os.path.join(parquet.HERE, "..", "crates", "dk_ckcases", "data", "checkpoints.jsonl")
PATH = "_delta_log/00000000000000000007.checkpoint.parquet"
DAMAGED = PATH + " means nothing at 0"
REQUIRED, OPTIONAL, REPEATED = 0, 1, 2
UTF8, MAP, LIST = 0, 1, 3


# ---- schemas: what a writer has in its file


class Node:
    """A field of a file's schema: a leaf of a kind, or a group of nodes."""

    def __init__(self, name, repetition, kind=None, nodes=(), converted=None, length=None):
        self.name, self.repetition, self.kind, self.nodes = name, repetition, kind, list(nodes)
        self.converted, self.length = converted, length

    def elements(self):
        count = None if self.kind else len(self.nodes)
        own = element(self.name, self.repetition, self.kind, count, self.length, self.converted)
        return [own] + [other for node in self.nodes for other in node.elements()]

    def leaves(self, path=(), rep=0, definition=0):
        path = path + (self.name,)
        rep += self.repetition == REPEATED
        definition += self.repetition != REQUIRED
        if self.kind:
            return [(path, self, rep, definition)]
        return [leaf for node in self.nodes for leaf in node.leaves(path, rep, definition)]


def text(name, repetition=OPTIONAL):
    return Node(name, repetition, "chars", converted=UTF8)


def leaf(name, kind, repetition=OPTIONAL, **more):
    return Node(name, repetition, kind, **more)


def group(name, *nodes, repetition=OPTIONAL):
    return Node(name, repetition, nodes=nodes)


def texts(name, inner=("list", "element")):
    return Node(name, OPTIONAL, nodes=[Node(inner[0], REPEATED, nodes=[text(inner[1])])], converted=LIST)


def text_map(name, inner=("key_value", "key", "value"), key=REQUIRED):
    entry = Node(inner[0], REPEATED, nodes=[text(inner[1], key), text(inner[2])])
    return Node(name, OPTIONAL, nodes=[entry], converted=MAP)


ADD = [text("path"), text_map("partitionValues"), leaf("size", "int64"), leaf("modificationTime", "int64"), leaf("dataChange", "flag")]
REMOVE = [text("path"), leaf("deletionTimestamp", "int64"), leaf("dataChange", "flag")]
METADATA = [text("id"), text("name"), text("description"), group("format", text("provider"), text_map("options")), text("schemaString"),
            texts("partitionColumns"), text_map("configuration"), leaf("createdTime", "int64")]
PROTOCOL = [leaf("minReaderVersion", "int32"), leaf("minWriterVersion", "int32"), texts("readerFeatures"), texts("writerFeatures")]
TXN = [text("appId"), leaf("version", "int64"), leaf("lastUpdated", "int64")]
DOMAIN = [text("domain"), text("configuration"), leaf("removed", "flag")]


def schema(**groups):
    return [group(name, *nodes) for name, nodes in groups.items()]


ALL = schema(txn=TXN, add=ADD, remove=REMOVE, metaData=METADATA, protocol=PROTOCOL, domainMetadata=DOMAIN)

# the columns of a protocol and of removes, for files of which the rest doesn't matter
SMALL = schema(protocol=PROTOCOL[:2], remove=[text("path"), leaf("dataChange", "flag")])


# ---- files: rows as columns, columns as pages


def shred(node, value, out, path=(), first=0, rep=0, definition=0):
    """Adds the triples of a value. A group is a dict, a list or a map a Python list; its items are dicts of the repeated group's fields."""
    path = path + (node.name,)
    if node.repetition == OPTIONAL:
        if value is None:
            return nothing(node, out, path, first, definition)
        definition += 1
    if node.repetition == REPEATED:
        rep, definition = rep + 1, definition + 1
        if not value:
            return nothing(node, out, path, first, definition - 1)
        for place, item in enumerate(value):
            inside(node, item, out, path, rep if place else first, rep, definition)
        return None
    return inside(node, value, out, path, first, rep, definition)


def inside(node, value, out, path, first, rep, definition):
    if node.kind:
        out[path].append((first, definition, value))
        return
    for inner in node.nodes:
        part = value if inner.repetition == REPEATED else value.get(inner.name)
        shred(inner, part, out, path, first, rep, definition)


def nothing(node, out, path, first, definition):
    for below, _, _, _ in node.leaves(path[:-1]):
        out[below].append((first, definition, None))


class Style:
    """How a writer lays out columns: the version of its pages, dictionaries or none, the rows of a group and of a page, and the codec and
    the encoding that it says of the columns of some paths."""

    def __init__(self, version=1, dictionary=False, group_rows=None, page_rows=None, codecs=None, encodings=None):
        self.version, self.dictionary, self.group_rows, self.page_rows = version, dictionary, group_rows, page_rows
        self.codecs, self.encodings = codecs or {}, encodings or {}


PLAIN = Style()


def starts(triples):
    """The triples of each row."""
    rows = []
    for triple in triples:
        if triple[0] == 0:
            rows.append([])
        rows[-1].append(triple)
    return rows


def cut(rows, most):
    return [rows[start:start + most] for start in range(0, len(rows), most)] if most else [rows]


def chunk_of(style, path, node, rep, definition, rows):
    triples = [triple for row in rows for triple in row]
    there = [value for _, _, value in triples if value is not None]
    distinct = list(dict.fromkeys(there)) if style.dictionary and node.kind == "chars" else None
    pages = [] if distinct is None else [parquet.dictionary_page(distinct, node.kind)]
    for part in cut(rows, style.page_rows):
        pages.append(page_of(style, path, node, rep, definition, part, distinct))
    return Chunk(list(path), node.kind, len(triples), pages, distinct is not None, codec=style.codecs.get(path, 0))


def page_of(style, path, node, rep, definition, rows, distinct):
    triples = [triple for row in rows for triple in row]
    there = [value for _, _, value in triples if value is not None]
    reps = parquet.levels([triple[0] for triple in triples], rep) if rep else b""
    definitions = parquet.levels([triple[1] for triple in triples], definition) if definition else b""
    if distinct is None:
        encoding, values = style.encodings.get(path, 0), parquet.plains(there, node.kind)
    else:
        width = (len(distinct) - 1).bit_length()
        encoding, values = 8, bytes([width]) + parquet.run([distinct.index(value) for value in there], width)
    if style.version == 2:
        return parquet.data_page_v2(len(triples), len(rows), len(triples) - len(there), reps, definitions, values, encoding)
    levels = b"".join(parquet.sized(part) for part, greatest in ((reps, rep), (definitions, definition)) if greatest)
    return parquet.data_page(len(triples), levels + values, encoding)


def file_of(nodes, rows, style=PLAIN):
    elements = [element("spark_schema", children=len(nodes))] + [other for node in nodes for other in node.elements()]
    leaves = [leaf for node in nodes for leaf in node.leaves()]
    columns = {path: [] for path, _, _, _ in leaves}
    for row in rows:
        for node in nodes:
            shred(node, row.get(node.name), columns)
    cuts = {path: cut(starts(triples), style.group_rows) for path, triples in columns.items()}
    groups = []
    for place, part in enumerate(cut(rows, style.group_rows)):
        groups.append((len(part), [chunk_of(style, path, node, rep, definition, cuts[path][place]) for path, node, rep, definition in leaves]))
    return parquet.file_of(elements, groups)


# ---- cases

CASES = []


def line(action):
    if action == VECTOR:
        return VECTOR
    return json.dumps(action, sort_keys=True, separators=(",", ":"), ensure_ascii=False) + "\n"


def case(name, data, wanted, limit=None):
    """A checkpoint of these bytes, or of none, that means these actions, or is refused by this text. `VECTOR` behind an action says that a
    deletion vector stands beside its file."""
    row = {"name": name}
    if data is not None:
        row["file"] = data.hex()
    if limit is not None:
        row["limit"] = limit
    row["wanted"] = wanted if isinstance(wanted, str) else "".join(line(action) for action in wanted)
    CASES.append(row)


def read(name, nodes, rows, wanted, style=PLAIN):
    """A checkpoint of rows, laid out in this style."""
    case(name, file_of(nodes, rows, style), wanted)


VECTOR = "vector\n"


def entries(**pairs):
    return [{"key": key, "value": value} for key, value in pairs.items()]


def added(path, size=1, time=5, change=True, values=None, **more):
    """The action of a data file."""
    return {"add": dict(more, path=path, size=size, modificationTime=time, dataChange=change, partitionValues=values or {})}


def add_row(path, **more):
    """The row of that action, where nothing else is said."""
    return {"add": dict({"path": path, "partitionValues": [], "size": 1, "modificationTime": 5, "dataChange": True}, **more)}


def removed(path, time=0, change=True):
    return {"remove": {"path": path, "deletionTimestamp": time, "dataChange": change}}


TABLE_ACTION = {"metaData": {"id": "t", "format": {"provider": "parquet", "options": {}}, "schemaString": "{}", "partitionColumns": [],
                             "configuration": {}}}
VERSIONS = {"protocol": {"minReaderVersion": 1, "minWriterVersion": 2}}
ROWS = [VERSIONS, {"remove": {"path": "a", "dataChange": False}}]
ACTIONS = [VERSIONS, removed("a", 0, False)]


def whole_states():
    """A state with an action of each kind, in the styles of several writers."""
    rows = [
        {"protocol": {"minReaderVersion": 3, "minWriterVersion": 7, "readerFeatures": [{"element": "deletionVectors"}],
                      "writerFeatures": [{"element": "deletionVectors"}, {"element": "appendOnly"}]}},
        {"metaData": {"id": "a3", "name": "sales", "format": {"provider": "parquet", "options": entries(a="b")}, "schemaString": "{}",
                      "partitionColumns": [{"element": "day"}], "configuration": entries(**{"delta.appendOnly": "true"}), "createdTime": 7}},
        add_row("day=1/a", partitionValues=entries(day="1"), size=100),
        add_row("day=__null__/b", partitionValues=entries(day=None), size=2**63 - 1, dataChange=False),
        {"remove": {"path": "day=1/c", "deletionTimestamp": 1700000000000, "dataChange": True}},
        {"txn": {"appId": "stream", "version": 12, "lastUpdated": 9}},
        {"domainMetadata": {"domain": "delta.x", "configuration": "{}", "removed": False}},
    ]
    wanted = [
        {"protocol": {"minReaderVersion": 3, "minWriterVersion": 7, "readerFeatures": ["deletionVectors"],
                      "writerFeatures": ["deletionVectors", "appendOnly"]}},
        {"metaData": {"id": "a3", "name": "sales", "format": {"provider": "parquet", "options": {"a": "b"}}, "schemaString": "{}",
                      "partitionColumns": ["day"], "configuration": {"delta.appendOnly": "true"}, "createdTime": 7}},
        added("day=1/a", 100, values={"day": "1"}),
        added("day=__null__/b", 2**63 - 1, change=False, values={"day": None}),
        removed("day=1/c", 1700000000000),
        {"txn": {"appId": "stream", "version": 12, "lastUpdated": 9}},
        {"domainMetadata": {"domain": "delta.x", "configuration": "{}", "removed": False}},
    ]
    for name, style in (
            ("pages of the first version", PLAIN),
            ("pages of the second version", Style(2)),
            ("dictionaries", Style(dictionary=True)),
            ("dictionaries, and pages of the second version", Style(2, True)),
            ("a row group for each row", Style(group_rows=1)),
            ("three row groups, a page for each row, and dictionaries", Style(dictionary=True, group_rows=3, page_rows=1)),
            ("three row groups, pages of two rows of the second version", Style(2, group_rows=3, page_rows=2))):
        read("a whole state: " + name, ALL, rows, wanted, style)
    read("fields and kinds in another order", turned_round(ALL), rows, wanted)
    few = schema(add=[text("path"), leaf("size", "int64"), leaf("modificationTime", "int64")])
    rows = [{"add": {"path": "f%d" % number, "size": number, "modificationTime": 5}} for number in range(40)]
    read("forty row groups", few, rows, [added("f%d" % number, number) for number in range(40)], Style(2, group_rows=1))


def turned_round(nodes):
    """The nodes in the other order, the fields of groups too, but for what a list or a map has inside."""
    return [Node(node.name, node.repetition, node.kind, node.nodes if node.converted in (LIST, MAP) else turned_round(node.nodes), node.converted)
            for node in reversed(nodes)]


def beside_the_text():
    """Groups that writers put beside what is read of files."""
    stats = group("stats_parsed", leaf("numRecords", "int64"),
                  group("minValues", leaf("day", "int32"), leaf("price", "fixed", length=9), leaf("moment", "int96"), leaf("rate", "double"),
                        text("name"), group("inner", leaf("flag", "flag"))),
                  group("nullCount", leaf("day", "int64")))
    parsed = group("partitionValues_parsed", leaf("day", "int32"), leaf("price", "fixed", length=9), leaf("moment", "int96"))
    nodes = schema(add=ADD + [text("stats"), stats, parsed], remove=REMOVE)
    full = {"numRecords": 3, "minValues": {"day": 19000, "price": bytes(9), "moment": bytes(12), "rate": 0.5, "name": "n", "inner": {"flag": True}},
            "nullCount": {"day": 0}}
    rows = [add_row("a", partitionValues=entries(day="2022-01-08"), stats='{"numRecords":3}', stats_parsed=full,
                    partitionValues_parsed={"day": 19000, "price": bytes(9), "moment": bytes(12)}),
            add_row("b", stats_parsed=full), add_row("c")]
    wanted = [added("a", values={"day": "2022-01-08"}, stats='{"numRecords":3}'), added("b"), added("c")]
    read("statistics and partition values as groups of any types", nodes, rows, wanted)
    codecs = {path: 6 for path, _, _, _ in [leaf for node in nodes for leaf in node.leaves()] if "_parsed" in path[1]}
    read("a codec of columns that aren't looked at", nodes, rows, wanted, Style(codecs=codecs))
    nodes = schema(add=ADD + [group("stats", leaf("numRecords", "int64"))])
    read("statistics as a group, under the name of the text", nodes, [add_row("a")], DAMAGED)
    nodes = schema(remove=REMOVE + [text_map("partitionValues"), leaf("size", "int64"), text_map("tags"), leaf("extendedFileMetadata", "flag"),
                                    leaf("baseRowId", "int64")])
    rows = [{"remove": {"path": "a", "deletionTimestamp": 8, "dataChange": False, "partitionValues": entries(day="1"), "size": 4,
                        "tags": entries(k=None), "extendedFileMetadata": True, "baseRowId": 3}}]
    read("a remove with partition values, a size and tags", nodes, rows, [removed("a", 8, False)])


def deletion_vectors():
    fields = [text("storageType"), text("pathOrInlineDv"), leaf("offset", "int32"), leaf("sizeInBytes", "int32", REQUIRED),
              leaf("cardinality", "int64", REQUIRED)]
    nodes = schema(add=ADD + [group("deletionVector", *fields)], remove=REMOVE + [group("deletionVector", *fields)])
    rest = {"pathOrInlineDv": "ab", "offset": 1, "sizeInBytes": 2, "cardinality": 3}
    rows = [add_row("a", deletionVector=dict(rest, storageType="u")), add_row("b"), add_row("c", deletionVector=rest),
            {"remove": {"path": "d", "deletionVector": dict(rest, storageType="u")}}]
    read("deletion vectors, with and without a storage type", nodes, rows, [added("a"), VECTOR, added("b"), added("c"), removed("d")])
    nodes = schema(add=ADD + [group("deletionVector", text("storageType", REQUIRED), leaf("maxRowIndex", "int64"))])
    rows = [add_row("a", deletionVector={"storageType": "p", "maxRowIndex": 4}), add_row("b", deletionVector={"storageType": ""})]
    read("deletion vectors with a storage type that is required", nodes, rows, [added("a"), VECTOR, added("b"), VECTOR])
    nodes = schema(add=ADD + [group("deletionVector", leaf("cardinality", "int64"))])
    read("a deletion vector of which no column is read", nodes, [add_row("a", deletionVector={"cardinality": 1})], [added("a")])


def other_schemas():
    must = schema(add=[text("path", REQUIRED), text_map("partitionValues"), leaf("size", "int64", REQUIRED),
                       leaf("modificationTime", "int64", REQUIRED), leaf("dataChange", "flag", REQUIRED), text_map("tags")],
                  protocol=[leaf("minReaderVersion", "int32", REQUIRED), leaf("minWriterVersion", "int32", REQUIRED)])
    rows = [VERSIONS, add_row("a", tags=entries(k="v", n=None)), add_row("b", partitionValues=None)]
    wanted = [VERSIONS, added("a", tags={"k": "v", "n": None}), added("b")]
    read("required fields in optional groups", must, rows, wanted)
    only = [Node("add", REQUIRED, nodes=must[0].nodes)]
    read("a required group of files alone", only, rows[1:], wanted[1:])
    wide = schema(protocol=[leaf("minReaderVersion", "int64"), leaf("minWriterVersion", "int64")], txn=[text("appId"), leaf("version", "int32")],
                  add=[text("path"), leaf("size", "int32"), leaf("modificationTime", "int32")])
    rows = [{"protocol": {"minReaderVersion": 2**31 - 1, "minWriterVersion": 0}}, {"txn": {"appId": "a", "version": -1}},
            {"add": {"path": "a", "size": 2**31 - 1, "modificationTime": 0}}]
    read("numbers of 64 bits where ours have 32, and of 32 where ours have 64", wide, rows, [rows[0], rows[1], added("a", 2**31 - 1, 0)])
    read("absent columns of optional fields", schema(metaData=[text("id"), text("schemaString")], remove=[text("path")]),
         [{"metaData": {"id": "t", "schemaString": "{}"}}, {"remove": {"path": "a"}}], [TABLE_ACTION, removed("a")])
    read("null fields", schema(metaData=METADATA, remove=REMOVE, add=ADD),
         [{"metaData": {"id": "t", "schemaString": "{}"}}, {"remove": {"path": "a"}}, {"add": {"path": "a", "size": 0, "modificationTime": 0}}],
         [TABLE_ACTION, removed("a"), added("a", 0, 0)])
    read("kinds of actions that aren't known, and rows of none",
         schema(protocol=PROTOCOL, commitInfo=[text("engineInfo")], cdc=[text("path")]),
         [{}, VERSIONS, {"commitInfo": {"engineInfo": "x"}}, {"cdc": {"path": "p"}}, {}], [VERSIONS])
    read("no known kind of action", schema(commitInfo=[text("engineInfo")]), [{"commitInfo": {"engineInfo": "x"}}] * 3, [])
    read("a remove of which no column is read", schema(remove=[leaf("size", "int64")]), [{"remove": {"size": 1}}], [])
    read("no rows", SMALL, [], [])
    case("no rows and no row groups", parquet.file_of([element("m", children=1), element("add", 1, children=1), element("path", 1, "chars")], []), [])
    bags = schema(protocol=PROTOCOL[:2] + [texts("readerFeatures", ("bag", "array_element")), texts("writerFeatures", ("bag", "array_element"))],
                  add=[text("path"), text_map("partitionValues", ("map", "k", "v")), leaf("size", "int64"), leaf("modificationTime", "int64")])
    rows = [{"protocol": {"minReaderVersion": 1, "minWriterVersion": 7, "writerFeatures": [{"array_element": "appendOnly"}]}},
            {"add": {"path": "a", "partitionValues": [{"k": "day", "v": "1"}], "size": 1, "modificationTime": 5}}]
    read("lists and maps with other inner names", bags, rows,
         [{"protocol": {"minReaderVersion": 1, "minWriterVersion": 7, "writerFeatures": ["appendOnly"]}}, added("a", values={"day": "1"})])
    two = schema(protocol=PROTOCOL[:2] + [Node("writerFeatures", OPTIONAL, nodes=[text("array", REPEATED)], converted=LIST)])
    read("a list whose elements are repeated themselves", two, [VERSIONS], DAMAGED)
    twice = add_row("a", partitionValues=[{"key": "day", "value": "1"}, {"key": "day", "value": "2"}])
    read("a key that a map has twice", schema(add=ADD), [twice], [added("a", values={"day": "2"})])
    late = schema(add=ADD + [leaf("baseRowId", "int64"), leaf("defaultRowCommitVersion", "int64"), text("clusteringProvider")])
    read("row ids and the provider of a clustering", late,
         [add_row("a", baseRowId=4, defaultRowCommitVersion=2, clusteringProvider="liquid")],
         [added("a", baseRowId=4, defaultRowCommitVersion=2, clusteringProvider="liquid")])
    read("texts of several scripts", schema(add=ADD), [add_row("Zürich/日本/\U0001f600%20")], [added("Zürich/日本/\U0001f600%20")])
    meta = schema(checkpointMetadata=[leaf("version", "int64"), text_map("tags")], protocol=PROTOCOL)
    read("a checkpoint's own version", meta, [{"checkpointMetadata": {"version": 7, "tags": entries(k="v")}}, VERSIONS],
         [{"checkpointMetadata": {"version": 7}}, VERSIONS])


def bad_rows():
    two = {"txn": {"appId": "a", "version": 1}, "remove": {"path": "p"}}
    read("a row that holds two actions", schema(txn=TXN, remove=REMOVE), [{"remove": {"path": "a"}}, two], DAMAGED)
    for name, nodes, row in (
            ("a file without its size", ADD, {"add": {"path": "a", "modificationTime": 1}}),
            ("a file without its time", ADD, {"add": {"path": "a", "size": 1}}),
            ("a file without its path", ADD, {"add": {"size": 1, "modificationTime": 1}}),
            ("a remove without its path", REMOVE, {"remove": {"dataChange": True}}),
            ("a remove without anything", REMOVE, {"remove": {}}),
            ("metadata without a schema", METADATA, {"metaData": {"id": "t"}}),
            ("metadata without an id", METADATA, {"metaData": {"schemaString": "{}"}}),
            ("a protocol without the version of writers", PROTOCOL, {"protocol": {"minReaderVersion": 1}}),
            ("an application without its version", TXN, {"txn": {"appId": "a"}}),
            ("a domain that doesn't say whether it goes", DOMAIN, {"domainMetadata": {"domain": "d", "configuration": "{}"}})):
        read("a needed field is null: " + name, schema(**{list(row)[0]: nodes}), [row], DAMAGED)
    read("a needed field is absent", schema(add=[text("path"), leaf("size", "int64")]), [{"add": {"path": "a", "size": 1}}], DAMAGED)
    loose = schema(add=[text("path"), text_map("partitionValues", key=OPTIONAL), leaf("size", "int64"), leaf("modificationTime", "int64")])
    for name, pairs, wanted in (("is never null", [{"key": "day", "value": "1"}], [added("a", values={"day": "1"})]),
                                ("is null", [{"key": "day", "value": "1"}, {"key": None, "value": "2"}], DAMAGED)):
        row = {"add": {"path": "a", "partitionValues": pairs, "size": 1, "modificationTime": 5}}
        read("a map's key that may be null and " + name, loose, [row], wanted)
    listed = {"protocol": {"minReaderVersion": 1, "minWriterVersion": 7, "writerFeatures": [{"element": "appendOnly"}, {"element": None}]}}
    read("a null in a list of texts", schema(protocol=PROTOCOL), [listed], DAMAGED)


def numbers_out_of_range():
    wide = schema(protocol=[leaf("minReaderVersion", "int64"), leaf("minWriterVersion", "int64")])
    for number in (2**31, 2**63 - 1, -1, -2**63):
        read("a protocol with the version %d of readers" % number, wide,
             [{"protocol": {"minReaderVersion": number, "minWriterVersion": 2}}], DAMAGED)
    read("a protocol with the version -1 of writers", schema(protocol=PROTOCOL),
         [{"protocol": {"minReaderVersion": 1, "minWriterVersion": -1}}], DAMAGED)
    read("a checkpoint's own version below 0", schema(checkpointMetadata=[leaf("version", "int64")]),
         [{"checkpointMetadata": {"version": -1}}], DAMAGED)
    read("a size below 0", schema(add=ADD), [add_row("a", size=-5)], [added("a", -5)])


def bad_texts():
    for name, raw in (("a lone byte", b"\xff"), ("half of a surrogate pair", b"\xed\xa0\x80"), ("a sign that is cut", b"a\xe6\x97"),
                      ("a 0 in two bytes", b"\xc0\x80")):
        read("a text that isn't UTF-8: " + name, schema(add=ADD), [add_row(raw)], DAMAGED)
    read("a value of a map that isn't UTF-8", schema(add=ADD), [add_row("a", partitionValues=[{"key": "day", "value": b"\x80"}])], DAMAGED)
    stats = schema(add=ADD + [leaf("other", "chars")])
    read("bytes that aren't UTF-8 in a column that isn't looked at", stats, [add_row("a", other=b"\xff")], [added("a")])


def other_shapes():
    read("a path as a number", schema(add=[leaf("path", "int32")] + ADD[1:]), [{"add": {"path": 1, "size": 1, "modificationTime": 1}}],
         DAMAGED)
    read("a size as a floating point number", schema(add=ADD[:2] + [leaf("size", "double")] + ADD[3:]), [add_row("a", size=1.0)], DAMAGED)
    read("files as texts", [text("add")], [{"add": "{}"}], DAMAGED)
    read("a list in the place of files, which has none of their columns", [texts("add")], [{"add": []}], [])
    read("a repeated group of files", [Node("add", REPEATED, nodes=ADD)], [{"add": [add_row("a")["add"]]}], DAMAGED)
    read("two groups of files", schema(protocol=PROTOCOL) + schema(add=ADD) + schema(add=ADD), [VERSIONS], DAMAGED)
    read("a map as a list", schema(add=[text("path"), texts("partitionValues")] + ADD[2:]), [add_row("a")], DAMAGED)


def sidecars():
    nodes = schema(protocol=PROTOCOL, sidecar=[text("path"), leaf("sizeInBytes", "int64"), leaf("modificationTime", "int64"), text_map("tags")])
    rows = [VERSIONS, {"sidecar": {"path": "s.parquet", "sizeInBytes": 1, "modificationTime": 2}}]
    read("a sidecar is named", nodes, rows, DAMAGED)
    read("no sidecar is named", nodes, [VERSIONS], [VERSIONS])


def unread_codecs():
    names = ["SNAPPY", "GZIP", "LZO", "BROTLI", "LZ4", "ZSTD", "LZ4_RAW"]
    for code, name in list(enumerate(names, 1)) + [(8, "CODEC_8"), (-1, "CODEC_-1")]:
        everywhere = {path: code for node in SMALL for path, _, _, _ in node.leaves()}
        read("the codec %d" % code, SMALL, ROWS, name + " is not supported", Style(codecs=everywhere))
    late = Style(codecs={("remove", "dataChange"): 1})
    read("a codec of one column, of which all values are null", SMALL, [VERSIONS], "SNAPPY is not supported", late)
    for code in (5, 6, 7, 9):
        style = Style(encodings={("remove", "path"): code})
        read("the encoding %d" % code, SMALL, ROWS, "ENCODING_%d is not supported" % code, style)
    both = Style(codecs={("protocol", "minReaderVersion"): 6}, encodings={("remove", "path"): 6})
    read("a codec behind an encoding", SMALL, ROWS, "ZSTD is not supported", both)
    style = Style(encodings={("remove", "path"): 6})
    read("an encoding in a file with a row that means nothing", SMALL, [{"protocol": {}}] + ROWS, "ENCODING_6 is not supported", style)


def damaged_files():
    whole = file_of(SMALL, ROWS)
    case("the file before it is cut", whole, ACTIONS)
    for end in (0, 3, 4, 8, 11, 12, len(whole) // 2, len(whole) - 8, len(whole) - 1):
        case("a file cut at %d of %d" % (end, len(whole)), whole[:end], DAMAGED)
    case("a file with a byte behind it", whole + b"\n", DAMAGED)
    size = int.from_bytes(whole[-8:-4], "little")
    footer = len(whole) - 8 - size
    case("a file without its pages", b"PAR1" + whole[footer:], DAMAGED)
    case("a file whose pages are zeros", b"PAR1" + bytes(footer - 4) + whole[footer:], DAMAGED)
    case("a footer's length of 4 GiB", whole[:-8] + b"\xff\xff\xff\xff" + whole[-4:], DAMAGED)
    case("an encrypted file", b"PARE" + whole[4:-4] + b"PARE", DAMAGED)
    case("the text of a commit", b'{"protocol":{"minReaderVersion":1,"minWriterVersion":2}}\n', DAMAGED)
    rows = [element("m", children=1), element("add", 1, children=1), element("path", 1, "chars")]
    case("a file that says 2^62 rows and has none", parquet.file_of(rows, [], rows=2**62), DAMAGED)
    many = Chunk(["add", "path"], "chars", 2**62, [parquet.data_page(1, parquet.sized(parquet.levels([0], 2)))])
    case("a chunk that says 2^62 values and has one", parquet.file_of(rows, [(2**62, [many])]), DAMAGED)


def stores():
    whole = file_of(SMALL, ROWS)
    case("an object that is absent", None, PATH + " is absent")
    case("an object of the limit", whole, ACTIONS, len(whole))
    case("an object over the limit", whole, "%d is over the limit Object" % len(whole), len(whole) - 1)
    case("a damaged object over the limit", whole[:-1], "%d is over the limit Object" % (len(whole) - 1), 100)


def main():
    whole_states()
    beside_the_text()
    deletion_vectors()
    other_schemas()
    bad_rows()
    numbers_out_of_range()
    bad_texts()
    other_shapes()
    sidecars()
    unread_codecs()
    damaged_files()
    stores()
    return parquet.finish(PLACE, CASES)


if __name__ == "__main__":
    sys.exit(main())
