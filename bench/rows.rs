//! A plain reader and writer of Parquet files of the kind that checkpoints are, without dependencies: the program beside `dk_bench rows`,
//! `write`, `checkpoint` and `classic`.
//!
//! `rows make FILE ROWS GROUPS PAGES plain|dictionary` writes a file of so many rows, in so many row groups with so many data pages a
//! column; `rows read FILE TIMES` reads its rows so many times and prints how many they were; `rows write FILE TIMES plain|dictionary`
//! reads its rows once, writes them so many times in one row group with one data page a column, and prints how many bytes these were.
//! `rows read_actions FILE TIMES` reads the actions of its rows so many times and prints how many they were; `rows classic FILE TIMES` takes
//! them into a state, writes its checkpoint so many times, and prints how many bytes these were; `rows commit FILE TO` writes them as the
//! lines of a commit.

mod actions;

use std::collections::HashMap;

enum Kind {
    Flag,
    Int64,
    Chars,
    Group(Vec<Field>),
    List(Box<Field>),
    /// The keys are texts.
    Map(Box<Field>),
}

/// All fields are optional but the key of a map.
struct Field {
    name: &'static str,
    kind: Kind,
    /// How many leaves it has.
    leaves: usize,
}

#[derive(Clone)]
enum Cell {
    Null,
    Flag(bool),
    Int(i64),
    Chars(String),
    Group(Vec<Cell>),
    List(Vec<Cell>),
}

/// The texts are owned where they are read, and those of the rows where they are written.
enum Value<T> {
    Flag(bool),
    Int(i64),
    Chars(T),
}

struct Triple<T> {
    rep: u8,
    def: u8,
    value: Option<Value<T>>,
}

// ---- the schema of checkpoints

fn field(name: &'static str, kind: Kind) -> Field {
    let leaves = match &kind {
        Kind::Group(fields) => fields.iter().map(|field| field.leaves).sum(),
        Kind::List(element) => element.leaves,
        Kind::Map(value) => 1 + value.leaves,
        _ => 1,
    };
    Field { name, kind, leaves }
}

fn text(name: &'static str) -> Field {
    field(name, Kind::Chars)
}

fn number(name: &'static str) -> Field {
    field(name, Kind::Int64)
}

fn flag(name: &'static str) -> Field {
    field(name, Kind::Flag)
}

fn map(name: &'static str) -> Field {
    field(name, Kind::Map(Box::new(text("value"))))
}

fn list(name: &'static str) -> Field {
    field(name, Kind::List(Box::new(text("element"))))
}

fn group(name: &'static str, fields: Vec<Field>) -> Field {
    field(name, Kind::Group(fields))
}

fn schema() -> Vec<Field> {
    vec![
        group("txn", vec![text("appId"), number("version"), number("lastUpdated")]),
        group(
            "add",
            vec![
                text("path"), map("partitionValues"), number("size"), number("modificationTime"), flag("dataChange"), text("stats"), map("tags"),
                number("baseRowId"), number("defaultRowCommitVersion"), text("clusteringProvider"),
            ],
        ),
        group("remove", vec![text("path"), number("deletionTimestamp"), flag("dataChange")]),
        group(
            "metaData",
            vec![
                text("id"), text("name"), text("description"), group("format", vec![text("provider"), map("options")]), text("schemaString"),
                list("partitionColumns"), map("configuration"), number("createdTime"),
            ],
        ),
        group("protocol", vec![number("minReaderVersion"), number("minWriterVersion"), list("readerFeatures"), list("writerFeatures")]),
        group("domainMetadata", vec![text("domain"), text("configuration"), flag("removed")]),
    ]
}

/// A leaf of the schema: its path in the file, what it holds, and its greatest levels.
struct Leaf {
    path: Vec<String>,
    physical: i64,
    rep: u8,
    def: u8,
}

fn add_leaves(fields: &[Field], path: &[String], rep: u8, def: u8, leaves: &mut Vec<Leaf>) {
    for field in fields {
        let mut path = path.to_vec();
        path.push(field.name.to_string());
        add_leaf(field, path, rep, def + 1, leaves);
    }
}

fn add_leaf(field: &Field, path: Vec<String>, rep: u8, def: u8, leaves: &mut Vec<Leaf>) {
    let inner = |names: [&str; 2]| path.iter().cloned().chain(names.map(String::from)).collect::<Vec<_>>();
    match &field.kind {
        Kind::Flag => leaves.push(Leaf { path, physical: 0, rep, def }),
        Kind::Int64 => leaves.push(Leaf { path, physical: 2, rep, def }),
        Kind::Chars => leaves.push(Leaf { path, physical: 6, rep, def }),
        Kind::Group(fields) => add_leaves(fields, &path, rep, def, leaves),
        Kind::List(element) => add_leaf(element, inner(["list", "element"]), rep + 1, def + 2, leaves),
        Kind::Map(value) => {
            leaves.push(Leaf { path: inner(["key_value", "key"]), physical: 6, rep: rep + 1, def: def + 1 });
            add_leaf(value, inner(["key_value", "value"]), rep + 1, def + 2, leaves);
        }
    }
}

// ---- reading

struct Thrift<'a> {
    bytes: &'a [u8],
    at: usize,
}

impl Thrift<'_> {
    fn byte(&mut self) -> u8 {
        self.at += 1;
        self.bytes[self.at - 1]
    }

    fn varint(&mut self) -> u64 {
        let (mut value, mut shift) = (0, 0);
        loop {
            let byte = self.byte();
            value |= u64::from(byte & 127) << shift;
            if byte < 128 {
                return value;
            }
            shift += 7;
        }
    }

    fn whole(&mut self) -> i64 {
        let n = self.varint();
        (n >> 1) as i64 ^ -((n & 1) as i64)
    }

    fn binary(&mut self) -> String {
        let len = self.varint() as usize;
        self.at += len;
        String::from_utf8(self.bytes[self.at - len..self.at].to_vec()).unwrap()
    }

    fn list(&mut self) -> (usize, u8) {
        let head = self.byte();
        let count = if head >> 4 == 15 { self.varint() as usize } else { usize::from(head >> 4) };
        (count, head & 15)
    }

    /// Each field of a struct: its id and kind. The reader must take the value.
    fn fields(&mut self, mut each: impl FnMut(&mut Self, i64, u8)) {
        let mut id = 0;
        loop {
            let head = self.byte();
            if head == 0 {
                return;
            }
            id = if head >> 4 == 0 { self.whole() } else { id + i64::from(head >> 4) };
            each(self, id, head & 15);
        }
    }

    fn pass(&mut self, kind: u8) {
        match kind {
            1 | 2 => {}
            3 => self.at += 1,
            4..=6 => {
                self.varint();
            }
            7 => self.at += 8,
            8 => {
                let len = self.varint() as usize;
                self.at += len;
            }
            9 | 10 => {
                let (count, kind) = self.list();
                for _ in 0..count {
                    if kind < 3 { self.at += 1 } else { self.pass(kind) }
                }
            }
            12 => self.fields(|t, _, kind| t.pass(kind)),
            _ => panic!("a map"),
        }
    }
}

#[derive(Default)]
struct Chunk {
    path: Vec<String>,
    values: usize,
    first_page: usize,
    dictionary_page: usize,
}

#[derive(Default)]
struct Group {
    rows: usize,
    chunks: Vec<Chunk>,
}

fn read_chunk_head(t: &mut Thrift) -> Chunk {
    let mut chunk = Chunk::default();
    t.fields(|t, id, kind| match id {
        3 if kind == 12 => t.fields(|t, id, kind| match id {
            3 => {
                let (count, _) = t.list();
                chunk.path = (0..count).map(|_| t.binary()).collect();
            }
            4 => assert_eq!(t.whole(), 0),
            5 => chunk.values = t.whole() as usize,
            9 => chunk.first_page = t.whole() as usize,
            11 => chunk.dictionary_page = t.whole() as usize,
            _ => t.pass(kind),
        }),
        _ => t.pass(kind),
    });
    chunk
}

fn read_groups(bytes: &[u8]) -> Vec<Group> {
    let end = bytes.len() - 8;
    let size = u32::from_le_bytes(bytes[end..end + 4].try_into().unwrap()) as usize;
    let mut groups = Vec::new();
    Thrift { bytes, at: end - size }.fields(|t, id, kind| match id {
        4 => {
            let (count, _) = t.list();
            for _ in 0..count {
                let mut group = Group::default();
                t.fields(|t, id, kind| match id {
                    1 => {
                        let (count, _) = t.list();
                        group.chunks = (0..count).map(|_| read_chunk_head(t)).collect();
                    }
                    3 => group.rows = t.whole() as usize,
                    _ => t.pass(kind),
                });
                groups.push(group);
            }
        }
        _ => t.pass(kind),
    });
    groups
}

fn width_of(greatest: u32) -> usize {
    (32 - greatest.leading_zeros()) as usize
}

/// The first so many values of runs, and the number of bytes used.
fn decode(bytes: &[u8], width: usize, count: usize) -> Vec<u32> {
    let mut values = Vec::with_capacity(count);
    let mut t = Thrift { bytes, at: 0 };
    while values.len() < count {
        let head = t.varint() as usize;
        if head & 1 == 0 {
            let mut value = 0;
            for i in 0..width.div_ceil(8) {
                value |= u32::from(t.byte()) << (8 * i);
            }
            let copies = (head >> 1).min(count - values.len());
            values.extend(std::iter::repeat_n(value, copies));
        } else {
            let (mut held, mut bits) = (0u64, 0);
            let end = t.at + (head >> 1) * width;
            for _ in 0..(8 * (head >> 1)).min(count - values.len()) {
                while bits < width {
                    held |= u64::from(t.byte()) << bits;
                    bits += 8;
                }
                values.push((held & ((1 << width) - 1)) as u32);
                held >>= width;
                bits -= width;
            }
            t.at = end;
        }
    }
    values
}

struct Page {
    kind: i64,
    values: usize,
    encoding: i64,
    body: usize,
    end: usize,
}

fn read_page_head(bytes: &[u8], at: usize) -> Page {
    let mut page = Page { kind: 0, values: 0, encoding: 0, body: 0, end: 0 };
    let mut size = 0;
    let mut t = Thrift { bytes, at };
    t.fields(|t, id, kind| match id {
        1 => page.kind = t.whole(),
        3 => size = t.whole() as usize,
        5 | 7 => t.fields(|t, id, kind| match id {
            1 => page.values = t.whole() as usize,
            2 => page.encoding = t.whole(),
            _ => t.pass(kind),
        }),
        _ => t.pass(kind),
    });
    page.body = t.at;
    page.end = t.at + size;
    page
}

fn plain_texts(bytes: &[u8], count: usize) -> Vec<String> {
    let mut at = 0;
    (0..count)
        .map(|_| {
            let len = u32::from_le_bytes(bytes[at..at + 4].try_into().unwrap()) as usize;
            at += 4 + len;
            String::from_utf8(bytes[at - len..at].to_vec()).unwrap()
        })
        .collect()
}

fn read_values(bytes: &[u8], physical: i64, encoding: i64, count: usize, entries: &[String]) -> Vec<Value<String>> {
    match (encoding, physical) {
        (0, 0) => (0..count).map(|i| Value::Flag(bytes[i / 8] >> (i % 8) & 1 == 1)).collect(),
        (0, 2) => bytes.chunks_exact(8).take(count).map(|b| Value::Int(i64::from_le_bytes(b.try_into().unwrap()))).collect(),
        (0, _) => plain_texts(bytes, count).into_iter().map(Value::Chars).collect(),
        _ if count == 0 => Vec::new(),
        _ => decode(&bytes[1..], usize::from(bytes[0]), count).into_iter().map(|i| Value::Chars(entries[i as usize].clone())).collect(),
    }
}

fn read_levels(bytes: &mut &[u8], greatest: u8, count: usize) -> Vec<u32> {
    if greatest == 0 {
        return vec![0; count];
    }
    let size = u32::from_le_bytes(bytes[..4].try_into().unwrap()) as usize;
    let levels = decode(&bytes[4..4 + size], width_of(u32::from(greatest)), count);
    *bytes = &bytes[4 + size..];
    levels
}

fn read_column(bytes: &[u8], leaf: &Leaf, chunk: &Chunk) -> Vec<Triple<String>> {
    let mut entries = Vec::new();
    let mut at = chunk.first_page;
    if chunk.dictionary_page > 0 {
        let page = read_page_head(bytes, chunk.dictionary_page);
        entries = plain_texts(&bytes[page.body..page.end], page.values);
        at = page.end;
    }
    let mut triples = Vec::with_capacity(chunk.values);
    while triples.len() < chunk.values {
        let page = read_page_head(bytes, at);
        let mut body = &bytes[page.body..page.end];
        let reps = read_levels(&mut body, leaf.rep, page.values);
        let defs = read_levels(&mut body, leaf.def, page.values);
        let full = defs.iter().filter(|d| **d == u32::from(leaf.def)).count();
        let mut values = read_values(body, leaf.physical, page.encoding, full, &entries).into_iter();
        for (rep, def) in reps.into_iter().zip(defs) {
            let value = if def == u32::from(leaf.def) { values.next() } else { None };
            triples.push(Triple { rep: rep as u8, def: def as u8, value });
        }
        at = page.end;
    }
    triples
}

/// A column, and where it is read from next.
struct Cursor {
    triples: Vec<Triple<String>>,
    at: usize,
}

fn pass_all(columns: &mut [Cursor]) {
    for column in columns {
        column.at += 1;
    }
}

/// The next cell of a field, where this definition level is reached around it, and so many lists.
fn read_cell(field: &Field, columns: &mut [Cursor], def: u8, rep: u8) -> Cell {
    let reached = columns[0].triples[columns[0].at].def;
    if reached <= def {
        pass_all(columns);
        return Cell::Null;
    }
    match &field.kind {
        Kind::Group(fields) => Cell::Group(read_group(fields, columns, def + 1, rep)),
        Kind::List(element) => read_list(columns, def + 1, rep + 1, |columns| read_cell(element, columns, def + 2, rep + 1)),
        Kind::Map(value) => read_list(columns, def + 1, rep + 1, |columns| {
            let key = take_value(&mut columns[0]);
            Cell::Group(vec![key, read_cell(value, &mut columns[1..], def + 2, rep + 1)])
        }),
        _ => take_value(&mut columns[0]),
    }
}

fn take_value(column: &mut Cursor) -> Cell {
    let triple = &mut column.triples[column.at];
    column.at += 1;
    match triple.value.take().unwrap() {
        Value::Flag(b) => Cell::Flag(b),
        Value::Int(n) => Cell::Int(n),
        Value::Chars(t) => Cell::Chars(t),
    }
}

fn read_group(fields: &[Field], mut columns: &mut [Cursor], def: u8, rep: u8) -> Vec<Cell> {
    let mut cells = Vec::with_capacity(fields.len());
    for field in fields {
        let (own, others) = columns.split_at_mut(field.leaves);
        cells.push(read_cell(field, own, def, rep));
        columns = others;
    }
    cells
}

fn read_list(columns: &mut [Cursor], def: u8, rep: u8, mut element: impl FnMut(&mut [Cursor]) -> Cell) -> Cell {
    let mut cells = Vec::new();
    if columns[0].triples[columns[0].at].def == def {
        pass_all(columns);
        return Cell::List(cells);
    }
    loop {
        cells.push(element(columns));
        match columns[0].triples.get(columns[0].at) {
            Some(triple) if triple.rep == rep => {}
            _ => return Cell::List(cells),
        }
    }
}

fn read_rows(bytes: &[u8], fields: &[Field], leaves: &[Leaf]) -> Vec<Vec<Cell>> {
    let mut rows = Vec::new();
    for group in read_groups(bytes) {
        let chunks: HashMap<&[String], &Chunk> = group.chunks.iter().map(|chunk| (chunk.path.as_slice(), chunk)).collect();
        let mut columns: Vec<_> =
            leaves.iter().map(|leaf| Cursor { triples: read_column(bytes, leaf, chunks[leaf.path.as_slice()]), at: 0 }).collect();
        for _ in 0..group.rows {
            rows.push(read_group(fields, &mut columns, 0, 0));
        }
    }
    rows
}

// ---- writing

fn varint(mut n: u64, out: &mut Vec<u8>) {
    while n >= 128 {
        out.push(n as u8 | 128);
        n >>= 7;
    }
    out.push(n as u8);
}

fn whole(n: i64, out: &mut Vec<u8>) {
    varint((n << 1 ^ n >> 63) as u64, out);
}

fn number_field(step: u8, kind: u8, n: i64, out: &mut Vec<u8>) {
    out.push(16 * step + kind);
    whole(n, out);
}

fn binary(text: &str, out: &mut Vec<u8>) {
    varint(text.len() as u64, out);
    out.extend(text.as_bytes());
}

fn list_head(count: usize, kind: u8, out: &mut Vec<u8>) {
    if count < 15 {
        out.push(16 * count as u8 + kind);
    } else {
        out.push(240 + kind);
        varint(count as u64, out);
    }
}

/// Runs: eight equal values and more are one run, and others are packed in groups of eight.
fn encode(values: &[u32], width: usize) -> Vec<u8> {
    let mut out = Vec::new();
    let mut at = 0;
    while at < values.len() {
        let equal = values[at..].iter().take_while(|v| **v == values[at]).count();
        if equal >= 8 {
            varint(2 * equal as u64, &mut out);
            out.extend(&values[at].to_le_bytes()[..width.div_ceil(8)]);
            at += equal;
            continue;
        }
        let start = at;
        at = values.len().min(at + 8);
        while at < values.len() && !values[at..].iter().take(8).all(|v| *v == values[at]) {
            at = values.len().min(at + 8);
        }
        let groups = (at - start).div_ceil(8);
        varint(2 * groups as u64 + 1, &mut out);
        let (mut held, mut bits) = (0u64, 0);
        for i in 0..8 * groups {
            held |= u64::from(if start + i < at { values[start + i] } else { 0 }) << bits;
            bits += width;
            while bits >= 8 {
                out.push(held as u8);
                held >>= 8;
                bits -= 8;
            }
        }
    }
    out
}

fn put<'a>(cell: &'a Cell, field: &Field, columns: &mut [Vec<Triple<&'a str>>], rep: u8, def: u8, lists: u8) {
    match (cell, &field.kind) {
        (Cell::Null, _) => put_nothing(columns, rep, def),
        (Cell::Flag(b), _) => columns[0].push(Triple { rep, def: def + 1, value: Some(Value::Flag(*b)) }),
        (Cell::Int(n), _) => columns[0].push(Triple { rep, def: def + 1, value: Some(Value::Int(*n)) }),
        (Cell::Chars(t), _) => columns[0].push(Triple { rep, def: def + 1, value: Some(Value::Chars(t)) }),
        (Cell::Group(cells), Kind::Group(fields)) => put_group(cells, fields, columns, rep, def + 1, lists),
        (Cell::List(cells), _) if cells.is_empty() => put_nothing(columns, rep, def + 1),
        (Cell::List(cells), kind) => {
            for (i, cell) in cells.iter().enumerate() {
                let rep = if i == 0 { rep } else { lists + 1 };
                match (kind, cell) {
                    (Kind::List(element), cell) => put(cell, element, columns, rep, def + 2, lists + 1),
                    (Kind::Map(value), Cell::Group(pair)) => {
                        let Cell::Chars(key) = &pair[0] else { panic!("a key") };
                        columns[0].push(Triple { rep, def: def + 2, value: Some(Value::Chars(key)) });
                        put(&pair[1], value, &mut columns[1..], rep, def + 2, lists + 1);
                    }
                    _ => panic!("a cell of another form"),
                }
            }
        }
        _ => panic!("a cell of another form"),
    }
}

fn put_nothing(columns: &mut [Vec<Triple<&str>>], rep: u8, def: u8) {
    for column in columns {
        column.push(Triple { rep, def, value: None });
    }
}

fn put_group<'a>(cells: &'a [Cell], fields: &[Field], mut columns: &mut [Vec<Triple<&'a str>>], rep: u8, def: u8, lists: u8) {
    for (cell, field) in cells.iter().zip(fields) {
        let (own, others) = columns.split_at_mut(field.leaves);
        put(cell, field, own, rep, def, lists);
        columns = others;
    }
}

fn append_page(kind: i64, inner_step: u8, values: usize, encoding: i64, body: &[u8], out: &mut Vec<u8>) {
    number_field(1, 5, kind, out);
    number_field(1, 5, body.len() as i64, out);
    number_field(1, 5, body.len() as i64, out);
    out.push(16 * inner_step + 12);
    number_field(1, 5, values as i64, out);
    number_field(1, 5, encoding, out);
    if kind == 0 {
        number_field(1, 5, 3, out);
        number_field(1, 5, 3, out);
    }
    out.extend([0, 0]);
    out.extend(body);
}

fn append_text(text: &str, out: &mut Vec<u8>) {
    out.extend((text.len() as u32).to_le_bytes());
    out.extend(text.as_bytes());
}

fn append_levels(levels: impl Iterator<Item = u8>, greatest: u8, out: &mut Vec<u8>) {
    if greatest > 0 {
        let levels: Vec<u32> = levels.map(u32::from).collect();
        let runs = encode(&levels, width_of(u32::from(greatest)));
        out.extend((runs.len() as u32).to_le_bytes());
        out.extend(runs);
    }
}

/// The texts of a column, the distinct ones, each behind its length, and the place of each among these.
fn code_texts(triples: &[Triple<&str>]) -> (Vec<u8>, Vec<u32>, usize) {
    let mut body = Vec::new();
    let mut places = Vec::new();
    let mut entries: HashMap<&str, u32> = HashMap::new();
    for triple in triples {
        if let Some(Value::Chars(text)) = triple.value {
            let next = entries.len() as u32;
            places.push(*entries.entry(text).or_insert_with(|| {
                append_text(text, &mut body);
                next
            }));
        }
    }
    (body, places, entries.len())
}

fn append_values(triples: &[Triple<&str>], body: &mut Vec<u8>) {
    let mut bits = 0;
    for value in triples.iter().filter_map(|t| t.value.as_ref()) {
        match value {
            Value::Flag(b) => {
                if bits % 8 == 0 {
                    body.push(0);
                }
                *body.last_mut().unwrap() |= u8::from(*b) << (bits % 8);
                bits += 1;
            }
            Value::Int(n) => body.extend(n.to_le_bytes()),
            Value::Chars(t) => append_text(t, body),
        }
    }
}

/// Adds a column's pages, and gives its chunk.
fn append_column(leaf: &Leaf, triples: &[Triple<&str>], pages: usize, dictionary: bool, out: &mut Vec<u8>) -> Chunk {
    let mut chunk = Chunk { path: leaf.path.clone(), values: triples.len(), first_page: 0, dictionary_page: 0 };
    let (mut places, mut width) = (Vec::new(), 0);
    let coded = dictionary && leaf.physical == 6;
    if coded {
        let (body, all, entries) = code_texts(triples);
        (places, width) = (all, width_of(entries.saturating_sub(1) as u32));
        chunk.dictionary_page = out.len();
        append_page(2, 4, entries, 0, &body, out);
    }
    chunk.first_page = out.len();
    let mut left = places.as_slice();
    for page in triples.chunks(triples.len().div_ceil(pages)) {
        let mut body = Vec::new();
        append_levels(page.iter().map(|t| t.rep), leaf.rep, &mut body);
        append_levels(page.iter().map(|t| t.def), leaf.def, &mut body);
        if coded {
            let (own, later) = left.split_at(page.iter().filter(|t| t.value.is_some()).count());
            body.push(width as u8);
            body.extend(encode(own, width));
            left = later;
        } else {
            append_values(page, &mut body);
        }
        append_page(0, 2, page.len(), if coded { 8 } else { 0 }, &body, out);
    }
    chunk
}

fn append_element(name: &str, physical: Option<i64>, repetition: i64, children: usize, out: &mut Vec<u8>) {
    let mut last = 0;
    if let Some(physical) = physical {
        number_field(1, 5, physical, out);
        last = 1;
    }
    number_field(3 - last, 5, repetition, out);
    out.push(16 + 8);
    binary(name, out);
    if children > 0 {
        number_field(1, 5, children as i64, out);
    }
    out.push(0);
}

fn elements_of(field: &Field, name: &str, out: &mut Vec<u8>) -> usize {
    match &field.kind {
        Kind::Flag => append_element(name, Some(0), 1, 0, out),
        Kind::Int64 => append_element(name, Some(2), 1, 0, out),
        Kind::Chars => append_element(name, Some(6), 1, 0, out),
        Kind::Group(fields) => {
            append_element(name, None, 1, fields.len(), out);
            return 1 + fields.iter().map(|f| elements_of(f, f.name, out)).sum::<usize>();
        }
        Kind::List(element) => {
            append_element(name, None, 1, 1, out);
            append_element("list", None, 2, 1, out);
            return 2 + elements_of(element, "element", out);
        }
        Kind::Map(value) => {
            append_element(name, None, 1, 1, out);
            append_element("key_value", None, 2, 2, out);
            append_element("key", Some(6), 0, 0, out);
            return 3 + elements_of(value, "value", out);
        }
    }
    1
}

fn append_chunk(chunk: &Chunk, physical: i64, out: &mut Vec<u8>) {
    number_field(2, 6, chunk.first_page as i64, out);
    out.push(16 + 12);
    number_field(1, 5, physical, out);
    out.push(16 + 9);
    list_head(1, 5, out);
    whole(0, out);
    out.push(16 + 9);
    list_head(chunk.path.len(), 8, out);
    for name in &chunk.path {
        binary(name, out);
    }
    number_field(1, 5, 0, out);
    number_field(1, 6, chunk.values as i64, out);
    number_field(1, 6, 0, out);
    number_field(1, 6, 0, out);
    number_field(2, 6, chunk.first_page as i64, out);
    if chunk.dictionary_page > 0 {
        number_field(2, 6, chunk.dictionary_page as i64, out);
    }
    out.extend([0, 0]);
}

fn write_rows(rows: &[Vec<Cell>], groups: usize, pages: usize, dictionary: bool) -> Vec<u8> {
    let fields = schema();
    let mut leaves = Vec::new();
    add_leaves(&fields, &[], 0, 0, &mut leaves);
    let mut out = b"PAR1".to_vec();
    let mut heads = Vec::new();
    let mut count = 0;
    for rows in rows.chunks(rows.len().div_ceil(groups)) {
        let mut columns: Vec<Vec<Triple<&str>>> = leaves.iter().map(|_| Vec::with_capacity(rows.len())).collect();
        for row in rows {
            put_group(row, &fields, &mut columns, 0, 0, 0);
        }
        heads.push(16 + 9);
        list_head(leaves.len(), 12, &mut heads);
        for (leaf, triples) in leaves.iter().zip(&columns) {
            let chunk = append_column(leaf, triples, pages, dictionary, &mut out);
            append_chunk(&chunk, leaf.physical, &mut heads);
        }
        number_field(1, 6, 0, &mut heads);
        number_field(1, 6, rows.len() as i64, &mut heads);
        heads.push(0);
        count += 1;
    }
    let mut elements = Vec::new();
    let nodes: usize = fields.iter().map(|f| elements_of(f, f.name, &mut elements)).sum();
    let start = out.len();
    number_field(1, 5, 1, &mut out);
    out.push(16 + 9);
    list_head(1 + nodes, 12, &mut out);
    out.push(4 * 16 + 8);
    binary("root", &mut out);
    number_field(1, 5, fields.len() as i64, &mut out);
    out.push(0);
    out.extend(elements);
    number_field(1, 6, rows.len() as i64, &mut out);
    out.push(16 + 9);
    list_head(count, 12, &mut out);
    out.extend(heads);
    out.push(0);
    let size = (out.len() - start) as u32;
    out.extend(size.to_le_bytes());
    out.extend(b"PAR1");
    out
}

// ---- rows of a checkpoint

fn chars(text: impl Into<String>) -> Cell {
    Cell::Chars(text.into())
}

fn pairs(pairs: &[(&str, String)]) -> Cell {
    Cell::List(pairs.iter().map(|(key, value)| Cell::Group(vec![chars(*key), chars(value.clone())])).collect())
}

fn pairs_of(pairs: &actions::Pairs) -> Cell {
    Cell::List(pairs.iter().map(|(key, value)| Cell::Group(vec![chars(key.as_str()), value.as_deref().map_or(Cell::Null, chars)])).collect())
}

/// A row with one action, at the place of its top field.
fn row(place: usize, cells: Vec<Cell>) -> Vec<Cell> {
    let mut row = vec![Cell::Null; 6];
    row[place] = Cell::Group(cells);
    row
}

fn rows_of(count: usize) -> Vec<Vec<Cell>> {
    let mut rows = vec![
        row(4, vec![Cell::Int(1), Cell::Int(2), Cell::Null, Cell::Null]),
        row(3, vec![
            chars("t"), Cell::Null, Cell::Null, Cell::Group(vec![chars("parquet"), pairs(&[])]), chars("{}"), Cell::List(vec![chars("day")]),
            pairs(&[("delta.appendOnly", "false".to_string())]), Cell::Int(5),
        ]),
    ];
    for i in 2..count {
        let path = format!("day={}/part-{i:05}-{:08x}.parquet", i % 365, i.wrapping_mul(2654435761) as u32);
        rows.push(if i % 10 == 0 {
            row(2, vec![chars(path), Cell::Int(1_600_000_000_000 + i as i64), Cell::Flag(false)])
        } else {
            let stats = format!("{{\"numRecords\":{},\"minValues\":{{\"id\":{i}}},\"maxValues\":{{\"id\":{}}},\"nullCount\":{{\"id\":0}}}}", i % 100, i + 99);
            row(1, vec![
                chars(path), pairs(&[("day", format!("{}", i % 365))]), Cell::Int(i as i64 * 1000), Cell::Int(1_600_000_000_000 + i as i64),
                Cell::Flag(false), chars(stats), Cell::Null, Cell::Null, Cell::Null, Cell::Null,
            ])
        });
    }
    rows
}

fn read_actions(bytes: &[u8]) -> Vec<actions::Action> {
    let fields = schema();
    let mut leaves = Vec::new();
    add_leaves(&fields, &[], 0, 0, &mut leaves);
    actions::actions_of(read_rows(bytes, &fields, &leaves))
}

fn main() {
    let words: Vec<String> = std::env::args().skip(1).collect();
    let words: Vec<&str> = words.iter().map(String::as_str).collect();
    match words[..] {
        ["make", file, rows, groups, pages, how] => {
            let bytes = write_rows(&rows_of(rows.parse().unwrap()), groups.parse().unwrap(), pages.parse().unwrap(), how == "dictionary");
            std::fs::write(file, bytes).unwrap();
        }
        ["read", file, times] => {
            let bytes = std::fs::read(file).unwrap();
            let fields = schema();
            let mut leaves = Vec::new();
            add_leaves(&fields, &[], 0, 0, &mut leaves);
            let mut total = 0;
            for _ in 0..times.parse().unwrap() {
                total += read_rows(&bytes, &fields, &leaves).len();
            }
            println!("{total}");
        }
        ["write", file, times, how] => {
            let bytes = std::fs::read(file).unwrap();
            let fields = schema();
            let mut leaves = Vec::new();
            add_leaves(&fields, &[], 0, 0, &mut leaves);
            let rows = read_rows(&bytes, &fields, &leaves);
            let mut total = 0;
            for _ in 0..times.parse().unwrap() {
                total += write_rows(&rows, 1, 1, how == "dictionary").len();
            }
            println!("{total}");
        }
        ["read_actions", file, times] => {
            let bytes = std::fs::read(file).unwrap();
            let mut total = 0;
            for _ in 0..times.parse().unwrap() {
                total += read_actions(&bytes).len();
            }
            println!("{total}");
        }
        ["classic", file, times] => {
            let state = actions::state_of(read_actions(&std::fs::read(file).unwrap()));
            let mut total = 0;
            for _ in 0..times.parse().unwrap() {
                total += write_rows(&actions::rows_of_state(&state, 0), 1, 1, false).len();
            }
            println!("{total}");
        }
        ["commit", file, to] => {
            let lines: Vec<String> = read_actions(&std::fs::read(file).unwrap()).iter().map(actions::line_of).collect();
            std::fs::write(to, lines.join("\n")).unwrap();
        }
        _ => panic!(
            "rows make FILE ROWS GROUPS PAGES plain|dictionary, rows read|read_actions|classic FILE TIMES, rows write FILE TIMES plain|dictionary, or rows commit FILE TO"
        ),
    }
}
