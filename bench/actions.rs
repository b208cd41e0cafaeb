//! The actions of the rows of a checkpoint, the state that they lead to, and the rows of a state: what `rows read_actions` and
//! `rows classic` measure; and the actions as the lines of a commit.

use crate::{pairs_of, row, Cell};
use std::collections::BTreeMap;

pub type Pairs = Vec<(String, Option<String>)>;

pub struct Protocol {
    min_reader: u32,
    min_writer: u32,
    reader_features: Option<Vec<String>>,
    writer_features: Option<Vec<String>>,
}

pub struct Metadata {
    id: String,
    name: Option<String>,
    description: Option<String>,
    provider: String,
    options: Pairs,
    schema_string: String,
    partition_columns: Vec<String>,
    created_time: Option<i64>,
    configuration: Pairs,
}

pub struct AddFile {
    path: String,
    partition_values: Pairs,
    size: i64,
    modification_time: i64,
    data_change: bool,
    stats: Option<String>,
    tags: Option<Pairs>,
    base_row_id: Option<i64>,
    default_row_commit_version: Option<i64>,
    clustering_provider: Option<String>,
}

pub enum Action {
    Protocol(Protocol),
    Metadata(Metadata),
    Add(AddFile),
    Remove { path: String, deletion_timestamp: i64 },
    Txn { app_id: String, version: i64, last_updated: Option<i64> },
    Domain { domain: String, configuration: String, removed: bool },
}

#[derive(Default)]
pub struct State {
    protocol: Option<Protocol>,
    metadata: Option<Metadata>,
    files: BTreeMap<String, AddFile>,
    tombstones: BTreeMap<String, i64>,
    applications: BTreeMap<String, (i64, Option<i64>)>,
    domains: BTreeMap<String, String>,
}

// ---- from cells

fn text(cell: Cell) -> Option<String> {
    match cell {
        Cell::Chars(text) => Some(text),
        Cell::Null => None,
        _ => panic!("a text"),
    }
}

fn number(cell: Cell) -> Option<i64> {
    match cell {
        Cell::Int(n) => Some(n),
        Cell::Null => None,
        _ => panic!("a number"),
    }
}

fn flag(cell: Cell) -> Option<bool> {
    match cell {
        Cell::Flag(b) => Some(b),
        Cell::Null => None,
        _ => panic!("a flag"),
    }
}

fn list(cell: Cell) -> Option<Vec<String>> {
    match cell {
        Cell::List(cells) => Some(cells.into_iter().map(|cell| text(cell).expect("a text")).collect()),
        Cell::Null => None,
        _ => panic!("a list"),
    }
}

/// The pairs of a map, by key.
fn map(cell: Cell) -> Option<Pairs> {
    let Cell::List(cells) = cell else { return None };
    let mut pairs: Pairs = cells
        .into_iter()
        .map(|cell| {
            let [key, value] = fields(cell);
            (text(key).expect("a key"), text(value))
        })
        .collect();
    pairs.sort_by(|one, other| one.0.cmp(&other.0));
    Some(pairs)
}

fn fields<const COUNT: usize>(cell: Cell) -> [Cell; COUNT] {
    let Cell::Group(cells) = cell else { panic!("a group") };
    cells.try_into().unwrap_or_else(|_| panic!("other fields"))
}

fn add_of(cell: Cell) -> AddFile {
    let [path, values, size, time, change, stats, tags, row_id, version, provider] = fields(cell);
    AddFile {
        path: text(path).expect("a path"),
        partition_values: map(values).unwrap_or_default(),
        size: number(size).expect("a size"),
        modification_time: number(time).expect("a time"),
        data_change: flag(change).unwrap_or(true),
        stats: text(stats),
        tags: map(tags),
        base_row_id: number(row_id),
        default_row_commit_version: number(version),
        clustering_provider: text(provider),
    }
}

fn metadata_of(cell: Cell) -> Metadata {
    let [id, name, description, format, schema, columns, configuration, created] = fields(cell);
    let [provider, options] = fields(format);
    Metadata {
        id: text(id).expect("an id"),
        name: text(name),
        description: text(description),
        provider: text(provider).unwrap_or_else(|| "parquet".to_string()),
        options: map(options).unwrap_or_default(),
        schema_string: text(schema).expect("a schema"),
        partition_columns: list(columns).unwrap_or_default(),
        created_time: number(created),
        configuration: map(configuration).unwrap_or_default(),
    }
}

fn protocol_of(cell: Cell) -> Protocol {
    let [reader, writer, reader_features, writer_features] = fields(cell);
    let version = |cell| u32::try_from(number(cell).expect("a version")).expect("a version in range");
    Protocol {
        min_reader: version(reader),
        min_writer: version(writer),
        reader_features: list(reader_features),
        writer_features: list(writer_features),
    }
}

/// The action of a row, which has at most one.
fn action_of(row: Vec<Cell>) -> Option<Action> {
    let mut found = None;
    for (place, cell) in row.into_iter().enumerate() {
        if matches!(cell, Cell::Null) {
            continue;
        }
        assert!(found.is_none(), "two actions");
        found = Some(match place {
            0 => {
                let [app_id, version, updated] = fields(cell);
                Action::Txn { app_id: text(app_id).expect("an id"), version: number(version).expect("a version"), last_updated: number(updated) }
            }
            1 => Action::Add(add_of(cell)),
            2 => {
                let [path, time, _] = fields(cell);
                Action::Remove { path: text(path).expect("a path"), deletion_timestamp: number(time).unwrap_or(0) }
            }
            3 => Action::Metadata(metadata_of(cell)),
            4 => Action::Protocol(protocol_of(cell)),
            _ => {
                let [domain, configuration, removed] = fields(cell);
                Action::Domain {
                    domain: text(domain).expect("a domain"),
                    configuration: text(configuration).expect("a configuration"),
                    removed: flag(removed).expect("a flag"),
                }
            }
        });
    }
    found
}

pub fn actions_of(rows: Vec<Vec<Cell>>) -> Vec<Action> {
    rows.into_iter().filter_map(action_of).collect()
}

pub fn state_of(actions: Vec<Action>) -> State {
    let mut state = State::default();
    for action in actions {
        match action {
            Action::Protocol(protocol) => state.protocol = Some(protocol),
            Action::Metadata(metadata) => state.metadata = Some(metadata),
            Action::Add(mut file) => {
                file.data_change = false;
                state.tombstones.remove(&file.path);
                state.files.insert(file.path.clone(), file);
            }
            Action::Remove { path, deletion_timestamp } => {
                state.files.remove(&path);
                state.tombstones.insert(path, deletion_timestamp);
            }
            Action::Txn { app_id, version, last_updated } => {
                state.applications.insert(app_id, (version, last_updated));
            }
            Action::Domain { domain, removed: true, .. } => {
                state.domains.remove(&domain);
            }
            Action::Domain { domain, configuration, .. } => {
                state.domains.insert(domain, configuration);
            }
        }
    }
    state
}

// ---- to cells

fn chars(text: &str) -> Cell {
    Cell::Chars(text.to_string())
}

fn optional(text: &Option<String>) -> Cell {
    text.as_deref().map_or(Cell::Null, chars)
}

fn optional_number(n: Option<i64>) -> Cell {
    n.map_or(Cell::Null, Cell::Int)
}

fn names(names: &[String]) -> Cell {
    Cell::List(names.iter().map(|name| chars(name)).collect())
}

fn row_of_add(file: &AddFile) -> Vec<Cell> {
    row(1, vec![
        chars(&file.path), pairs_of(&file.partition_values), Cell::Int(file.size), Cell::Int(file.modification_time), Cell::Flag(file.data_change),
        optional(&file.stats), file.tags.as_ref().map_or(Cell::Null, |tags| pairs_of(tags)), optional_number(file.base_row_id),
        optional_number(file.default_row_commit_version), optional(&file.clustering_provider),
    ])
}

fn row_of_metadata(it: &Metadata) -> Vec<Cell> {
    row(3, vec![
        chars(&it.id), optional(&it.name), optional(&it.description), Cell::Group(vec![chars(&it.provider), pairs_of(&it.options)]),
        chars(&it.schema_string), names(&it.partition_columns), pairs_of(&it.configuration), optional_number(it.created_time),
    ])
}

fn row_of_protocol(it: &Protocol) -> Vec<Cell> {
    row(4, vec![
        Cell::Int(it.min_reader.into()), Cell::Int(it.min_writer.into()), it.reader_features.as_deref().map_or(Cell::Null, names),
        it.writer_features.as_deref().map_or(Cell::Null, names),
    ])
}

/// The rows of a classic checkpoint: protocol, metadata, files and unexpired tombstones by path, applications and domains by name.
pub fn rows_of_state(state: &State, cut: i64) -> Vec<Vec<Cell>> {
    let mut rows = Vec::with_capacity(2 + state.files.len() + state.tombstones.len());
    rows.extend(state.protocol.iter().map(row_of_protocol));
    rows.extend(state.metadata.iter().map(row_of_metadata));
    rows.extend(state.files.values().map(row_of_add));
    for (path, time) in state.tombstones.iter().filter(|(_, time)| **time > cut) {
        rows.push(row(2, vec![chars(path), Cell::Int(*time), Cell::Flag(false)]));
    }
    for (app_id, (version, updated)) in &state.applications {
        rows.push(row(0, vec![chars(app_id), Cell::Int(*version), optional_number(*updated)]));
    }
    for (domain, configuration) in &state.domains {
        rows.push(row(5, vec![chars(domain), chars(configuration), Cell::Flag(false)]));
    }
    rows
}

// ---- to lines

fn quoted(text: &str) -> String {
    format!("\"{}\"", text.replace('\\', "\\\\").replace('"', "\\\""))
}

fn pairs_in_json(pairs: &Pairs) -> String {
    let members: Vec<String> =
        pairs.iter().map(|(key, value)| format!("{}:{}", quoted(key), value.as_deref().map_or("null".to_string(), quoted))).collect();
    format!("{{{}}}", members.join(","))
}

fn names_in_json(names: &[String]) -> String {
    format!("[{}]", names.iter().map(|name| quoted(name)).collect::<Vec<_>>().join(","))
}

/// The line of a protocol, of metadata, of a file that is added or of one that is removed, as far as the rows that are made have them.
pub fn line_of(action: &Action) -> String {
    match action {
        Action::Protocol(it) => format!("{{\"protocol\":{{\"minReaderVersion\":{},\"minWriterVersion\":{}}}}}", it.min_reader, it.min_writer),
        Action::Metadata(it) => format!(
            "{{\"metaData\":{{\"id\":{},\"format\":{{\"provider\":{},\"options\":{}}},\"schemaString\":{},\"partitionColumns\":{},\"configuration\":{}}}}}",
            quoted(&it.id), quoted(&it.provider), pairs_in_json(&it.options), quoted(&it.schema_string), names_in_json(&it.partition_columns),
            pairs_in_json(&it.configuration),
        ),
        Action::Add(it) => format!(
            "{{\"add\":{{\"path\":{},\"partitionValues\":{},\"size\":{},\"modificationTime\":{},\"dataChange\":{},\"stats\":{}}}}}",
            quoted(&it.path), pairs_in_json(&it.partition_values), it.size, it.modification_time, it.data_change,
            it.stats.as_deref().map_or("null".to_string(), quoted),
        ),
        Action::Remove { path, deletion_timestamp } => {
            format!("{{\"remove\":{{\"path\":{},\"deletionTimestamp\":{deletion_timestamp},\"dataChange\":false}}}}", quoted(path))
        }
        _ => panic!("an action that no row of ours has"),
    }
}
