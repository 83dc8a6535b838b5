//! A straightforward peer of `bqstored body --table SPEC` in Rust, with the standard library alone. It
//! reads the same bodies, decodes the rows by hand for the columns of the SPEC (INT64, STRING, BOOL,
//! TIMESTAMP and BYTES), keeps them and writes the same replies. It takes good descriptors only.
mod wire;

use wire::{fields, joined, offset, payload, put_varint, refused, Table, Value};

enum Kind {
    Int64,
    Text,
    Bool,
    Timestamp,
    Bytes,
}

struct Column {
    name: String,
    kind: Kind,
    required: bool,
    number: u64,
}

enum Cell {
    Null,
    Int64(i64),
    Text(String),
    Bool(bool),
    Timestamp(i64),
    Bytes(Vec<u8>),
}

struct Row {
    cells: Vec<Cell>,
}

fn columns(spec: &str) -> Option<Vec<Column>> {
    let (_, list) = spec.split_once('=')?;
    list.split(',')
        .map(|text| {
            let parts: Vec<_> = text.split(':').collect();
            let kind = match *parts.get(1)? {
                "INT64" => Kind::Int64,
                "STRING" => Kind::Text,
                "BOOL" => Kind::Bool,
                "TIMESTAMP" => Kind::Timestamp,
                "BYTES" => Kind::Bytes,
                _ => return None,
            };
            let required = parts.get(2) == Some(&"REQUIRED");
            Some(Column {
                name: parts[0].to_owned(),
                kind,
                required,
                number: 0,
            })
        })
        .collect()
}

/// Gives each column the number of the descriptor's field with its name.
fn bind(columns: &mut [Column], descriptor: &[u8]) -> Option<()> {
    for (number, value) in fields(descriptor)? {
        let (2, Value::Len(bytes)) = (number, value) else {
            continue;
        };
        let found = fields(bytes)?;
        let name = found.iter().find_map(|(n, v)| match v {
            Value::Len(bytes) if *n == 1 => Some(*bytes),
            _ => None,
        })?;
        let number = found.iter().find_map(|(n, v)| match v {
            Value::Varint(x) if *n == 3 => Some(*x),
            _ => None,
        })?;
        for column in columns.iter_mut() {
            if column.name.as_bytes().eq_ignore_ascii_case(name) {
                column.number = number;
            }
        }
    }
    Some(())
}

const FIRST_INSTANT: i64 = -62_135_596_800_000_000;
const LAST_INSTANT: i64 = 253_402_300_799_999_999;

fn cell(column: &Column, found: &[(u64, Value<'_>)]) -> Result<Cell, String> {
    for (number, value) in found.iter().rev() {
        if *number != column.number {
            continue;
        }
        return Ok(match (&column.kind, value) {
            (Kind::Int64, Value::Varint(n)) => Cell::Int64(*n as i64),
            (Kind::Bool, Value::Varint(n)) => Cell::Bool(*n != 0),
            (Kind::Timestamp, Value::Varint(n)) => {
                let at = *n as i64;
                if !(FIRST_INSTANT..=LAST_INSTANT).contains(&at) {
                    return Err(format!("value out of range in column: {}", column.name));
                }
                Cell::Timestamp(at)
            }
            (Kind::Text, Value::Len(bytes)) => match std::str::from_utf8(bytes) {
                Ok(text) => Cell::Text(text.to_owned()),
                Err(_) => return Err(format!("bad text in column: {}", column.name)),
            },
            (Kind::Bytes, Value::Len(bytes)) => Cell::Bytes(bytes.to_vec()),
            _ => continue,
        });
    }
    if column.required {
        return Err(format!("no value in required column: {}", column.name));
    }
    Ok(Cell::Null)
}

fn row(columns: &[Column], bytes: &[u8]) -> Result<Row, String> {
    let found = fields(bytes).ok_or("malformed row")?;
    let mut cells = Vec::with_capacity(columns.len());
    for column in columns {
        cells.push(cell(column, &found)?);
    }
    Ok(Row { cells })
}

/// The rows of a message with the bytes that they came in, or the first of them that are refused.
enum Rows {
    NoSchema,
    Refused(Vec<(usize, String)>),
    Kept(Vec<Row>, usize),
}

fn rows(columns: &[Column], bytes: &[u8]) -> Option<Rows> {
    let (mut kept, mut faults, mut size) = (Vec::new(), Vec::new(), 0);
    for (index, (number, value)) in fields(bytes)?.iter().enumerate() {
        if let (1, Value::Len(bytes)) = (number, value) {
            size += bytes.len();
            match row(columns, bytes) {
                Ok(row) => kept.push(row),
                Err(why) => faults.push((index, why)),
            }
        }
    }
    if faults.is_empty() {
        return Some(Rows::Kept(kept, size));
    }
    faults.truncate(100);
    Some(Rows::Refused(faults))
}

fn rows_refused(faults: Vec<(usize, String)>) -> Vec<u8> {
    let mut reply = refused(3, "rows refused");
    for (index, why) in faults {
        let mut error = Vec::new();
        if index != 0 {
            error.push(8);
            put_varint(&mut error, index as u64);
        }
        error.extend_from_slice(&[16, 1]);
        error.extend_from_slice(&payload(3, why.as_bytes()));
        reply.extend_from_slice(&payload(4, &error));
    }
    reply
}

/// The offset and the rows of a message, after its writer schema, if it has one, was taken.
fn request(
    message: &[u8],
    columns: &mut [Column],
    has_schema: &mut bool,
) -> Option<(Option<i64>, Rows)> {
    let found = fields(message)?;
    let offset = offset(&found)?;
    let data = joined(&found, 4).unwrap_or_default();
    let parts = fields(&data)?;
    if let Some(schema) = joined(&parts, 1) {
        bind(columns, &joined(&fields(&schema)?, 1)?)?;
        *has_schema = true;
    }
    let bytes = joined(&parts, 2).unwrap_or_default();
    let rows = if *has_schema {
        rows(columns, &bytes)?
    } else {
        Rows::NoSchema
    };
    Some((offset, rows))
}

/// A sum over all cells, so that each kept value is read.
fn sum(table: &Table<Row>) -> u64 {
    let cells = table
        .entries
        .iter()
        .flat_map(|(_, rows)| rows)
        .flat_map(|row| &row.cells);
    cells.fold(0, |sum: u64, cell| {
        sum.wrapping_add(match cell {
            Cell::Null => 0,
            Cell::Int64(n) | Cell::Timestamp(n) => *n as u64,
            Cell::Bool(flag) => u64::from(*flag),
            Cell::Text(text) => text.len() as u64,
            Cell::Bytes(bytes) => bytes.len() as u64,
        })
    })
}

fn main() {
    let spec = std::env::args().nth(1).unwrap_or_default();
    let Some(mut columns) = columns(&spec) else {
        std::process::exit(2);
    };
    let (mut table, mut has_schema) = (Table::new(), false);
    let ended = wire::run(|message| {
        let (offset, rows) = request(message, &mut columns, &mut has_schema)?;
        Some(match rows {
            Rows::NoSchema => refused(3, "no writer schema"),
            Rows::Refused(faults) => rows_refused(faults),
            Rows::Kept(rows, size) => {
                let weight = rows.len() * (32 + 32 * columns.len()) + size;
                table.append(offset, rows, weight)
            }
        })
    });
    std::hint::black_box(sum(&table));
    drop(table);
    std::process::exit(ended.unwrap_or(3));
}
