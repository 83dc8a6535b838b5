//! A straightforward peer of `bqstored body` in Rust, with the standard library alone, to time the
//! program against. It reads the same bodies, keeps the rows in the same way and writes the same
//! replies.
mod wire;

use wire::{fields, joined, offset, Table, Value};

/// The offset and the rows of a message.
fn request(message: &[u8]) -> Option<(Option<i64>, Vec<Vec<u8>>)> {
    let found = fields(message)?;
    let offset = offset(&found)?;
    let data = joined(&found, 4).unwrap_or_default();
    let bytes = joined(&fields(&data)?, 2).unwrap_or_default();
    let mut rows = Vec::new();
    for (number, value) in fields(&bytes)? {
        if let (1, Value::Len(bytes)) = (number, value) {
            rows.push(bytes.to_vec());
        }
    }
    Some((offset, rows))
}

fn main() {
    let mut table = Table::new();
    let ended = wire::run(|message| {
        let (offset, rows) = request(message)?;
        let weight = rows.iter().map(|row| 32 + row.len()).sum();
        Some(table.append(offset, rows, weight))
    });
    drop(table);
    std::process::exit(ended.unwrap_or(3));
}
