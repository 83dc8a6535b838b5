//! What the peers of `bqstored body` share: framing, protobuf by hand, and the rows by offset.
use std::io::{self, BufReader, Read, Write};

const MESSAGE_LIMIT: usize = 10_485_760;
const MAX_WEIGHT: usize = 268_435_456;

pub enum Value<'a> {
    Varint(u64),
    Len(&'a [u8]),
    Fixed,
}

pub fn varint(bytes: &[u8], at: &mut usize) -> Option<u64> {
    let mut number = 0u64;
    for turn in 0..10 {
        let byte = *bytes.get(*at)?;
        *at += 1;
        number |= u64::from(byte & 127).checked_shl(7 * turn).unwrap_or(0);
        if byte < 128 {
            return Some(number);
        }
    }
    None
}

pub fn fields(bytes: &[u8]) -> Option<Vec<(u64, Value<'_>)>> {
    let mut found = Vec::new();
    let mut at = 0;
    while at < bytes.len() {
        let tag = varint(bytes, &mut at)?;
        let number = tag / 8;
        if number == 0 || number > 536_870_911 {
            return None;
        }
        let value = match tag % 8 {
            0 => Value::Varint(varint(bytes, &mut at)?),
            kind @ (1 | 5) => {
                at += if kind == 1 { 8 } else { 4 };
                if at > bytes.len() {
                    return None;
                }
                Value::Fixed
            }
            2 => {
                let len = varint(bytes, &mut at)?;
                if len > (bytes.len() - at) as u64 {
                    return None;
                }
                let start = at;
                at += len as usize;
                Value::Len(&bytes[start..at])
            }
            _ => return None,
        };
        found.push((number, value));
    }
    Some(found)
}

pub fn joined(found: &[(u64, Value<'_>)], number: u64) -> Option<Vec<u8>> {
    let mut whole: Option<Vec<u8>> = None;
    for (n, value) in found {
        if let (true, Value::Len(bytes)) = (*n == number, value) {
            whole.get_or_insert_with(Vec::new).extend_from_slice(bytes);
        }
    }
    whole
}

/// The offset that an AppendRowsRequest gives, or None where the request's own fields can't be read.
pub fn offset(found: &[(u64, Value<'_>)]) -> Option<Option<i64>> {
    if found
        .iter()
        .any(|(n, v)| *n == 5 && matches!(v, Value::Len(_)))
    {
        return None;
    }
    let name = found.iter().rev().find_map(|(n, v)| match v {
        Value::Len(bytes) if *n == 1 => Some(*bytes),
        _ => None,
    });
    std::str::from_utf8(name.unwrap_or(&[])).ok()?;
    let Some(bytes) = joined(found, 2) else {
        return Some(None);
    };
    let number = fields(&bytes)?.iter().rev().find_map(|(n, v)| match v {
        Value::Varint(x) if *n == 1 => Some(*x),
        _ => None,
    });
    Some(Some(number.unwrap_or(0) as i64))
}

pub fn put_varint(out: &mut Vec<u8>, mut number: u64) {
    while number >= 128 {
        out.push((number % 128 + 128) as u8);
        number /= 128;
    }
    out.push(number as u8);
}

pub fn payload(field: u64, bytes: &[u8]) -> Vec<u8> {
    let mut out = Vec::new();
    put_varint(&mut out, field * 8 + 2);
    put_varint(&mut out, bytes.len() as u64);
    out.extend_from_slice(bytes);
    out
}

pub fn refused(code: u64, text: &str) -> Vec<u8> {
    let mut status = vec![8];
    put_varint(&mut status, code);
    status.extend_from_slice(&payload(2, text.as_bytes()));
    payload(2, &status)
}

/// The rows of a table by their offsets.
pub struct Table<R> {
    pub entries: Vec<(u64, Vec<R>)>,
    end: u64,
    weight: usize,
}

impl<R> Table<R> {
    pub fn new() -> Table<R> {
        Table {
            entries: Vec::new(),
            end: 0,
            weight: 0,
        }
    }

    /// The reply to an append of rows of this weight.
    pub fn append(&mut self, offset: Option<i64>, rows: Vec<R>, weight: usize) -> Vec<u8> {
        if rows.is_empty() {
            return refused(3, "no rows");
        }
        if let Some(offset) = offset {
            if offset < 0 {
                return refused(3, "negative offset");
            }
            if (offset as u64) < self.end {
                return refused(6, "offset already written");
            }
            if offset as u64 > self.end {
                return refused(11, "offset past the end");
            }
        }
        if self.weight + weight > MAX_WEIGHT {
            return refused(8, "table is full");
        }
        let first = self.end;
        self.end += rows.len() as u64;
        self.weight += weight;
        self.entries.push((first, rows));
        let mut value = Vec::new();
        if first != 0 {
            value.push(8);
            put_varint(&mut value, first);
        }
        payload(1, &payload(1, &value))
    }
}

/// The status of a run that hands each message of a body to `answer` and writes the reply, which is
/// None where the message can't be read.
pub fn run(mut answer: impl FnMut(&[u8]) -> Option<Vec<u8>>) -> io::Result<i32> {
    let mut input = BufReader::with_capacity(65_536, io::stdin().lock());
    let mut out = io::stdout().lock();
    loop {
        let mut prefix = [0u8; 5];
        let mut have = 0;
        while have < 5 {
            match input.read(&mut prefix[have..])? {
                0 => return Ok(if have == 0 { 0 } else { 6 }),
                n => have += n,
            }
        }
        let len = u32::from_be_bytes([prefix[1], prefix[2], prefix[3], prefix[4]]) as usize;
        if prefix[0] != 0 || len > MESSAGE_LIMIT {
            return Ok(5);
        }
        let mut message = vec![0; len];
        if input.read_exact(&mut message).is_err() {
            return Ok(6);
        }
        let Some(reply) = answer(&message) else {
            return Ok(5);
        };
        let mut framed = vec![0];
        framed.extend_from_slice(&(reply.len() as u32).to_be_bytes());
        framed.extend_from_slice(&reply);
        out.write_all(&framed)?;
        out.flush()?;
    }
}
