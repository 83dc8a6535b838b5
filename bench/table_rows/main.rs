//! The peer of bench/table: a table of plain vectors that checks no rule but the offsets, and a loop over its rows. It takes
//! the words of main.c and prints the same.

use std::sync::Arc;

const TAG: &str = "0123456789012345678901234567890123456789";

#[allow(dead_code)]
enum Cell {
    Null,
    Int(i64),
    Bool(bool),
    Str(String),
    Bytes(Vec<u8>),
    Date(i32),
    Timestamp(i64),
}

struct Row {
    cells: Vec<Cell>,
}

#[allow(dead_code)]
enum Pred {
    All,
    Less { column: usize, value: Cell },
    Not(Box<Pred>),
    And(Box<Pred>, Box<Pred>),
}

/// None where it is unknown.
fn truth(pred: &Pred, row: &Row) -> Option<bool> {
    match pred {
        Pred::All => Some(true),
        Pred::Less { column, value } => match (row.cells.get(*column)?, value) {
            (Cell::Int(a), Cell::Int(b)) => Some(a < b),
            (Cell::Str(a), Cell::Str(b)) => Some(a < b),
            _ => None,
        },
        Pred::Not(inner) => truth(inner, row).map(|known| !known),
        Pred::And(a, b) => match (truth(a, row), truth(b, row)) {
            (Some(false), _) | (_, Some(false)) => Some(false),
            (Some(true), Some(true)) => Some(true),
            _ => None,
        },
    }
}

#[allow(dead_code)]
struct Entry {
    caller: u32,
    moment: i64,
    offset: u64,
    rows: Arc<Vec<Row>>,
}

#[derive(Default)]
struct Table {
    entries: Vec<Entry>,
    groups: Vec<Arc<Vec<Row>>>,
    rows: u64,
    weight: u64,
}

impl Table {
    fn append(&mut self, offset: Option<u64>, rows: Vec<Row>, bytes: u64) -> Option<u64> {
        if offset.is_some_and(|offset| offset != self.rows) {
            return None;
        }
        let (at, rows) = (self.rows, Arc::new(rows));
        self.rows += rows.len() as u64;
        self.weight += 96 * rows.len() as u64 + bytes;
        self.groups.push(Arc::clone(&rows));
        self.entries.push(Entry { caller: 0, moment: 1, offset: at, rows });
        Some(at)
    }

    fn sum(&self, pred: &Pred) -> u64 {
        let mut sum = 0u64;
        for row in self.groups.iter().flat_map(|group| group.iter()) {
            if truth(pred, row) != Some(true) {
                continue;
            }
            if let Some(Cell::Int(id)) = row.cells.first() {
                sum = sum.wrapping_add(*id as u64);
            }
        }
        sum
    }
}

fn batch_of(first: u32, count: u32) -> Vec<Row> {
    let row = |number| Row { cells: vec![Cell::Int(i64::from((first + number) % 1_000)), Cell::Str(TAG.to_string())] };
    (0..count).map(row).collect()
}

fn field(name: &str) -> u64 {
    let status = std::fs::read_to_string("/proc/self/status").unwrap();
    let line = status.lines().find(|line| line.starts_with(name)).unwrap();
    line.split_whitespace().nth(1).unwrap().parse().unwrap()
}

/// In seconds; the kernel counts nanoseconds here.
fn processor_time() -> f64 {
    let text = std::fs::read_to_string("/proc/self/schedstat").unwrap();
    text.split_whitespace().next().unwrap().parse::<f64>().unwrap() / 1e9
}

fn main() {
    let words: Vec<u32> = std::env::args().skip(1).map(|word| word.parse().unwrap()).collect();
    let [_, batch, batches, work, times] = words[..] else { panic!("five words") };
    let mut table = Table::default();
    for number in 0..batches {
        let rows = batch_of(number.wrapping_mul(batch) % 1_000, batch);
        table.append(None, rows, 44 * u64::from(batch)).unwrap();
    }
    let pred = if work == 3 { Pred::Less { column: 0, value: Cell::Int(500) } } else { Pred::All };
    let mut found = table.rows;
    if work > 1 {
        for _ in 0..times {
            found = found.wrapping_add(std::hint::black_box(&table).sum(std::hint::black_box(&pred)));
        }
    }
    drop(table);
    println!("{} {} {found}", processor_time(), field("VmHWM"));
}
