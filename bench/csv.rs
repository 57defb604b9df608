//! The stream of crates/csv_bench as a loop in Rust with nothing but std: it reads comma-separated
//! values from standard input, gathers and checks them, and writes each row with the value that a
//! table has for its field 0. Build it with `rustc -O`.
//!
//! Rows are vectors of vectors, 1,024 at a time, as a stream gives them from step to step; each step
//! makes its rows anew.
use std::collections::HashMap;
use std::io::{self, Read, Write};
use std::process;

const PIECE: usize = 4096;
const BATCH: usize = 1024;
const LARGEST: usize = 16_777_216;

type Row = Vec<Vec<u8>>;

fn table() -> HashMap<Vec<u8>, Vec<u8>> {
    let key = |n: u32| format!("{n:03}").into_bytes();
    (0..1000).map(|n| (key(n), vec![b'0' + (n % 10) as u8])).collect()
}

/// Where a byte stands in a record.
#[derive(Clone, Copy)]
enum State {
    RecordStart,
    FieldStart,
    Field,
    Quoted,
    Quote,
}

/// The records of a text.
struct Records<'a> {
    text: &'a [u8],
    at: usize,
}

impl Iterator for Records<'_> {
    type Item = Row;

    fn next(&mut self) -> Option<Row> {
        let mut state = State::RecordStart;
        let mut row = Vec::new();
        let mut field = Vec::new();
        while let Some(&byte) = self.text.get(self.at) {
            self.at += 1;
            match (state, byte) {
                (State::RecordStart, b'\n' | b'\r') => {}
                (State::RecordStart | State::FieldStart, b'"') => state = State::Quoted,
                (State::Quoted, b'"') => state = State::Quote,
                (State::Quoted, _) => field.push(byte),
                (State::Quote, b'"') => {
                    field.push(b'"');
                    state = State::Quoted;
                }
                (_, b',') => {
                    row.push(std::mem::take(&mut field));
                    state = State::FieldStart;
                }
                (_, b'\n' | b'\r') => {
                    row.push(field);
                    return Some(row);
                }
                _ => {
                    field.push(byte);
                    state = State::Field;
                }
            }
        }
        if let State::RecordStart = state {
            return None;
        }
        row.push(field);
        Some(row)
    }
}

fn gather() -> io::Result<Vec<u8>> {
    let mut input = io::stdin().lock();
    let mut text = Vec::new();
    let mut piece = [0; PIECE];
    loop {
        let len = input.read(&mut piece)?;
        if len == 0 {
            return Ok(text);
        }
        if text.len() + len > LARGEST {
            process::exit(1);
        }
        text.extend_from_slice(&piece[..len]);
    }
}

/// The row with its value.
fn longer(row: &Row, table: &HashMap<Vec<u8>, Vec<u8>>) -> Row {
    let mut longer = row.clone();
    longer.push(table.get(&row[0]).cloned().unwrap_or_default());
    longer
}

fn put_field(text: &mut Vec<u8>, field: &[u8]) {
    if !field.iter().any(|byte| b",\"\r\n".contains(byte)) {
        text.extend_from_slice(field);
        return;
    }
    text.push(b'"');
    for &byte in field {
        if byte == b'"' {
            text.push(b'"');
        }
        text.push(byte);
    }
    text.push(b'"');
}

fn put_row(text: &mut Vec<u8>, row: &Row) {
    for (place, field) in row.iter().enumerate() {
        if place > 0 {
            text.push(b',');
        }
        put_field(text, field);
    }
    text.push(b'\n');
}

fn main() -> io::Result<()> {
    let table = table();
    let text = gather()?;
    if std::str::from_utf8(&text).is_err() {
        process::exit(1);
    }
    let text = text.strip_prefix(b"\xEF\xBB\xBF").unwrap_or(&text);
    let mut records = Records { text, at: 0 };
    let mut output = io::stdout().lock();
    loop {
        let rows: Vec<Row> = records.by_ref().take(BATCH).collect();
        if rows.is_empty() {
            return Ok(());
        }
        let looked_up: Vec<Row> = rows.iter().map(|row| longer(row, &table)).collect();
        let mut payload = Vec::new();
        for row in &looked_up {
            put_row(&mut payload, row);
        }
        output.write_all(&payload)?;
    }
}
