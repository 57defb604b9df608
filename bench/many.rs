// The same as `flume run` does of many files of comma-separated values that are looked up in one table, in Rust with nothing but
// std: so many threads take the next file that nobody has, look each row up, and send what they made of up to 1,024 rows through a
// channel of 16 places; the first thread writes each as a frame. It reads no quotes, keeps no ledger and closes nothing in order.
//
// usage: many TABLE WIDTH FILE..
use std::collections::HashMap;
use std::fs::File;
use std::io::{BufRead, BufReader, Write};
use std::sync::atomic::{AtomicUsize, Ordering};
use std::sync::mpsc::{SyncSender, sync_channel};

type Table = HashMap<Vec<u8>, Vec<u8>>;

const ROWS: usize = 1024;

fn table_of(path: &str) -> std::io::Result<Table> {
    let mut table = Table::new();
    for line in BufReader::new(File::open(path)?).split(b'\n') {
        let line = line?;
        if let Some(at) = line.iter().position(|&b| b == b',') {
            table.insert(line[..at].to_vec(), line[at + 1..].to_vec());
        }
    }
    Ok(table)
}

fn look_up(table: &Table, path: &str, stream: usize, sender: &SyncSender<(usize, Vec<u8>)>) -> std::io::Result<()> {
    let mut reader = BufReader::with_capacity(4096, File::open(path)?);
    let (mut line, mut text, mut rows) = (Vec::new(), Vec::new(), 0);
    while {
        line.clear();
        reader.read_until(b'\n', &mut line)? > 0
    } {
        let row = line.strip_suffix(b"\n").unwrap_or(&line);
        let key = row.split(|&b| b == b',').next().unwrap_or(row);
        text.extend_from_slice(row);
        text.push(b',');
        text.extend_from_slice(table.get(key).map_or(&[], |value| value));
        text.push(b'\n');
        rows += 1;
        if rows == ROWS {
            sender.send((stream, std::mem::take(&mut text))).unwrap();
            rows = 0;
        }
    }
    if !text.is_empty() {
        sender.send((stream, text)).unwrap();
    }
    Ok(())
}

fn main() -> std::io::Result<()> {
    let words: Vec<String> = std::env::args().collect();
    let table = table_of(&words[1])?;
    let width: usize = words[2].parse().unwrap();
    let files = &words[3..];
    let next = AtomicUsize::new(0);
    let (sender, receiver) = sync_channel(16);
    let mut out = std::io::stdout().lock();
    std::thread::scope(|scope| {
        for _ in 0..width {
            let (sender, table, next) = (sender.clone(), &table, &next);
            scope.spawn(move || {
                loop {
                    let stream = next.fetch_add(1, Ordering::SeqCst);
                    let Some(path) = files.get(stream) else { return };
                    look_up(table, path, stream, &sender).unwrap();
                }
            });
        }
        drop(sender);
        for (stream, text) in receiver {
            let mut frame = format!("{stream} {}\n", text.len()).into_bytes();
            frame.extend_from_slice(&text);
            frame.push(b'\n');
            out.write_all(&frame)?;
        }
        Ok(())
    })
}
