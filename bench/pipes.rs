//! The pipes of crates/pipe_bench as loops in Rust with nothing but std, over the same text, cut in
//! the same places, with the same answers. Build it with `rustc -O`; it takes the same words and
//! prints the same lines. `text` prints the text itself, for other tools.
//!
//! Bytes that pass through a pipe unchanged are borrowed, as flume's windows share; all else that a
//! pipe gives is owned by its answer: a vector or a string for each line.
use std::borrow::Cow;
use std::collections::HashMap;
use std::fmt::Write as _;
use std::hint::black_box;
use std::io::Write as _;
use std::sync::Arc;
use std::time::Duration;
use std::{env, io, mem, process, str};

const CHUNK: usize = 4096;
const LINE: usize = 64;
const LONGEST: usize = 1_048_576;
const LEFT_OUT: usize = 1000;
const GROUP: usize = 10;
const HEX_GROUP: usize = 16;
const MOST_GATHERED: usize = 16_777_216;
const ROWS: usize = 1024;
const FIELD: usize = 3;
const NEEDLE: &str = "needle";
const BETWEEN: &str = "--";

// ---- the text ----

const WORDS: [&str; 32] = [
    "stream", "of", "größe", "needle", "and", "the", "chunk", "naïve", "scope", "row", "ledger",
    "東京", "which", "was", "opened", "once", "señor", "closed", "in", "order", "pipes", "give",
    "what", "they", "get", "über", "lines", "by", "a", "window", "on", "vectors",
];
const WORDS_A_LINE: u32 = 11;
const LINES: u32 = 17_452;

fn text(broken: bool) -> Vec<u8> {
    let mut text = Vec::new();
    for line in 0..LINES {
        if broken && line % 64 == 0 {
            text.push(0xFF);
        }
        put_line(&mut text, if line % 4 == 3 { line - 1 } else { line });
    }
    text
}

fn put_line(text: &mut Vec<u8>, line: u32) {
    for place in 0..WORDS_A_LINE {
        if place > 0 {
            text.push(b' ');
        }
        text.extend_from_slice(word_of(line, place).as_bytes());
    }
    text.push(b'\n');
}

fn rows_text() -> Vec<u8> {
    let mut text = Vec::new();
    for line in 0..LINES {
        let words = if line % 4 == 3 { line - 1 } else { line };
        if line % 8 == 0 {
            text.extend_from_slice(b"\"in, \"\"quotes\"\"\"");
        } else {
            text.extend_from_slice(word_of(words, 0).as_bytes());
        }
        for place in 1..WORDS_A_LINE {
            text.push(b',');
            text.extend_from_slice(word_of(words, place).as_bytes());
        }
        text.push(b'\n');
    }
    text
}

fn word_of(line: u32, place: u32) -> &'static str {
    let number = mixed(line.wrapping_mul(WORDS_A_LINE).wrapping_add(place));
    WORDS[number as usize % 32]
}

fn mixed(number: u32) -> u32 {
    let once = (number ^ (number >> 16)).wrapping_mul(0x7FEB_352D);
    let twice = (once ^ (once >> 15)).wrapping_mul(0x846C_A68B);
    twice ^ (twice >> 16)
}

// ---- what came ----

struct Tally {
    count: u64,
    sum: u64,
    quick: bool,
}

impl Tally {
    fn new(quick: bool) -> Tally {
        Tally {
            count: 0,
            sum: 0xCBF2_9CE4_8422_2325,
            quick,
        }
    }

    /// Bytes, which are an element each.
    fn put_text(&mut self, bytes: &[u8]) {
        let bytes = black_box(bytes);
        self.count += bytes.len() as u64;
        self.put_bytes(bytes);
    }

    /// Lines, which are an element each.
    fn put_lines<L: AsRef<[u8]>>(&mut self, lines: &[L]) {
        let lines = black_box(lines);
        self.count += lines.len() as u64;
        self.put_texts(lines, b'\n');
    }

    /// Rows, which are an element each.
    fn put_rows(&mut self, rows: &[Row]) {
        let rows = black_box(rows);
        self.count += rows.len() as u64;
        for row in rows {
            self.put_texts(row, b',');
            self.put_number(u64::from(b'\n'));
        }
    }

    fn put_texts<L: AsRef<[u8]>>(&mut self, texts: &[L], end: u8) {
        for text in texts {
            self.put_bytes(text.as_ref());
            if !self.quick {
                self.put_number(u64::from(end));
            }
        }
    }

    fn put_bytes(&mut self, bytes: &[u8]) {
        if self.quick {
            let last = u64::from(bytes.last().copied().unwrap_or(0));
            self.put_number(bytes.len() as u64 ^ last << 32);
            return;
        }
        for byte in bytes {
            self.put_number(u64::from(*byte));
        }
    }

    fn put_number(&mut self, number: u64) {
        self.sum = (self.sum ^ number).wrapping_mul(0x0000_0100_0000_01B3);
    }
}

// ---- the pipes ----

/// What is fed loads. Each answer is told to the tally and dropped; a fault answers false.
trait Pipe {
    type Item;
    fn feed(&mut self, load: &[Self::Item], tally: &mut Tally) -> bool;
    fn finish(self, tally: &mut Tally);
}

/// What was held and then the load, without a copy where nothing was held.
fn with_held<'a>(held: &mut Vec<u8>, load: &'a [u8]) -> Cow<'a, [u8]> {
    if held.is_empty() {
        return Cow::Borrowed(load);
    }
    let mut all = mem::take(held);
    all.extend_from_slice(load);
    Cow::Owned(all)
}

#[derive(Default)]
struct Utf8 {
    held: Vec<u8>,
}

impl Pipe for Utf8 {
    type Item = u8;

    fn feed(&mut self, load: &[u8], tally: &mut Tally) -> bool {
        let bytes = with_held(&mut self.held, load);
        match str::from_utf8(&bytes) {
            Ok(text) => {
                tally.put_text(text.as_bytes());
                true
            }
            Err(error) => {
                let (front, rest) = bytes.split_at(error.valid_up_to());
                tally.put_text(front);
                self.held.extend_from_slice(rest);
                error.error_len().is_none()
            }
        }
    }

    fn finish(self, tally: &mut Tally) {
        if !self.held.is_empty() {
            tally.put_text(&[]);
        }
    }
}

#[derive(Default)]
struct Lossy {
    held: Vec<u8>,
}

/// The length of a sequence at the end that isn't whole.
fn unfinished(bytes: &[u8]) -> usize {
    for len in (1..=bytes.len().min(3)).rev() {
        if let Err(error) = str::from_utf8(&bytes[bytes.len() - len..]) {
            if error.valid_up_to() == 0 && error.error_len().is_none() {
                return len;
            }
        }
    }
    0
}

impl Pipe for Lossy {
    type Item = u8;

    fn feed(&mut self, load: &[u8], tally: &mut Tally) -> bool {
        let bytes = with_held(&mut self.held, load);
        let (front, rest) = bytes.split_at(bytes.len() - unfinished(&bytes));
        tally.put_text(String::from_utf8_lossy(front).as_bytes());
        self.held.extend_from_slice(rest);
        true
    }

    fn finish(self, tally: &mut Tally) {
        if !self.held.is_empty() {
            tally.put_text("\u{FFFD}".as_bytes());
        }
    }
}

#[derive(Default)]
struct Lines {
    held: Vec<u8>,
    after_cr: bool,
}

impl Pipe for Lines {
    type Item = u8;

    fn feed(&mut self, load: &[u8], tally: &mut Tally) -> bool {
        let mut lines = Vec::new();
        let mut left = load;
        while let Some(first) = left.first() {
            if self.after_cr && *first == b'\n' {
                left = &left[1..];
            }
            self.after_cr = false;
            let end = left.iter().position(|byte| matches!(byte, b'\n' | b'\r'));
            let front = &left[..end.unwrap_or(left.len())];
            if self.held.len() + front.len() > LONGEST {
                tally.put_lines(&lines);
                return false;
            }
            self.held.extend_from_slice(front);
            let Some(end) = end else { break };
            self.after_cr = left[end] == b'\r';
            left = &left[end + 1..];
            lines.push(mem::take(&mut self.held));
        }
        tally.put_lines(&lines);
        true
    }

    fn finish(self, tally: &mut Tally) {
        if !self.held.is_empty() {
            tally.put_lines(&[self.held]);
        }
    }
}

#[derive(Default)]
struct Hex {
    held: Vec<u8>,
}

fn hex_line(group: &[u8]) -> String {
    const DIGITS: &[u8; 16] = b"0123456789abcdef";
    let mut line = String::with_capacity(2 * group.len());
    for byte in group {
        line.push(char::from(DIGITS[usize::from(byte >> 4)]));
        line.push(char::from(DIGITS[usize::from(byte & 15)]));
    }
    line
}

impl Pipe for Hex {
    type Item = u8;

    fn feed(&mut self, load: &[u8], tally: &mut Tally) -> bool {
        let bytes = with_held(&mut self.held, load);
        let groups = bytes.chunks_exact(HEX_GROUP);
        self.held.extend_from_slice(groups.remainder());
        let lines: Vec<String> = groups.map(hex_line).collect();
        tally.put_lines(&lines);
        true
    }

    fn finish(self, tally: &mut Tally) {
        if !self.held.is_empty() {
            tally.put_lines(&[hex_line(&self.held)]);
        }
    }
}

#[derive(Default)]
struct Upper;

impl Pipe for Upper {
    type Item = u8;

    fn feed(&mut self, load: &[u8], tally: &mut Tally) -> bool {
        tally.put_text(&load.to_ascii_uppercase());
        true
    }

    fn finish(self, _tally: &mut Tally) {}
}

type Row = Vec<String>;

#[derive(Default)]
struct Csv {
    text: Vec<u8>,
}

/// The next record from a place on, which then stands behind it.
fn next_row(text: &str, at: &mut usize) -> Option<Row> {
    while matches!(text.as_bytes().get(*at), Some(b'\n' | b'\r')) {
        *at += 1;
    }
    if *at == text.len() {
        return None;
    }
    let mut row = Row::new();
    loop {
        row.push(next_field(text, at));
        if text.as_bytes().get(*at) != Some(&b',') {
            return Some(row);
        }
        *at += 1;
    }
}

fn next_field(text: &str, at: &mut usize) -> String {
    if text.as_bytes().get(*at) != Some(&b'"') {
        return plain(text, at).to_string();
    }
    let mut field = String::new();
    loop {
        *at += 1;
        let rest = &text[*at..];
        let end = rest.find('"').unwrap_or(rest.len());
        field.push_str(&rest[..end]);
        *at = text.len().min(*at + end + 1);
        if text.as_bytes().get(*at) != Some(&b'"') {
            field.push_str(plain(text, at));
            return field;
        }
        field.push('"');
    }
}

/// What stands before the next comma or line end.
fn plain<'a>(text: &'a str, at: &mut usize) -> &'a str {
    let rest = &text[*at..];
    let end = rest
        .bytes()
        .position(|byte| matches!(byte, b',' | b'\n' | b'\r'));
    let front = &rest[..end.unwrap_or(rest.len())];
    *at += front.len();
    front
}

impl Pipe for Csv {
    type Item = u8;

    fn feed(&mut self, load: &[u8], tally: &mut Tally) -> bool {
        tally.put_rows(&[]);
        self.text.extend_from_slice(load);
        self.text.len() <= MOST_GATHERED
    }

    fn finish(self, tally: &mut Tally) {
        let Ok(text) = str::from_utf8(&self.text) else {
            return;
        };
        let text = text.strip_prefix('\u{FEFF}').unwrap_or(text);
        let mut at = 0;
        let mut width = None;
        let mut rows = Vec::new();
        while let Some(row) = next_row(text, &mut at) {
            if *width.get_or_insert(row.len()) != row.len() {
                break;
            }
            rows.push(row);
            if rows.len() == ROWS {
                tally.put_rows(&mem::take(&mut rows));
            }
        }
        tally.put_rows(&rows);
    }
}

#[derive(Default)]
struct Field;

impl Pipe for Field {
    type Item = Row;

    fn feed(&mut self, load: &[Row], tally: &mut Tally) -> bool {
        let fields: Vec<String> = load
            .iter()
            .map_while(|row| row.get(FIELD).cloned())
            .collect();
        tally.put_lines(&fields);
        fields.len() == load.len()
    }

    fn finish(self, _tally: &mut Tally) {}
}

struct Lookup {
    values: HashMap<String, String>,
}

impl Default for Lookup {
    fn default() -> Lookup {
        let values = WORDS.iter().enumerate().step_by(2);
        Lookup {
            values: values
                .map(|(number, word)| (word.to_string(), number.to_string()))
                .collect(),
        }
    }
}

impl Lookup {
    fn longer(&self, row: &Row) -> Option<Row> {
        let value = self.values.get(row.get(FIELD)?);
        let mut longer = Row::with_capacity(row.len() + 1);
        longer.extend_from_slice(row);
        longer.push(value.cloned().unwrap_or_default());
        Some(longer)
    }
}

impl Pipe for Lookup {
    type Item = Row;

    fn feed(&mut self, load: &[Row], tally: &mut Tally) -> bool {
        let rows: Vec<Row> = load.iter().map_while(|row| self.longer(row)).collect();
        tally.put_rows(&rows);
        rows.len() == load.len()
    }

    fn finish(self, _tally: &mut Tally) {}
}

#[derive(Default)]
struct Drop {
    passed: usize,
}

impl Pipe for Drop {
    type Item = String;

    fn feed(&mut self, load: &[String], tally: &mut Tally) -> bool {
        let out = load.len().min(LEFT_OUT - self.passed);
        self.passed += out;
        tally.put_lines(&load[out..]);
        true
    }

    fn finish(self, _tally: &mut Tally) {}
}

#[derive(Default)]
struct Filter;

impl Pipe for Filter {
    type Item = String;

    fn feed(&mut self, load: &[String], tally: &mut Tally) -> bool {
        let lines = load.iter().filter(|line| line.contains(NEEDLE));
        tally.put_lines(&lines.cloned().collect::<Vec<_>>());
        true
    }

    fn finish(self, _tally: &mut Tally) {}
}

#[derive(Default)]
struct Changes {
    last: Option<String>,
}

impl Pipe for Changes {
    type Item = String;

    fn feed(&mut self, load: &[String], tally: &mut Tally) -> bool {
        let mut kept = Vec::new();
        let mut last = self.last.as_ref();
        for line in load {
            if last != Some(line) {
                kept.push(line.clone());
            }
            last = Some(line);
        }
        tally.put_lines(&kept);
        if let Some(line) = load.last() {
            self.last = Some(line.clone());
        }
        true
    }

    fn finish(self, _tally: &mut Tally) {}
}

#[derive(Default)]
struct Number {
    next: u64,
}

impl Pipe for Number {
    type Item = String;

    fn feed(&mut self, load: &[String], tally: &mut Tally) -> bool {
        let mut lines = Vec::with_capacity(load.len());
        for line in load {
            let mut numbered = String::with_capacity(line.len() + 21);
            write!(numbered, "{} ", self.next).expect("memory");
            numbered.push_str(line);
            lines.push(numbered);
            self.next = self.next.saturating_add(1);
        }
        tally.put_lines(&lines);
        true
    }

    fn finish(self, _tally: &mut Tally) {}
}

#[derive(Default)]
struct Count {
    count: u64,
}

impl Pipe for Count {
    type Item = String;

    fn feed(&mut self, load: &[String], tally: &mut Tally) -> bool {
        self.count = self.count.saturating_add(load.len() as u64);
        tally.put_lines::<String>(&[]);
        true
    }

    fn finish(self, tally: &mut Tally) {
        tally.put_lines(&[self.count.to_string()]);
    }
}

#[derive(Default)]
struct Intersperse {
    started: bool,
}

impl Pipe for Intersperse {
    type Item = String;

    fn feed(&mut self, load: &[String], tally: &mut Tally) -> bool {
        let mut lines = Vec::with_capacity(2 * load.len());
        for line in load {
            if self.started {
                lines.push(BETWEEN.to_string());
            }
            self.started = true;
            lines.push(line.clone());
        }
        tally.put_lines(&lines);
        true
    }

    fn finish(self, _tally: &mut Tally) {}
}

#[derive(Default)]
struct ChunkN {
    held: Vec<String>,
}

impl Pipe for ChunkN {
    type Item = String;

    fn feed(&mut self, load: &[String], tally: &mut Tally) -> bool {
        let mut lines = mem::take(&mut self.held);
        lines.extend_from_slice(load);
        let whole = lines.len() - lines.len() % GROUP;
        self.held = lines.split_off(whole);
        tally.put_lines(&lines);
        true
    }

    fn finish(self, tally: &mut Tally) {
        if !self.held.is_empty() {
            tally.put_lines(&self.held);
        }
    }
}

// ---- the runs ----

struct Order {
    name: String,
    megabytes: u32,
    chunk: usize,
    timed: bool,
}

fn order() -> Option<Order> {
    let words: Vec<String> = env::args().skip(1).collect();
    let timed = words.get(3).is_some_and(|word| word == "time");
    if words.len() < 2 || words.len() > 4 || words.len() == 4 && !timed {
        return None;
    }
    let chunk = words.get(2).map_or(Some(CHUNK), |word| word.parse().ok())?;
    if chunk == 0 {
        return None;
    }
    Some(Order {
        name: words[0].clone(),
        megabytes: words[1].parse().ok()?,
        chunk,
        timed,
    })
}

/// A block of bytes, in memory of its own.
fn bytes_of(text: &[u8]) -> Arc<Vec<u8>> {
    Arc::new(text.to_vec())
}

/// A block of lines, each in memory of its own.
fn lines_of(text: &[u8]) -> Arc<Vec<String>> {
    let text = str::from_utf8(text).expect("the text is UTF-8");
    Arc::new(text.lines().map(str::to_string).collect())
}

/// A block of rows, each with fields in memory of their own.
fn rows_of(text: &[u8]) -> Arc<Vec<Row>> {
    let text = str::from_utf8(text).expect("the text is UTF-8");
    let row = |line: &str| line.split(' ').map(str::to_string).collect();
    Arc::new(text.lines().map(row).collect())
}

/// Runs a pipe over as many blocks as are asked for. Making a block, and dropping it, isn't timed.
fn run<P: Pipe>(
    order: &Order,
    mut pipe: P,
    piece: usize,
    block: impl Fn() -> Arc<Vec<P::Item>>,
) -> (Tally, Duration) {
    let mut tally = Tally::new(order.timed);
    let mut spent = Duration::ZERO;
    for _ in 0..order.megabytes {
        let block = block();
        let before = used();
        for load in block.chunks(piece) {
            if !pipe.feed(load, &mut tally) {
                return (tally, spent);
            }
        }
        spent += used().saturating_sub(before);
    }
    let before = used();
    pipe.finish(&mut tally);
    spent += used().saturating_sub(before);
    (tally, spent)
}

/// Runs a pipe of comma-separated values over each of as many blocks as are asked for.
fn run_each(order: &Order) -> (Tally, Duration) {
    let text = rows_text();
    let mut tally = Tally::new(order.timed);
    let mut spent = Duration::ZERO;
    for _ in 0..order.megabytes {
        let mut pipe = Csv::default();
        let block = bytes_of(&text);
        let before = used();
        for load in block.chunks(order.chunk) {
            pipe.feed(load, &mut tally);
        }
        pipe.finish(&mut tally);
        spent += used().saturating_sub(before);
    }
    (tally, spent)
}

fn tell(order: &Order, name: &str, told: impl Fn() -> (Tally, Duration)) {
    if order.name != "all" && order.name != name {
        return;
    }
    let (tally, spent) = told();
    print!("{name} {} {}", tally.count, tally.sum);
    if order.timed {
        print!(" {}", spent.as_micros());
    }
    println!();
}

fn over_bytes<P: Pipe<Item = u8> + Default>(order: &Order, name: &str, broken: bool) {
    tell(order, name, || {
        let text = text(broken);
        run(order, P::default(), order.chunk, || bytes_of(&text))
    });
}

fn over_lines<P: Pipe<Item = String> + Default>(order: &Order, name: &str) {
    tell(order, name, || {
        let text = text(false);
        run(order, P::default(), order.chunk.div_ceil(LINE), || {
            lines_of(&text)
        })
    });
}

fn over_rows<P: Pipe<Item = Row> + Default>(order: &Order, name: &str) {
    tell(order, name, || {
        let text = text(false);
        run(order, P::default(), order.chunk.div_ceil(LINE), || {
            rows_of(&text)
        })
    });
}

fn main() {
    let Some(order) = order() else {
        eprintln!("usage: pipes PIPE|all|text MEGABYTES [CHUNK [time]]");
        process::exit(2);
    };
    if order.name == "text" {
        let text = text(false);
        for _ in 0..order.megabytes {
            io::stdout().write_all(&text).expect("standard output");
        }
    }
    over_bytes::<Utf8>(&order, "utf8", false);
    over_bytes::<Lossy>(&order, "lossy", false);
    over_bytes::<Lossy>(&order, "mended", true);
    over_bytes::<Lines>(&order, "lines", false);
    over_bytes::<Hex>(&order, "hex", false);
    over_bytes::<Upper>(&order, "upper", false);
    tell(&order, "csv", || run_each(&order));
    over_rows::<Field>(&order, "field");
    over_rows::<Lookup>(&order, "lookup");
    over_lines::<Drop>(&order, "drop");
    over_lines::<Filter>(&order, "filter");
    over_lines::<Changes>(&order, "changes");
    over_lines::<Number>(&order, "number");
    over_lines::<Count>(&order, "count");
    over_lines::<Intersperse>(&order, "intersperse");
    over_lines::<ChunkN>(&order, "chunkn");
}

// ---- the clock ----

#[repr(C)]
struct Timespec {
    seconds: i64,
    nanos: i64,
}

unsafe extern "C" {
    fn clock_gettime(clock: i32, time: *mut Timespec) -> i32;
}

const CLOCK_PROCESS_CPUTIME_ID: i32 = 2;

/// The processor time that the process has used. std has no such clock; the C library that it
/// stands on has.
fn used() -> Duration {
    let mut time = Timespec {
        seconds: 0,
        nanos: 0,
    };
    // The pointer is to a `timespec` of Linux on a 64-bit machine.
    unsafe { clock_gettime(CLOCK_PROCESS_CPUTIME_ID, &mut time) };
    Duration::new(time.seconds as u64, time.nanos as u32)
}
