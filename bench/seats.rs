//! What `bench/seats.sh` measures seats beside, in Rust with nothing but std: single atomic steps.
//!
//! `steps` adds to a word in single steps, nine for each life of a row, as many as such a life has steps
//! on words that change them. `notes` takes a stamp by a single step and appends an event, as a seat
//! that threads share does. `rows` does for each row of one table what its life does over such a seat,
//! without the list of the open rows: six stamps and events, and four single steps on the row's word.
//! `one-adds` adds to one word in one thread, `four-add` in four threads that share the word, a fourth
//! each, and `four-add-apart` in four with a word of its own each, on lines of its own. `one-works`,
//! `four-work` and `four-work-apart` do the same with what rows that nobody leases need: for each, four
//! stamps and events and two steps on the row's word. For these the time from beginning to end is told
//! too.

use std::hint::black_box;
use std::sync::atomic::{AtomicU64, Ordering::SeqCst};
use std::thread;
use std::time::{Duration, Instant};

/// An event of a ledger has these numbers.
#[derive(Clone, Copy)]
#[allow(dead_code)]
struct Event {
    stamp: u64,
    by: u32,
    scope: u32,
    parent: u32,
}

/// The steps of one life of a row that change a word: five stamps, and place, lease, close and leave.
const STEPS: u64 = 9;

fn steps(lives: u64) -> u64 {
    let word = AtomicU64::new(0);
    for _ in 0..lives * STEPS {
        black_box(&word).fetch_add(1, SeqCst);
    }
    word.load(SeqCst)
}

fn notes(count: u64) -> u64 {
    let word = AtomicU64::new(0);
    let mut events = Vec::with_capacity(count as usize);
    for scope in 0..count {
        let stamp = black_box(&word).fetch_add(1, SeqCst);
        events.push(Event {
            stamp,
            by: 0,
            scope: scope as u32 + 1,
            parent: 0,
        });
    }
    black_box(&events).len() as u64
}

fn note(word: &AtomicU64, events: &mut Vec<Event>, scope: u32) {
    let stamp = black_box(word).fetch_add(1, SeqCst);
    events.push(Event {
        stamp,
        by: 0,
        scope,
        parent: 0,
    });
}

fn rows(count: u64) -> u64 {
    let stamp = AtomicU64::new(0);
    let words: Vec<AtomicU64> = (0..count).map(|_| AtomicU64::new(0)).collect();
    let mut events = Vec::with_capacity(7 * count as usize);
    for (row, word) in words.iter().enumerate() {
        let word = black_box(word);
        let scope = row as u32 + 1;
        note(&stamp, &mut events, scope);
        note(&stamp, &mut events, scope);
        word.store(1, SeqCst);
        word.fetch_add(4, SeqCst);
        note(&stamp, &mut events, scope);
        note(&stamp, &mut events, scope);
        black_box(word.fetch_or(2, SeqCst));
        note(&stamp, &mut events, scope);
        black_box(word.fetch_sub(4, SeqCst));
        note(&stamp, &mut events, scope);
    }
    black_box(&events).len() as u64
}

/// A word on cache lines of its own.
#[repr(align(256))]
struct Apart(AtomicU64);

fn adds(word: &AtomicU64, count: u64) {
    for _ in 0..count {
        black_box(word).fetch_add(1, SeqCst);
    }
}

/// The lives of so many rows that nobody leases, with stamps from this word.
fn work(stamp: &AtomicU64, count: u64) {
    let words: Vec<AtomicU64> = (0..count).map(|_| AtomicU64::new(0)).collect();
    let mut events = Vec::with_capacity(7 * count as usize);
    for (row, word) in words.iter().enumerate() {
        let word = black_box(word);
        let scope = row as u32 + 1;
        note(stamp, &mut events, scope);
        note(stamp, &mut events, scope);
        word.store(1, SeqCst);
        note(stamp, &mut events, scope);
        black_box(word.fetch_or(2, SeqCst));
        note(stamp, &mut events, scope);
    }
    black_box(&events);
}

/// A fourth of the count in each of four threads, which share the first word or have one each.
fn in_four(count: u64, apart: bool, part: fn(&AtomicU64, u64)) -> u64 {
    let words: [Apart; 4] = std::array::from_fn(|_| Apart(AtomicU64::new(0)));
    thread::scope(|scope| {
        for i in 0..4 {
            let word = &words[if apart { i } else { 0 }].0;
            scope.spawn(move || part(word, count / 4));
        }
    });
    words.iter().map(|word| word.0.load(SeqCst)).sum()
}

fn in_one(count: u64, part: fn(&AtomicU64, u64)) -> u64 {
    let word = AtomicU64::new(0);
    part(&word, count);
    word.load(SeqCst)
}

const USAGE: &str = "usage: seats steps|notes|rows|one-adds|four-add|four-add-apart|one-works|four-work\
|four-work-apart COUNT";

fn main() {
    let words: Vec<String> = std::env::args().skip(1).collect();
    let count = words.get(1).and_then(|word| word.parse().ok());
    let (Some(name), Some(count)) = (words.first(), count) else {
        eprintln!("{USAGE}");
        std::process::exit(2);
    };
    let before = used();
    let began = Instant::now();
    let done = match name.as_str() {
        "steps" => steps(count),
        "notes" => notes(count),
        "rows" => rows(count),
        "one-adds" => in_one(count, adds),
        "four-add" => in_four(count, false, adds),
        "four-add-apart" => in_four(count, true, adds),
        "one-works" => in_one(count, work),
        "four-work" => in_four(count, false, work),
        "four-work-apart" => in_four(count, true, work),
        _ => {
            eprintln!("{USAGE}");
            std::process::exit(2);
        }
    };
    let spent = (used() - before).as_micros();
    println!("{name} {done} {spent} {}", began.elapsed().as_micros());
}

// ---- the clock ----

#[repr(C)]
struct Timespec {
    seconds: i64,
    nanos: i64,
}

unsafe extern "C" {
    fn clock_gettime(clock: i32, time: *mut Timespec) -> i32;
}

const CLOCK_PROCESS_CPUTIME_ID: i32 = 2;

/// The processor time that the process has used. std has no such clock; the C library that it stands
/// on has.
fn used() -> Duration {
    let mut time = Timespec {
        seconds: 0,
        nanos: 0,
    };
    // The pointer is to a `timespec` of Linux on a 64-bit machine.
    unsafe { clock_gettime(CLOCK_PROCESS_CPUTIME_ID, &mut time) };
    Duration::new(time.seconds as u64, time.nanos as u32)
}
