//! What crates/channel_bench does, in Rust with nothing but std: messages of the same size and shape
//! through `sync_channel`, which puts a thread that waits to sleep. Build it with `rustc -O`; it
//! takes the same words, but for the way of waiting, and prints the same lines.
use std::sync::Arc;
use std::sync::mpsc::{Receiver, SyncSender, sync_channel};
use std::time::Duration;
use std::{env, process, thread};

#[allow(dead_code)]
struct Chunk<T> {
    items: Arc<Vec<T>>,
    from: usize,
    to: usize,
}

type Line = Box<Vec<u8>>;

#[allow(dead_code)]
enum Load {
    Bytes(Chunk<u8>),
    Lines(Chunk<Line>),
    Rows(Chunk<Vec<Line>>),
}

#[allow(dead_code)]
enum How {
    Done,
    Halted,
    Fault(u16),
    Memory,
}

#[allow(dead_code)]
enum Body {
    Load(Load),
    End(How),
}

#[allow(dead_code)]
struct Msg {
    stream: u32,
    body: Body,
}

fn send_all(sender: SyncSender<Msg>, messages: u32) {
    for _ in 0..messages {
        let body = Body::End(How::Done);
        if sender.send(Msg { stream: 0, body }).is_err() {
            return;
        }
    }
}

fn receive_all(receiver: Receiver<Msg>, messages: u32) -> u32 {
    let mut count = 0u32;
    for _ in 0..messages {
        match receiver.recv() {
            Ok(m) if m.stream == 0 => count = count.saturating_add(1),
            _ => {}
        }
    }
    count
}

fn send_through(capacity: usize, messages: u32) -> u32 {
    let (sender, receiver) = sync_channel(capacity);
    let producer = thread::spawn(move || send_all(sender, messages));
    let count = receive_all(receiver, messages);
    producer.join().unwrap();
    count
}

fn wait_empty(time: Duration) -> u32 {
    let (sender, receiver) = sync_channel(1);
    let producer = thread::spawn(move || {
        thread::sleep(time);
        send_all(sender, 1);
    });
    let count = receive_all(receiver, 1);
    producer.join().unwrap();
    count
}

fn wait_full(time: Duration) -> u32 {
    let (sender, receiver) = sync_channel(1);
    let producer = thread::spawn(move || send_all(sender, 2));
    thread::sleep(time);
    let count = receive_all(receiver, 2);
    producer.join().unwrap();
    count
}

fn run(words: &[&str]) -> Option<u32> {
    match words {
        ["send", messages, capacity] => {
            Some(send_through(capacity.parse().ok()?, messages.parse().ok()?))
        }
        ["empty", millis] => Some(wait_empty(Duration::from_millis(millis.parse().ok()?))),
        ["full", millis] => Some(wait_full(Duration::from_millis(millis.parse().ok()?))),
        _ => None,
    }
}

fn main() {
    let words: Vec<String> = env::args().skip(1).collect();
    let mut words: Vec<&str> = words.iter().map(String::as_str).collect();
    let timed = words.last() == Some(&"time");
    if timed {
        words.pop();
    }
    let began = used();
    let Some(count) = run(&words) else {
        eprintln!("usage: channel send MESSAGES CAPACITY [time] | empty|full MILLISECONDS [time]");
        process::exit(2);
    };
    if timed {
        println!("{count} {}", (used() - began).as_micros());
    } else {
        println!("{count}");
    }
}

// ---- the clock ----

#[repr(C)]
struct Timespec {
    seconds: i64,
    nanos: i64,
}

unsafe extern "C" {
    fn clock_gettime(clock: i32, time: *mut Timespec) -> i32;
}

const CLOCK_PROCESS_CPUTIME_ID: i32 = 2;

/// The processor time that the process has used, of all its threads. std has no such clock; the C
/// library that it stands on has.
fn used() -> Duration {
    let mut time = Timespec {
        seconds: 0,
        nanos: 0,
    };
    // The pointer is to a `timespec` of Linux on a 64-bit machine.
    unsafe { clock_gettime(CLOCK_PROCESS_CPUTIME_ID, &mut time) };
    Duration::new(time.seconds as u64, time.nanos as u32)
}
