//! One file in frames, as `flume cat` prints it, in Rust with nothing but std: a read of 4,096 bytes and
//! one write for each frame. It tells no end and keeps no ledger.

use std::fs::File;
use std::io::{self, Read, Write};
use std::os::fd::AsFd;

fn main() -> io::Result<()> {
    let path = std::env::args_os().nth(1).expect("usage: cat PATH");
    let mut file = File::open(path)?;
    let mut out = File::from(io::stdout().as_fd().try_clone_to_owned()?);
    let mut piece = vec![0; 4096];
    let mut frame = Vec::with_capacity(8192);
    loop {
        let count = file.read(&mut piece)?;
        if count == 0 {
            return Ok(());
        }
        frame.clear();
        writeln!(frame, "0 {count}")?;
        frame.extend_from_slice(&piece[..count]);
        frame.push(b'\n');
        out.write_all(&frame)?;
    }
}
