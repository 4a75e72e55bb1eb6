//! Runs the built program on one input, with a time limit.

use std::io::{Read, Write};
use std::os::fd::AsRawFd;
use std::path::Path;
use std::process::{ChildStdin, Command, Stdio};
use std::sync::mpsc::channel;
use std::thread;
use std::time::{Duration, Instant};

#[derive(Clone, PartialEq, Eq, Debug)]
pub enum Run {
    /// It ended with status 0; what it wrote to standard output.
    Ended(String),
    /// It ended otherwise, or wrote to standard error.
    Failed(String),
    TimedOut,
}

extern "C" {
    fn ioctl(descriptor: i32, request: u64, answer: *mut i32) -> i32;
}

/// FIONREAD of Linux: how many bytes wait in a pipe.
const WAITING: u64 = 0x541b;

/// Waits until the program has read all that was written, so that what is written next comes with
/// another read; not longer than the limit.
fn wait_until_read(pipe: &ChildStdin, limit: Duration) {
    let start = Instant::now();
    let mut waiting = 1;
    while waiting > 0 && start.elapsed() < limit {
        // Sound: the descriptor is open, and the pointer is to a number of the width that is written.
        let status = unsafe { ioctl(pipe.as_raw_fd(), WAITING, &mut waiting) };
        assert_eq!(status, 0, "ioctl");
        thread::yield_now();
    }
}

/// What the program does with an input, and how long it took.
pub fn run(program: &Path, input: &[u8], limit: Duration) -> (Run, Duration) {
    run_in_pieces(program, &[input], limit)
}

/// The same with an input in pieces, each read before the next is written.
pub fn run_in_pieces(program: &Path, input: &[&[u8]], limit: Duration) -> (Run, Duration) {
    let start = Instant::now();
    let mut child = Command::new(program)
        .stdin(Stdio::piped())
        .stdout(Stdio::piped())
        .stderr(Stdio::piped())
        .spawn()
        .unwrap_or_else(|e| panic!("{}: {e}", program.display()));
    let mut stdin = child.stdin.take().expect("piped");
    let mut stdout = child.stdout.take().expect("piped");
    let mut stderr = child.stderr.take().expect("piped");
    let pieces: Vec<Vec<u8>> = input.iter().map(|piece| piece.to_vec()).collect();
    let writer = thread::spawn(move || {
        for (i, piece) in pieces.iter().enumerate() {
            if i > 0 {
                wait_until_read(&stdin, limit);
            }
            // The program may stop reading an input that is too long, so a failed write is no failure.
            if stdin.write_all(piece).is_err() {
                break;
            }
        }
    });
    let (sender, receiver) = channel();
    let reader = thread::spawn(move || {
        let (mut written, mut complaint) = (vec![], vec![]);
        let _ = stdout.read_to_end(&mut written);
        let _ = stderr.read_to_end(&mut complaint);
        let _ = sender.send((written, complaint));
    });
    let received = receiver.recv_timeout(limit);
    if received.is_err() {
        let _ = child.kill();
    }
    let status = child.wait();
    let _ = (writer.join(), reader.join());
    let time = start.elapsed();
    let run = match (received, status) {
        (Err(_), _) => Run::TimedOut,
        (Ok((written, complaint)), Ok(status)) if status.success() && complaint.is_empty() => {
            Run::Ended(String::from_utf8_lossy(&written).into_owned())
        }
        (Ok((_, complaint)), status) => {
            Run::Failed(format!("{status:?}, {}", String::from_utf8_lossy(&complaint)))
        }
    };
    (run, time)
}
