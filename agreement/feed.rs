// Writes a file to standard output, a pipe, in pieces:
//
//     feed FILE SIZE...
//
// The pieces have the SIZEs in turn, over and over. Each is written when all before it is read, so that it comes to the reader as a read of its own; it may
// have up to 65,536 bytes, which a pipe holds. Ends quietly when nobody reads any more.
use std::fs::File;
use std::io::{ErrorKind, Write};
use std::num::NonZeroUsize;
use std::os::fd::FromRawFd;
use std::os::raw::{c_int, c_short, c_ulong};

#[repr(C)]
struct PollFd {
    fd: c_int,
    events: c_short,
    revents: c_short,
}

// Of the C library, with the numbers of Linux.
extern "C" {
    fn ioctl(fd: c_int, request: c_ulong, ...) -> c_int;
    fn poll(fds: *mut PollFd, count: c_ulong, timeout: c_int) -> c_int;
}
const FIONREAD: c_ulong = 0x541b;
const POLLERR: c_short = 8;

// How many bytes in the pipe are not read yet.
fn unread() -> c_int {
    let mut count: c_int = 0;
    let answer = unsafe { ioctl(1, FIONREAD, &mut count) };
    assert_eq!(answer, 0, "standard output is no pipe");
    count
}

// Whether nobody can read the pipe any more.
fn left() -> bool {
    let mut pipe = PollFd { fd: 1, events: 0, revents: 0 };
    unsafe { poll(&mut pipe, 1, 0) };
    pipe.revents & POLLERR != 0
}

fn main() {
    let words: Vec<String> = std::env::args().collect();
    assert!(words.len() > 2, "usage: feed FILE SIZE...");
    let bytes = std::fs::read(&words[1]).expect("the file");
    let sizes: Vec<NonZeroUsize> = words[2..].iter().map(|word| word.parse().expect("a size")).collect();
    // Not std's standard output, which writes line by line.
    let mut pipe = unsafe { File::from_raw_fd(1) };
    let mut rest = &bytes[..];
    for size in sizes.iter().cycle() {
        if rest.is_empty() {
            return;
        }
        let (piece, behind) = rest.split_at(rest.len().min(size.get()));
        match pipe.write_all(piece) {
            Err(fault) if fault.kind() == ErrorKind::BrokenPipe => return,
            done => done.expect("standard output"),
        }
        while unread() > 0 {
            if left() {
                return;
            }
            std::thread::yield_now();
        }
        rest = behind;
    }
}
