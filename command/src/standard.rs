//! The input and the output that the process was started with. Where one of them was closed, the runtime opens /dev/null in its place before `main`, and answers
//! would be lost in silence: so this is asked before that.

use std::io::{self, StdinLock, StdoutLock};
use std::sync::atomic::{AtomicBool, Ordering};

const EBADF: i32 = 9;

static CLOSED: [AtomicBool; 2] = [AtomicBool::new(false), AtomicBool::new(false)];

#[used]
#[link_section = ".init_array"]
static ASK: extern "C" fn() = ask;

extern "C" fn ask() {
    extern "C" {
        fn fcntl(file: i32, command: i32, ...) -> i32;
    }
    const GET_FLAGS: i32 = 1;
    for (file, closed) in (0..).zip(&CLOSED) {
        closed.store(unsafe { fcntl(file, GET_FLAGS) } == -1, Ordering::Relaxed);
    }
}

pub fn input() -> io::Result<StdinLock<'static>> {
    open(0).map(|()| io::stdin().lock())
}

pub fn output() -> io::Result<StdoutLock<'static>> {
    open(1).map(|()| io::stdout().lock())
}

fn open(file: usize) -> io::Result<()> {
    match CLOSED[file].load(Ordering::Relaxed) {
        true => Err(io::Error::from_raw_os_error(EBADF)),
        false => Ok(()),
    }
}
