//! launch FILE PROGRAM [WORD..]: runs the program and writes into FILE its seconds, processor seconds, peak memory in KB and exit
//! status. Linux counts a child's memory from that of its parent on, so the parent has to be this small.

use std::ffi::c_int;
use std::process::{Command, ExitCode};
use std::time::Instant;
use std::{env, fs, io, mem};

/// `struct rusage` of Linux, 64 bits.
#[repr(C)]
struct Usage {
    user: [i64; 2],
    system: [i64; 2],
    memory: i64,
    others: [i64; 13],
}

unsafe extern "C" {
    fn wait4(pid: c_int, status: *mut c_int, options: c_int, usage: *mut Usage) -> c_int;
}

fn seconds(time: [i64; 2]) -> f64 {
    time[0] as f64 + time[1] as f64 / 1e6
}

fn main() -> ExitCode {
    let mut words = env::args_os().skip(1);
    let (Some(file), Some(program)) = (words.next(), words.next()) else {
        return ExitCode::from(2);
    };
    let start = Instant::now();
    let Ok(child) = Command::new(program).args(words).spawn() else {
        return ExitCode::from(2);
    };
    let mut status = 0;
    // SAFETY: all bits zero are a value of `Usage`, a struct of integers.
    let mut usage: Usage = unsafe { mem::zeroed() };
    let pid = child.id() as c_int;
    // SAFETY: `wait4` writes the status and the usage, and `Usage` is at least as large as `struct rusage`.
    while unsafe { wait4(pid, &mut status, 0, &mut usage) } != pid {
        if io::Error::last_os_error().kind() != io::ErrorKind::Interrupted {
            return ExitCode::from(2);
        }
    }
    let wall = start.elapsed().as_secs_f64();
    let processor = seconds(usage.user) + seconds(usage.system);
    let said = format!("{wall} {processor} {} {status}\n", usage.memory);
    match fs::write(file, said) {
        Ok(()) => ExitCode::SUCCESS,
        Err(_) => ExitCode::from(2),
    }
}
