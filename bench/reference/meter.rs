// Runs a program once and writes to standard error its wall time in microseconds and its peak memory in KiB.
// A small process of its own, since what a process starts with counts into the peak of what it starts.
use std::env;
use std::ffi::c_int;
use std::process::{Command, ExitCode};
use std::time::Instant;

// The first fields of the C library's rusage: two times of two numbers each, then the peak.
#[repr(C)]
struct Usage {
    times: [i64; 4],
    peak: i64,
    rest: [i64; 13],
}

unsafe extern "C" {
    fn wait4(pid: c_int, status: *mut c_int, options: c_int, usage: *mut Usage) -> c_int;
}

fn main() -> ExitCode {
    let mut words = env::args_os().skip(1);
    let Some(program) = words.next() else {
        return ExitCode::FAILURE;
    };
    let start = Instant::now();
    let Ok(child) = Command::new(program).args(words).spawn() else {
        return ExitCode::FAILURE;
    };
    let mut status = 0;
    let mut usage = Usage { times: [0; 4], peak: 0, rest: [0; 13] };
    let waited = unsafe { wait4(child.id() as c_int, &mut status, 0, &mut usage) };
    eprintln!("meter {} {}", start.elapsed().as_micros(), usage.peak);
    if waited > 0 && status == 0 { ExitCode::SUCCESS } else { ExitCode::FAILURE }
}
