//! What a process took, as the system measured it: processor time, and the peak of the memory that it had
//! resident. For the tests of memory and, by its path, for bench/. The system counts the peak of the process
//! that started another one as part of the other's, so that `own_peak` must be small where `ended` is to mean
//! anything.

use std::fs;
use std::process::Child;

/// struct rusage of Linux: user and system time, each in seconds and microseconds, the peak in kilobytes, and
/// numbers that are not read here.
#[repr(C)]
#[derive(Default)]
struct Usage {
    times: [i64; 4],
    peak: i64,
    rest: [i64; 13],
}

/// What a process took: seconds of all its threads together, and bytes.
#[derive(Clone, Copy)]
pub struct Taken {
    pub seconds: f64,
    pub peak: u64,
}

extern "C" {
    fn wait4(pid: i32, status: *mut i32, options: i32, usage: *mut Usage) -> i32;
}

/// Waits for a process to end, and tells what it took; none where its status is not 0.
pub fn ended(child: Child) -> Option<Taken> {
    let (mut status, mut usage) = (0, Usage::default());
    // SAFETY: the process is our child, which nobody else waits for; both pointers are to places of their
    // own.
    let waited = unsafe { wait4(child.id() as i32, &mut status, 0, &mut usage) };
    let [user, user_micro, system, system_micro] = usage.times.map(|time| time as f64);
    let seconds = user + system + (user_micro + system_micro) / 1e6;
    (waited == child.id() as i32 && status == 0).then_some(Taken { seconds, peak: usage.peak as u64 * 1024 })
}

/// The peak of this process in bytes, which is a lower bound of what `ended` tells.
pub fn own_peak() -> u64 {
    let status = fs::read_to_string("/proc/self/status").expect("own status");
    let line = status.lines().find_map(|line| line.strip_prefix("VmHWM:")).expect("a peak");
    line.trim().strip_suffix(" kB").and_then(|number| number.parse::<u64>().ok()).expect("kilobytes") * 1024
}
