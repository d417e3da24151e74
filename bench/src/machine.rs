//! Where and when the benchmark runs.

use std::fs;
use std::time::{Duration, SystemTime, UNIX_EPOCH};

/// The `struct timespec` of 64-bit Linux.
#[repr(C)]
struct Timespec {
    seconds: i64,
    nanoseconds: i64,
}

extern "C" {
    fn clock_gettime(clock: i32, time: *mut Timespec) -> i32;
}

const THREAD_CPU_CLOCK: i32 = 3;

/// The time that this thread had a CPU.
pub fn cpu_time() -> Duration {
    let mut time = Timespec {
        seconds: 0,
        nanoseconds: 0,
    };
    // SAFETY: the pointer is to a place that the call may write.
    let status = unsafe { clock_gettime(THREAD_CPU_CLOCK, &mut time) };
    assert!(status == 0, "no clock of the thread's CPU time");
    Duration::new(time.seconds as u64, time.nanoseconds as u32)
}

/// The CPU's name and the number of CPUs.
pub fn name() -> String {
    let text = fs::read_to_string("/proc/cpuinfo").unwrap_or_default();
    let models: Vec<&str> = text
        .lines()
        .filter(|line| line.starts_with("model name"))
        .filter_map(|line| line.split(": ").nth(1))
        .collect();
    match models.first() {
        Some(model) => format!("{model}, {} CPUs", models.len()),
        None => "unknown".to_owned(),
    }
}

/// The load average of the last minute.
pub fn load() -> String {
    let text = fs::read_to_string("/proc/loadavg").unwrap_or_default();
    text.split(' ').next().unwrap_or_default().to_owned()
}

/// The date in UTC. The years of this count begin in March and its eras are of 400 years.
pub fn date() -> String {
    let time = SystemTime::now().duration_since(UNIX_EPOCH);
    let days = time.map_or(0, |time| time.as_secs() / 86_400) + 719_468;
    let (era, day) = (days / 146_097, days % 146_097);
    let year = (day - day / 1_460 + day / 36_524 - day / 146_096) / 365;
    let day = day - (365 * year + year / 4 - year / 100);
    let month = (5 * day + 2) / 153;
    let day = day - (153 * month + 2) / 5 + 1;
    let (month, after) = if month < 10 {
        (month + 3, 0)
    } else {
        (month - 9, 1)
    };
    format!("{}-{month:02}-{day:02}", 400 * era + year + after)
}
