//! The memory of a program that runs.

use std::fs;

/// The most that this process has held so far, in KiB. Linux tells it until the process has ended.
pub fn peak(process: u32) -> Result<u64, String> {
    let path = format!("/proc/{process}/status");
    let status = fs::read_to_string(&path).map_err(|why| format!("{path}: {why}"))?;
    let line = status.lines().find_map(|line| line.strip_prefix("VmHWM:"));
    let number = line.and_then(|line| line.trim().trim_end_matches(" kB").parse().ok());
    number.ok_or_else(|| format!("{path} tells no peak: the program has ended"))
}
