//! Numbers to be tried as arguments, in range and out of it.

/// Numbers beyond 40: those that look small if their high bits are lost, and the ends.
const LARGE: [u32; 14] =
    [41, 64, 127, 128, 255, 256, 258, 265, 65_538, 65_539, 1 << 31, (1 << 31) + 5, u32::MAX - 1, u32::MAX];

/// Numbers that are no job count: just past 8, ones that look small if their high bits are lost, and the ends.
pub fn no_job_counts() -> impl Iterator<Item = u32> {
    [9, 10, 15, 16, 128, 255, 256, 256 + 8, 65_536 + 3, 1 << 31, u32::MAX].into_iter()
}

/// Numbers that are no lag: just past 1, ones that look small if their high bits are lost, and the ends.
pub fn no_lags() -> impl Iterator<Item = u32> {
    [2, 3, 4, 30, 255, 256, 256 + 1, 65_536, 65_536 + 1, 1 << 31, u32::MAX - 1, u32::MAX].into_iter()
}

/// The numbers from 0 to 40, then the large ones.
pub fn small_and_large() -> impl Iterator<Item = u32> {
    (0..=40).chain(LARGE)
}
