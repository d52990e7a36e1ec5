//! The census of a drive: its runs of some samples, and how often each begins.

use super::order::Order;

/// Every run of q samples that stand in the drive one after the other, each run once, in the signed order, and how often it begins there.
pub fn census(drive: &[u8], q: usize) -> Vec<(Vec<u8>, usize)> {
    let mut windows: Vec<&[u8]> = drive.windows(q).collect();
    windows.sort_by_key(|window| Order::Signed.values(window));
    windows.chunk_by(|x, y| x == y).map(|same| (same[0].to_vec(), same.len())).collect()
}
