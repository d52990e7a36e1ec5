//! The nine-heading profile: which drives are not in it, and why.

/// The lowest index of a byte above 8.
pub fn off_heading(drive: &[u8]) -> Option<usize> {
    (0..drive.len()).find(|&i| u32::from(drive[i]) > 8)
}

/// Whether a drive is empty, or begins or ends elsewhere than at rest.
pub fn not_at_rest(drive: &[u8]) -> bool {
    drive.is_empty() || drive[0] != 0 || drive[drive.len() - 1] != 0
}
