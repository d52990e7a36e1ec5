//! A drive rearranged to steps and restored, and the positions at which a pattern is found by its steps.

/// The first sample is kept, and every later one becomes its difference from the one before.
pub fn to_steps(drive: &[u8]) -> Vec<u8> {
    (0..drive.len()).map(|i| if i == 0 { drive[0] } else { step(drive, i) }).collect()
}

/// The drive that is rearranged to these steps.
pub fn from_steps(steps: &[u8]) -> Vec<u8> {
    let sum = |i| steps[..=i].iter().map(|&step| step as u32).sum::<u32>();
    let drive: Vec<u8> = (0..steps.len()).map(|i| (sum(i) % 256) as u8).collect();
    assert_eq!(to_steps(&drive), steps, "the drive that is rearranged to {steps:?}");
    drive
}

/// The steps of a pattern, one less than it has samples.
pub fn steps_of(pattern: &[u8]) -> Vec<u8> {
    (1..pattern.len()).map(|j| step(pattern, j)).collect()
}

/// The positions of a drive from which the same steps follow as in a pattern, rising.
pub fn finds_by_steps(pattern: &[u8], drive: &[u8]) -> Vec<usize> {
    let m = pattern.len();
    (0..drive.len()).filter(|&i| i + m <= drive.len() && (1..m).all(|j| step(drive, i + j) == step(pattern, j))).collect()
}

/// The difference of sample i from the one before, modulo 256.
fn step(samples: &[u8], i: usize) -> u8 {
    (samples[i] as i32 - samples[i - 1] as i32).rem_euclid(256) as u8
}
