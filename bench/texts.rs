//! Eight families of texts, one that is slow to list the cuts of, drives of a switch joystick, two whose middle has hundreds of live cuts, two with
//! many tests behind a hit, one whose steps are one of the eight, a joystick at rest, one that goes off heading at the end, and repeated blocks of
//! any length.

/// A small generator of numbers, the same in every run.
struct Numbers(u64);

impl Numbers {
    fn next(&mut self, below: u64) -> u64 {
        self.0 ^= self.0 << 13;
        self.0 ^= self.0 >> 7;
        self.0 ^= self.0 << 17;
        (self.0 >> 20) % below
    }

    /// A random byte, from 128 (-128) to 127 as `next` goes up: samples compare as the numbers did before they were signed.
    fn sample(&mut self) -> u8 {
        self.next(256) as u8 ^ 128
    }
}

pub const FAMILIES: [&str; 17] = [
    "random bytes",
    "two symbols",
    "rests and ramps",
    "equal samples",
    "a^(n-1) b",
    "(a^k b)^2",
    "(a^31 b)^j",
    "Fibonacci",
    "falling pairs",
    "nine headings",
    "(ab)^j",
    "a^k b a^2k b^k",
    "(w z^28)^j",
    "(a^15 b)^j",
    "Fibonacci steps",
    "all rest",
    "nine headings, then 9",
];

/// A family BLOCKS + m has a block of m random bytes, repeated.
const BLOCKS: usize = 100;

fn repeated(unit: &[u8], n: usize) -> Vec<u8> {
    unit.iter().cycle().take(n).copied().collect()
}

/// A run of a, then b.
fn run(k: usize) -> Vec<u8> {
    let mut s = vec![b'a'; k];
    s.push(b'b');
    s
}

/// A rest of a, then b, a rest twice as long, and b to the end. The middle lies in the second rest; at the join before that, half of its live cuts fit.
fn two_rests(n: usize) -> Vec<u8> {
    let mut s = run(n / 4);
    s.resize(s.len() + n / 4 * 2, b'a');
    s.resize(n, b'b');
    s
}

/// Eleven nested samples w and a rest: z^18 w has four listed cuts that fit where it straddles a join, and behind that one the others differ late.
fn nested_and_rest() -> Vec<u8> {
    let mut s = b"aabaacaabaa".to_vec();
    s.resize(s.len() + 28, b'z');
    s
}

/// Rests of up to 60 samples, between ramps of up to 20 steps out and back.
fn ramps(n: usize, numbers: &mut Numbers) -> Vec<u8> {
    let mut s = Vec::new();
    while s.len() < n {
        s.extend(vec![128u8; numbers.next(60) as usize]);
        let k = numbers.next(20) as u8;
        s.extend((0..k).map(|i| 128 + i));
        s.extend((0..k).rev().map(|i| 128 + i));
    }
    s.truncate(n);
    s
}

fn fibonacci(n: usize) -> Vec<u8> {
    let (mut a, mut b) = (b"a".to_vec(), b"ab".to_vec());
    while b.len() < n {
        let next = [b.clone(), a].concat();
        a = b;
        b = next;
    }
    b.truncate(n);
    b
}

/// The drive that is rearranged to this text. The last 1,060 of 2,047 samples of Fibonacci are also its first: these steps stand at the kept first sample too.
fn restored(steps: &[u8]) -> Vec<u8> {
    let add = |sum: &mut u8, &step: &u8| {
        *sum = sum.wrapping_add(step);
        Some(*sum)
    };
    steps.iter().scan(0, add).collect()
}

/// 0, and then x y for every x below y, the largest pair first: Lyndon words of two samples that fall.
fn falling(n: usize) -> Vec<u8> {
    let pairs = (0..255u8).rev().flat_map(|x| (x + 1..=255).rev().map(move |y| [x, y]));
    std::iter::once(0).chain(pairs.flatten()).take(n).collect()
}

/// A switch joystick, 0 for rest and 1 to 8 for headings: rests of 10 to 69 samples, and between them 1 to 6 headings, each held for 5 to 44 samples,
/// the next one beside the one before. The last 10 samples are at rest.
fn headings(n: usize, numbers: &mut Numbers) -> Vec<u8> {
    let mut s = Vec::new();
    while s.len() < n {
        s.extend(vec![0u8; 10 + numbers.next(60) as usize]);
        let mut heading = numbers.next(8) as u8;
        for _ in 0..1 + numbers.next(6) {
            s.extend(vec![1 + heading; 5 + numbers.next(40) as usize]);
            heading = (heading + if numbers.next(2) == 0 { 1 } else { 7 }) % 8;
        }
    }
    s.truncate(n);
    s[n.saturating_sub(10)..].fill(0);
    s
}

/// Such a drive, and then a 9: that it is off heading shows at its last sample alone.
fn headings_then_off(n: usize, numbers: &mut Numbers) -> Vec<u8> {
    let mut s = headings(n - 1, numbers);
    s.push(9);
    s
}

/// The text of n samples of a family.
pub fn text(family: usize, n: usize) -> Vec<u8> {
    let mut numbers = Numbers(88172645463325252);
    match family {
        0 => (0..n).map(|_| numbers.sample()).collect(),
        1 => (0..n).map(|_| numbers.next(2) as u8).collect(),
        2 => ramps(n, &mut numbers),
        3 => vec![b'a'; n],
        4 => run(n - 1),
        5 => repeated(&run((n - 3) / 2), n),
        6 => repeated(&run(31), n),
        7 => fibonacci(n),
        8 => falling(n),
        9 => headings(n, &mut numbers),
        10 => repeated(b"ab", n),
        11 => two_rests(n),
        12 => repeated(&nested_and_rest(), n),
        13 => repeated(&run(15), n),
        14 => restored(&fibonacci(n)),
        15 => vec![0; n],
        16 => headings_then_off(n, &mut numbers),
        _ => repeated(&(BLOCKS..family).map(|_| numbers.sample()).collect::<Vec<u8>>(), n),
    }
}

/// The m samples in the middle of a text.
pub fn middle(text: &[u8], m: usize) -> Vec<u8> {
    let start = (text.len() - m) / 2;
    text[start..start + m].to_vec()
}
