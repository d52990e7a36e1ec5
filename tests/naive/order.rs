//! The orders in which samples are compared.

#[derive(Clone, Copy, PartialEq)]
pub enum Order {
    /// That of the numbers 0 to 255, by which tables were built before request S-2.
    Unsigned,
    /// That of the numbers -128 to 127: a sample of 128 or more means itself minus 256.
    Signed,
}

impl Order {
    /// What samples mean: numbers, whose order this is.
    pub fn values(self, samples: &[u8]) -> Vec<i16> {
        samples.iter().map(|&sample| self.value(sample)).collect()
    }

    fn value(self, sample: u8) -> i16 {
        match self {
            Order::Signed if sample >= 128 => sample as i16 - 256,
            _ => sample as i16,
        }
    }
}
