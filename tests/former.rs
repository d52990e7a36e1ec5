//! Tables in the former order, in which samples were compared as unsigned numbers.

/// The former table of a text, by a function that builds tables in the signed order: a sample with its highest bit changed stands in the one order where the
/// sample itself stands in the other. So a table is built of the samples changed, and the samples of its symbols are changed back.
pub fn former_table(text: &[u8], build: impl Fn(&[u8]) -> Vec<u32>) -> Vec<u32> {
    let changed: Vec<u8> = text.iter().map(|&sample| sample ^ 128).collect();
    let mut table = build(&changed);
    for symbol in table.iter_mut().filter(|word| (1..=256).contains(*word)) {
        *symbol = ((*symbol - 1) ^ 128) + 1;
    }
    table
}
