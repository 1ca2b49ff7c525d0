//! What the programs of this package share.

/// Every byte of a table once, in the compiler's plain loop; gives their sum.
pub fn bare_read(table: &[u8]) -> u8 {
    table.iter().fold(0, |sum, &byte| sum.wrapping_add(byte))
}
