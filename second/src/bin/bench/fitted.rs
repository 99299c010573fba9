//! A table of 512 entries fitted to steps of a given sigma.

use std::cmp::Reverse;
use std::collections::BinaryHeap;

use second::known::table_bytes;
use second::table::{Codeword, MAX_ESCAPE_LENGTH, MAX_LENGTH, ZERO_DIFFERENCE};

const ENTRIES: i32 = 512;
const LOWEST: i32 = -ENTRIES / 2;
/// The weight of all differences together, nearly.
const WHOLE: f64 = 1e12;
/// The share of each special string.
const SPECIAL: f64 = 0.005;

/// Huffman's code for the Gaussian formula. Where its strings get too long,
/// rare differences are counted as less rare until the lengths fit.
pub fn fitted_table(sigma: f64) -> Vec<u8> {
    let mut rarest = 1;
    let mut lengths = huffman_lengths(&weights(sigma, rarest));
    while lengths.iter().any(|&length| length > MAX_LENGTH) || lengths[0] > MAX_ESCAPE_LENGTH {
        rarest *= 2;
        lengths = huffman_lengths(&weights(sigma, rarest));
    }
    let low_limit = (ZERO_DIFFERENCE + LOWEST) as u32;
    let mut words = vec![512, low_limit, ENTRIES as u32];
    words.extend(canonical_code(&lengths).iter().map(|codeword| codeword.to_word()));
    table_bytes(&words)
}

/// The weights of the three special strings and of the entries.
fn weights(sigma: f64, rarest: u64) -> Vec<u64> {
    let special = (SPECIAL * WHOLE) as u64;
    let scale = WHOLE / (sigma * std::f64::consts::TAU.sqrt());
    let gaussian = |difference: i32| {
        let exponent = -f64::from(difference).powi(2) / (2.0 * sigma * sigma);
        ((scale * exponent.exp()) as u64).max(rarest)
    };
    let entries = (LOWEST..LOWEST + ENTRIES).map(gaussian);
    [special; 3].into_iter().chain(entries).collect()
}

/// The depth of each leaf when the two lightest parts are joined each time.
fn huffman_lengths(weights: &[u64]) -> Vec<u32> {
    let leaves = weights.iter().enumerate().map(|(part, &weight)| Reverse((weight, part)));
    let mut parts: BinaryHeap<_> = leaves.collect();
    let mut parent = vec![0; weights.len()];
    while let (Some(Reverse((light, first))), Some(Reverse((heavy, second)))) =
        (parts.pop(), parts.pop())
    {
        let joined = parent.len();
        parent.push(0);
        parent[first] = joined;
        parent[second] = joined;
        parts.push(Reverse((light + heavy, joined)));
    }
    // Parents come after their children, so depths are found from the root.
    let mut depth = vec![0; parent.len()];
    for part in (0..parent.len() - 1).rev() {
        depth[part] = depth[parent[part]] + 1;
    }
    depth.truncate(weights.len());
    depth
}

/// Strings of these lengths, counted upward from the shortest.
fn canonical_code(lengths: &[u32]) -> Vec<Codeword> {
    let mut order: Vec<usize> = (0..lengths.len()).collect();
    order.sort_by_key(|&index| lengths[index]);
    let mut codewords = vec![Codeword { bits: 0, length: 0 }; lengths.len()];
    let (mut code, mut last) = (0u32, 0);
    for index in order {
        let length = lengths[index];
        code <<= length - last;
        last = length;
        // The count runs from the last bit, a string from its first.
        let bits = code.reverse_bits() >> (32 - length);
        codewords[index] = Codeword { bits, length };
        code += 1;
    }
    codewords
}

#[cfg(test)]
mod tests {
    use super::*;
    use second::table::{check, Table};

    #[test]
    fn lengths_of_a_known_code() {
        assert_eq!(huffman_lengths(&[1, 1, 2, 4, 8]), [4, 4, 3, 2, 1]);
        assert_eq!(huffman_lengths(&[3, 3, 3, 3]), [2; 4]);
    }

    #[test]
    fn fitted_tables_are_accepted() {
        for sigma in [1.0, 6.0, 40.0] {
            assert_eq!(check(&fitted_table(sigma)).0, 0, "{sigma}");
        }
    }

    #[test]
    fn common_steps_are_short() {
        let table = Table::parse(&fitted_table(6.0)).unwrap();
        let length = |difference| table.entry_of(difference).unwrap().length;
        assert!(length(0) <= 4 && length(0) < length(12) && length(12) < length(40));
    }
}
