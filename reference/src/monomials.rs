//! The monomials x^i y^j of total degree at most d, in 01's order, by rule for any d.

/// The exponent pairs (i, j): by falling total degree, then by falling power of x.
pub fn monomials(d: u32) -> Vec<(u32, u32)> {
    let mut list = Vec::new();
    for total in (0..=d).rev() {
        for i in (0..=total).rev() {
            list.push((i, total - i));
        }
    }
    list
}

/// How many there are: (d + 1)(d + 2) / 2.
pub fn count(d: u32) -> usize {
    ((d + 1) * (d + 2) / 2) as usize
}

/// The place of x^i y^j in the list for d, where i + j <= d.
pub fn position(d: u32, i: u32, j: u32) -> usize {
    monomials(d)
        .iter()
        .position(|&pair| pair == (i, j))
        .expect("i + j is at most d")
}

#[cfg(test)]
mod tests {
    use super::*;

    #[test]
    fn the_example_of_degree_2() {
        // x^2, xy, y^2, x, y, 1
        let wanted = [(2, 0), (1, 1), (0, 2), (1, 0), (0, 1), (0, 0)];
        assert_eq!(monomials(2), wanted);
    }

    #[test]
    fn order_and_count_for_many_degrees() {
        for d in 0..12 {
            let list = monomials(d);
            assert_eq!(list.len(), count(d));
            for pair in list.windows(2) {
                let ((i, j), (k, m)) = (pair[0], pair[1]);
                assert!(i + j > k + m || (i + j == k + m && i > k));
            }
            for (at, &(i, j)) in list.iter().enumerate() {
                assert!(i + j <= d);
                assert_eq!(position(d, i, j), at);
            }
        }
    }
}
