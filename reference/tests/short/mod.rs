//! Short rows, which several of the tests try all of.

/// Every row of some length of some digits.
pub fn rows(digits: &[u8], length: usize) -> Vec<Vec<u8>> {
    let longer = |row: &Vec<u8>| -> Vec<Vec<u8>> {
        let with = |digit: &u8| [&row[..], &[*digit]].concat();
        digits.iter().map(with).collect()
    };
    (0..length).fold(vec![Vec::new()], |all, _| {
        all.iter().flat_map(longer).collect()
    })
}

/// Every two of some rows, each with itself too.
pub fn pairs(rows: &[Vec<u8>]) -> impl Iterator<Item = (&Vec<u8>, &Vec<u8>)> {
    rows.iter()
        .flat_map(move |x| rows.iter().map(move |y| (x, y)))
}
