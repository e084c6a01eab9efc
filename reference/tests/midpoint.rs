//! The midpoint by job 6: halves go to the even neighbour.

use reference::midpoint;

/// Every sum about zero and at both ends of 32 bits, against the rule in plain words.
#[test]
fn twice_the_half_is_near_and_even_where_it_differs() {
    for base in [i32::MIN, i32::MIN + 5, -5, 0, i32::MAX - 9] {
        for (p, q) in (0..10).flat_map(|i| (0..10).map(move |j| (base + i, base + j))) {
            let half = midpoint(&[p, 0], &[q, 0])[0];
            let off = 2 * i64::from(half) - i64::from(p) - i64::from(q);
            assert!(off.abs() <= 1 && (off == 0 || half % 2 == 0), "{p} {q}");
        }
    }
}

#[test]
fn the_papers_halves() {
    assert_eq!(midpoint(&[1, 0], &[2, 1]), [2, 0]);
    assert_eq!(midpoint(&[-1, 0], &[-2, -1]), [-2, 0]);
}

/// Job 8: every part is halved, by the same rule.
#[test]
fn all_parts_of_every_degree() {
    assert_eq!(midpoint(&[3, 0, -3], &[0, 1, 0]), [2, 0, -2]);
    assert_eq!(midpoint(&[1, -1, 2, 5], &[0, 0, 1, 2]), [0, 0, 2, 4]);
}
