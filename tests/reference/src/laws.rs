//! "Laws to try": L1 to L12 as words.

use crate::law::of_rows;

const L1: [[u128; 5]; 7] = [
    [5, 2, 4, 1, 0],
    [0, 5, 0, 0, 0],
    [1, 17, 0, 0, 0],
    [0, 1, 1, 2, 1],
    [0, 2, 0, 5, 2],
    [1, 1, 1, 8, 1],
    [1, 8, 0, 17, 8],
];

pub fn l1() -> Vec<u64> {
    of_rows(&L1)
}

/// L1 with all wait masks 0.
pub fn l2() -> Vec<u64> {
    let mut rows = L1;
    for row in &mut rows[3..] {
        row[2] = 0;
    }
    of_rows(&rows)
}

/// L1 with goals 4 and 16.
pub fn l3() -> Vec<u64> {
    let mut rows = L1;
    rows[1][1] = 4;
    rows[2][1] = 16;
    of_rows(&rows)
}

/// L1 with member 1's goal 2.
pub fn l4() -> Vec<u64> {
    let mut rows = L1;
    rows[2][1] = 2;
    of_rows(&rows)
}

pub fn l5() -> Vec<u64> {
    of_rows(&[[1, 1, 0, 1, 0], [0, 1, 0, 0, 0]])
}

/// L5 with I = 0.
pub fn l6() -> Vec<u64> {
    of_rows(&[[1, 1, 0, 0, 0], [0, 1, 0, 0, 0]])
}

pub fn l7() -> Vec<u64> {
    of_rows(&[[2, 2, 2, 0, 0], [0, 1, 0, 0, 0], [1, 2, 0, 0, 0], [0, 0, 0, 1, 0], [1, 0, 0, 2, 1]])
}

pub fn l8() -> Vec<u64> {
    of_rows(&[[2, 2, 2, 1, 0], [0, 1, 0, 0, 0], [1, 1, 0, 0, 0], [0, 0, 0, 2, 1], [1, 1, 0, 1, 0]])
}

/// L1 with goal 32, of either member.
pub fn l11(member: usize) -> Vec<u64> {
    let mut rows = L1;
    rows[1 + member][1] = 32;
    of_rows(&rows)
}

/// L1 with its last action replaced.
pub fn l12() -> Vec<u64> {
    let mut rows = L1;
    rows[6] = [0, 1, 2, 0, 0];
    of_rows(&rows)
}

/// The valid laws, L1 to L8.
pub fn valid() -> Vec<Vec<u64>> {
    vec![l1(), l2(), l3(), l4(), l5(), l6(), l7(), l8()]
}
