//! The numbers of both halves, by 01's cutting rule on the numbers alone
//! (01, The numbers of a box, "Cut in direction r").

use crate::head::Head;

/// The lower and the upper half's line.
pub fn cut_line(line: &[i64]) -> (Vec<i64>, Vec<i64>) {
    let n = line.len() - 1;
    let mut b = line.to_vec();
    let mut upper = vec![0; n + 1];
    upper[n] = b[n] * (1 << n);
    for k in 1..=n {
        let old = b.clone();
        for j in k..=n {
            b[j] = old[j - 1] + old[j];
        }
        upper[n - k] = b[n] * (1 << (n - k));
    }
    let lower = (0..=n).map(|j| b[j] * (1 << (n - j))).collect();
    (lower, upper)
}

/// Every line of every polynomial in direction r (from 0).
pub fn cut_numbers(head: &Head, r: usize, numbers: &[i64]) -> (Vec<i64>, Vec<i64>) {
    let (mut lower, mut upper) = (numbers.to_vec(), numbers.to_vec());
    for polynomial in 0..head.polynomials {
        for first in head.terms() {
            if first[r] != 0 {
                continue;
            }
            let place = |j: usize| {
                let mut term = first;
                term[r] = j;
                polynomial * head.size() + head.place(term)
            };
            let line: Vec<i64> = (0..=head.degrees[r]).map(|j| numbers[place(j)]).collect();
            let (low, high) = cut_line(&line);
            for j in 0..line.len() {
                lower[place(j)] = low[j];
                upper[place(j)] = high[j];
            }
        }
    }
    (lower, upper)
}

/// Whether every number is at most 2^(62-n) - 1 in size, n the direction's degree.
pub fn can_be_cut(head: &Head, r: usize, numbers: &[i64]) -> bool {
    let limit = (1i64 << (62 - head.degrees[r])) - 1;
    numbers
        .iter()
        .all(|number| (-limit..=limit).contains(number))
}
