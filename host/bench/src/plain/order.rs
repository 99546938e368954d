//! An order of up to 32 labels as rows of marks: the row of a label has the labels under it.

pub type Set = [bool; 32];
pub type Table = [Set; 32];

/// A set of labels as a number: label a is bit a - 1.
pub type Members = u32;
pub type Rows = [Members; 32];

/// Dominance: the table, and by rows the labels under each label and those over it.
pub struct Dominance {
    pub down: Table,
    pub under: Rows,
    pub over: Rows,
}

/// Leaves the paths of one step or more among the first n labels.
pub fn close(table: &mut Table, n: usize) {
    for k in 0..n {
        let other = table[k];
        for row in &mut table[..n] {
            let on = row[k];
            for (mark, &also) in row.iter_mut().zip(&other) {
                *mark |= on & also;
            }
        }
    }
}

/// The lowest label that has a path to itself, or 0.
pub fn lowest_loop(table: &Table, n: usize) -> usize {
    (0..n).find(|&i| table[i][i]).map_or(0, |i| i + 1)
}

/// Each of the first n labels with itself.
pub fn reflect(table: &mut Table, n: usize) {
    for (i, row) in table[..n].iter_mut().enumerate() {
        row[i] = true;
    }
}

/// The set with label a too, where `on`.
pub fn with(set: Members, a: usize, on: bool) -> Members {
    set | Members::from(on) << (a - 1)
}

/// The set of the first n labels.
pub fn first_labels(n: usize) -> Members {
    if n < 32 {
        (1 << n) - 1
    } else {
        Members::MAX
    }
}

/// The first n rows, each as a number.
pub fn rows(table: &Table, n: usize) -> Rows {
    let mut rows = [0; 32];
    for (number, row) in rows.iter_mut().zip(&table[..n]) {
        *number = (0..32).fold(0, |set, j| with(set, j + 1, row[j]));
    }
    rows
}

/// The columns, each as a number, of which the first n rows count.
pub fn columns(table: &Table, n: usize) -> Rows {
    let mut columns = [0; 32];
    for (i, row) in table[..n].iter().enumerate() {
        for (number, &mark) in columns.iter_mut().zip(row) {
            *number = with(*number, i + 1, mark);
        }
    }
    columns
}

/// The labels of a set, the lowest first, counted from 0.
fn members(mut rest: Members) -> impl Iterator<Item = usize> {
    std::iter::from_fn(move || {
        let lowest = (rest != 0).then(|| rest.trailing_zeros() as usize);
        rest &= rest.wrapping_sub(1);
        lowest
    })
}

/// The greatest of the set, or 0.
fn greatest(rows: &Rows, set: Members) -> usize {
    members(set)
        .find(|&i| set & rows[i] == set)
        .map_or(0, |i| i + 1)
}

/// The greatest of the labels of `all` that are under each of the set, or 0.
pub fn greatest_lower(rows: &Rows, all: Members, set: Members) -> usize {
    let bounds = members(set).fold(all, |bounds, i| bounds & rows[i]);
    greatest(rows, bounds)
}

/// The first pair among the first n labels that has no least upper bound.
pub fn first_pair(table: &Table, n: usize) -> Option<(usize, usize)> {
    let over = columns(table, n);
    for i in 0..n {
        let bounds = first_labels(n) & over[i];
        for j in i + 1..n {
            if greatest(&over, bounds & over[j]) == 0 {
                return Some((i + 1, j + 1));
            }
        }
    }
    None
}
