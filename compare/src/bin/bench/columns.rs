//! The columns of a table that has a row for each call of the three programs.

/// The width of a row's name in the table of share-outs, and what its moves and
/// cuts take after it.
pub const NAME: usize = 29;
pub const NAME_ALONE: usize = NAME + 13;

pub fn heading(name: &str) {
    println!(
        "{name:<NAME_ALONE$}{:>10}{:>10}{:>7}{:>11}{:>7}",
        "proved", "plain C", "ratio", "reference", "ratio"
    );
}

pub fn row(name: &str, [proved, plain, second]: [f64; 3]) {
    println!(
        "{name:<NAME_ALONE$}{proved:>10.2}{plain:>10.2}{:>7.2}{second:>11.2}{:>7.2}",
        proved / plain,
        proved / second
    );
}
