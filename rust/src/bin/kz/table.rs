//! Tables as text.

/// A head and rows, each column as wide as its widest word. The first columns, so many, are numbers, and stand to the
/// right.
pub fn table<const N: usize>(head: [&str; N], numbers: usize, rows: &[[String; N]]) -> String {
    let head = head.map(String::from);
    let all = || [&head].into_iter().chain(rows);
    let wide: [usize; N] = std::array::from_fn(|i| all().map(|row| row[i].chars().count()).max().unwrap_or(0));
    let mut text = String::new();
    for row in all() {
        let words = row.iter().zip(wide).enumerate().map(|(i, (word, wide))| match i < numbers {
            true => format!("{word:>wide$}"),
            false => format!("{word:wide$}"),
        });
        text.push_str(words.collect::<Vec<_>>().join("  ").trim_end());
        text.push('\n');
    }
    text
}

#[cfg(test)]
mod tests {
    use super::*;

    #[test]
    fn columns() {
        let rows = [["7", "é", "long"], ["1234", "xyz", ""]].map(|row| row.map(String::from));
        assert_eq!(table(["n", "a", "b"], 1, &rows), "   n  a    b\n   7  é    long\n1234  xyz\n");
        assert_eq!(table(["n"], 0, &[]), "n\n");
    }
}
