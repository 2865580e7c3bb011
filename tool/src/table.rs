//! Columns of text, as wide as their widest entry.

/// The rows as lines. Entries stand to the right, as numbers do, but for those of the columns `left`.
pub fn aligned(rows: &[Vec<String>], left: &[usize]) -> String {
    let columns = rows.iter().map(Vec::len).max().unwrap_or(0);
    let width = |column: usize| rows.iter().filter_map(|row| Some(row.get(column)?.chars().count())).max();
    let widths: Vec<usize> = (0..columns).map(|column| width(column).unwrap_or(0)).collect();
    let mut text = String::new();
    for row in rows {
        let entries = row.iter().enumerate().map(|(column, entry)| match left.contains(&column) {
            true => format!("{entry:<width$}", width = widths[column]),
            false => format!("{entry:>width$}", width = widths[column]),
        });
        text.push_str(entries.collect::<Vec<_>>().join("  ").trim_end());
        text.push('\n');
    }
    text
}

/// Words side by side, in lines of up to a width, each behind an indent.
pub fn wrapped(words: impl IntoIterator<Item = String>, indent: usize, width: usize) -> String {
    let mut text = String::new();
    let mut line = String::new();
    for word in words {
        if !line.is_empty() && indent + line.len() + 1 + word.len() > width {
            text.push_str(&format!("{:indent$}{line}\n", ""));
            line.clear();
        }
        if !line.is_empty() {
            line.push(' ');
        }
        line.push_str(&word);
    }
    if !line.is_empty() {
        text.push_str(&format!("{:indent$}{line}\n", ""));
    }
    text
}
