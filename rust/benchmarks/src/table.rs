//! Text: tables whose columns line up, and figures with their units.

/// A table in Markdown, every column as wide as its widest cell. The first column is set to the left, the others to the
/// right.
pub fn table(head: &[&str], lines: &[Vec<String>]) -> String {
    let head: Vec<String> = head.iter().map(|cell| cell.to_string()).collect();
    let width = |column: usize| {
        let cells = lines.iter().chain([&head]).map(|line| line[column].chars().count());
        cells.max().unwrap_or(0)
    };
    let widths: Vec<usize> = (0..head.len()).map(width).collect();
    let rule = widths.iter().enumerate().map(|(column, &width)| match column {
        0 => format!("{:-<width$}", ":"),
        _ => format!("{:->width$}", ":"),
    });
    let rule = rule.collect();
    [&head, &rule]
        .into_iter()
        .chain(lines)
        .map(|line| aligned(line, &widths))
        .collect()
}

/// One line of a table.
fn aligned(line: &[String], widths: &[usize]) -> String {
    let cells = line
        .iter()
        .zip(widths)
        .enumerate()
        .map(|(column, (cell, &width))| match column {
            0 => format!("| {cell:<width$} |"),
            _ => format!(" {cell:>width$} |"),
        });
    cells.chain(["\n".to_string()]).collect()
}

/// A time given in nanoseconds, with three digits or more and the unit that suits it.
pub fn duration(nanoseconds: f64) -> String {
    let (value, unit) = match nanoseconds.abs() {
        size if size < 1e3 => (nanoseconds, "ns"),
        size if size < 1e6 => (nanoseconds / 1e3, "µs"),
        _ => (nanoseconds / 1e6, "ms"),
    };
    let digits = match value.abs() {
        size if size < 10.0 => 2,
        size if size < 100.0 => 1,
        _ => 0,
    };
    format!("{value:.digits$} {unit}")
}

/// A rate to three digits, with its thousands set apart.
pub fn grouped(rate: f64) -> String {
    let unit = 10f64.powf((rate.log10().floor() - 2.0).max(0.0));
    let digits = format!("{:.0}", (rate / unit).round() * unit);
    let first = (digits.len() - 1) % 3 + 1;
    let thousands = digits.as_bytes()[first..]
        .chunks(3)
        .map(|group| format!(",{}", String::from_utf8_lossy(group)));
    [digits[..first].to_string()].into_iter().chain(thousands).collect()
}

#[cfg(test)]
mod tests {
    use super::*;

    /// A cell is measured in characters, not in bytes.
    #[test]
    fn columns_line_up() {
        let lines = [
            vec!["a".to_string(), "1 µs".to_string()],
            vec!["long".to_string(), "2".to_string()],
        ];
        let expected = "| k    | time |\n| :--- | ---: |\n| a    | 1 µs |\n| long |    2 |\n";
        assert_eq!(table(&["k", "time"], &lines), expected);
    }

    /// Each unit once, and rates with none, one and two groups of thousands.
    #[test]
    fn figures_have_units_and_groups() {
        assert_eq!(
            [12.34, 999.4, 1_234.0, 5.5e6].map(duration),
            ["12.3 ns", "999 ns", "1.23 µs", "5.50 ms"]
        );
        assert_eq!(
            [7.0, 999.0, 1_234.0, 5_678_901.0].map(grouped),
            ["7", "999", "1,230", "5,680,000"]
        );
    }
}
