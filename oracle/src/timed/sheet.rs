//! Tables of measurements as text.

/// A table: its first column is of names, the others of numbers.
pub struct Sheet {
    rows: Vec<Vec<String>>,
}

impl Sheet {
    pub fn new(heads: &[&str]) -> Sheet {
        Sheet {
            rows: vec![heads.iter().map(|head| head.to_string()).collect()],
        }
    }

    pub fn push(&mut self, row: Vec<String>) {
        assert_eq!(row.len(), self.rows[0].len());
        self.rows.push(row);
    }

    /// As Markdown, or with columns of one width.
    pub fn text(&self, markdown: bool) -> String {
        if markdown {
            self.markdown()
        } else {
            self.aligned()
        }
    }

    fn aligned(&self) -> String {
        let widths: Vec<usize> = (0..self.rows[0].len())
            .map(|column| self.width(column))
            .collect();
        let line = |row: &Vec<String>| {
            let first = format!("{:width$}", row[0], width = widths[0]);
            let others = row.iter().zip(&widths).skip(1);
            others.fold(first, |line, (cell, width)| {
                format!("{line}  {cell:>width$}")
            })
        };
        self.rows.iter().map(|row| line(row) + "\n").collect()
    }

    fn width(&self, column: usize) -> usize {
        let cells = self.rows.iter().map(|row| row[column].chars().count());
        cells.max().unwrap_or(0)
    }

    fn markdown(&self) -> String {
        let line = |row: &Vec<String>| format!("| {} |\n", row.join(" | "));
        let mut text = line(&self.rows[0]);
        text.push_str(&format!(
            "|---{}|\n",
            "|---:".repeat(self.rows[0].len() - 1)
        ));
        text.extend(self.rows[1..].iter().map(line));
        text
    }
}

/// A number with a comma before each three digits.
pub fn grouped(number: u64) -> String {
    let digits = number.to_string();
    let mut text = String::new();
    for (place, digit) in digits.chars().enumerate() {
        if place > 0 && (digits.len() - place).is_multiple_of(3) {
            text.push(',');
        }
        text.push(digit);
    }
    text
}

/// A time with its unit: three digits at least, one behind the point at most.
pub fn seconds(time: f64) -> String {
    let (value, unit) = match time {
        ..1e-3 => (time * 1e6, "µs"),
        ..1.0 => (time * 1e3, "ms"),
        _ => (time, "s"),
    };
    let places = if value < 10.0 {
        2
    } else {
        usize::from(value < 100.0)
    };
    format!("{value:.places$} {unit}")
}

/// How many times as long one takes as another.
pub fn ratio(value: f64) -> String {
    let places = match value {
        ..0.01 => 5,
        ..10.0 => 2,
        _ => 0,
    };
    format!("{value:.places$}")
}

/// How many rounds the library had, and the Rust where it had others.
pub fn rounds(library: usize, rust: usize) -> String {
    if library == rust {
        return library.to_string();
    }
    format!("{library}, Rust {rust}")
}

#[cfg(test)]
mod tests {
    use super::*;

    #[test]
    fn numbers_are_grouped() {
        let texts = [0, 999, 1_000, 65_535, 1_048_576].map(grouped);
        assert_eq!(texts, ["0", "999", "1,000", "65,535", "1,048,576"]);
    }

    #[test]
    fn times_have_their_units() {
        let texts = [0.000_000_5, 0.000_254_04, 0.012_34, 0.5, 1.234_5, 12.0].map(seconds);
        assert_eq!(
            texts,
            ["0.50 µs", "254 µs", "12.3 ms", "500 ms", "1.23 s", "12.0 s"]
        );
    }

    #[test]
    fn ratios_have_three_digits_or_so() {
        let texts = [0.001_234, 0.5, 1.0, 12.3].map(ratio);
        assert_eq!(texts, ["0.00123", "0.50", "1.00", "12"]);
    }

    #[test]
    fn columns_are_aligned() {
        let mut sheet = Sheet::new(&["What", "Time"]);
        sheet.push(vec!["a book".into(), "5 µs".into()]);
        assert_eq!(sheet.text(false), "What    Time\na book  5 µs\n");
        assert_eq!(
            sheet.text(true),
            "| What | Time |\n|---|---:|\n| a book | 5 µs |\n"
        );
    }
}
