//! The mistakes of a text, each by its line and column, counted from 1.

use crate::text::explain::counted;

/// A line, a column, and what is wrong there.
pub type Mistake = (usize, usize, String);

/// So many mistakes of a text are reported.
const REPORTED_MAX: usize = 20;

/// Reports mistakes, a line each, in the order of the text.
pub fn reported(mut mistakes: Vec<Mistake>) -> String {
    mistakes.sort();
    mistakes.dedup();
    let shown = mistakes.iter().take(REPORTED_MAX);
    let mut lines: Vec<String> = shown
        .map(|(line, column, why)| format!("line {line}, column {column}: {why}"))
        .collect();
    if mistakes.len() > REPORTED_MAX {
        let more = counted(mistakes.len() - REPORTED_MAX, "mistake");
        lines.push(format!("and {more} more"));
    }
    lines.join("\n")
}

#[cfg(test)]
mod tests {
    use super::*;

    #[test]
    fn mistakes_are_reported_in_order_and_not_without_end() {
        let mistake = |line: usize| (line, 7, format!("wrong {line}"));
        let two = reported(vec![mistake(3), mistake(2), mistake(3)]);
        assert_eq!(two, "line 2, column 7: wrong 2\nline 3, column 7: wrong 3");
        let many = reported((1..=21).map(mistake).collect());
        assert_eq!(many.lines().count(), 21);
        assert!(many.ends_with("wrong 20\nand 1 mistake more"), "{many}");
    }
}
