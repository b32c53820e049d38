//! Minutes, numbers and names as people write them.

use crate::day::Window;

/// Minutes from midnight as 07:35; 1,440 is 24:00.
pub fn time(minutes: u32) -> String {
    format!("{:02}:{:02}", minutes / 60, minutes % 60)
}

/// A window as 07:00-09:30.
pub fn window(window: Window) -> String {
    format!("{}-{}", time(window.opening), time(window.closing))
}

/// "1 stop", "2 stops".
pub fn counted(count: usize, what: &str) -> String {
    if count == 1 {
        format!("1 {what}")
    } else {
        format!("{count} {what}s")
    }
}

/// A text of at most so many characters. What was cut is said by three dots.
pub fn shortened(text: &str, most: usize) -> String {
    if text.chars().count() <= most {
        return text.to_string();
    }
    let kept: String = text.chars().take(most.saturating_sub(1)).collect();
    format!("{}\u{2026}", kept.trim_end())
}

/// A number with a comma before each three digits.
pub fn grouped(number: u64) -> String {
    let digits = number.to_string();
    let mut grouped = String::new();
    for (index, digit) in digits.chars().enumerate() {
        if index > 0 && (digits.len() - index).is_multiple_of(3) {
            grouped.push(',');
        }
        grouped.push(digit);
    }
    grouped
}

#[cfg(test)]
mod tests {
    use super::*;

    #[test]
    fn minutes_are_written_as_a_clock_shows_them() {
        assert_eq!([0, 59, 455, 1_440].map(time), ["00:00", "00:59", "07:35", "24:00"]);
    }

    #[test]
    fn what_is_too_long_ends_in_three_dots() {
        let shortened = |text| shortened(text, 6);
        assert_eq!(["bakery", "bakers'"].map(shortened), ["bakery", "baker\u{2026}"]);
        assert_eq!(
            ["two words", "caf\u{e9}\u{e9}\u{e9}"].map(shortened),
            ["two w\u{2026}", "caf\u{e9}\u{e9}\u{e9}"]
        );
    }

    #[test]
    fn numbers_have_a_comma_before_each_three_digits() {
        let written = [0, 999, 1_000, 65_535, 1_000_000].map(grouped);
        assert_eq!(written, ["0", "999", "1,000", "65,535", "1,000,000"]);
    }
}
