//! Whole numbers: how they are asked for, and how they are shown.

/// The number from 1 to `most` that is written so: digits alone, with no zero before them.
pub fn from_one_to(most: usize, text: &str) -> Option<usize> {
    (1..=most).find(|n| n.to_string() == text)
}

/// The digits in groups of three: `5,270,400`.
pub fn grouped(n: usize) -> String {
    let digits = n.to_string();
    let mut text = String::new();
    for (i, digit) in digits.chars().enumerate() {
        if i > 0 && (digits.len() - i) % 3 == 0 {
            text.push(',');
        }
        text.push(digit);
    }
    text
}

/// So many of a thing: `1 tank`, `12 tanks`.
pub fn count(n: usize, thing: &str) -> String {
    format!("{} {thing}{}", grouped(n), if n == 1 { "" } else { "s" })
}

#[cfg(test)]
mod tests {
    use super::*;

    #[test]
    fn a_number_is_digits_within_bounds() {
        assert_eq!(from_one_to(12, "1"), Some(1));
        assert_eq!(from_one_to(12, "12"), Some(12));
        for text in ["", "0", "13", "05", "+5", "-5", "5 ", "5.0", "five", "99999999999999999999"] {
            assert_eq!(from_one_to(12, text), None, "{text}");
        }
    }

    #[test]
    fn digits_stand_in_groups_of_three() {
        let shown = [0, 7, 21, 336, 1_000, 65_536, 100_000, 5_270_400].map(grouped);
        assert_eq!(shown, ["0", "7", "21", "336", "1,000", "65,536", "100,000", "5,270,400"]);
    }

    #[test]
    fn one_thing_has_no_s() {
        assert_eq!([0, 1, 2].map(|n| count(n, "tank")), ["0 tanks", "1 tank", "2 tanks"]);
    }
}
