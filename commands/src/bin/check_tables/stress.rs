//! Stress digits: version 1 of the sheet takes 0 and 1 off a phone, version 2 takes off 2 as well.

use pronouncer::is_vowel;

/// The digits of version 2, and the one that version 1 leaves where it is.
const DIGITS: [char; 3] = ['0', '1', SECONDARY];
const SECONDARY: char = '2';

/// A phone without its stress.
pub fn bare(phone: &str) -> &str {
    phone.strip_suffix(DIGITS).unwrap_or(phone)
}

/// Whether a phone has a stress that version 1 leaves where it is.
pub fn is_secondary(phone: &str) -> bool {
    phone.ends_with(SECONDARY)
}

/// Whether a phone is a vowel with its stress.
pub fn is_stressed_vowel(phone: &str) -> bool {
    let bare = bare(phone);
    bare != phone && is_vowel(bare)
}

#[cfg(test)]
mod tests {
    use super::*;

    #[test]
    fn one_last_digit_comes_off() {
        for (phone, left) in [
            ("ae0", "ae"),
            ("ae1", "ae"),
            ("ae2", "ae"),
            ("ae3", "ae3"),
            ("ae12", "ae1"),
            ("t2", "t"),
            ("2", ""),
        ] {
            assert_eq!(bare(phone), left);
        }
    }

    #[test]
    fn version_1_is_the_rule_of_the_library() {
        for phone in ["ae", "ae0", "ae1", "ae2", "ae3", "t0", "t2", "", "2", "ae21", "ae12"] {
            let (left, _) = pronouncer::split_stress(phone);
            let wanted = if is_secondary(phone) { phone } else { bare(phone) };
            assert_eq!(left, wanted);
        }
    }

    #[test]
    fn a_stressed_vowel_has_a_digit() {
        assert!(["ae0", "ax1", "el2"].into_iter().all(is_stressed_vowel));
        assert!(!["ae", "t0", "ae3", "ae11", "", "1"].into_iter().any(is_stressed_vowel));
    }
}
