//! The 50 phones, stress digits, and tables of phones.

/// The phones of `crates/phoneset`, in its order; vowels are those whose "vc" is "+".
#[rustfmt::skip]
const PHONES: [&str; 50] = [
    "aa", "ae", "ah", "ao", "aw", "ax", "axr", "ay", "b", "ch", "d", "dh", "dx", "eh", "el", "em", "en", "er", "ey",
    "f", "g", "hh", "hv", "ih", "iy", "jh", "k", "l", "m", "n", "nx", "ng", "ow", "oy", "p", "r", "s", "sh", "t", "th",
    "uh", "uw", "v", "w", "y", "z", "zh", "pau", "h#", "brth",
];

#[rustfmt::skip]
const VOWELS: [&str; 20] = [
    "aa", "ae", "ah", "ao", "aw", "ax", "axr", "ay", "eh", "el", "em", "en", "er", "ey", "ih", "iy", "ow", "oy",
    "uh", "uw",
];

/// The most phones that a table holds.
pub const MOST_PHONES: usize = 256;

/// The digits of stress: none, primary and secondary.
pub const DIGITS: [char; 3] = ['0', '1', '2'];

/// A phone without its last stress digit.
pub fn bare(phone: &str) -> &str {
    phone.strip_suffix(DIGITS).unwrap_or(phone)
}

pub fn is_vowel(bare: &str) -> bool {
    VOWELS.contains(&bare)
}

/// A phone is one of the 50, a vowel with or without a stress digit; else it is told what to write.
pub fn check(phone: &str) -> Result<(), String> {
    let bare = bare(phone);
    if !PHONES.contains(&bare) {
        return Err(format!(
            "\"{phone}\" is no phone; write one of the 50, and 0, 1 or 2 behind a vowel: {}",
            PHONES.join(" ")
        ));
    }
    if bare != phone && !is_vowel(bare) {
        return Err(format!(
            "\"{phone}\" has a stress behind a consonant; write {bare}, and 0, 1 or 2 behind a vowel only"
        ));
    }
    Ok(())
}

/// Every vowel with each digit.
pub fn stressed_vowels() -> impl Iterator<Item = String> {
    VOWELS.iter().flat_map(|vowel| DIGITS.map(|digit| format!("{vowel}{digit}")))
}

/// A section of phones: a u32 count, then each text behind its length.
pub fn table(phones: &[String]) -> Vec<u8> {
    let mut section = (phones.len() as u32).to_le_bytes().to_vec();
    for phone in phones {
        section.push(phone.len() as u8);
        section.extend(phone.as_bytes());
    }
    section
}

#[cfg(test)]
mod tests {
    use super::*;

    #[test]
    fn a_vowel_has_one_digit_or_none_and_a_consonant_none() {
        for phone in ["ae", "ae0", "ae1", "ae2", "t", "pau", "el1"] {
            assert_eq!(check(phone), Ok(()));
        }
        for phone in ["ae3", "ae11", "ae12", "", "2"] {
            assert!(
                check(phone).is_err_and(|told| told.contains("is no phone; write one of the 50"))
            );
        }
        for phone in ["t0", "t1", "t2", "pau0"] {
            assert!(check(phone)
                .is_err_and(|told| told.contains("has a stress behind a consonant; write")));
        }
    }

    #[test]
    fn what_to_write_behind_a_vowel_is_told() {
        for phone in ["eyy", "t2"] {
            let told = check(phone).expect_err("it is no phone");
            assert!(told.contains(", and 0, 1 or 2 behind a vowel"), "{told}");
        }
    }

    #[test]
    fn all_phones_with_all_digits_fit_into_a_table() {
        let bare = PHONES.iter().map(|phone| phone.to_string());
        assert_eq!(stressed_vowels().chain(bare).count(), 110);
        const { assert!(110 <= MOST_PHONES) };
    }

    #[test]
    fn a_table_is_a_count_and_texts_behind_their_lengths() {
        let section = table(&["k".to_string(), "ae1".to_string()]);
        assert_eq!(section, b"\x02\0\0\0\x01k\x03ae1");
    }
}
